/* The parallel poll through meskvorn.h: the own status, what the host's calls keep and remove, refusals, and that a
 * poll changes nothing.
 * What is expected is worked out from document 01 and from document 02's Q-8. */
#include "poll_check.h"

/* A reset removes the response and the mark, of its own party alone, and keeps the status. */
static void reset(void)
{
    take_the_bus();
    own(1, 1);
    commands("22 05 68");
    EXPECT(NONE, meskvorn_bus_reset(bus, 2));
    EXPECT_POLL(0x01);
    EXPECT(NONE, meskvorn_bus_reset(bus, 1));
    EXPECT_POLL(0x00);
    commands("68");
    EXPECT_POLL(0x00);
    commands("22 05 68");
    EXPECT_POLL(0x01);
    EXPECT(NONE, meskvorn_bus_write_register(bus, 1, MESKVORN_WRITE_AUXILIARY, MESKVORN_AUX_SWRST | MESKVORN_AUX_SET));
    EXPECT_POLL(0x00);
    commands("22 05 60");
    EXPECT_POLL(0x00);
    own(1, 0);
    EXPECT(NONE, meskvorn_bus_reset(bus, 1));
    EXPECT_POLL(0x00);
    commands("22 05 60");
    EXPECT_POLL(0x01);
}

/* A reset of the active party: it is configured itself, and party 0 takes the bus again. */
static void reset_of_the_controller(void)
{
    take_the_bus();
    own(0, 1);
    own(1, 1);
    commands("21 22 05 6b");
    EXPECT_POLL(0x08);
    own(1, 0);
    EXPECT_POLL(0x08);
    EXPECT(NONE, meskvorn_bus_reset(bus, 0));
    EXPECT(REFUSED(4), poll_by(0));
    EXPECT(NONE, meskvorn_bus_interface_clear(bus, 0));
    EXPECT_POLL(0x00);
    own(1, 1);
    EXPECT_POLL(0x08);
    commands("21 05 69");
    EXPECT_POLL(0x0a);
}

/* Attention and interface clear leave response and mark. */
static void attention(void)
{
    take_the_bus();
    own(1, 1);
    commands("22 05");
    EXPECT(NONE, meskvorn_bus_interface_clear(bus, 0));
    EXPECT_ROLES(".....");
    commands("68");
    EXPECT_POLL(0x01);
    EXPECT(NONE, meskvorn_bus_go_to_standby(bus, 0));
    EXPECT(NONE, meskvorn_bus_take_control(bus, 0));
    EXPECT_POLL(0x01);
    commands("69");
    EXPECT_POLL(0x02);
    EXPECT(NONE, meskvorn_bus_interface_clear(bus, 0));
    EXPECT_POLL(0x02);
    commands("70");
    EXPECT_POLL(0x00);
}

/* Party 2 gets control, polls, and configures party 1 anew and then itself. */
static void passed_control(void)
{
    static const uint8_t from_party_2[7] = {0x22, 0x05, 0x6c, 0x3f, 0x23, 0x05, 0x66};
    static const uint8_t wanted[7] = {0x02, 0x02, 0x10, 0x10, 0x10, 0x10, 0x50};
    int at;
    take_the_bus();
    own(1, 1);
    commands("22 05 69 43 09");
    EXPECT(REFUSED(4), poll_by(0));
    EXPECT_POLL_BY(2, 0x02);
    for (at = 0; at < 7; at++) {
        EXPECT(NONE, meskvorn_bus_write(bus, 2, from_party_2[at], 0));
        give_turns(7 * PARTIES);
        EXPECT(NONE, meskvorn_bus_drop(bus, 2));
        EXPECT_POLL_BY(2, wanted[at]);
    }
    own(2, 1);
    EXPECT_POLL_BY(2, 0x10);
}

/* What else hosts do leaves the response and the status: switches, requests, bytes and accesses. */
static void kept_by_the_rest(void)
{
    static const uint8_t switches[3] = {MESKVORN_AUX_TON, MESKVORN_AUX_LON, MESKVORN_AUX_RSV2};
    int at;
    take_the_bus();
    own(1, 1);
    commands("22 05 68 3f 43");
    EXPECT(NONE, meskvorn_bus_listen_only(bus, 1, 1));
    EXPECT(NONE, meskvorn_bus_poll_register(bus, 1, 0xff));
    EXPECT(NONE, meskvorn_bus_second_request(bus, 1, 1));
    EXPECT_POLL(0x01);
    EXPECT(NONE, meskvorn_bus_go_to_standby(bus, 0));
    EXPECT(NONE, meskvorn_bus_write(bus, 2, 0x41, 1));
    give_turns(7 * PARTIES);
    EXPECT("0 read 41 1 0 0", meskvorn_bus_read(bus, 1));
    EXPECT(NONE, meskvorn_bus_write(bus, 1, 0x70, 0));
    EXPECT("0 none -- 0 1 0", meskvorn_bus_drop(bus, 1));
    EXPECT(NONE, meskvorn_bus_talk_only(bus, 2, 0));
    EXPECT(NONE, meskvorn_bus_listen_only(bus, 1, 0));
    for (at = 0; at < 3; at++) {
        uint8_t set = switches[at] | MESKVORN_AUX_SET;
        EXPECT(NONE, meskvorn_bus_write_register(bus, 1, MESKVORN_WRITE_AUXILIARY, set));
        EXPECT(NONE, meskvorn_bus_write_register(bus, 1, MESKVORN_WRITE_AUXILIARY, switches[at]));
    }
    EXPECT(NONE, meskvorn_bus_write_register(bus, 1, MESKVORN_WRITE_AUXILIARY, MESKVORN_AUX_FEOI));
    EXPECT(NONE, meskvorn_bus_take_control(bus, 0));
    EXPECT_POLL(0x01);
    own(1, 0);
    EXPECT_POLL(0x00);
}

/* Lines b0 are ATN, NDAC and NRFD, and b4 SRQ too. */
static void no_request_for_service(void)
{
    take_the_bus();
    commands("22 05 68");
    own(1, 1);
    EXPECT("0 lines b0 0 0 0", meskvorn_bus_lines(bus));
    own(1, 0);
    EXPECT(NONE, meskvorn_bus_poll_register(bus, 1, 0x40));
    EXPECT("0 lines b4 0 0 0", meskvorn_bus_lines(bus));
    EXPECT_POLL(0x00);
}

/* Each of fifteen has its own status and response, the controller too. So many parties are on a line, one after the
 * other; line 1 follows on line 8. */
static void fifteen_parties(int on_a_line)
{
    uint8_t party, bits[15], all = 0;
    build(15);
    EXPECT(NONE, meskvorn_bus_interface_clear(bus, 0));
    for (party = 0; party < 15; party++) {
        int place = party / on_a_line % 8;
        bits[party] = (uint8_t)(1 << place);
        send_command(15, 0x3f);
        send_command(15, (uint8_t)(0x20 + addresses[party]));
        send_command(15, 0x05);
        send_command(15, (uint8_t)(0x68 + place));
    }
    EXPECT_POLL(0x00);
    for (party = 0; party < 15; party++) {
        own(party, 1);
        EXPECT_POLL(bits[party]);
        own(party, 0);
        EXPECT_POLL(0x00);
    }
    for (party = 0; party < 15; party++) {
        own(party, 1);
        all |= bits[party];
        EXPECT_POLL(all);
    }
}

/* A build leaves neither status nor response. */
static void build_again(void)
{
    fifteen_parties(2);
    build(15);
    EXPECT(NONE, meskvorn_bus_interface_clear(bus, 0));
    EXPECT_POLL(0x00);
    send_commands(15, "26 05 60");
    EXPECT_POLL(0x01);
}

/* 1, then 4, then 7. */
static void refused_polls(void)
{
    int party;
    build_the_rack();
    for (party = 0; party < 256; party++) {
        EXPECT(party < PARTIES ? REFUSED(4) : REFUSED(1), poll_by((uint8_t)party));
    }
    EXPECT(NONE, meskvorn_bus_interface_clear(bus, 0));
    EXPECT(NONE, meskvorn_bus_write(bus, 0, 0x3f, 0));
    give_turns(PARTIES);
    EXPECT_POLL(0x00);
    EXPECT("0 cmd 3f 0 0 0", meskvorn_bus_step(bus, 0));
    for (party = 0; party < 256; party++) {
        EXPECT(party == 0 ? REFUSED(7) : party < PARTIES ? REFUSED(4) : REFUSED(1), poll_by((uint8_t)party));
    }
    give_turns(3 * PARTIES);
    EXPECT_POLL(0x00);
    EXPECT(NONE, meskvorn_bus_go_to_standby(bus, 0));
    EXPECT(REFUSED(4), poll_by(0));
    /* Data stand, and nobody is active. */
    EXPECT(NONE, meskvorn_bus_talk_only(bus, 1, 1));
    EXPECT(NONE, meskvorn_bus_listen_only(bus, 2, 1));
    EXPECT(NONE, meskvorn_bus_write(bus, 1, 0x41, 1));
    EXPECT(MOVED, meskvorn_bus_step(bus, 1));
    EXPECT(MOVED, meskvorn_bus_step(bus, 2));
    EXPECT("0 data 41 1 0 0", meskvorn_bus_step(bus, 1));
    for (party = 0; party < 256; party++) {
        EXPECT(party < PARTIES ? REFUSED(4) : REFUSED(1), poll_by((uint8_t)party));
    }
    EXPECT("0 none -- 0 0 1", meskvorn_bus_take_control(bus, 0));
    EXPECT_POLL(0x00);
}

/* 1, then 3. */
static void refused_statuses(void)
{
    int value, party;
    take_the_bus();
    commands("22 05 68");
    own(1, 1);
    for (value = 0; value < 256; value++) {
        EXPECT(value < 2 ? NONE : REFUSED(3), meskvorn_bus_own_status(bus, 0, (uint8_t)value));
        EXPECT(value < 2 ? NONE : REFUSED(3), meskvorn_bus_own_status(bus, 4, (uint8_t)value));
        EXPECT(REFUSED(1), meskvorn_bus_own_status(bus, 5, (uint8_t)value));
        EXPECT(REFUSED(10), meskvorn_bus_own_status(NULL, 0, (uint8_t)value));
        EXPECT(REFUSED(10), meskvorn_bus_parallel_poll(NULL, (uint8_t)value));
    }
    for (party = PARTIES; party < 256; party++) {
        EXPECT(REFUSED(1), meskvorn_bus_own_status(bus, (uint8_t)party, 0));
        EXPECT(REFUSED(1), meskvorn_bus_own_status(bus, (uint8_t)party, 2));
    }
    EXPECT_POLL(0x01);
    EXPECT(REFUSED(2), meskvorn_bus_build(bus, addresses, 0, 0));
    EXPECT(REFUSED(1), meskvorn_bus_own_status(bus, 0, 0));
    EXPECT(REFUSED(1), poll_by(0));
}

/* A status again is no change, and back again leaves the bus as it was. */
static void status_alone(void)
{
    meskvorn_bus other;
    take_the_bus();
    commands("22 05 68");
    other = *bus;
    own(1, 0);
    CHECK(same_bus(bus, &other));
    own(1, 1);
    CHECK(!same_bus(bus, &other));
    EXPECT_POLL(0x01);
    CHECK(meskvorn_bus_parallel_poll(&other, 0).byte == 0x00);
    CHECK(meskvorn_bus_own_status(&other, 1, 1).refusal == MESKVORN_REFUSAL_ACCEPTED);
    CHECK(same_bus(bus, &other));
}

/* A call with arguments of the generator, half of them steps; what is written are commands that matter here. */
static uint64_t any_call(meskvorn_bus *on, uint16_t *state)
{
    static const uint8_t bytes[12] = {0x22, 0x05, 0x68, 0x61, 0x3f, 0x15, 0x70, 0x24, 0x65, 0x44, 0x43, 0x09};
    uint8_t operation = drawn(state) % 26, party = drawn(state) % PARTIES, value = drawn(state);
    if (operation == 0 || operation > MESKVORN_OPERATION_SECOND_REQUEST) {
        operation = MESKVORN_OPERATION_STEP;
    }
    value = operation == MESKVORN_OPERATION_WRITE ? bytes[value % 12] : value % 2;
    return meskvorn_call(on->rows, operation, party, value, 0);
}

/* The statuses are these bits, and each party polls. The number of polls with a line on. */
static int polls_with(uint8_t statuses)
{
    int on = 0;
    uint8_t party;
    for (party = 0; party < PARTIES; party++) {
        own(party, statuses >> party & 1);
    }
    for (party = 0; party < PARTIES; party++) {
        on += poll_by(party).byte != 0;
        CHECK(same_bus(bus, &last));
    }
    return on;
}

/* Of two buses one has other statuses and is polled before each call. They answer alike, and differ in nothing else. */
static void any_calls(void)
{
    uint16_t state = 488, again;
    int start, round, on = 0;
    for (start = 0; start < 100; start++) {
        meskvorn_bus other;
        take_the_bus();
        commands("22 05 68 3f 23 05 61 24 65");
        other = *bus;
        for (round = 0; round < 40; round++) {
            on += polls_with((uint8_t)(start + round));
            again = state;
            CHECK(any_call(bus, &state) == any_call(&other, &again));
            last = *bus;
            on += polls_with(0);
            CHECK(same_bus(bus, &other));
        }
    }
    CHECK(on > 500);
}

static void expect_any_bus_at(int line, int polls, uint8_t party, uint8_t value)
{
    const meskvorn_bus before = *bus;
    uint64_t packed = polls ? meskvorn_parallel_poll(bus->rows, party) : meskvorn_own_status(bus->rows, party, value);
    meskvorn_answer answer = meskvorn_answer_of(packed);
    int refused = answer.refusal != MESKVORN_REFUSAL_ACCEPTED;
    int known = answer.refusal == MESKVORN_REFUSAL_NOPARTY ||
                (polls ? answer.refusal == MESKVORN_REFUSAL_ROLE || answer.refusal == MESKVORN_REFUSAL_STANDING
                       : answer.refusal == MESKVORN_REFUSAL_BADVALUE && value > 1);
    meskvorn_event event = polls && !refused ? MESKVORN_EVENT_LINES : MESKVORN_EVENT_NONE;
    check_at(line, refused == known && answer.event == event && answer.end == 0 && packed >> 48 == 0, "the answer");
    check_at(line, filled(memory.before, GUARD) && filled(memory.after, GUARD), "the bus keeps to its memory");
    check_at(line, !refused || same_bus(bus, &before), "a refused call changes nothing");
}

/* All bytes alike, then mixed bytes, over all their range and below eight. */
static void any_content(void)
{
    uint16_t state = 488;
    int round;
    for (round = 0; round < 4096; round++) {
        if (round < 1024) {
            memset(bus, round % 256, sizeof *bus);
        } else {
            mix(&state, round % 4 < 2 ? 255 : 7);
        }
        expect_any_bus_at(__LINE__, round / 256 % 2, (uint8_t)(round % 16), (uint8_t)(round / 512 % 3));
    }
}

int main(void)
{
    begin();
    reset();
    reset_of_the_controller();
    attention();
    passed_control();
    kept_by_the_rest();
    no_request_for_service();
    fifteen_parties(1);
    build_again();
    refused_polls();
    refused_statuses();
    status_alone();
    any_calls();
    any_content();
    return report("host/own_status_test.c");
}
