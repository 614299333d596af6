/* The archive through meskvorn.h: document 01's examples P1 to P12 call by call, every operation and refusal, NULL, and
 * memory of any content.
 * What is expected is worked out from document 01, and written as busrun prints it: refusal, event, byte, END, dropped,
 * broken. */
#include "check.h"

/* Party 0 talks, party 1 listens; the byte 41 with END stands. */
static void stand(size_t parties)
{
    build(parties);
    EXPECT(NONE, meskvorn_bus_talk_only(bus, 0, 1));
    EXPECT(NONE, meskvorn_bus_listen_only(bus, 1, 1));
    EXPECT(NONE, meskvorn_bus_write(bus, 0, 0x41, 1));
    EXPECT(MOVED, meskvorn_bus_step(bus, 0));
    EXPECT(MOVED, meskvorn_bus_step(bus, 1));
    EXPECT("0 data 41 1 0 0", meskvorn_bus_step(bus, 0));
}

static void p1_and_p2(void)
{
    stand(2);
    EXPECT("0 took 41 1 0 0", meskvorn_bus_step(bus, 1));
    EXPECT("0 lines 78 0 0 0", meskvorn_bus_lines(bus));
    EXPECT(NONE, meskvorn_bus_step(bus, 0));
    EXPECT(MOVED, meskvorn_bus_step(bus, 1));
    EXPECT("0 ended 41 1 0 0", meskvorn_bus_step(bus, 0));
    EXPECT("0 read 41 1 0 0", meskvorn_bus_read(bus, 1));
}

static void p3_joining_under_dav(void)
{
    stand(3);
    EXPECT(NONE, meskvorn_bus_listen_only(bus, 2, 1));
    EXPECT(NONE, meskvorn_bus_step(bus, 2));
    EXPECT("0 took 41 1 0 0", meskvorn_bus_step(bus, 1));
    EXPECT(MOVED, meskvorn_bus_step(bus, 1));
    EXPECT("0 ended 41 1 0 0", meskvorn_bus_step(bus, 0));
    EXPECT(REFUSED(9), meskvorn_bus_read(bus, 2));
    EXPECT("0 read 41 1 0 0", meskvorn_bus_read(bus, 1));
    EXPECT(NONE, meskvorn_bus_write(bus, 0, 0x42, 0));
    EXPECT(MOVED, meskvorn_bus_step(bus, 0));
    EXPECT(MOVED, meskvorn_bus_step(bus, 1));
    EXPECT(MOVED, meskvorn_bus_step(bus, 1));
    EXPECT(MOVED, meskvorn_bus_step(bus, 2));
    EXPECT(MOVED, meskvorn_bus_step(bus, 2));
    EXPECT("0 data 42 0 0 0", meskvorn_bus_step(bus, 0));
    EXPECT("0 took 42 0 0 0", meskvorn_bus_step(bus, 2));
}

static void p4_off_and_on_again(void)
{
    stand(2);
    EXPECT("0 took 41 1 0 0", meskvorn_bus_step(bus, 1));
    EXPECT(NONE, meskvorn_bus_listen_only(bus, 1, 0));
    EXPECT(NONE, meskvorn_bus_listen_only(bus, 1, 1));
    EXPECT(NONE, meskvorn_bus_step(bus, 1));
    EXPECT("0 ended 41 1 0 0", meskvorn_bus_step(bus, 0));
    EXPECT("0 read 41 1 0 0", meskvorn_bus_read(bus, 1));
    EXPECT(REFUSED(9), meskvorn_bus_read(bus, 1));
}

/* Party 1 talks, 2 and 3 listen; the byte 41 stands. Party 0 is in standby. */
static void stand_beside_a_controller(void)
{
    build(4);
    EXPECT(NONE, meskvorn_bus_interface_clear(bus, 0));
    EXPECT(NONE, meskvorn_bus_go_to_standby(bus, 0));
    EXPECT(NONE, meskvorn_bus_talk_only(bus, 1, 1));
    EXPECT(NONE, meskvorn_bus_listen_only(bus, 2, 1));
    EXPECT(NONE, meskvorn_bus_listen_only(bus, 3, 1));
    EXPECT(NONE, meskvorn_bus_write(bus, 1, 0x41, 0));
    EXPECT(MOVED, meskvorn_bus_step(bus, 1));
    EXPECT(MOVED, meskvorn_bus_step(bus, 2));
    EXPECT(NONE, meskvorn_bus_step(bus, 1));
    EXPECT(MOVED, meskvorn_bus_step(bus, 3));
    EXPECT("0 data 41 0 0 0", meskvorn_bus_step(bus, 1));
    EXPECT("0 took 41 0 0 0", meskvorn_bus_step(bus, 2));
}

static void p5_one_slow_listener(void)
{
    stand_beside_a_controller();
    EXPECT(MOVED, meskvorn_bus_step(bus, 2));
    EXPECT(NONE, meskvorn_bus_step(bus, 1));
    EXPECT("0 took 41 0 0 0", meskvorn_bus_step(bus, 3));
    EXPECT(NONE, meskvorn_bus_step(bus, 1));
    EXPECT(MOVED, meskvorn_bus_step(bus, 3));
    EXPECT("0 ended 41 0 0 0", meskvorn_bus_step(bus, 1));
}

static void p6_control_taken_after_one_took(void)
{
    stand_beside_a_controller();
    EXPECT("0 none -- 0 0 1", meskvorn_bus_take_control(bus, 0));
    EXPECT("0 lines b0 0 0 0", meskvorn_bus_lines(bus));
    EXPECT("0 read 41 0 0 0", meskvorn_bus_read(bus, 2));
    EXPECT(REFUSED(9), meskvorn_bus_read(bus, 3));
    EXPECT(NONE, meskvorn_bus_drop(bus, 1));
}

static void p7_no_listener(void)
{
    build(2);
    EXPECT(NONE, meskvorn_bus_talk_only(bus, 0, 1));
    EXPECT(NONE, meskvorn_bus_write(bus, 0, 0x41, 1));
    EXPECT(MOVED, meskvorn_bus_step(bus, 0));
    EXPECT("0 noacc 41 1 0 0", meskvorn_bus_step(bus, 0));
    EXPECT("0 noacc 41 1 0 0", meskvorn_bus_step(bus, 0));
    EXPECT(REFUSED(8), meskvorn_bus_write(bus, 0, 0x42, 0));
    EXPECT(NONE, meskvorn_bus_listen_only(bus, 1, 1));
    EXPECT(MOVED, meskvorn_bus_step(bus, 1));
    EXPECT("0 data 41 1 0 0", meskvorn_bus_step(bus, 0));
    EXPECT("0 took 41 1 0 0", meskvorn_bus_step(bus, 1));
    EXPECT(NONE, meskvorn_bus_write(bus, 0, 0x42, 0));
    EXPECT("0 none -- 0 1 0", meskvorn_bus_drop(bus, 0));
    EXPECT(NONE, meskvorn_bus_drop(bus, 0));
}

/* A refused build leaves the bus of no parties. */
static void p8_p9_and_builds(void)
{
    static const uint8_t far[2] = {30, 0}, too_far[2] = {0, 31}, equal[3] = {7, 2, 7};
    EXPECT(NONE, meskvorn_bus_build(bus, far, 2, 1));
    EXPECT(REFUSED(4), meskvorn_bus_interface_clear(bus, 0));
    EXPECT(NONE, meskvorn_bus_interface_clear(bus, 1));
    EXPECT(REFUSED(2), meskvorn_bus_build(bus, too_far, 2, 0));
    EXPECT(REFUSED(1), meskvorn_bus_step(bus, 0));
    EXPECT("0 lines 00 0 0 0", meskvorn_bus_lines(bus));
    EXPECT(NONE, meskvorn_bus_build(bus, addresses, 15, 14));
    EXPECT(NONE, meskvorn_bus_step(bus, 14));
    EXPECT(REFUSED(1), meskvorn_bus_step(bus, 15));
    EXPECT(REFUSED(2), meskvorn_bus_build(bus, addresses, 16, 0));
    EXPECT(REFUSED(1), meskvorn_bus_step(bus, 0));
    EXPECT(REFUSED(2), meskvorn_bus_build(bus, equal, 3, 0));
    EXPECT(REFUSED(2), meskvorn_bus_build(bus, addresses, 2, 2));
    EXPECT(REFUSED(2), meskvorn_bus_build(bus, addresses, 0, 0));
    EXPECT(REFUSED(2), meskvorn_bus_build(bus, NULL, 0, 0));
}

/* The active party 0 sends a command; party 1 takes it with the event given. The answer is that to its end. */
static meskvorn_answer command(uint8_t byte, const char *heard)
{
    EXPECT(NONE, meskvorn_bus_write(bus, 0, byte, 0));
    EXPECT(MOVED, meskvorn_bus_step(bus, 0));
    /* From ANRS or AWNS to ACRS. */
    meskvorn_bus_step(bus, 1);
    meskvorn_bus_step(bus, 1);
    EXPECT(with_byte("cmd", byte), meskvorn_bus_step(bus, 0));
    EXPECT(REFUSED(7), meskvorn_bus_go_to_standby(bus, 0));
    EXPECT(REFUSED(7), meskvorn_bus_reset(bus, 0));
    EXPECT(with_byte(heard, byte), meskvorn_bus_step(bus, 1));
    EXPECT(MOVED, meskvorn_bus_step(bus, 1));
    return meskvorn_bus_step(bus, 0);
}

static void p10_and_p11_commands(void)
{
    static const uint8_t from_4[2] = {4, 5};
    EXPECT(NONE, meskvorn_bus_build(bus, from_4, 2, 0));
    EXPECT(NONE, meskvorn_bus_interface_clear(bus, 0));
    EXPECT(REFUSED(5), meskvorn_bus_talk_only(bus, 0, 1));
    EXPECT("0 ended 25 0 0 0", command(0x25, "heard"));
    EXPECT("0 ended 04 0 0 0", command(0x04, "clear"));
    EXPECT("0 ended 08 0 0 0", command(0x08, "trigger"));
    EXPECT("0 ended c5 0 0 0", command(0xc5, "heard"));
    EXPECT(REFUSED(4), meskvorn_bus_listen_only(bus, 1, 1));
    EXPECT(NONE, meskvorn_bus_write(bus, 1, 0x77, 0));
    EXPECT("0 passed 09 0 1 0", command(0x09, "heard"));
    EXPECT(REFUSED(4), meskvorn_bus_go_to_standby(bus, 0));
    EXPECT(NONE, meskvorn_bus_go_to_standby(bus, 1));
    EXPECT(REFUSED(6), meskvorn_bus_talk_only(bus, 0, 1));
}

/* Party 0 polls party 1, whose register is given; lines are those before the poll. */
static void p12_poll(uint8_t value, uint8_t lines)
{
    build(2);
    EXPECT(NONE, meskvorn_bus_poll_register(bus, 1, value));
    EXPECT(with_byte("lines", lines), meskvorn_bus_lines(bus));
    EXPECT(NONE, meskvorn_bus_interface_clear(bus, 0));
    EXPECT(NONE, meskvorn_bus_listen_only(bus, 0, 1));
    EXPECT("0 ended 18 0 0 0", command(0x18, "heard"));
    EXPECT("0 ended 46 0 0 0", command(0x46, "heard"));
    EXPECT(NONE, meskvorn_bus_go_to_standby(bus, 0));
    EXPECT("0 lines 30 0 0 0", meskvorn_bus_lines(bus));
    EXPECT(MOVED, meskvorn_bus_step(bus, 1));
    EXPECT(MOVED, meskvorn_bus_step(bus, 0));
    EXPECT(with_byte("stat", value), meskvorn_bus_step(bus, 1));
    EXPECT(with_byte("took", value), meskvorn_bus_step(bus, 0));
    EXPECT(MOVED, meskvorn_bus_step(bus, 0));
    EXPECT(with_byte("ended", value), meskvorn_bus_step(bus, 1));
    EXPECT(with_byte("read", value), meskvorn_bus_read(bus, 0));
}

static void reset_and_full(void)
{
    stand(2);
    EXPECT("0 took 41 1 0 0", meskvorn_bus_step(bus, 1));
    EXPECT(NONE, meskvorn_bus_write(bus, 0, 0x42, 1));
    EXPECT(REFUSED(8), meskvorn_bus_write(bus, 0, 0x43, 0));
    EXPECT("0 none -- 0 1 1", meskvorn_bus_reset(bus, 0));
    EXPECT(NONE, meskvorn_bus_reset(bus, 1));
    EXPECT(REFUSED(9), meskvorn_bus_read(bus, 1));
    EXPECT("0 lines 00 0 0 0", meskvorn_bus_lines(bus));
}

/* "Order: 10, unknown operation, 2 (build alone), 1, values, then 4 to 9." */
static void parties_and_values(void)
{
    uint8_t operation;
    build(2);
    for (operation = MESKVORN_OPERATION_STEP; operation <= MESKVORN_OPERATION_SECOND_REQUEST; operation++) {
        if (operation != MESKVORN_OPERATION_LINES) {
            EXPECT(REFUSED(1), meskvorn_bus_call(bus, operation, 2, 2, 2));
            EXPECT(REFUSED(1), meskvorn_bus_call(bus, operation, 255, 1, 1));
        }
    }
    EXPECT("0 lines 00 0 0 0", meskvorn_bus_call(bus, MESKVORN_OPERATION_LINES, 255, 255, 255));
    EXPECT(REFUSED(3), meskvorn_bus_call(bus, 0, 0, 2, 5));
    for (operation = MESKVORN_OPERATION_SECOND_REQUEST + 1; operation != 0; operation++) {
        EXPECT(REFUSED(3), meskvorn_bus_call(bus, operation, 2, 0, 0));
    }
    EXPECT(REFUSED(3), meskvorn_bus_write(bus, 0, 0x41, 2));
    EXPECT(REFUSED(3), meskvorn_bus_listen_only(bus, 0, 2));
    EXPECT(REFUSED(3), meskvorn_bus_talk_only(bus, 0, 255));
    EXPECT(REFUSED(3), meskvorn_bus_second_request(bus, 0, 2));
    EXPECT(REFUSED(4), meskvorn_bus_take_control(bus, 0));
    EXPECT(REFUSED(4), meskvorn_bus_go_to_standby(bus, 0));
    EXPECT(REFUSED(4), meskvorn_bus_interface_clear(bus, 1));
    EXPECT(NONE, meskvorn_bus_listen_only(bus, 0, 1));
    EXPECT(REFUSED(4), meskvorn_bus_talk_only(bus, 0, 1));
}

static void null_pointers(void)
{
    build(2);
    EXPECT(REFUSED(10), meskvorn_bus_build(bus, NULL, 1, 0));
    EXPECT(REFUSED(10), meskvorn_bus_build(NULL, addresses, 2, 0));
    EXPECT(REFUSED(10), meskvorn_bus_call(NULL, 1, 0, 0, 0));
    EXPECT(REFUSED(10), meskvorn_bus_step(NULL, 0));
    EXPECT(REFUSED(10), meskvorn_bus_write(NULL, 0, 0x41, 0));
    EXPECT(REFUSED(10), meskvorn_bus_read(NULL, 0));
    EXPECT(REFUSED(10), meskvorn_bus_poll_register(NULL, 0, 0));
    EXPECT(REFUSED(10), meskvorn_bus_second_request(NULL, 0, 1));
    EXPECT(REFUSED(10), meskvorn_bus_listen_only(NULL, 0, 1));
    EXPECT(REFUSED(10), meskvorn_bus_talk_only(NULL, 0, 1));
    EXPECT(REFUSED(10), meskvorn_bus_take_control(NULL, 0));
    EXPECT(REFUSED(10), meskvorn_bus_go_to_standby(NULL, 0));
    EXPECT(REFUSED(10), meskvorn_bus_interface_clear(NULL, 0));
    EXPECT(REFUSED(10), meskvorn_bus_reset(NULL, 0));
    EXPECT(REFUSED(10), meskvorn_bus_drop(NULL, 0));
    EXPECT(REFUSED(10), meskvorn_bus_lines(NULL));
}

/* A call on whatever the memory holds: it keeps to it, answers in document 01's range, and changes no byte if it is
 * refused. 1 if it was. */
static int refused_on_any_content(uint8_t operation, uint8_t party, uint8_t value)
{
    const meskvorn_bus before = *bus;
    uint64_t packed = meskvorn_call(bus->rows, operation, party, value, value);
    meskvorn_answer answer = meskvorn_answer_of(packed);
    int refused = answer.refusal != MESKVORN_REFUSAL_ACCEPTED;
    CHECK(answer.refusal < MESKVORN_REFUSAL_RECORD && answer.event <= MESKVORN_EVENT_LINES && packed >> 48 == 0);
    CHECK(answer.end <= 1 && answer.broken <= 1);
    CHECK(filled(memory.before, GUARD) && filled(memory.after, GUARD));
    CHECK(!refused || memcmp(bus, &before, sizeof before) == 0);
    return refused;
}

/* All bytes alike; a build is then as any other. */
static void one_content_throughout(void)
{
    static meskvorn_bus no_parties;
    int content;
    for (content = 0; content < 256; content++) {
        uint8_t operation;
        for (operation = MESKVORN_OPERATION_STEP; operation <= MESKVORN_OPERATION_SECOND_REQUEST; operation++) {
            memset(bus, content, sizeof *bus);
            (void)refused_on_any_content(operation, (uint8_t)(content % 16), 1);
        }
        EXPECT(REFUSED(2), meskvorn_bus_build(bus, addresses, 16, 0));
        CHECK(memcmp(bus, &no_parties, sizeof *bus) == 0);
        memset(bus, content, sizeof *bus);
        p1_and_p2();
    }
}

/* Bytes that no build gives, over all their range and below eight, and a built bus with one of its bytes changed. */
static void contents_of_no_build(void)
{
    uint16_t state = 488;
    int round, refused = 0, calls = 0;
    for (round = 0; round < 3000; round++) {
        uint8_t operation = (uint8_t)(round % 16), party = (uint8_t)(round / 16 % 4 * 5);
        if (round % 3 == 2) {
            stand(3);
            ((uint8_t *)bus)[round % (int)sizeof *bus] = (uint8_t)(state >> 8);
        } else {
            mix(&state, round % 3 == 0 ? 255 : 7);
        }
        refused += refused_on_any_content(operation, party, 1);
        calls++;
    }
    CHECK(refused > 500 && calls - refused > 500);
}

int main(void)
{
    begin();
    p1_and_p2();
    p3_joining_under_dav();
    p4_off_and_on_again();
    p5_one_slow_listener();
    p6_control_taken_after_one_took();
    p7_no_listener();
    p8_p9_and_builds();
    p10_and_p11_commands();
    p12_poll(0x41, MESKVORN_LINE_SRQ);
    p12_poll(0x01, 0);
    reset_and_full();
    parties_and_values();
    null_pointers();
    one_content_throughout();
    contents_of_no_build();
    return report("host/test.c");
}
