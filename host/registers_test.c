/* The chip's registers through meskvorn.h: every offset and value beside the call that it stands for.
 * What is expected is worked out from documents 01 and 02, and from document 001's tables 2-1 to 2-3. */
#include "check.h"

typedef struct chip_access {
    uint8_t writes, party, offset, value;
} chip_access;

/* The call that an access stands for, by its number, or one of these. */
enum { NOTHING = 0, AUXILIARY = 253, FORCES_END = 254, NOT_CARRIED = 255 };

typedef struct meaning {
    uint8_t call, value;
} meaning;

/* The registers that are carried, with RS2, RS1 and RS0 after five zeros. */
static const struct {
    uint8_t writes;
    const char *bits;
    uint8_t call;
} registers[] = {
    {0, "00000011", MESKVORN_OPERATION_LINES},
    {0, "00000111", MESKVORN_OPERATION_READ},
    {1, "00000011", AUXILIARY},
    {1, "00000101", MESKVORN_OPERATION_POLL_REGISTER},
    {1, "00000111", MESKVORN_OPERATION_WRITE},
};

/* What cs is: the call's switch, what the command does nothing without, or ignored. */
typedef enum cs_bit { SWITCH, NEEDED, IGNORED } cs_bit;

/* The commands that are carried, with f4 to f0. */
static const struct {
    const char *bits;
    uint8_t call;
    cs_bit cs;
} commands[] = {
    {"00000", MESKVORN_OPERATION_RESET, NEEDED},
    {"00101", MESKVORN_OPERATION_DROP, IGNORED},
    {"01000", FORCES_END, IGNORED},
    {"01001", MESKVORN_OPERATION_LISTEN_ONLY, SWITCH},
    {"01010", MESKVORN_OPERATION_TALK_ONLY, SWITCH},
    {"01011", MESKVORN_OPERATION_GO_TO_STANDBY, IGNORED},
    {"01100", MESKVORN_OPERATION_TAKE_CONTROL, IGNORED},
    {"01111", MESKVORN_OPERATION_INTERFACE_CLEAR, NEEDED},
    {"11000", MESKVORN_OPERATION_SECOND_REQUEST, SWITCH},
};

enum { REGISTERS = sizeof registers / sizeof registers[0], COMMANDS = sizeof commands / sizeof commands[0] };

/* Whether the low bits of the value are these. */
static int has_bits(uint8_t value, const char *bits)
{
    size_t at, count = strlen(bits);
    int equal = 1;
    for (at = 0; at < count; at++) {
        equal = equal && (value >> (count - 1 - at) & 1) == bits[at] - '0';
    }
    return equal;
}

static meaning command_of(uint8_t value)
{
    meaning told = {NOT_CARRIED, 0};
    int at, cs = has_bits((uint8_t)(value >> 7), "1");
    for (at = 0; at < COMMANDS; at++) {
        if (has_bits(value, commands[at].bits)) {
            told.call = (uint8_t)(commands[at].cs == NEEDED && !cs ? NOTHING : (int)commands[at].call);
            told.value = commands[at].cs == SWITCH && cs;
        }
    }
    return told;
}

static meaning meaning_of(chip_access access)
{
    meaning told = {NOT_CARRIED, access.value};
    int at;
    for (at = 0; at < REGISTERS; at++) {
        if (registers[at].writes == access.writes && has_bits(access.offset, registers[at].bits)) {
            told.call = registers[at].call;
        }
    }
    return told.call == AUXILIARY ? command_of(access.value) : told;
}

static meskvorn_answer perform(meskvorn_bus *on, chip_access access)
{
    return access.writes ? meskvorn_bus_write_register(on, access.party, access.offset, access.value)
                         : meskvorn_bus_read_register(on, access.party, access.offset);
}

/* A bus, and the same with the END mark of the party that accesses it. */
static meskvorn_bus plain, marked;

/* What the access is to answer on the bus that comes in after, and the bus that it is to leave there. */
static meskvorn_answer stand_in(chip_access access, int is_marked, meskvorn_bus *after)
{
    meaning told = meaning_of(access);
    uint8_t end = told.call == MESKVORN_OPERATION_WRITE && is_marked;
    meskvorn_answer answer = meskvorn_answer_of(MESKVORN_REFUSAL_ACCEPTED);
    int unmarks = told.call == MESKVORN_OPERATION_WRITE || told.call == MESKVORN_OPERATION_RESET;
    meskvorn_bus called = unmarks ? plain : *after;
    if (!meskvorn_bus_name(after, access.party).present) {
        return meskvorn_answer_of(MESKVORN_REFUSAL_NOPARTY);
    }
    if (told.call == NOT_CARRIED) {
        return meskvorn_answer_of(11);
    }
    if (told.call == FORCES_END) {
        called = marked;
    } else if (told.call != NOTHING) {
        answer = meskvorn_bus_call(&called, told.call, access.party, told.value, end);
    }
    if (answer.refusal == MESKVORN_REFUSAL_ACCEPTED) {
        *after = called;
    }
    return answer;
}

static unsigned refusals_seen;

/* The access, through the proved function and through the inline one. */
static void expect_access(chip_access access, int is_marked)
{
    meskvorn_bus wanted_bus = is_marked ? marked : plain, beside = wanted_bus;
    meskvorn_answer wanted = stand_in(access, is_marked, &wanted_bus), answer;
    uint64_t packed = access.writes
                          ? meskvorn_write_register(beside.rows, access.party, access.offset, access.value)
                          : meskvorn_read_register(beside.rows, access.party, access.offset);
    char wanted_text[64], text[64], what[256];
    *bus = last = is_marked ? marked : plain;
    answer = perform(bus, access);
    refusals_seen |= 1u << answer.refusal;
    print_answer(wanted_text, wanted);
    print_answer(text, answer);
    snprintf(what, sizeof what, "party %d %s %d %02x%s: %s, not %s, or another bus", access.party,
             access.writes ? "out" : "in", access.offset, access.value, is_marked ? " marked" : "", text, wanted_text);
    CHECK(filled(memory.before, GUARD) && filled(memory.after, GUARD));
    check_at(__LINE__, strcmp(text, wanted_text) == 0 && same_bus(bus, &wanted_bus), what);
    print_answer(text, meskvorn_answer_of(packed));
    check_at(__LINE__, strcmp(text, wanted_text) == 0 && same_bus(&beside, &wanted_bus) && packed >> 48 == 0, what);
}

/* All eight offsets and one more with all values, of a party on the bus that is there, without an END mark and with. */
static void every_access_of(uint8_t party)
{
    const meskvorn_bus kept = *bus;
    int offset, value, is_marked;
    plain = marked = kept;
    meskvorn_bus_write_register(&marked, party, MESKVORN_WRITE_AUXILIARY, MESKVORN_AUX_FEOI);
    CHECK(same_bus(&plain, &marked) == !meskvorn_bus_name(&kept, party).present);
    for (is_marked = 0; is_marked < 2; is_marked++) {
        for (offset = 0; offset < 9; offset++) {
            for (value = 0; value < 256; value++) {
                chip_access access = {1, party, (uint8_t)offset, (uint8_t)value};
                expect_access(access, is_marked);
            }
        }
        for (offset = 0; offset < 256; offset++) {
            chip_access access = {0, party, (uint8_t)offset, 0};
            expect_access(access, is_marked);
        }
    }
    *bus = last = kept;
}

/* Offsets over 7 are none, though their low bits are those of a register. */
static void every_far_offset_of(uint8_t party)
{
    const meskvorn_bus kept = *bus;
    int offset, value, held = 1;
    for (offset = 8; offset < 256; offset++) {
        for (value = 0; value < 256; value++) {
            meskvorn_answer answer = meskvorn_bus_write_register(bus, party, (uint8_t)offset, (uint8_t)value);
            held = held && answer.refusal == MESKVORN_REFUSAL_NOREG && same_bus(bus, &kept);
        }
    }
    CHECK(held);
}

static void no_parties(void)
{
    EXPECT(REFUSED(2), meskvorn_bus_build(bus, addresses, 0, 0));
}

static void idle(void)
{
    build(3);
}

/* Another than party 0 is the system party, and active. */
static void active(void)
{
    EXPECT(NONE, meskvorn_bus_build(bus, addresses, 3, 2));
    EXPECT(NONE, meskvorn_bus_interface_clear(bus, 2));
}

static void standby(void)
{
    active();
    EXPECT(NONE, meskvorn_bus_go_to_standby(bus, 2));
}

static void talker_holds(void)
{
    build(3);
    EXPECT(NONE, meskvorn_bus_talk_only(bus, 0, 1));
    EXPECT(NONE, meskvorn_bus_listen_only(bus, 1, 1));
    EXPECT(NONE, meskvorn_bus_write(bus, 0, 0x41, 1));
}

/* Party 1 has taken it. */
static void data_stands(void)
{
    talker_holds();
    give_turns(5);
    EXPECT("0 lines 78 0 0 0", meskvorn_bus_lines(bus));
}

/* By party 2; the others are ready. */
static void command_stands(void)
{
    active();
    EXPECT(NONE, meskvorn_bus_write(bus, 2, 0x45, 0));
    give_turns(6);
    EXPECT("0 lines e0 0 0 0", meskvorn_bus_lines(bus));
}

/* Party 1 asked for service and sends its status byte; party 0 in standby listens. */
static void status_stands(void)
{
    build(3);
    EXPECT(NONE, meskvorn_bus_poll_register(bus, 1, 0x21));
    EXPECT(NONE, meskvorn_bus_second_request(bus, 1, 1));
    EXPECT(NONE, meskvorn_bus_interface_clear(bus, 0));
    EXPECT(NONE, meskvorn_bus_listen_only(bus, 0, 1));
    EXPECT(NONE, meskvorn_bus_write(bus, 0, 0x18, 0));
    give_turns(21);
    EXPECT(NONE, meskvorn_bus_write(bus, 0, 0x46, 0));
    give_turns(21);
    EXPECT(NONE, meskvorn_bus_go_to_standby(bus, 0));
    EXPECT(MOVED, meskvorn_bus_step(bus, 0));
    EXPECT(MOVED, meskvorn_bus_step(bus, 1));
    EXPECT("0 stat 61 0 0 0", meskvorn_bus_step(bus, 1));
}

static void every_access(void)
{
    static void (*const states[])(void) = {no_parties,   idle,        active,         standby,
                                           talker_holds, data_stands, command_stands, status_stands};
    static const uint8_t parties[] = {0, 1, 2, 3, 15, 255};
    size_t state, party;
    for (state = 0; state < sizeof states / sizeof states[0]; state++) {
        states[state]();
        for (party = 0; party < sizeof parties; party++) {
            every_access_of(parties[party]);
        }
    }
    /* NOPARTY, ROLE to EMPTY and NOREG; an access has no value that would be refused. */
    CHECK(refusals_seen == (1u | 1u << 1 | 1u << 4 | 1u << 5 | 1u << 6 | 1u << 7 | 1u << 8 | 1u << 9 | 1u << 11));
    data_stands();
    every_far_offset_of(0);
    every_far_offset_of(1);
}

/* Memory that no build gives is left by a refused access too, and NOPARTY and NOREG come first. */
static void any_memory(void)
{
    uint16_t state = 1;
    int round, value;
    for (round = 0; round < 64; round++) {
        mix(&state, round % 2 == 0 ? 255 : 3);
        for (value = 0; value < 256; value++) {
            chip_access access = {1, (uint8_t)(round % 16), 3, (uint8_t)value};
            meskvorn_bus before = *bus;
            meskvorn_answer answer = perform(bus, access);
            int present = meskvorn_bus_name(&before, access.party).present;
            CHECK((answer.refusal == MESKVORN_REFUSAL_NOPARTY) == !present);
            CHECK((answer.refusal == MESKVORN_REFUSAL_NOREG) == (present && meaning_of(access).call == NOT_CARRIED));
            CHECK(answer.refusal == MESKVORN_REFUSAL_ACCEPTED || same_bus(bus, &before));
            *bus = before;
        }
    }
}

static void null_is_refused(void)
{
    int offset;
    build(3);
    for (offset = 0; offset < 256; offset++) {
        EXPECT(REFUSED(10), meskvorn_bus_read_register(NULL, 0, (uint8_t)offset));
        EXPECT(REFUSED(10), meskvorn_bus_write_register(NULL, 0, (uint8_t)offset, 0));
    }
}

int main(void)
{
    begin();
    every_access();
    any_memory();
    null_is_refused();
    return report("host/registers_test.c");
}
