/* Every name of meskvorn.h: its number, and what the library answers where the name stands for an answer.
 * Refusals, events, operations and lines have the numbers of documents 01 and 02, registers and their commands those of
 * document 001, and what is expected of a call is worked out from these. */
#include "check.h"

typedef struct entry {
    const char *name;
    long number, wanted;
} entry;

#define NAME(name, wanted) {#name, (long)(name), (wanted)}

static const entry refusals[] = {
    NAME(MESKVORN_REFUSAL_ACCEPTED, 0),
    NAME(MESKVORN_REFUSAL_NOPARTY, 1),
    NAME(MESKVORN_REFUSAL_BADBUILD, 2),
    NAME(MESKVORN_REFUSAL_BADVALUE, 3),
    NAME(MESKVORN_REFUSAL_ROLE, 4),
    NAME(MESKVORN_REFUSAL_ATTENTION, 5),
    NAME(MESKVORN_REFUSAL_TALKER, 6),
    NAME(MESKVORN_REFUSAL_STANDING, 7),
    NAME(MESKVORN_REFUSAL_FULL, 8),
    NAME(MESKVORN_REFUSAL_EMPTY, 9),
    NAME(MESKVORN_REFUSAL_RECORD, 10),
    NAME(MESKVORN_REFUSAL_NOREG, 11),
};

static const entry events[] = {
    NAME(MESKVORN_EVENT_NONE, 0),
    NAME(MESKVORN_EVENT_MOVED, 1),
    NAME(MESKVORN_EVENT_CMD, 2),
    NAME(MESKVORN_EVENT_DATA, 3),
    NAME(MESKVORN_EVENT_STAT, 4),
    NAME(MESKVORN_EVENT_TOOK, 5),
    NAME(MESKVORN_EVENT_HEARD, 6),
    NAME(MESKVORN_EVENT_CLEAR, 7),
    NAME(MESKVORN_EVENT_TRIGGER, 8),
    NAME(MESKVORN_EVENT_ENDED, 9),
    NAME(MESKVORN_EVENT_PASSED, 10),
    NAME(MESKVORN_EVENT_NOACC, 11),
    NAME(MESKVORN_EVENT_READ, 12),
    NAME(MESKVORN_EVENT_LINES, 13),
};

static const entry operations[] = {
    NAME(MESKVORN_OPERATION_STEP, 1),
    NAME(MESKVORN_OPERATION_WRITE, 2),
    NAME(MESKVORN_OPERATION_READ, 3),
    NAME(MESKVORN_OPERATION_POLL_REGISTER, 4),
    NAME(MESKVORN_OPERATION_LISTEN_ONLY, 5),
    NAME(MESKVORN_OPERATION_TALK_ONLY, 6),
    NAME(MESKVORN_OPERATION_TAKE_CONTROL, 7),
    NAME(MESKVORN_OPERATION_GO_TO_STANDBY, 8),
    NAME(MESKVORN_OPERATION_INTERFACE_CLEAR, 9),
    NAME(MESKVORN_OPERATION_RESET, 10),
    NAME(MESKVORN_OPERATION_DROP, 11),
    NAME(MESKVORN_OPERATION_LINES, 12),
    NAME(MESKVORN_OPERATION_SECOND_REQUEST, 13),
};

static const entry registers[] = {
    NAME(MESKVORN_READ_BUS_STATUS, 3),
    NAME(MESKVORN_READ_DATA_IN, 7),
    NAME(MESKVORN_WRITE_AUXILIARY, 3),
    NAME(MESKVORN_WRITE_SERIAL_POLL, 5),
    NAME(MESKVORN_WRITE_DATA_OUT, 7),
    NAME(MESKVORN_AUX_SWRST, 0),
    NAME(MESKVORN_AUX_NBAF, 5),
    NAME(MESKVORN_AUX_FEOI, 8),
    NAME(MESKVORN_AUX_LON, 9),
    NAME(MESKVORN_AUX_TON, 10),
    NAME(MESKVORN_AUX_GTS, 11),
    NAME(MESKVORN_AUX_TCA, 12),
    NAME(MESKVORN_AUX_SIC, 15),
    NAME(MESKVORN_AUX_RSV2, 24),
    NAME(MESKVORN_AUX_SET, 128),
};

static const entry others[] = {
    NAME(MESKVORN_LINE_ATN, 128),
    NAME(MESKVORN_LINE_DAV, 64),
    NAME(MESKVORN_LINE_NDAC, 32),
    NAME(MESKVORN_LINE_NRFD, 16),
    NAME(MESKVORN_LINE_EOI, 8),
    NAME(MESKVORN_LINE_SRQ, 4),
    NAME(MESKVORN_DRIVERS_OF_ATN, 0),
    NAME(MESKVORN_DRIVERS_OF_DAV, 1),
    NAME(MESKVORN_DRIVERS_OF_NRFD, 2),
    NAME(MESKVORN_DRIVERS_OF_NDAC, 3),
    NAME(MESKVORN_DRIVERS_OF_EOI, 4),
    NAME(MESKVORN_DRIVERS_OF_SRQ, 5),
    NAME(MESKVORN_ROW, 24),
    NAME(MESKVORN_LINES, 6),
    NAME(MESKVORN_MOST_PARTIES, 15),
    NAME(MESKVORN_NO_SECONDARY, 255),
    NAME(MESKVORN_NO_NAME, 65535),
    NAME(sizeof(meskvorn_bus), 384),
};

static void expect_numbers(const entry *entries, size_t count)
{
    size_t k;
    for (k = 0; k < count; k++) {
        check_at(__LINE__, entries[k].number == entries[k].wanted, entries[k].name);
    }
}

#define EXPECT_NUMBERS(entries) expect_numbers((entries), sizeof(entries) / sizeof(entries)[0])

static void numbers_and_words(void)
{
    static const char *const words[] = {"none",  "moved",   "cmd",   "data",   "stat",  "took", "heard",
                                        "clear", "trigger", "ended", "passed", "noacc", "read", "lines"};
    size_t k;
    EXPECT_NUMBERS(refusals);
    EXPECT_NUMBERS(events);
    EXPECT_NUMBERS(operations);
    EXPECT_NUMBERS(registers);
    EXPECT_NUMBERS(others);
    CHECK(MESKVORN_NO_ROOM == SIZE_MAX);
    for (k = 0; k < sizeof words / sizeof words[0]; k++) {
        check_at(__LINE__, strcmp(meskvorn_event_word((meskvorn_event)events[k].number), words[k]) == 0, words[k]);
    }
    CHECK(strcmp(meskvorn_event_word((meskvorn_event)14), "") == 0);
}

#define EXPECT_REFUSAL(name, call) check_at(__LINE__, (call).refusal == (name), #name)
#define EXPECT_EVENT(name, call) check_at(__LINE__, (call).event == (name), #name)

/* The active party 0 sends a command, which party 1 takes with the event that is given back; it stands still. */
static meskvorn_event heard(uint8_t byte)
{
    EXPECT_REFUSAL(MESKVORN_REFUSAL_ACCEPTED, meskvorn_bus_write(bus, 0, byte, 0));
    EXPECT_EVENT(MESKVORN_EVENT_MOVED, meskvorn_bus_step(bus, 0));
    /* From ANRS or AWNS to ACRS. */
    meskvorn_bus_step(bus, 1);
    meskvorn_bus_step(bus, 1);
    EXPECT_EVENT(MESKVORN_EVENT_CMD, meskvorn_bus_step(bus, 0));
    return meskvorn_bus_step(bus, 1).event;
}

/* How the command ends. */
static meskvorn_event end(void)
{
    EXPECT_EVENT(MESKVORN_EVENT_MOVED, meskvorn_bus_step(bus, 1));
    return meskvorn_bus_step(bus, 0).event;
}

static void command(uint8_t byte)
{
    CHECK(heard(byte) == MESKVORN_EVENT_HEARD);
    CHECK(end() == MESKVORN_EVENT_ENDED);
}

static void refusals_of_calls(void)
{
    build(2);
    EXPECT_REFUSAL(MESKVORN_REFUSAL_NOPARTY, meskvorn_bus_step(bus, 2));
    EXPECT_REFUSAL(MESKVORN_REFUSAL_BADVALUE, meskvorn_bus_write(bus, 0, 0x41, 2));
    EXPECT_REFUSAL(MESKVORN_REFUSAL_EMPTY, meskvorn_bus_read(bus, 0));
    EXPECT_REFUSAL(MESKVORN_REFUSAL_ROLE, meskvorn_bus_interface_clear(bus, 1));
    EXPECT_REFUSAL(MESKVORN_REFUSAL_ACCEPTED, meskvorn_bus_talk_only(bus, 0, 1));
    EXPECT_REFUSAL(MESKVORN_REFUSAL_TALKER, meskvorn_bus_talk_only(bus, 1, 1));
    EXPECT_REFUSAL(MESKVORN_REFUSAL_ACCEPTED, meskvorn_bus_interface_clear(bus, 0));
    EXPECT_REFUSAL(MESKVORN_REFUSAL_ATTENTION, meskvorn_bus_talk_only(bus, 1, 1));
    CHECK(heard(0x3f) == MESKVORN_EVENT_HEARD);
    EXPECT_REFUSAL(MESKVORN_REFUSAL_STANDING, meskvorn_bus_reset(bus, 0));
    EXPECT_REFUSAL(MESKVORN_REFUSAL_ACCEPTED, meskvorn_bus_write(bus, 0, 0x3f, 0));
    EXPECT_REFUSAL(MESKVORN_REFUSAL_FULL, meskvorn_bus_write(bus, 0, 0x3f, 0));
    EXPECT_REFUSAL(MESKVORN_REFUSAL_RECORD, meskvorn_bus_step(NULL, 0));
    EXPECT_REFUSAL(MESKVORN_REFUSAL_NOREG, meskvorn_bus_read_register(bus, 0, 0));
    EXPECT_REFUSAL(MESKVORN_REFUSAL_BADBUILD, meskvorn_bus_build(bus, addresses, 16, 0));
    CHECK(meskvorn_bus_give_turns(bus, 1, NULL) == MESKVORN_REFUSAL_NOPARTY);
}

/* A script's wrong mark is the one refusal that the library has for records alone. */
static void refusal_of_a_record(void)
{
    static const uint8_t script[6] = {0x47, 0x43, 12, 0, 0, 0};
    uint8_t out[34] = {0};
    char wanted[34];
    size_t length = (size_t)snprintf(wanted, sizeof wanted, "1 %d none -- 0 0 0\n", (int)MESKVORN_REFUSAL_RECORD);
    CHECK(meskvorn_run(script, sizeof script, out, sizeof out) == length);
    CHECK(memcmp(out, wanted, length) == 0);
    CHECK(meskvorn_run(script, sizeof script, out, sizeof out - 1) == MESKVORN_NO_ROOM);
}

static void events_of_commands(void)
{
    build(2);
    EXPECT_EVENT(MESKVORN_EVENT_NONE, meskvorn_bus_interface_clear(bus, 0));
    CHECK(heard(0x14) == MESKVORN_EVENT_CLEAR);
    CHECK(end() == MESKVORN_EVENT_ENDED);
    command(0x26);
    CHECK(heard(0x08) == MESKVORN_EVENT_TRIGGER);
    CHECK(end() == MESKVORN_EVENT_ENDED);
    /* Party 1 is addressed to talk, polled, and then given control. */
    command(0x46);
    command(0x18);
    EXPECT_EVENT(MESKVORN_EVENT_NONE, meskvorn_bus_go_to_standby(bus, 0));
    EXPECT_EVENT(MESKVORN_EVENT_MOVED, meskvorn_bus_step(bus, 1));
    EXPECT_EVENT(MESKVORN_EVENT_NOACC, meskvorn_bus_step(bus, 1));
    EXPECT_EVENT(MESKVORN_EVENT_NONE, meskvorn_bus_listen_only(bus, 0, 1));
    EXPECT_EVENT(MESKVORN_EVENT_MOVED, meskvorn_bus_step(bus, 0));
    EXPECT_EVENT(MESKVORN_EVENT_STAT, meskvorn_bus_step(bus, 1));
    EXPECT_EVENT(MESKVORN_EVENT_NONE, meskvorn_bus_take_control(bus, 0));
    CHECK(heard(0x09) == MESKVORN_EVENT_HEARD);
    CHECK(end() == MESKVORN_EVENT_PASSED);
}

/* These lines are on, and each by party 0 or by party 1 alone, as the masks say. */
static void expect_lines_at(int line, int lines, int first, int first_mask, int other, int other_mask)
{
    meskvorn_answer answer = meskvorn_bus_lines(bus);
    meskvorn_drivers_answer drivers = meskvorn_bus_drivers(bus);
    int place;
    check_at(line, answer.event == MESKVORN_EVENT_LINES && answer.byte == lines, "the lines");
    for (place = 0; place < MESKVORN_LINES; place++) {
        int wanted = (place == first ? first_mask : 0) | (place == other ? other_mask : 0);
        check_at(line, drivers.masks[place] == wanted && drivers.counts[place] == (wanted != 0), "the drivers");
    }
}

#define EXPECT_LINE(name, party) \
    expect_lines_at(__LINE__, MESKVORN_LINE_##name, MESKVORN_DRIVERS_OF_##name, 1 << (party), -1, 0)
#define EXPECT_LINES(name, party, other, by) \
    expect_lines_at(__LINE__, MESKVORN_LINE_##name | MESKVORN_LINE_##other, MESKVORN_DRIVERS_OF_##name, 1 << (party), \
                    MESKVORN_DRIVERS_OF_##other, 1 << (by))

/* Each line by itself, but EOI, which comes with DAV. */
static void lines_and_their_drivers(void)
{
    build(1);
    meskvorn_bus_interface_clear(bus, 0);
    EXPECT_LINE(ATN, 0);
    build(2);
    meskvorn_bus_poll_register(bus, 1, 0x40);
    EXPECT_LINE(SRQ, 1);
    build(2);
    meskvorn_bus_talk_only(bus, 0, 1);
    meskvorn_bus_write(bus, 0, 0x41, 0);
    meskvorn_bus_step(bus, 0);
    meskvorn_bus_listen_only(bus, 1, 1);
    EXPECT_LINES(NRFD, 1, NDAC, 1);
    meskvorn_bus_step(bus, 1);
    EXPECT_LINE(NDAC, 1);
    EXPECT_EVENT(MESKVORN_EVENT_DATA, meskvorn_bus_step(bus, 0));
    EXPECT_LINES(DAV, 0, NDAC, 1);
    EXPECT_EVENT(MESKVORN_EVENT_TOOK, meskvorn_bus_step(bus, 1));
    meskvorn_bus_step(bus, 1);
    EXPECT_LINES(DAV, 0, NRFD, 1);
    EXPECT_EVENT(MESKVORN_EVENT_ENDED, meskvorn_bus_step(bus, 0));
    EXPECT_LINE(NRFD, 1);
    EXPECT_EVENT(MESKVORN_EVENT_READ, meskvorn_bus_read(bus, 1));
    meskvorn_bus_write(bus, 0, 0x42, 1);
    meskvorn_bus_give_turns(bus, 5, NULL);
    meskvorn_bus_listen_only(bus, 1, 0);
    EXPECT_LINES(DAV, 0, EOI, 0);
}

/* What each operation alone does to a bus of two parties. */
static void operations_by_what_they_do(void)
{
    build(2);
    EXPECT_EVENT(MESKVORN_EVENT_LINES, meskvorn_bus_call(bus, MESKVORN_OPERATION_LINES, 0, 0, 0));
    meskvorn_bus_call(bus, MESKVORN_OPERATION_POLL_REGISTER, 0, 0x40, 0);
    EXPECT_LINE(SRQ, 0);
    meskvorn_bus_call(bus, MESKVORN_OPERATION_POLL_REGISTER, 0, 0, 0);
    meskvorn_bus_call(bus, MESKVORN_OPERATION_SECOND_REQUEST, 1, 1, 0);
    EXPECT_LINE(SRQ, 1);
    meskvorn_bus_call(bus, MESKVORN_OPERATION_RESET, 1, 0, 0);
    CHECK(meskvorn_bus_lines(bus).byte == 0);
    meskvorn_bus_call(bus, MESKVORN_OPERATION_LISTEN_ONLY, 1, 1, 0);
    EXPECT_LINES(NRFD, 1, NDAC, 1);
    meskvorn_bus_call(bus, MESKVORN_OPERATION_STEP, 1, 0, 0);
    EXPECT_LINE(NDAC, 1);
    meskvorn_bus_call(bus, MESKVORN_OPERATION_TALK_ONLY, 0, 1, 0);
    EXPECT_REFUSAL(MESKVORN_REFUSAL_ROLE, meskvorn_bus_call(bus, MESKVORN_OPERATION_LISTEN_ONLY, 0, 1, 0));
    meskvorn_bus_call(bus, MESKVORN_OPERATION_WRITE, 0, 0x41, 0);
    CHECK(meskvorn_bus_call(bus, MESKVORN_OPERATION_DROP, 0, 0, 0).dropped == 1);
    meskvorn_bus_call(bus, MESKVORN_OPERATION_WRITE, 0, 0x41, 0);
    meskvorn_bus_give_turns(bus, 4, NULL);
    EXPECT_EVENT(MESKVORN_EVENT_READ, meskvorn_bus_call(bus, MESKVORN_OPERATION_READ, 1, 0, 0));
    build(1);
    meskvorn_bus_call(bus, MESKVORN_OPERATION_INTERFACE_CLEAR, 0, 0, 0);
    EXPECT_LINE(ATN, 0);
    meskvorn_bus_call(bus, MESKVORN_OPERATION_GO_TO_STANDBY, 0, 0, 0);
    CHECK(meskvorn_bus_lines(bus).byte == 0);
    meskvorn_bus_call(bus, MESKVORN_OPERATION_TAKE_CONTROL, 0, 0, 0);
    EXPECT_LINE(ATN, 0);
}

/* How many parties and bytes a bus has, and what stands for no secondary and for no name. */
static void sizes_and_absence(void)
{
    const meskvorn_bus *const built = bus;
    const uint8_t *bytes = (const uint8_t *)bus;
    size_t at;
    EXPECT_REFUSAL(MESKVORN_REFUSAL_ACCEPTED, meskvorn_bus_build(bus, addresses, MESKVORN_MOST_PARTIES, 0));
    CHECK(meskvorn_name(built->rows, 14) == 19 + 256 * MESKVORN_NO_SECONDARY);
    CHECK(meskvorn_name(built->rows, 15) == MESKVORN_NO_NAME);
    EXPECT_REFUSAL(MESKVORN_REFUSAL_BADBUILD, meskvorn_bus_build(bus, addresses, MESKVORN_MOST_PARTIES + 1, 0));
    memset(bus, FILL, sizeof *bus);
    EXPECT_REFUSAL(MESKVORN_REFUSAL_BADBUILD, meskvorn_bus_build(bus, addresses, 0, 0));
    for (at = 0; at < 16 * MESKVORN_ROW; at++) {
        CHECK(bytes[at] == 0);
    }
    CHECK(filled(memory.before, GUARD) && filled(memory.after, GUARD));
}

int main(void)
{
    begin();
    numbers_and_words();
    refusals_of_calls();
    refusal_of_a_record();
    events_of_commands();
    lines_and_their_drivers();
    operations_by_what_they_do();
    sizes_and_absence();
    return report("host/names_test.c");
}
