/* Scripts through meskvorn.h: document 01's text, the room that a text has to have, and the longest script.
 * What is expected is worked out from document 01. */
#include "check.h"

static const uint8_t worked[] = {
    0x47, 0x42, 0, 0, 2, 5, 0x47, 0x42, 6, 0, 1, 0, 0x47, 0x42, 5, 1, 1, 0, 0x47, 0x42, 2, 0, 0x41, 1,
    0x47, 0x42, 1, 0, 0, 0, 0x47, 0x42, 1, 1, 0, 0, 0x47, 0x42, 1, 0, 0, 0, 0x47, 0x42, 1, 1, 0, 0,
    0x47, 0x42, 1, 0, 0, 0, 0x47, 0x42, 1, 1, 0, 0, 0x47, 0x42, 1, 0, 0, 0, 0x47, 0x42, 3, 1, 0, 0,
};

static const char worked_text[] = "1 0 none -- 0 0 0\n2 0 none -- 0 0 0\n3 0 none -- 0 0 0\n4 0 none -- 0 0 0\n"
                                  "5 0 moved -- 0 0 0\n6 0 moved -- 0 0 0\n7 0 data 41 1 0 0\n8 0 took 41 1 0 0\n"
                                  "9 0 none -- 0 0 0\n10 0 moved -- 0 0 0\n11 0 ended 41 1 0 0\n12 0 read 41 1 0 0\n";

enum { RECORD = 6, LINE = 34, LONGEST = 65532, OVER = 1000000, MOST_ROOM = LONGEST / RECORD * LINE };

/* What is lent, with bytes on both sides that no run may touch. */
static uint8_t around[GUARD + MOST_ROOM + GUARD];
static uint8_t *const out = around + GUARD;

static uint8_t script[OVER];
static char wanted[MOST_ROOM];

/* Document 01's script; the text is written where there is room, and nothing else. */
static void worked_script(void)
{
    enum { ROOM = sizeof worked / RECORD * LINE };
    const size_t length = sizeof worked_text - 1;
    memset(around, FILL, sizeof around);
    CHECK(meskvorn_script_run(worked, sizeof worked, out, ROOM - 1) == MESKVORN_NO_ROOM);
    CHECK(filled(around, sizeof around));
    CHECK(meskvorn_script_run(worked, sizeof worked, out, ROOM) == length);
    CHECK(memcmp(out, worked_text, length) == 0);
    CHECK(filled(around, GUARD));
    CHECK(filled(out + length, sizeof around - GUARD - length));
}

static void null_pointers(void)
{
    memset(around, FILL, sizeof around);
    CHECK(meskvorn_script_run(worked, sizeof worked, NULL, 0) == MESKVORN_NO_ROOM);
    CHECK(meskvorn_script_run(worked, sizeof worked, NULL, MOST_ROOM) == MESKVORN_NO_ROOM);
    CHECK(meskvorn_script_run(NULL, sizeof worked, out, MOST_ROOM) == MESKVORN_NO_ROOM);
    CHECK(meskvorn_script_run(NULL, 1, out, MOST_ROOM) == MESKVORN_NO_ROOM);
    CHECK(meskvorn_script_run(NULL, 0, NULL, 1) == MESKVORN_NO_ROOM);
    CHECK(meskvorn_script_run(NULL, 0, out, MOST_ROOM) == 0);
    CHECK(meskvorn_script_run(NULL, 0, NULL, 0) == 0);
    CHECK(filled(around, sizeof around));
}

/* Records that ask for the lines; a length may cut the last one. */
static void write_script(void)
{
    static const uint8_t lines[RECORD] = {0x47, 0x42, MESKVORN_OPERATION_LINES, 0, 0, 0};
    size_t at;
    for (at = 0; at < OVER; at++) {
        script[at] = lines[at % RECORD];
    }
}

/* The text of so many bytes of that script, and its length. */
static size_t text_of(size_t length)
{
    size_t number, end = 0;
    if (length > LONGEST) {
        return (size_t)snprintf(wanted, sizeof wanted, "0 10 none -- 0 0 0\n");
    }
    for (number = 1; number <= length / RECORD; number++) {
        end += (size_t)snprintf(wanted + end, sizeof wanted - end, "%d 0 lines 00 0 0 0\n", (int)number);
    }
    if (length % RECORD != 0) {
        end += (size_t)snprintf(wanted + end, sizeof wanted - end, "%d 10 none -- 0 0 0\n", (int)number);
    }
    return end;
}

/* With this room the text is written; with one byte less nothing is. */
static void expect_room_at(int line, size_t length, size_t lines)
{
    const size_t room = LINE * lines, end = text_of(length);
    memset(around, FILL, sizeof around);
    if (room > 0) {
        check_at(line, meskvorn_run(script, length, out, room - 1) == MESKVORN_NO_ROOM, "a byte less is no room");
        check_at(line, filled(around, sizeof around), "without room nothing is written");
    }
    check_at(line, meskvorn_run(script, length, out, room) == end, "34 bytes a line are room");
    check_at(line, memcmp(out, wanted, end) == 0, "the text");
    check_at(line, filled(around, GUARD) && filled(out + end, sizeof around - GUARD - end), "nothing but the text");
}

#define EXPECT_ROOM(length, lines) expect_room_at(__LINE__, (length), (lines))

static void rooms(void)
{
    size_t length;
    write_script();
    EXPECT_ROOM(0, 0);
    for (length = 1; length <= RECORD; length++) {
        EXPECT_ROOM(length, 1);
        EXPECT_ROOM(RECORD + length, 2);
        EXPECT_ROOM(LONGEST - RECORD + length, LONGEST / RECORD);
        EXPECT_ROOM(LONGEST + length, 1);
    }
    EXPECT_ROOM(OVER, 1);
}

int main(void)
{
    begin();
    worked_script();
    null_pointers();
    rooms();
    return report("host/script_test.c");
}
