/* What the C test programs share: the bus under test, and checks that count.
 * An answer is expected as busrun prints it: refusal, event, byte, END, dropped, broken. */
#ifndef MESKVORN_CHECK_H
#define MESKVORN_CHECK_H

#include <stdio.h>
#include <stdlib.h>
#include <string.h>

#include "meskvorn.h"

#define NONE "0 none -- 0 0 0"
#define MOVED "0 moved -- 0 0 0"
#define REFUSED(number) #number " none -- 0 0 0"

enum { GUARD = 64, FILL = 0xa5 };

/* The bus under test, with bytes on both sides that no call may touch. */
static struct {
    uint8_t before[GUARD];
    meskvorn_bus bus;
    uint8_t after[GUARD];
} memory;

static meskvorn_bus *const bus = &memory.bus;
static meskvorn_bus last;
static int checks;
static int failures;

static const uint8_t addresses[16] = {5, 6, 7, 8, 9, 10, 11, 12, 13, 14, 15, 16, 17, 18, 19, 20};

static void check_at(int line, int holds, const char *what)
{
    checks++;
    if (!holds) {
        failures++;
        printf("line %d: %s\n", line, what);
    }
}

#define CHECK(condition) check_at(__LINE__, (condition), #condition)

static void begin(void)
{
    memset(&memory, FILL, sizeof memory);
}

/* The last line of a test program, and what its main returns. */
static int report(const char *program)
{
    printf("%s: %d checks, %d failures\n", program, checks, failures);
    return failures == 0 ? EXIT_SUCCESS : EXIT_FAILURE;
}

static int filled(const uint8_t *bytes, size_t count)
{
    while (count > 0 && bytes[count - 1] == FILL) {
        count--;
    }
    return count == 0;
}

static inline int same_bus(const meskvorn_bus *one, const meskvorn_bus *other)
{
    return memcmp(one, other, sizeof *one) == 0;
}

/* An event without a byte has the byte 0. */
static void print_answer(char text[64], meskvorn_answer answer)
{
    char byte[3] = "--";
    if (answer.event > MESKVORN_EVENT_MOVED || answer.byte != 0) {
        snprintf(byte, sizeof byte, "%02x", answer.byte);
    }
    snprintf(text, 64, "%d %s %s %d %d %d", (int)answer.refusal, meskvorn_event_word(answer.event), byte, answer.end,
             answer.dropped, answer.broken);
}

/* Also: nothing beside the bus was touched, and the bus itself not by a refusal, except that of a build. */
static void expect_at(int line, const char *wanted, meskvorn_answer answer)
{
    char text[64];
    print_answer(text, answer);
    check_at(line, strcmp(text, wanted) == 0, text);
    check_at(line, filled(memory.before, GUARD) && filled(memory.after, GUARD), "the bus keeps to its memory");
    if (answer.refusal != MESKVORN_REFUSAL_ACCEPTED && answer.refusal != MESKVORN_REFUSAL_BADBUILD) {
        check_at(line, memcmp(bus, &last, sizeof last) == 0, "a refused call changes nothing");
    }
    last = *bus;
}

#define EXPECT(wanted, call) expect_at(__LINE__, (wanted), (call))

/* What is expected with a byte that comes without END. */
static inline const char *with_byte(const char *event, uint8_t byte)
{
    static char text[64];
    snprintf(text, sizeof text, "0 %s %02x 0 0 0", event, byte);
    return text;
}

static inline void give_turns(uint16_t turns)
{
    CHECK(meskvorn_bus_give_turns(bus, turns, NULL) == MESKVORN_REFUSAL_ACCEPTED);
    last = *bus;
}

/* The active party 0, at the lowest address of so many parties, sends one command. Its first, second and fourth turns
 * offer, put and end it. */
static inline void send_command(uint16_t parties, uint8_t byte)
{
    EXPECT(NONE, meskvorn_bus_write(bus, 0, byte, 0));
    give_turns((uint16_t)(4 * parties));
    EXPECT("0 lines b0 0 0 0", meskvorn_bus_lines(bus));
    EXPECT(NONE, meskvorn_bus_drop(bus, 0));
}

/* Commands in hexadecimal. */
static inline void send_commands(uint16_t parties, const char *text)
{
    char *end;
    unsigned long byte = strtoul(text, &end, 16);
    while (end != text) {
        send_command(parties, (uint8_t)byte);
        text = end;
        byte = strtoul(text, &end, 16);
    }
}

/* For each party T if it talks, L if it listens, else a dot, told by copies of the bus: listen-only is refused with 4
 * to a talker, and talk-only to a listener. */
static inline void expect_roles_at(int line, const char *wanted)
{
    char roles[16] = {0};
    uint8_t party;
    for (party = 0; party < strlen(wanted); party++) {
        meskvorn_bus to_listen = *bus, to_talk = *bus;
        int talks = meskvorn_bus_listen_only(&to_listen, party, 1).refusal == MESKVORN_REFUSAL_ROLE;
        int listens = meskvorn_bus_talk_only(&to_talk, party, 1).refusal == MESKVORN_REFUSAL_ROLE;
        roles[party] = talks ? 'T' : listens ? 'L' : '.';
    }
    check_at(line, strcmp(roles, wanted) == 0, roles);
}

#define EXPECT_ROLES(wanted) expect_roles_at(__LINE__, (wanted))

/* The next byte of a generator. */
static inline uint8_t drawn(uint16_t *state)
{
    *state = (uint16_t)(25173u * *state + 13849u);
    return (uint8_t)(*state >> 8);
}

/* Fills the bus with bytes that a generator mixes, so that parties differ; of each the bits of the mask are kept. */
static inline void mix(uint16_t *state, uint8_t mask)
{
    uint8_t *bytes = (uint8_t *)bus;
    size_t at;
    for (at = 0; at < sizeof *bus; at++) {
        bytes[at] = drawn(state) & mask;
    }
}

/* Parties at addresses 5, 6, ..; party 0 is the system party. */
static inline void build(size_t parties)
{
    EXPECT(NONE, meskvorn_bus_build(bus, addresses, parties, 0));
}

#endif
