/* What the tests of the parallel poll share: a rack of five parties, and polls of it. */
#ifndef MESKVORN_POLL_CHECK_H
#define MESKVORN_POLL_CHECK_H

#include "check.h"

enum { PLAIN = MESKVORN_NO_SECONDARY, PARTIES = 5 };

/* Parties 1, 2, 3, 4/5 and 4/26; party 0 is the system party. The secondaries are 65 and 7A on the bus. */
static const uint8_t primaries[PARTIES] = {1, 2, 3, 4, 4};
static const uint8_t secondaries[PARTIES] = {PLAIN, PLAIN, PLAIN, 5, 26};

static inline void build_the_rack(void)
{
    EXPECT(NONE, meskvorn_bus_build_extended(bus, primaries, secondaries, PARTIES, 0));
}

/* Party 0 is active. */
static inline void take_the_bus(void)
{
    build_the_rack();
    EXPECT(NONE, meskvorn_bus_interface_clear(bus, 0));
}

static inline void commands(const char *text)
{
    send_commands(PARTIES, text);
}

static inline meskvorn_answer poll_by(uint8_t party)
{
    return meskvorn_bus_parallel_poll(bus, party);
}

static inline void own(uint8_t party, uint8_t status)
{
    EXPECT(NONE, meskvorn_bus_own_status(bus, party, status));
}

static inline void expect_poll_at(int line, uint8_t party, uint8_t byte)
{
    const meskvorn_bus before = *bus;
    expect_at(line, with_byte("lines", byte), poll_by(party));
    check_at(line, same_bus(bus, &before), "a poll leaves every byte");
}

#define EXPECT_POLL_BY(party, byte) expect_poll_at(__LINE__, (party), (byte))

/* A poll by party 0. */
#define EXPECT_POLL(byte) EXPECT_POLL_BY(0, byte)

#endif
