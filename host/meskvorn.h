/* The GPIB bus of document 01 for C and C++ programs. Link libmeskvorn.a, which `host/build` writes to
 * target/staticlib.
 *
 * meskvorn_call, meskvorn_build, meskvorn_build_extended, meskvorn_read_register, meskvorn_write_register,
 * meskvorn_own_status, meskvorn_parallel_poll, meskvorn_name, meskvorn_turns, meskvorn_drivers and meskvorn_run are the
 * proved functions, for pointers that are valid for their lengths and do not overlap. The inline functions below them
 * take the answer apart and take NULL as well; they are tested. */
#ifndef MESKVORN_H
#define MESKVORN_H

#include <stddef.h>
#include <stdint.h>

#ifdef __cplusplus
extern "C" {
#endif

/* The bytes in a row of a bus, of which a party has one. */
enum { MESKVORN_ROW = 24 };

/* A bus, in memory of the program's own, which may be copied and moved. Zeros are the bus of no parties; any content is
 * read as some bus. */
typedef struct meskvorn_bus {
    uint8_t rows[16][MESKVORN_ROW];
} meskvorn_bus;

/* Document 01's table of refusals, and those that document 02 adds. */
typedef enum meskvorn_refusal {
    MESKVORN_REFUSAL_ACCEPTED = 0,
    MESKVORN_REFUSAL_NOPARTY = 1,
    MESKVORN_REFUSAL_BADBUILD = 2,
    MESKVORN_REFUSAL_BADVALUE = 3,
    MESKVORN_REFUSAL_ROLE = 4,
    MESKVORN_REFUSAL_ATTENTION = 5,
    MESKVORN_REFUSAL_TALKER = 6,
    MESKVORN_REFUSAL_STANDING = 7,
    MESKVORN_REFUSAL_FULL = 8,
    MESKVORN_REFUSAL_EMPTY = 9,
    MESKVORN_REFUSAL_RECORD = 10,
    MESKVORN_REFUSAL_NOREG = 11
} meskvorn_refusal;

/* Document 01's events, in its order. */
typedef enum meskvorn_event {
    MESKVORN_EVENT_NONE = 0,
    MESKVORN_EVENT_MOVED = 1,
    MESKVORN_EVENT_CMD = 2,
    MESKVORN_EVENT_DATA = 3,
    MESKVORN_EVENT_STAT = 4,
    MESKVORN_EVENT_TOOK = 5,
    MESKVORN_EVENT_HEARD = 6,
    MESKVORN_EVENT_CLEAR = 7,
    MESKVORN_EVENT_TRIGGER = 8,
    MESKVORN_EVENT_ENDED = 9,
    MESKVORN_EVENT_PASSED = 10,
    MESKVORN_EVENT_NOACC = 11,
    MESKVORN_EVENT_READ = 12,
    MESKVORN_EVENT_LINES = 13
} meskvorn_event;

/* The operations of meskvorn_call, by their numbers in a script. */
typedef enum meskvorn_operation {
    MESKVORN_OPERATION_STEP = 1,
    MESKVORN_OPERATION_WRITE = 2,
    MESKVORN_OPERATION_READ = 3,
    MESKVORN_OPERATION_POLL_REGISTER = 4,
    MESKVORN_OPERATION_LISTEN_ONLY = 5,
    MESKVORN_OPERATION_TALK_ONLY = 6,
    MESKVORN_OPERATION_TAKE_CONTROL = 7,
    MESKVORN_OPERATION_GO_TO_STANDBY = 8,
    MESKVORN_OPERATION_INTERFACE_CLEAR = 9,
    MESKVORN_OPERATION_RESET = 10,
    MESKVORN_OPERATION_DROP = 11,
    MESKVORN_OPERATION_LINES = 12,
    MESKVORN_OPERATION_SECOND_REQUEST = 13
} meskvorn_operation;

/* The bits of the byte that comes with the event lines. */
enum {
    MESKVORN_LINE_ATN = 128,
    MESKVORN_LINE_DAV = 64,
    MESKVORN_LINE_NDAC = 32,
    MESKVORN_LINE_NRFD = 16,
    MESKVORN_LINE_EOI = 8,
    MESKVORN_LINE_SRQ = 4
};

/* The registers of the TMS9914A that a party has, by offset; document 001, tables 2-1 and 2-2. */
enum { MESKVORN_READ_BUS_STATUS = 3, MESKVORN_READ_DATA_IN = 7 };
enum { MESKVORN_WRITE_AUXILIARY = 3, MESKVORN_WRITE_SERIAL_POLL = 5, MESKVORN_WRITE_DATA_OUT = 7 };

/* The auxiliary commands that a party has, table 2-3, and the bit that sets what a command without it clears. */
enum {
    MESKVORN_AUX_SWRST = 0,
    MESKVORN_AUX_NBAF = 5,
    MESKVORN_AUX_FEOI = 8,
    MESKVORN_AUX_LON = 9,
    MESKVORN_AUX_TON = 10,
    MESKVORN_AUX_GTS = 11,
    MESKVORN_AUX_TCA = 12,
    MESKVORN_AUX_SIC = 15,
    MESKVORN_AUX_RSV2 = 24,
    MESKVORN_AUX_SET = 128
};

/* The commands of a parallel poll. A listener that hears PPC is configuring. It then gets a response by PPE, plus
 * MESKVORN_PPE_SENSE for the sense 1, plus its line, 1 to 8, minus one; PPD takes it back. PPU takes everybody's. */
enum { MESKVORN_PPC = 0x05, MESKVORN_PPU = 0x15, MESKVORN_PPE = 0x60, MESKVORN_PPE_SENSE = 8, MESKVORN_PPD = 0x70 };

/* The lines, by their place among the masks and counts of meskvorn_drivers. */
typedef enum meskvorn_line {
    MESKVORN_DRIVERS_OF_ATN = 0,
    MESKVORN_DRIVERS_OF_DAV = 1,
    MESKVORN_DRIVERS_OF_NRFD = 2,
    MESKVORN_DRIVERS_OF_NDAC = 3,
    MESKVORN_DRIVERS_OF_EOI = 4,
    MESKVORN_DRIVERS_OF_SRQ = 5
} meskvorn_line;

/* How many lines they are. */
enum { MESKVORN_LINES = 6 };

/* The most parties that a bus has. */
enum { MESKVORN_MOST_PARTIES = 15 };

/* Stands where a party has no secondary address. */
enum { MESKVORN_NO_SECONDARY = 255 };

/* What meskvorn_name gives where there is no such party. */
#define MESKVORN_NO_NAME ((uint16_t)65535)

/* What meskvorn_run gives where the text had no room. */
#define MESKVORN_NO_ROOM ((size_t)-1)

/* Of an answer: on every bus that a build and calls have made, end and broken are 0 or 1, and dropped is 0 to 2. On
 * memory with any other content dropped may be more. A refusal has event none and 0 in all that follows. */
typedef struct meskvorn_answer {
    meskvorn_refusal refusal;
    meskvorn_event event;
    uint8_t byte;
    uint8_t end;
    uint8_t dropped;
    uint8_t broken;
} meskvorn_answer;

/* What a build named a party: present is 0 where there is no such party, and 1 otherwise. A party without a secondary
 * address has MESKVORN_NO_SECONDARY. */
typedef struct meskvorn_party_name {
    uint8_t present;
    uint8_t address;
    uint8_t secondary;
} meskvorn_party_name;

/* Of the drivers: for each line a mask with a bit for each party that drives it, party 0 lowest, and how many they
 * are. */
typedef struct meskvorn_drivers_answer {
    meskvorn_answer answer;
    uint16_t masks[MESKVORN_LINES];
    uint32_t counts[MESKVORN_LINES];
} meskvorn_drivers_answer;

/* The proved functions. No pointer may be NULL. The first three take the rows of a bus and give the answer as a number:
 * from the low byte up refusal, event, byte, END, dropped, broken. An operation that is none of the thirteen is refused
 * with 3. Whatever the rows held, a build leaves the bus that it asks for, or the bus of no parties where it is
 * refused; any other function that refuses leaves every byte of them as it was. */
uint64_t meskvorn_call(uint8_t (*rows)[MESKVORN_ROW], uint8_t operation, uint8_t party, uint8_t value, uint8_t extra);
uint64_t meskvorn_build(uint8_t (*rows)[MESKVORN_ROW], const uint8_t *addresses, size_t count, uint8_t system);

/* A build in which the party with number i has the address addresses[i] and the secondary address secondaries[i], or
 * none if that is MESKVORN_NO_SECONDARY. given is count, or 0, and then nobody has one. A build with fewer or more
 * secondaries than addresses is refused with 2. */
uint64_t meskvorn_build_extended(uint8_t (*rows)[MESKVORN_ROW], const uint8_t *addresses, size_t count,
                                 const uint8_t *secondaries, size_t given, uint8_t system);

/* A party's read and write of a chip's register, each answered as the call that it stands for. Offsets and commands
 * without a name above are refused with 11, after 1 and before the refusals of that call. feoi gives END to the party's
 * next accepted write to data out, unless a reset comes before. */
uint64_t meskvorn_read_register(uint8_t (*rows)[MESKVORN_ROW], uint8_t party, uint8_t offset);
uint64_t meskvorn_write_register(uint8_t (*rows)[MESKVORN_ROW], uint8_t party, uint8_t offset, uint8_t value);

/* A party's own status in parallel polls, 0 or 1, and a poll by the active party, whose byte has a bit for each line,
 * line 1 lowest. Both answer with a number like the first three, and no operation of meskvorn_call stands for them. */
uint64_t meskvorn_own_status(uint8_t (*rows)[MESKVORN_ROW], uint8_t party, uint8_t value);
uint64_t meskvorn_parallel_poll(uint8_t (*rows)[MESKVORN_ROW], uint8_t party);

/* What a build named the party: the low byte is its address, the high byte its secondary address or
 * MESKVORN_NO_SECONDARY. */
uint16_t meskvorn_name(const uint8_t (*rows)[MESKVORN_ROW], uint8_t party);

/* Gives so many turns on the bus, each to the party that has waited longest for one since the call began, of equals to
 * the one with the lowest address, then the lowest secondary address. Writes how many turns each of the fifteen places
 * had, and gives the refusal: 0, or 1 on the bus of no parties, where all counts are 0. */
uint8_t meskvorn_turns(uint8_t (*rows)[MESKVORN_ROW], uint16_t turns, uint16_t *counts);

/* Writes which parties drive each line, and how many they are, as the call finds the bus; there is an entry for each
 * line. It is never refused, leaves the bus as the lines do, and gives its answer as a number like the first three,
 * with the event none. No operation of meskvorn_call stands for it. */
uint64_t meskvorn_drivers(uint8_t (*rows)[MESKVORN_ROW], uint16_t *masks, uint32_t *counts);

/* Runs a script, writes its text at the start of out, and gives the number of bytes written. The room has to be 34
 * bytes for each record and part of one, or 34 bytes in all for a script of over 65,532 bytes, whose text is one line.
 * With less it gives MESKVORN_NO_ROOM and writes nothing. */
size_t meskvorn_run(const uint8_t *script, size_t length, uint8_t *out, size_t room);

static inline meskvorn_answer meskvorn_answer_of(uint64_t packed)
{
    meskvorn_answer answer;
    answer.refusal = (meskvorn_refusal)(packed & 255);
    answer.event = (meskvorn_event)(packed >> 8 & 255);
    answer.byte = (uint8_t)(packed >> 16 & 255);
    answer.end = (uint8_t)(packed >> 24 & 255);
    answer.dropped = (uint8_t)(packed >> 32 & 255);
    answer.broken = (uint8_t)(packed >> 40 & 255);
    return answer;
}

/* An event as busrun prints it. */
static inline const char *meskvorn_event_word(meskvorn_event event)
{
    static const char *const words[] = {"none", "moved", "cmd", "data", "stat", "took", "heard",
                                        "clear", "trigger", "ended", "passed", "noacc", "read", "lines"};
    return (size_t)event < sizeof words / sizeof words[0] ? words[event] : "";
}

/* From here on NULL for a bus, or for a list that is not empty, is refused with MESKVORN_REFUSAL_RECORD by all that
 * answer a refusal, and nothing is written. */

/* The party with number i gets addresses[i]. */
static inline meskvorn_answer meskvorn_bus_build(meskvorn_bus *bus, const uint8_t *addresses, size_t count,
                                                 uint8_t system)
{
    static const uint8_t none = 0;
    if (bus == NULL || (addresses == NULL && count != 0)) {
        return meskvorn_answer_of(MESKVORN_REFUSAL_RECORD);
    }
    return meskvorn_answer_of(meskvorn_build(bus->rows, addresses == NULL ? &none : addresses, count, system));
}

/* The party with number i gets addresses[i] and secondaries[i], or no secondary address if that is
 * MESKVORN_NO_SECONDARY. NULL for the secondaries is an empty list, and gives none to anybody. */
static inline meskvorn_answer meskvorn_bus_build_extended(meskvorn_bus *bus, const uint8_t *addresses,
                                                          const uint8_t *secondaries, size_t count, uint8_t system)
{
    static const uint8_t none = 0;
    size_t given = secondaries == NULL ? 0 : count;
    if (bus == NULL || (addresses == NULL && count != 0)) {
        return meskvorn_answer_of(MESKVORN_REFUSAL_RECORD);
    }
    return meskvorn_answer_of(meskvorn_build_extended(bus->rows, addresses == NULL ? &none : addresses, count,
                                                      secondaries == NULL ? &none : secondaries, given, system));
}

/* What a build named the party; on a NULL bus there is none. */
static inline meskvorn_party_name meskvorn_bus_name(const meskvorn_bus *bus, uint8_t party)
{
    uint16_t packed = bus == NULL ? MESKVORN_NO_NAME : meskvorn_name(bus->rows, party);
    meskvorn_party_name name;
    name.present = packed != MESKVORN_NO_NAME;
    name.address = (uint8_t)(packed & 255);
    name.secondary = (uint8_t)(packed >> 8);
    return name;
}

/* An operation by its number. */
static inline meskvorn_answer meskvorn_bus_call(meskvorn_bus *bus, uint8_t operation, uint8_t party, uint8_t value,
                                                uint8_t extra)
{
    if (bus == NULL) {
        return meskvorn_answer_of(MESKVORN_REFUSAL_RECORD);
    }
    return meskvorn_answer_of(meskvorn_call(bus->rows, operation, party, value, extra));
}

/* The party has its turn. */
static inline meskvorn_answer meskvorn_bus_step(meskvorn_bus *bus, uint8_t party)
{
    return meskvorn_bus_call(bus, MESKVORN_OPERATION_STEP, party, 0, 0);
}

/* A byte for the party to send, with its END, 0 or 1. */
static inline meskvorn_answer meskvorn_bus_write(meskvorn_bus *bus, uint8_t party, uint8_t byte, uint8_t end)
{
    return meskvorn_bus_call(bus, MESKVORN_OPERATION_WRITE, party, byte, end);
}

/* The byte that the party took. */
static inline meskvorn_answer meskvorn_bus_read(meskvorn_bus *bus, uint8_t party)
{
    return meskvorn_bus_call(bus, MESKVORN_OPERATION_READ, party, 0, 0);
}

/* Bit 64 of the register asks for service. */
static inline meskvorn_answer meskvorn_bus_poll_register(meskvorn_bus *bus, uint8_t party, uint8_t value)
{
    return meskvorn_bus_call(bus, MESKVORN_OPERATION_POLL_REGISTER, party, value, 0);
}

/* The second request bit, which asks for service too, until a status byte tells of it. on is 0 or 1. */
static inline meskvorn_answer meskvorn_bus_second_request(meskvorn_bus *bus, uint8_t party, uint8_t on)
{
    return meskvorn_bus_call(bus, MESKVORN_OPERATION_SECOND_REQUEST, party, on, 0);
}

/* on is 0 or 1. */
static inline meskvorn_answer meskvorn_bus_listen_only(meskvorn_bus *bus, uint8_t party, uint8_t on)
{
    return meskvorn_bus_call(bus, MESKVORN_OPERATION_LISTEN_ONLY, party, on, 0);
}

/* on is 0 or 1. */
static inline meskvorn_answer meskvorn_bus_talk_only(meskvorn_bus *bus, uint8_t party, uint8_t on)
{
    return meskvorn_bus_call(bus, MESKVORN_OPERATION_TALK_ONLY, party, on, 0);
}

static inline meskvorn_answer meskvorn_bus_take_control(meskvorn_bus *bus, uint8_t party)
{
    return meskvorn_bus_call(bus, MESKVORN_OPERATION_TAKE_CONTROL, party, 0, 0);
}

static inline meskvorn_answer meskvorn_bus_go_to_standby(meskvorn_bus *bus, uint8_t party)
{
    return meskvorn_bus_call(bus, MESKVORN_OPERATION_GO_TO_STANDBY, party, 0, 0);
}

/* For the system party alone. */
static inline meskvorn_answer meskvorn_bus_interface_clear(meskvorn_bus *bus, uint8_t party)
{
    return meskvorn_bus_call(bus, MESKVORN_OPERATION_INTERFACE_CLEAR, party, 0, 0);
}

static inline meskvorn_answer meskvorn_bus_reset(meskvorn_bus *bus, uint8_t party)
{
    return meskvorn_bus_call(bus, MESKVORN_OPERATION_RESET, party, 0, 0);
}

/* The byte that the party holds goes. */
static inline meskvorn_answer meskvorn_bus_drop(meskvorn_bus *bus, uint8_t party)
{
    return meskvorn_bus_call(bus, MESKVORN_OPERATION_DROP, party, 0, 0);
}

static inline meskvorn_answer meskvorn_bus_lines(meskvorn_bus *bus)
{
    return meskvorn_bus_call(bus, MESKVORN_OPERATION_LINES, 0, 0, 0);
}

/* A chip's register by its offset, MESKVORN_READ_BUS_STATUS or MESKVORN_READ_DATA_IN. */
static inline meskvorn_answer meskvorn_bus_read_register(meskvorn_bus *bus, uint8_t party, uint8_t offset)
{
    if (bus == NULL) {
        return meskvorn_answer_of(MESKVORN_REFUSAL_RECORD);
    }
    return meskvorn_answer_of(meskvorn_read_register(bus->rows, party, offset));
}

/* MESKVORN_WRITE_AUXILIARY takes a command, MESKVORN_AUX_TON | MESKVORN_AUX_SET say; the other two take any byte. */
static inline meskvorn_answer meskvorn_bus_write_register(meskvorn_bus *bus, uint8_t party, uint8_t offset,
                                                          uint8_t value)
{
    if (bus == NULL) {
        return meskvorn_answer_of(MESKVORN_REFUSAL_RECORD);
    }
    return meskvorn_answer_of(meskvorn_write_register(bus->rows, party, offset, value));
}

/* What the party tells in parallel polls, 0 or 1: its line is on while this is the sense of its response. */
static inline meskvorn_answer meskvorn_bus_own_status(meskvorn_bus *bus, uint8_t party, uint8_t status)
{
    if (bus == NULL) {
        return meskvorn_answer_of(MESKVORN_REFUSAL_RECORD);
    }
    return meskvorn_answer_of(meskvorn_own_status(bus->rows, party, status));
}

/* For the active party alone, with no command of its own standing. */
static inline meskvorn_answer meskvorn_bus_parallel_poll(meskvorn_bus *bus, uint8_t party)
{
    if (bus == NULL) {
        return meskvorn_answer_of(MESKVORN_REFUSAL_RECORD);
    }
    return meskvorn_answer_of(meskvorn_parallel_poll(bus->rows, party));
}

/* Which parties drive each line. With a NULL bus all masks and counts are 0. */
static inline meskvorn_drivers_answer meskvorn_bus_drivers(meskvorn_bus *bus)
{
    meskvorn_drivers_answer drivers;
    int line;
    for (line = 0; line < MESKVORN_LINES; line++) {
        drivers.masks[line] = 0;
        drivers.counts[line] = 0;
    }
    drivers.answer = meskvorn_answer_of(MESKVORN_REFUSAL_RECORD);
    if (bus != NULL) {
        drivers.answer = meskvorn_answer_of(meskvorn_drivers(bus->rows, drivers.masks, drivers.counts));
    }
    return drivers;
}

/* 1 if the party drives the line, else 0. */
static inline int meskvorn_is_driven_by(const meskvorn_drivers_answer *drivers, meskvorn_line line, uint8_t party)
{
    int known = drivers != NULL && (unsigned)line < MESKVORN_LINES && party < MESKVORN_MOST_PARTIES;
    return known ? drivers->masks[line] >> party & 1 : 0;
}

/* meskvorn_turns, where counts has room for fifteen, or is NULL if they are not wanted. */
static inline meskvorn_refusal meskvorn_bus_give_turns(meskvorn_bus *bus, uint16_t turns,
                                                       uint16_t counts[MESKVORN_MOST_PARTIES])
{
    uint16_t unwanted[MESKVORN_MOST_PARTIES];
    if (bus == NULL) {
        return MESKVORN_REFUSAL_RECORD;
    }
    return (meskvorn_refusal)meskvorn_turns(bus->rows, turns, counts == NULL ? unwanted : counts);
}

/* meskvorn_run, where NULL with a length other than 0 is answered with MESKVORN_NO_ROOM. */
static inline size_t meskvorn_script_run(const uint8_t *script, size_t length, uint8_t *out, size_t room)
{
    static const uint8_t none = 0;
    uint8_t nowhere = 0;
    if ((script == NULL && length != 0) || (out == NULL && room != 0)) {
        return MESKVORN_NO_ROOM;
    }
    return meskvorn_run(script == NULL ? &none : script, length, out == NULL ? &nowhere : out, room);
}

#ifdef __cplusplus
}
#endif

#endif
