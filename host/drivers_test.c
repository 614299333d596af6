/* The drivers of the lines through meskvorn.h: which parties hold each line, how many they are, and the bus after the
 * call.
 * What is expected is worked out from document 01 and from document 02's Q-4. */
#include "check.h"

static const uint8_t line_bits[MESKVORN_LINES] = {MESKVORN_LINE_ATN,  MESKVORN_LINE_DAV, MESKVORN_LINE_NRFD,
                                                  MESKVORN_LINE_NDAC, MESKVORN_LINE_EOI, MESKVORN_LINE_SRQ};

/* Masks and counts with an entry on both sides that no call may touch. */
typedef struct told {
    uint16_t before_masks, masks[MESKVORN_LINES], after_masks;
    uint32_t before_counts, counts[MESKVORN_LINES], after_counts;
} told;

static int is_filled(uint32_t entry)
{
    return (entry & 0xff) == FILL && (entry >> 8 & 0xff) == FILL;
}

static uint32_t ones(uint16_t mask)
{
    uint32_t count = 0;
    int bit;
    for (bit = 0; bit < 16; bit++) {
        count += (uint32_t)(mask >> bit & 1);
    }
    return count;
}

/* The proved function on a copy of the bus: it writes six masks and six counts, and leaves the bus that the lines
 * leave. */
static meskvorn_answer ask_at(int line, told *drivers)
{
    meskvorn_bus copy = *bus, beside = *bus;
    uint64_t packed;
    memset(drivers, FILL, sizeof *drivers);
    packed = meskvorn_drivers(copy.rows, drivers->masks, drivers->counts);
    meskvorn_bus_lines(&beside);
    check_at(line, memcmp(&copy, &beside, sizeof copy) == 0, "the drivers leave the bus that the lines leave");
    check_at(line, is_filled(drivers->before_masks) && is_filled(drivers->after_masks), "six masks");
    check_at(line, is_filled(drivers->before_counts) && is_filled(drivers->after_counts), "six counts");
    check_at(line, packed >> 48 == 0, "six fields in the answer");
    return meskvorn_answer_of(packed);
}

/* A party drives the line if its bit is on; nobody past the last party does. */
static int parties_agree(const meskvorn_drivers_answer *drivers, meskvorn_line line, uint16_t wanted)
{
    int party, agree = 1;
    for (party = 0; party < 256; party++) {
        int drives = party < 15 && (wanted >> party & 1) == 1;
        agree = agree && meskvorn_is_driven_by(drivers, line, (uint8_t)party) == drives;
    }
    return agree;
}

/* The masks of the six lines; a line is on where its mask is not 0. A call that leads here has settled the bus, so
 * asking leaves it as it is. */
static void expect_drivers_at(int line, uint16_t atn, uint16_t dav, uint16_t nrfd, uint16_t ndac, uint16_t eoi,
                              uint16_t srq)
{
    const uint16_t wanted[MESKVORN_LINES] = {atn, dav, nrfd, ndac, eoi, srq};
    told raw;
    meskvorn_drivers_answer drivers;
    uint8_t lines = 0;
    int index;
    expect_at(line, NONE, ask_at(line, &raw));
    drivers = meskvorn_bus_drivers(bus);
    check_at(line, memcmp(bus, &last, sizeof last) == 0, "asking changes nothing");
    expect_at(line, NONE, drivers.answer);
    for (index = 0; index < MESKVORN_LINES; index++) {
        check_at(line, drivers.masks[index] == wanted[index] && raw.masks[index] == wanted[index],
                 "the parties that drive a line");
        check_at(line, drivers.counts[index] == ones(wanted[index]) && raw.counts[index] == ones(wanted[index]),
                 "how many they are");
        check_at(line, parties_agree(&drivers, (meskvorn_line)index, wanted[index]), "whether a party drives a line");
        lines = (uint8_t)(lines | (wanted[index] != 0 ? line_bits[index] : 0));
    }
    check_at(line, meskvorn_bus_lines(bus).byte == lines, "a line is on where it has a driver");
}

#define EXPECT_DRIVERS(atn, dav, nrfd, ndac, eoi, srq) \
    expect_drivers_at(__LINE__, (atn), (dav), (nrfd), (ndac), (eoi), (srq))

/* Document 01's script, record by record: party 0 talks, party 1 listens. */
static void worked_script(void)
{
    build(2);
    EXPECT_DRIVERS(0, 0, 0, 0, 0, 0);
    EXPECT(NONE, meskvorn_bus_talk_only(bus, 0, 1));
    EXPECT_DRIVERS(0, 0, 0, 0, 0, 0);
    /* ANRS. */
    EXPECT(NONE, meskvorn_bus_listen_only(bus, 1, 1));
    EXPECT_DRIVERS(0, 0, 2, 2, 0, 0);
    EXPECT(NONE, meskvorn_bus_write(bus, 0, 0x41, 1));
    EXPECT_DRIVERS(0, 0, 2, 2, 0, 0);
    EXPECT(MOVED, meskvorn_bus_step(bus, 0));
    EXPECT_DRIVERS(0, 0, 2, 2, 0, 0);
    /* ACRS. */
    EXPECT(MOVED, meskvorn_bus_step(bus, 1));
    EXPECT_DRIVERS(0, 0, 0, 2, 0, 0);
    /* STRS. */
    EXPECT("0 data 41 1 0 0", meskvorn_bus_step(bus, 0));
    EXPECT_DRIVERS(0, 1, 0, 2, 1, 0);
    /* ACDS: P2, where the lines are 78. */
    EXPECT("0 took 41 1 0 0", meskvorn_bus_step(bus, 1));
    EXPECT_DRIVERS(0, 1, 2, 2, 1, 0);
    EXPECT(NONE, meskvorn_bus_step(bus, 0));
    EXPECT_DRIVERS(0, 1, 2, 2, 1, 0);
    /* AWNS. */
    EXPECT(MOVED, meskvorn_bus_step(bus, 1));
    EXPECT_DRIVERS(0, 1, 2, 0, 1, 0);
    EXPECT("0 ended 41 1 0 0", meskvorn_bus_step(bus, 0));
    EXPECT_DRIVERS(0, 0, 2, 0, 0, 0);
    EXPECT("0 read 41 1 0 0", meskvorn_bus_read(bus, 1));
    EXPECT_DRIVERS(0, 0, 2, 0, 0, 0);
}

/* Party 0 talks to all others of so many, which are in ACRS; its byte stands. */
static void stand(uint8_t parties, uint8_t end)
{
    uint8_t party;
    build(parties);
    EXPECT(NONE, meskvorn_bus_talk_only(bus, 0, 1));
    EXPECT(NONE, meskvorn_bus_write(bus, 0, 0x41, end));
    EXPECT(MOVED, meskvorn_bus_step(bus, 0));
    for (party = 1; party < parties; party++) {
        EXPECT(NONE, meskvorn_bus_listen_only(bus, party, 1));
        EXPECT(MOVED, meskvorn_bus_step(bus, party));
    }
    EXPECT(end == 1 ? "0 data 41 1 0 0" : "0 data 41 0 0 0", meskvorn_bus_step(bus, 0));
}

static void fifteen_listeners(void)
{
    uint8_t party;
    build(15);
    for (party = 0; party < 15; party++) {
        EXPECT(NONE, meskvorn_bus_listen_only(bus, party, 1));
    }
    EXPECT_DRIVERS(0, 0, 0x7fff, 0x7fff, 0, 0);
    EXPECT(MOVED, meskvorn_bus_step(bus, 14));
    EXPECT_DRIVERS(0, 0, 0x3fff, 0x7fff, 0, 0);
    /* Fourteen, of which two take. */
    stand(15, 1);
    EXPECT_DRIVERS(0, 1, 0, 0x7ffe, 1, 0);
    EXPECT("0 took 41 1 0 0", meskvorn_bus_step(bus, 14));
    EXPECT("0 took 41 1 0 0", meskvorn_bus_step(bus, 7));
    EXPECT_DRIVERS(0, 1, 0x4080, 0x7ffe, 1, 0);
    EXPECT(MOVED, meskvorn_bus_step(bus, 7));
    EXPECT_DRIVERS(0, 1, 0x4080, 0x7f7e, 1, 0);
}

/* The sender alone drives EOI, and only with END. */
static void end_of_a_byte(void)
{
    stand(4, 1);
    EXPECT_DRIVERS(0, 1, 0, 0xe, 1, 0);
    EXPECT("0 none -- 0 0 1", meskvorn_bus_reset(bus, 0));
    EXPECT_DRIVERS(0, 0, 0, 0xe, 0, 0);
    stand(4, 0);
    EXPECT_DRIVERS(0, 1, 0, 0xe, 0, 0);
    /* A command has no END. */
    build(2);
    EXPECT(NONE, meskvorn_bus_interface_clear(bus, 0));
    EXPECT(NONE, meskvorn_bus_write(bus, 0, 0x3f, 1));
    EXPECT(MOVED, meskvorn_bus_step(bus, 1));
    EXPECT(MOVED, meskvorn_bus_step(bus, 0));
    EXPECT("0 cmd 3f 0 0 0", meskvorn_bus_step(bus, 0));
    EXPECT_DRIVERS(1, 1, 0, 2, 0, 0);
}

/* P3 and P5: party 2 joins while the byte stands, and party 1 is the one that the end waits for. */
static void who_is_waited_for(void)
{
    build(3);
    EXPECT(NONE, meskvorn_bus_talk_only(bus, 0, 1));
    EXPECT(NONE, meskvorn_bus_listen_only(bus, 1, 1));
    EXPECT(NONE, meskvorn_bus_write(bus, 0, 0x41, 1));
    EXPECT(MOVED, meskvorn_bus_step(bus, 0));
    EXPECT(MOVED, meskvorn_bus_step(bus, 1));
    EXPECT("0 data 41 1 0 0", meskvorn_bus_step(bus, 0));
    EXPECT(NONE, meskvorn_bus_listen_only(bus, 2, 1));
    EXPECT_DRIVERS(0, 1, 4, 2, 1, 0);
    EXPECT("0 took 41 1 0 0", meskvorn_bus_step(bus, 1));
    EXPECT_DRIVERS(0, 1, 6, 2, 1, 0);
    EXPECT(MOVED, meskvorn_bus_step(bus, 1));
    EXPECT_DRIVERS(0, 1, 6, 0, 1, 0);
}

/* The next byte waits for party 2, whose data-in is full: it is the one that holds NRFD. */
static void who_holds_a_hung_bus(void)
{
    uint8_t party;
    stand(3, 0);
    for (party = 1; party < 3; party++) {
        EXPECT("0 took 41 0 0 0", meskvorn_bus_step(bus, party));
        EXPECT(MOVED, meskvorn_bus_step(bus, party));
    }
    EXPECT("0 ended 41 0 0 0", meskvorn_bus_step(bus, 0));
    EXPECT("0 read 41 0 0 0", meskvorn_bus_read(bus, 1));
    EXPECT(NONE, meskvorn_bus_write(bus, 0, 0x42, 0));
    EXPECT(MOVED, meskvorn_bus_step(bus, 0));
    CHECK(meskvorn_bus_give_turns(bus, 1000, NULL) == MESKVORN_REFUSAL_ACCEPTED);
    last = *bus;
    EXPECT_DRIVERS(0, 0, 4, 6, 0, 0);
    EXPECT("0 read 41 0 0 0", meskvorn_bus_read(bus, 2));
    EXPECT_DRIVERS(0, 0, 4, 6, 0, 0);
    EXPECT(MOVED, meskvorn_bus_step(bus, 2));
    EXPECT_DRIVERS(0, 0, 0, 6, 0, 0);
}

/* The active party 0 sends a command; its first, second and fourth turns offer, put and end it. */
static void command(uint8_t byte)
{
    EXPECT(NONE, meskvorn_bus_write(bus, 0, byte, 0));
    CHECK(meskvorn_bus_give_turns(bus, 4 * 3, NULL) == MESKVORN_REFUSAL_ACCEPTED);
    last = *bus;
}

/* Three parties, of which 1 and 2 ask for service; 0 takes control and polls 1. */
static void requests_and_control(void)
{
    build(3);
    EXPECT(NONE, meskvorn_bus_poll_register(bus, 2, 0x40));
    EXPECT_DRIVERS(0, 0, 0, 0, 0, 4);
    EXPECT(NONE, meskvorn_bus_poll_register(bus, 1, 0x41));
    EXPECT_DRIVERS(0, 0, 0, 0, 0, 6);
    EXPECT(NONE, meskvorn_bus_interface_clear(bus, 0));
    EXPECT_DRIVERS(1, 0, 6, 6, 0, 6);
    command(0x18);
    EXPECT_DRIVERS(1, 0, 6, 6, 0, 6);
    command(0x46);
    EXPECT_DRIVERS(1, 0, 6, 6, 0, 6);
    /* Party 1 is polled, and in APRS. */
    EXPECT(NONE, meskvorn_bus_go_to_standby(bus, 0));
    EXPECT_DRIVERS(0, 0, 0, 0, 0, 4);
    EXPECT(NONE, meskvorn_bus_take_control(bus, 0));
    EXPECT_DRIVERS(1, 0, 6, 6, 0, 4);
    EXPECT(NONE, meskvorn_bus_poll_register(bus, 2, 0));
    EXPECT_DRIVERS(1, 0, 6, 6, 0, 0);
    /* TCT: party 1 talks, so control goes to it. Party 2 has had its turn since, and is in ACRS. */
    command(0x09);
    EXPECT_DRIVERS(2, 0, 1, 5, 0, 0);
}

static void every_party_has_its_bit(void)
{
    uint8_t party;
    for (party = 0; party < 15; party++) {
        uint16_t own = (uint16_t)(1 << party), others = (uint16_t)(0x7fff - own);
        EXPECT(NONE, meskvorn_bus_build(bus, addresses, 15, party));
        EXPECT(NONE, meskvorn_bus_poll_register(bus, party, 0xff));
        EXPECT_DRIVERS(0, 0, 0, 0, 0, own);
        EXPECT(NONE, meskvorn_bus_listen_only(bus, party, 1));
        EXPECT_DRIVERS(0, 0, own, own, 0, own);
        EXPECT(NONE, meskvorn_bus_interface_clear(bus, party));
        EXPECT_DRIVERS(own, 0, others, others, 0, own);
    }
}

/* There is nobody on the bus of no parties, and no operation by which meskvorn_call knows the drivers. */
static void no_parties_and_no_operation(void)
{
    EXPECT(REFUSED(2), meskvorn_bus_build(bus, addresses, 0, 0));
    EXPECT_DRIVERS(0, 0, 0, 0, 0, 0);
    EXPECT(REFUSED(3), meskvorn_bus_call(bus, MESKVORN_OPERATION_SECOND_REQUEST + 1, 0, 0, 0));
    stand(2, 1);
    EXPECT(REFUSED(3), meskvorn_bus_call(bus, MESKVORN_OPERATION_SECOND_REQUEST + 1, 0, 0, 0));
    EXPECT_DRIVERS(0, 1, 0, 2, 1, 0);
}

/* Fills the stack below its caller, where what is called next has its locals. */
static void fill_stack(void)
{
    volatile uint8_t below[4096];
    size_t at;
    for (at = 0; at < sizeof below; at++) {
        below[at] = FILL;
    }
    CHECK(below[0] == FILL);
}

/* Its own locals, and those of the function that it calls, lie where the stack was filled. */
static void nobody_on_a_null_bus(void)
{
    meskvorn_drivers_answer (*volatile drivers_of)(meskvorn_bus *) = meskvorn_bus_drivers;
    meskvorn_drivers_answer drivers = drivers_of(NULL);
    int index;
    for (index = 0; index < MESKVORN_LINES; index++) {
        CHECK(drivers.masks[index] == 0 && drivers.counts[index] == 0);
    }
    EXPECT(REFUSED(10), drivers.answer);
}

/* Through pointers that the compiler can't see through, so that neither is inlined. */
static void null_bus(void)
{
    void (*volatile first)(void) = fill_stack;
    void (*volatile second)(void) = nobody_on_a_null_bus;
    first();
    second();
}

/* Where every bit is on, each of fifteen parties drives each of six lines, and nobody anything else. */
static void no_seventh_line(void)
{
    meskvorn_drivers_answer all;
    volatile int line;
    int party;
    memset(&all, 0xff, sizeof all);
    for (line = 0; line < 8; line++) {
        for (party = 0; party < 256; party++) {
            int drives = line < MESKVORN_LINES && party < MESKVORN_MOST_PARTIES;
            CHECK(meskvorn_is_driven_by(&all, (meskvorn_line)line, (uint8_t)party) == drives);
        }
        CHECK(meskvorn_is_driven_by(NULL, (meskvorn_line)line, 0) == 0);
    }
}

/* Whatever the memory held, the drivers are those of the bus as it is found, and so are the lines. A standing byte's
 * sender may be no party there. */
static void expect_any_bus(void)
{
    told drivers;
    meskvorn_bus beside = *bus;
    meskvorn_answer lines = meskvorn_bus_lines(&beside), answer = ask_at(__LINE__, &drivers);
    int index;
    CHECK(answer.refusal == MESKVORN_REFUSAL_ACCEPTED && answer.event == MESKVORN_EVENT_NONE && answer.byte == 0);
    CHECK(answer.end == 0 && answer.dropped == 0 && answer.broken == lines.broken);
    for (index = 0; index < MESKVORN_LINES; index++) {
        uint16_t mask = drivers.masks[index];
        CHECK(mask < 0x8000 && drivers.counts[index] == ones(mask));
        CHECK(index == MESKVORN_DRIVERS_OF_EOI || (mask != 0) == ((lines.byte & line_bits[index]) != 0));
    }
}

/* All bytes alike, then bytes below eight. */
static void any_content(void)
{
    uint16_t state = 488;
    int content, round;
    for (content = 0; content < 256; content++) {
        memset(bus, content, sizeof *bus);
        expect_any_bus();
    }
    for (round = 0; round < 2000; round++) {
        mix(&state, 7);
        expect_any_bus();
    }
}

int main(void)
{
    begin();
    worked_script();
    fifteen_listeners();
    end_of_a_byte();
    who_is_waited_for();
    who_holds_a_hung_bus();
    requests_and_control();
    every_party_has_its_bit();
    no_parties_and_no_operation();
    null_bus();
    no_seventh_line();
    any_content();
    return report("host/drivers_test.c");
}
