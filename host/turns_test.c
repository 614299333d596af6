/* Runs through meskvorn.h: who has its turn, how many turns each party had, and the bus after them.
 * What is expected is worked out from document 01 and from document 02's. */
#include "check.h"

enum { PLAIN = MESKVORN_NO_SECONDARY, MOST = MESKVORN_MOST_PARTIES };

/* A run that is to be answered with this refusal and these counts. */
static void expect_counts_at(int line, uint16_t turns, meskvorn_refusal refusal, const uint16_t wanted[MOST])
{
    struct {
        uint16_t before, counts[MOST], after;
    } told;
    memset(&told, FILL, sizeof told);
    check_at(line, meskvorn_bus_give_turns(bus, turns, told.counts) == refusal, "the refusal of the run");
    check_at(line, memcmp(told.counts, wanted, sizeof told.counts) == 0, "the counts of the run");
    check_at(line,
             filled((uint8_t *)&told.before, sizeof told.before) && filled((uint8_t *)&told.after, sizeof told.after),
             "no sixteenth count");
    check_at(line, filled(memory.before, GUARD) && filled(memory.after, GUARD), "the bus keeps to its memory");
    if (turns == 0 || refusal != MESKVORN_REFUSAL_ACCEPTED) {
        check_at(line, memcmp(bus, &last, sizeof last) == 0, "a run of no turns or a refused one changes nothing");
    }
    last = *bus;
}

/* The same, with these counts for parties 0, 1 and 2; all others are 0. */
static void expect_turns_at(int line, uint16_t turns, meskvorn_refusal refusal, uint16_t first, uint16_t second,
                            uint16_t third)
{
    uint16_t wanted[MOST] = {0};
    wanted[0] = first;
    wanted[1] = second;
    wanted[2] = third;
    expect_counts_at(line, turns, refusal, wanted);
}

#define EXPECT_TURNS(turns, refusal, first, second, third) \
    expect_turns_at(__LINE__, (turns), (refusal), (first), (second), (third))

/* Party 0 has a byte for party 1, as in document 01's script before its steps. */
static void offer(size_t parties)
{
    build(parties);
    EXPECT(NONE, meskvorn_bus_talk_only(bus, 0, 1));
    EXPECT(NONE, meskvorn_bus_listen_only(bus, 1, 1));
    EXPECT(NONE, meskvorn_bus_write(bus, 0, 0x41, 1));
}

/* The seven steps of document 01's script are one run: 0, 1, 0, 1, 0, 1, 0. Six leave the byte standing, let go of by
 * its listener. */
static void p1_by_a_run(void)
{
    meskvorn_bus after_steps;
    int turn;
    offer(2);
    for (turn = 0; turn < 7; turn++) {
        meskvorn_bus_step(bus, (uint8_t)(turn % 2));
    }
    after_steps = *bus;
    offer(2);
    EXPECT_TURNS(7, MESKVORN_REFUSAL_ACCEPTED, 4, 3, 0);
    CHECK(memcmp(bus, &after_steps, sizeof *bus) == 0);
    EXPECT("0 lines 10 0 0 0", meskvorn_bus_lines(bus));
    EXPECT("0 read 41 1 0 0", meskvorn_bus_read(bus, 1));
    offer(2);
    EXPECT_TURNS(6, MESKVORN_REFUSAL_ACCEPTED, 3, 3, 0);
    EXPECT("0 lines 58 0 0 0", meskvorn_bus_lines(bus));
    EXPECT("0 ended 41 1 0 0", meskvorn_bus_step(bus, 0));
}

/* Each run begins anew with the lowest address, here party 0's, whoever had the last turn of the run before. */
static void runs_one_after_another(void)
{
    offer(3);
    EXPECT_TURNS(0, MESKVORN_REFUSAL_ACCEPTED, 0, 0, 0);
    EXPECT_TURNS(1, MESKVORN_REFUSAL_ACCEPTED, 1, 0, 0);
    EXPECT_TURNS(2, MESKVORN_REFUSAL_ACCEPTED, 1, 1, 0);
    EXPECT("0 data 41 1 0 0", meskvorn_bus_step(bus, 0));
    EXPECT_TURNS(5, MESKVORN_REFUSAL_ACCEPTED, 2, 2, 1);
    EXPECT("0 ended 41 1 0 0", meskvorn_bus_step(bus, 0));
    EXPECT("0 read 41 1 0 0", meskvorn_bus_read(bus, 1));
}

static void long_runs(void)
{
    offer(2);
    EXPECT_TURNS(65535, MESKVORN_REFUSAL_ACCEPTED, 32768, 32767, 0);
    EXPECT("0 read 41 1 0 0", meskvorn_bus_read(bus, 1));
    EXPECT(REFUSED(9), meskvorn_bus_read(bus, 1));
    build(1);
    EXPECT_TURNS(65535, MESKVORN_REFUSAL_ACCEPTED, 65535, 0, 0);
    build(3);
    EXPECT_TURNS(65535, MESKVORN_REFUSAL_ACCEPTED, 21845, 21845, 21845);
}

static void every_party_has_its_turns(void)
{
    uint16_t counts[MOST];
    int party;
    build(15);
    CHECK(meskvorn_bus_give_turns(bus, 7 * 15 + 4, counts) == MESKVORN_REFUSAL_ACCEPTED);
    for (party = 0; party < 15; party++) {
        CHECK(counts[party] == (party < 4 ? 8 : 7));
    }
}

/* A rack: the addresses by party number, and the parties as their turns go. */
typedef struct rack {
    size_t parties;
    uint8_t primaries[MOST], secondaries[MOST], order[MOST];
} rack;

/* The talker has a byte for all others, which listen. The last party is the system party. */
static void offer_to_all(const rack *on, uint8_t talker)
{
    uint8_t party, system = (uint8_t)(on->parties - 1);
    EXPECT(NONE, meskvorn_bus_build_extended(bus, on->primaries, on->secondaries, on->parties, system));
    EXPECT(NONE, meskvorn_bus_talk_only(bus, talker, 1));
    EXPECT(NONE, meskvorn_bus_write(bus, talker, 0x41, 1));
    for (party = 0; party < on->parties; party++) {
        if (party != talker) {
            EXPECT(NONE, meskvorn_bus_listen_only(bus, party, 1));
        }
    }
}

/* In the first round a listener drives NRFD until it has its turn, which takes it from ANRS to ACRS. */
static void expect_waiting_at(int line, const rack *on, uint8_t talker, size_t turns)
{
    int waiting = 0;
    size_t at;
    for (at = turns; at < on->parties; at++) {
        waiting |= on->order[at] == talker ? 0 : 1 << on->order[at];
    }
    check_at(line, meskvorn_bus_drivers(bus).masks[MESKVORN_DRIVERS_OF_NRFD] == waiting, "who waits for a turn");
}

/* Runs of up to three rounds and a turn: each has the counts of its order, and leaves the bus of its single steps. */
static void expect_order_at(int line, const rack *on, uint8_t talker)
{
    meskvorn_bus start, by_steps;
    uint16_t wanted[MOST] = {0};
    size_t turns;
    offer_to_all(on, talker);
    start = by_steps = *bus;
    for (turns = 0; turns <= 3 * on->parties + 1; turns++) {
        *bus = last = start;
        expect_counts_at(line, (uint16_t)turns, MESKVORN_REFUSAL_ACCEPTED, wanted);
        check_at(line, same_bus(bus, &by_steps), "a run is its steps");
        if (turns <= on->parties) {
            expect_waiting_at(line, on, talker, turns);
        }
        wanted[on->order[turns % on->parties]]++;
        meskvorn_bus_step(&by_steps, on->order[turns % on->parties]);
    }
}

/* The turns go in the rack's order whoever talks, and seven rounds bring the byte to all others. */
static void expect_rack_at(int line, const rack *on)
{
    uint8_t talker, party;
    for (talker = 0; talker < on->parties; talker++) {
        expect_order_at(line, on, talker);
        offer_to_all(on, talker);
        give_turns((uint16_t)(7 * on->parties));
        for (party = 0; party < on->parties; party++) {
            expect_at(line, party == talker ? REFUSED(9) : "0 read 41 1 0 0", meskvorn_bus_read(bus, party));
        }
    }
}

#define EXPECT_RACK(on) expect_rack_at(__LINE__, (on))

static void primaries_decide(void)
{
    static const rack descending = {3, {9, 6, 3}, {PLAIN, PLAIN, PLAIN}, {2, 1, 0}};
    static const rack mixed = {3, {9, 3, 6}, {PLAIN, PLAIN, PLAIN}, {1, 2, 0}};
    static const rack first_as_before = {3, {3, 9, 6}, {PLAIN, PLAIN, PLAIN}, {0, 2, 1}};
    static const rack farthest = {2, {30, 0}, {PLAIN, PLAIN}, {1, 0}};
    static const rack in_order = {4, {0, 15, 16, 30}, {PLAIN, PLAIN, PLAIN, PLAIN}, {0, 1, 2, 3}};
    EXPECT_RACK(&descending);
    EXPECT_RACK(&mixed);
    EXPECT_RACK(&first_as_before);
    EXPECT_RACK(&farthest);
    EXPECT_RACK(&in_order);
}

/* At one primary the secondaries decide, and else they do not count. */
static void then_secondaries(void)
{
    static const rack at_one_primary = {4, {2, 2, 2, 2}, {30, 16, 15, 0}, {3, 2, 1, 0}};
    static const rack against_primaries = {3, {9, 6, 3}, {0, 15, 30}, {2, 1, 0}};
    /* 7/3, 5, 7/1, 2/30, 7/0 and 2/4. */
    static const rack both = {6, {7, 5, 7, 2, 7, 2}, {3, PLAIN, 1, 30, 0, 4}, {5, 3, 1, 4, 2, 0}};
    /* 4, 2/12, 2/13 and 1. */
    static const rack plain_ones = {4, {4, 2, 2, 1}, {PLAIN, 12, 13, PLAIN}, {3, 1, 2, 0}};
    static const rack in_order = {4, {1, 2, 2, 3}, {PLAIN, 12, 13, PLAIN}, {0, 1, 2, 3}};
    EXPECT_RACK(&at_one_primary);
    EXPECT_RACK(&against_primaries);
    EXPECT_RACK(&both);
    EXPECT_RACK(&plain_ones);
    EXPECT_RACK(&in_order);
}

/* 3, 5/1, 5/4 and 9, numbered in all 24 ways. */
static void numbered_at_will(void)
{
    static const uint8_t primaries[4] = {3, 5, 5, 9}, secondaries[4] = {PLAIN, 1, 4, PLAIN};
    int code, at, ways = 0;
    for (code = 0; code < 256; code++) {
        rack numbered = {4, {0}, {0}, {0}};
        int seen = 0;
        for (at = 0; at < 4; at++) {
            uint8_t party = (uint8_t)(code >> 2 * at & 3);
            seen |= 1 << party;
            numbered.primaries[party] = primaries[at];
            numbered.secondaries[party] = secondaries[at];
            numbered.order[at] = party;
        }
        if (seen == 15) {
            EXPECT_RACK(&numbered);
            ways++;
        }
    }
    CHECK(ways == 24);
}

/* At 30 down to 16, at 9/14 down to 9/0, and mixed: party 13 k mod 15 is at 14 times 13 k mod 30, which is 2 k. */
static void fifteen_parties(void)
{
    rack apart, together, mixed;
    uint16_t wanted[MOST];
    uint8_t party;
    apart.parties = together.parties = mixed.parties = MOST;
    for (party = 0; party < MOST; party++) {
        apart.primaries[party] = (uint8_t)(30 - party);
        mixed.primaries[party] = (uint8_t)(14 * party % 30);
        mixed.order[party] = (uint8_t)(13 * party % 15);
        apart.secondaries[party] = mixed.secondaries[party] = PLAIN;
        together.primaries[party] = 9;
        together.secondaries[party] = apart.order[party] = together.order[party] = (uint8_t)(14 - party);
        wanted[party] = party > 10 ? 8 : 7;
    }
    EXPECT_RACK(&apart);
    EXPECT_RACK(&together);
    EXPECT_RACK(&mixed);
    offer_to_all(&together, 3);
    expect_counts_at(__LINE__, 7 * 15 + 4, MESKVORN_REFUSAL_ACCEPTED, wanted);
}

/* The lines after runs of 0 to 8 turns from one start: party 0 at this address talks, party 1 at the other listens. */
static void expect_course_at(int line, uint8_t talker, uint8_t listener, const uint8_t lines[9])
{
    const uint8_t two[2] = {talker, listener};
    uint16_t turns;
    for (turns = 0; turns <= 8; turns++) {
        EXPECT(NONE, meskvorn_bus_build(bus, two, 2, 0));
        EXPECT(NONE, meskvorn_bus_talk_only(bus, 0, 1));
        EXPECT(NONE, meskvorn_bus_listen_only(bus, 1, 1));
        EXPECT(NONE, meskvorn_bus_write(bus, 0, 0x41, 1));
        give_turns(turns);
        check_at(line, meskvorn_bus_lines(bus).byte == lines[turns], "the lines after the run");
    }
}

/* If the talker comes first, the byte stands with the third turn and ends with the seventh. If the listener does, with
 * the fourth and the eighth: its second turn finds no byte. */
static void course_of_a_byte(void)
{
    static const uint8_t talker_first[9] = {0x30, 0x30, 0x20, 0x68, 0x78, 0x78, 0x58, 0x10, 0x30};
    static const uint8_t listener_first[9] = {0x30, 0x20, 0x20, 0x20, 0x68, 0x78, 0x78, 0x58, 0x10};
    expect_course_at(__LINE__, 5, 6, talker_first);
    expect_course_at(__LINE__, 6, 5, listener_first);
}

/* The active party 0, at the highest address, comes last: its command is put up with the sixth turn, and ends with the
 * twelfth. */
static void course_of_a_command(void)
{
    static const uint8_t three[3] = {7, 5, 6}, lines[5] = {0xb0, 0xa0, 0xe0, 0xf0, 0x90};
    uint16_t round;
    for (round = 0; round < 5; round++) {
        EXPECT(NONE, meskvorn_bus_build(bus, three, 3, 0));
        EXPECT(NONE, meskvorn_bus_interface_clear(bus, 0));
        EXPECT(NONE, meskvorn_bus_write(bus, 0, 0x3f, 0));
        EXPECT_TURNS((uint16_t)(3 * round), MESKVORN_REFUSAL_ACCEPTED, round, round, round);
        CHECK(meskvorn_bus_lines(bus).byte == lines[round]);
    }
}

/* All listen, so that who had no turn yet drives NRFD. A new build has a new order. */
static void each_run_from_the_lowest_address(void)
{
    static const uint8_t mixed[3] = {9, 3, 6}, other[3] = {6, 9, 3};
    static const uint8_t turns[6] = {1, 1, 2, 1, 2, 3}, waiting[6] = {5, 5, 1, 1, 1, 0};
    uint8_t at;
    EXPECT(NONE, meskvorn_bus_build(bus, mixed, 3, 0));
    for (at = 0; at < 3; at++) {
        EXPECT(NONE, meskvorn_bus_listen_only(bus, at, 1));
    }
    for (at = 0; at < 6; at++) {
        EXPECT_TURNS(turns[at], MESKVORN_REFUSAL_ACCEPTED, turns[at] > 2, 1, turns[at] > 1);
        CHECK(meskvorn_bus_drivers(bus).masks[MESKVORN_DRIVERS_OF_NRFD] == waiting[at]);
    }
    EXPECT_TURNS(65534, MESKVORN_REFUSAL_ACCEPTED, 21844, 21845, 21845);
    EXPECT(NONE, meskvorn_bus_build(bus, other, 3, 0));
    EXPECT_TURNS(1, MESKVORN_REFUSAL_ACCEPTED, 0, 0, 1);
    EXPECT_TURNS(5, MESKVORN_REFUSAL_ACCEPTED, 2, 1, 2);
}

/* A bus of no parties is refused, and left; NULL for the counts leaves them out, and NULL for the bus writes none. */
static void runs_refused_and_null(void)
{
    uint16_t counts[MOST];
    EXPECT(REFUSED(2), meskvorn_bus_build(bus, addresses, 0, 0));
    EXPECT_TURNS(0, MESKVORN_REFUSAL_NOPARTY, 0, 0, 0);
    EXPECT_TURNS(65535, MESKVORN_REFUSAL_NOPARTY, 0, 0, 0);
    CHECK(meskvorn_bus_give_turns(bus, 7, NULL) == MESKVORN_REFUSAL_NOPARTY);
    CHECK(memcmp(bus, &last, sizeof last) == 0);
    memset(counts, FILL, sizeof counts);
    CHECK(meskvorn_bus_give_turns(NULL, 7, counts) == MESKVORN_REFUSAL_RECORD);
    CHECK(meskvorn_bus_give_turns(NULL, 7, NULL) == MESKVORN_REFUSAL_RECORD);
    CHECK(filled((uint8_t *)counts, sizeof counts));
    offer(2);
    CHECK(meskvorn_bus_give_turns(bus, 7, NULL) == MESKVORN_REFUSAL_ACCEPTED);
    EXPECT("0 read 41 1 0 0", meskvorn_bus_read(bus, 1));
}

/* A run on whatever the memory holds: it keeps to it, and gives all its turns, or is refused and changes no byte. */
static meskvorn_refusal run_on_any_content(void)
{
    const meskvorn_bus before = *bus;
    uint16_t counts[MOST];
    unsigned given = 0;
    int party;
    meskvorn_refusal refusal = meskvorn_bus_give_turns(bus, 31, counts);
    for (party = 0; party < MOST; party++) {
        given += counts[party];
    }
    CHECK(refusal == MESKVORN_REFUSAL_ACCEPTED || refusal == MESKVORN_REFUSAL_NOPARTY);
    CHECK(given == (refusal == MESKVORN_REFUSAL_ACCEPTED ? 31 : 0));
    CHECK(refusal == MESKVORN_REFUSAL_ACCEPTED || memcmp(bus, &before, sizeof before) == 0);
    CHECK(filled(memory.before, GUARD) && filled(memory.after, GUARD));
    return refusal;
}

/* Parties alike, as no build has them, have their turns by number. */
static void run_of_parties_alike(void)
{
    uint16_t counts[MOST];
    int party;
    CHECK(meskvorn_bus_give_turns(bus, 31, counts) == MESKVORN_REFUSAL_ACCEPTED);
    for (party = 1; party < MOST; party++) {
        CHECK(counts[party] <= counts[party - 1]);
    }
}

/* All bytes alike, then the bus of no parties with one byte that no build leaves there. */
static void any_content(void)
{
    static const uint8_t odd[4] = {1, 15, 128, 255};
    int content, refused = 0;
    size_t at;
    for (content = 0; content < 256; content++) {
        memset(bus, content, sizeof *bus);
        CHECK(run_on_any_content() == (content == 0 ? MESKVORN_REFUSAL_NOPARTY : MESKVORN_REFUSAL_ACCEPTED));
        if (content != 0) {
            run_of_parties_alike();
        }
    }
    for (at = 0; at < 4 * sizeof *bus; at++) {
        memset(bus, 0, sizeof *bus);
        ((uint8_t *)bus)[at / 4] = odd[at % 4];
        refused += run_on_any_content() == MESKVORN_REFUSAL_NOPARTY;
    }
    CHECK(refused > 1000 && refused < 4 * (int)sizeof *bus);
}

int main(void)
{
    begin();
    p1_by_a_run();
    runs_one_after_another();
    long_runs();
    every_party_has_its_turns();
    primaries_decide();
    then_secondaries();
    numbered_at_will();
    fifteen_parties();
    course_of_a_byte();
    course_of_a_command();
    each_run_from_the_lowest_address();
    runs_refused_and_null();
    any_content();
    return report("host/turns_test.c");
}
