/* Secondary addresses through meskvorn.h: builds, names, and parties that two bytes address.
 * What is expected is worked out from document 01 and from document 02's Q-3. */
#include "check.h"

enum { PLAIN = MESKVORN_NO_SECONDARY, PARTIES = 4 };

/* Parties 1, 2/12, 2/13 and 3; party 0 is the system party. */
static const uint8_t primaries[PARTIES] = {1, 2, 2, 3};
static const uint8_t secondaries[PARTIES] = {PLAIN, 12, 13, PLAIN};

static meskvorn_bus no_parties;

/* Party 0 is active. */
static void take_the_bus(void)
{
    EXPECT(NONE, meskvorn_bus_build_extended(bus, primaries, secondaries, PARTIES, 0));
    EXPECT(NONE, meskvorn_bus_interface_clear(bus, 0));
}

static void commands(const char *text)
{
    send_commands(PARTIES, text);
}

static void expect_after_at(int line, const char *wanted, const char *text)
{
    take_the_bus();
    commands(text);
    expect_roles_at(line, wanted);
}

/* Who talks and listens after these commands. */
#define EXPECT_AFTER(wanted, text) expect_after_at(__LINE__, (wanted), (text))

static void two_bytes_address(void)
{
    EXPECT_AFTER("....", "42");
    EXPECT_AFTER("....", "22");
    EXPECT_AFTER("....", "6c");
    EXPECT_AFTER(".T..", "42 6c");
    EXPECT_AFTER("..L.", "22 6d");
    EXPECT_AFTER(".LL.", "22 6c 6d");
    EXPECT_AFTER(".TL.", "22 6d 42 6c");
    EXPECT_AFTER(".T..", "c2 ec");
    /* A plain party is addressed by its primary, and a secondary after it is for nobody. */
    EXPECT_AFTER("...T", "43 6c");
    EXPECT_AFTER("T...", "41 6d");
}

static void talk_moves_and_ends(void)
{
    EXPECT_AFTER("..T.", "42 6c 6d");
    EXPECT_AFTER("....", "42 6c 6e");
    EXPECT_AFTER(".L..", "22 6c 6e");
    EXPECT_AFTER(".T..", "42 6c 42");
    EXPECT_AFTER("...T", "42 6c 43");
    EXPECT_AFTER("....", "42 6c 5f");
    EXPECT_AFTER("....", "22 6c 3f");
    EXPECT_AFTER(".L..", "42 6c 22 6c");
    EXPECT_AFTER(".T..", "22 6c 42 6c");
}

static void marks_lost_and_kept_by_commands(void)
{
    EXPECT_AFTER("....", "42 14 6c");
    EXPECT_AFTER("....", "22 18 6c");
    EXPECT_AFTER("....", "42 01 6c");
    EXPECT_AFTER("....", "42 23 6c 3f");
    EXPECT_AFTER(".T..", "42 6c 14 6d");
    EXPECT_AFTER(".L..", "42 22 6c");
    EXPECT_AFTER(".T..", "42 7f 6c");
    EXPECT_AFTER("..L.", "22 7f 6d");
    EXPECT_AFTER(".T..", "42 6e 6c");
}

static void marks_lost_by_host_calls(void)
{
    take_the_bus();
    commands("42");
    EXPECT(NONE, meskvorn_bus_go_to_standby(bus, 0));
    EXPECT(NONE, meskvorn_bus_take_control(bus, 0));
    commands("6c");
    EXPECT_ROLES("....");
    commands("42");
    EXPECT(NONE, meskvorn_bus_interface_clear(bus, 0));
    commands("6c");
    EXPECT_ROLES("....");
    /* A reset costs that party's mark alone. */
    commands("42");
    EXPECT(NONE, meskvorn_bus_reset(bus, 1));
    commands("6c");
    EXPECT_ROLES("....");
    commands("6d");
    EXPECT_ROLES("..T.");
    /* The switches and the poll register leave it. */
    commands("22");
    EXPECT(NONE, meskvorn_bus_listen_only(bus, 1, 1));
    EXPECT(NONE, meskvorn_bus_listen_only(bus, 1, 0));
    EXPECT(NONE, meskvorn_bus_talk_only(bus, 1, 0));
    EXPECT(NONE, meskvorn_bus_poll_register(bus, 1, 1));
    commands("6c");
    EXPECT_ROLES(".LT.");
}

/* A secondary, and 7F, are heard like any command; the sender hears them when they end. */
static void sender_and_events(void)
{
    static const uint8_t both[2] = {2, 2}, second[2] = {12, 13};
    EXPECT(NONE, meskvorn_bus_build_extended(bus, both, second, 2, 0));
    EXPECT(NONE, meskvorn_bus_interface_clear(bus, 0));
    EXPECT(NONE, meskvorn_bus_write(bus, 0, 0x42, 0));
    give_turns(8);
    EXPECT(NONE, meskvorn_bus_write(bus, 0, 0x6c, 0));
    EXPECT(MOVED, meskvorn_bus_step(bus, 0));
    EXPECT(MOVED, meskvorn_bus_step(bus, 1));
    EXPECT("0 cmd 6c 0 0 0", meskvorn_bus_step(bus, 0));
    EXPECT("0 heard 6c 0 0 0", meskvorn_bus_step(bus, 1));
    EXPECT(MOVED, meskvorn_bus_step(bus, 1));
    EXPECT(REFUSED(5), meskvorn_bus_talk_only(bus, 0, 1));
    EXPECT("0 ended 6c 0 0 0", meskvorn_bus_step(bus, 0));
    EXPECT(REFUSED(4), meskvorn_bus_listen_only(bus, 0, 1));
    EXPECT(NONE, meskvorn_bus_write(bus, 0, 0x7f, 0));
    EXPECT(MOVED, meskvorn_bus_step(bus, 0));
    EXPECT(MOVED, meskvorn_bus_step(bus, 1));
    EXPECT(MOVED, meskvorn_bus_step(bus, 1));
    EXPECT("0 cmd 7f 0 0 0", meskvorn_bus_step(bus, 0));
    EXPECT("0 heard 7f 0 0 0", meskvorn_bus_step(bus, 1));
}

static void data_status_and_control(void)
{
    take_the_bus();
    EXPECT(NONE, meskvorn_bus_poll_register(bus, 2, 0x41));
    EXPECT("0 lines b4 0 0 0", meskvorn_bus_lines(bus));
    EXPECT(NONE, meskvorn_bus_poll_register(bus, 2, 0x01));
    commands("22 6d 42 6c");
    EXPECT(NONE, meskvorn_bus_go_to_standby(bus, 0));
    EXPECT(NONE, meskvorn_bus_write(bus, 1, 0x55, 1));
    give_turns(7 * PARTIES);
    EXPECT("0 read 55 1 0 0", meskvorn_bus_read(bus, 2));
    EXPECT(NONE, meskvorn_bus_take_control(bus, 0));
    commands("3f 21 18 42 6d");
    EXPECT(NONE, meskvorn_bus_go_to_standby(bus, 0));
    give_turns(7 * PARTIES);
    EXPECT("0 read 01 0 0 0", meskvorn_bus_read(bus, 0));
    EXPECT(NONE, meskvorn_bus_take_control(bus, 0));
    EXPECT(NONE, meskvorn_bus_write(bus, 0, 0x09, 0));
    give_turns(4 * PARTIES);
    EXPECT(REFUSED(4), meskvorn_bus_go_to_standby(bus, 0));
    EXPECT(NONE, meskvorn_bus_go_to_standby(bus, 2));
}

static void expect_build_at(int line, const char *wanted, uint8_t first, uint8_t first_own, uint8_t other,
                            uint8_t other_own)
{
    const uint8_t two[2] = {first, other}, own[2] = {first_own, other_own};
    expect_at(line, wanted, meskvorn_bus_build_extended(bus, two, own, 2, 1));
    check_at(line, (strcmp(wanted, NONE) == 0) != (memcmp(bus, &no_parties, sizeof *bus) == 0),
             "a refused build leaves no parties");
}

/* A build of two parties, each by its address and its secondary. */
#define EXPECT_BUILD(wanted, first, first_own, other, other_own) \
    expect_build_at(__LINE__, (wanted), (first), (first_own), (other), (other_own))

static void builds_of_two(void)
{
    EXPECT_BUILD(NONE, 2, 12, 2, 13);
    EXPECT_BUILD(NONE, 2, 12, 3, 12);
    EXPECT_BUILD(NONE, 2, PLAIN, 3, PLAIN);
    EXPECT_BUILD(NONE, 30, 30, 30, 0);
    EXPECT_BUILD(NONE, 0, 0, 2, PLAIN);
    EXPECT_BUILD(REFUSED(2), 2, 12, 2, 12);
    EXPECT_BUILD(REFUSED(2), 2, PLAIN, 2, 12);
    EXPECT_BUILD(REFUSED(2), 2, 12, 2, PLAIN);
    EXPECT_BUILD(REFUSED(2), 2, PLAIN, 2, PLAIN);
    EXPECT_BUILD(REFUSED(2), 2, 31, 3, 0);
    EXPECT_BUILD(REFUSED(2), 2, 0, 3, 254);
    EXPECT_BUILD(REFUSED(2), 31, 0, 3, 0);
    EXPECT_BUILD(REFUSED(2), 2, 12, 255, 13);
}

static void every_secondary(void)
{
    static const uint8_t address = 7;
    int number;
    for (number = 0; number < 256; number++) {
        uint8_t secondary = (uint8_t)number;
        int good = number <= 30 || number == PLAIN;
        EXPECT(good ? NONE : REFUSED(2), meskvorn_bus_build_extended(bus, &address, &secondary, 1, 0));
        CHECK(meskvorn_bus_name(bus, 0).present == good);
        CHECK(!good || meskvorn_bus_name(bus, 0).secondary == secondary);
    }
}

/* Fifteen parties at one primary, and sixteen; no parties; no such system party. */
static void numbers_of_parties(void)
{
    uint8_t same[16], second[16];
    uint8_t party;
    for (party = 0; party < 16; party++) {
        same[party] = 9;
        second[party] = (uint8_t)(30 - party);
    }
    EXPECT(NONE, meskvorn_bus_build_extended(bus, same, second, 15, 14));
    CHECK(meskvorn_bus_name(bus, 14).secondary == 16);
    EXPECT(NONE, meskvorn_bus_interface_clear(bus, 14));
    EXPECT(REFUSED(2), meskvorn_bus_build_extended(bus, same, second, 15, 15));
    EXPECT(REFUSED(2), meskvorn_bus_build_extended(bus, same, second, 16, 0));
    EXPECT(REFUSED(2), meskvorn_bus_build_extended(bus, same, second, 0, 0));
    EXPECT(REFUSED(2), meskvorn_bus_build_extended(bus, NULL, NULL, 0, 0));
    EXPECT(REFUSED(1), meskvorn_bus_step(bus, 0));
}

static void expect_name_at(int line, uint8_t party, uint8_t present, uint8_t address, uint8_t secondary)
{
    meskvorn_party_name name = meskvorn_bus_name(bus, party);
    check_at(line, name.present == present, "whether there is such a party");
    check_at(line, !present || (name.address == address && name.secondary == secondary), "the name of the party");
}

#define EXPECT_NAME(party, address, secondary) expect_name_at(__LINE__, (party), 1, (address), (secondary))
#define EXPECT_NO_NAME(party) expect_name_at(__LINE__, (party), 0, 0, 0)

static void names(void)
{
    take_the_bus();
    commands("42 6c 22");
    EXPECT_NAME(0, 1, PLAIN);
    EXPECT_NAME(1, 2, 12);
    EXPECT_NAME(2, 2, 13);
    EXPECT_NAME(3, 3, PLAIN);
    EXPECT_NO_NAME(4);
    EXPECT_NO_NAME(15);
    EXPECT_NO_NAME(255);
    /* A build leaves nothing of the bus before. */
    build(2);
    EXPECT_NAME(1, 6, PLAIN);
    EXPECT_NO_NAME(2);
    EXPECT(REFUSED(2), meskvorn_bus_build_extended(bus, primaries, NULL, PARTIES, 0));
    EXPECT_NO_NAME(0);
}

static void expect_given_at(int line, const char *wanted, const uint8_t *own, size_t count, size_t given)
{
    static const uint8_t apart[16] = {9, 3, 12, 0, 30, 1, 2, 4, 5, 6, 7, 8, 10, 11, 13, 14};
    memset(bus, FILL, sizeof *bus);
    expect_at(line, wanted, meskvorn_answer_of(meskvorn_build_extended(bus->rows, apart, count, own, given, 0)));
    check_at(line, (strcmp(wanted, NONE) == 0) != (memcmp(bus, &no_parties, sizeof *bus) == 0),
             "a refused build leaves no parties");
}

/* So many addresses, all different, with so many secondaries. */
#define EXPECT_GIVEN(wanted, own, count, given) expect_given_at(__LINE__, (wanted), (own), (count), (given))

/* As many secondaries as addresses, or none at all. */
static void numbers_of_secondaries(void)
{
    static const uint8_t some[18] = {12, 13, PLAIN, 30, 0, 12, 13, PLAIN, 30, 0, 12, 13, PLAIN, 30, 0, 1, 2, 3};
    static const uint8_t none[18] = {255, 255, 255, 255, 255, 255, 255, 255, 255,
                                     255, 255, 255, 255, 255, 255, 255, 255, 255};
    size_t count, given;
    for (count = 1; count <= MESKVORN_MOST_PARTIES; count++) {
        for (given = 0; given <= 18; given++) {
            const char *wanted = given == 0 || given == count ? NONE : REFUSED(2);
            EXPECT_GIVEN(wanted, some, count, given);
            EXPECT_GIVEN(wanted, none, count, given);
        }
    }
    EXPECT_GIVEN(NONE, some, 3, 3);
    EXPECT_NAME(1, 3, 13);
    EXPECT_NAME(2, 12, PLAIN);
    EXPECT_GIVEN(NONE, some, 3, 0);
    EXPECT_NAME(1, 3, PLAIN);
    EXPECT_GIVEN(REFUSED(2), some, 0, 0);
    EXPECT_GIVEN(REFUSED(2), some, 0, 1);
    EXPECT_GIVEN(REFUSED(2), some, 16, 16);
    EXPECT_GIVEN(REFUSED(2), some, 16, 0);
    EXPECT_NO_NAME(0);
}

/* Without secondaries both builds are one, whatever the memory held. */
static void builds_without_secondaries(void)
{
    static const uint8_t none[15] = {255, 255, 255, 255, 255, 255, 255, 255, 255, 255, 255, 255, 255, 255, 255};
    meskvorn_bus built;
    int content;
    for (content = 0; content < 256; content++) {
        memset(bus, content, sizeof *bus);
        (void)meskvorn_bus_name(bus, (uint8_t)(content % 16));
        build(15);
        built = *bus;
        memset(bus, content, sizeof *bus);
        EXPECT(NONE, meskvorn_bus_build_extended(bus, addresses, NULL, 15, 0));
        CHECK(memcmp(bus, &built, sizeof built) == 0);
        memset(bus, content, sizeof *bus);
        EXPECT(NONE, meskvorn_bus_build_extended(bus, addresses, none, 15, 0));
        CHECK(memcmp(bus, &built, sizeof built) == 0);
    }
}

static void null_pointers(void)
{
    take_the_bus();
    EXPECT(REFUSED(10), meskvorn_bus_build_extended(NULL, primaries, secondaries, PARTIES, 0));
    EXPECT(REFUSED(10), meskvorn_bus_build_extended(bus, NULL, secondaries, PARTIES, 0));
    EXPECT(REFUSED(10), meskvorn_bus_build_extended(bus, NULL, NULL, 1, 0));
    CHECK(!meskvorn_bus_name(NULL, 0).present);
}

int main(void)
{
    begin();
    two_bytes_address();
    talk_moves_and_ends();
    marks_lost_and_kept_by_commands();
    marks_lost_by_host_calls();
    sender_and_events();
    data_status_and_control();
    builds_of_two();
    every_secondary();
    numbers_of_parties();
    names();
    numbers_of_secondaries();
    builds_without_secondaries();
    null_pointers();
    return report("host/secondary_test.c");
}
