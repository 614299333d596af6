/* The parallel poll through meskvorn.h: which commands give a party its response and take it back, and what a poll
 * answers.
 * What is expected is worked out from document 01 and from document 02's Q-8. */
#include "poll_check.h"

static void expect_polls_at(int line, uint8_t with_0, uint8_t with_1)
{
    uint8_t status, party;
    for (status = 0; status < 2; status++) {
        for (party = 0; party < PARTIES; party++) {
            own(party, status);
        }
        expect_poll_at(line, 0, status ? with_1 : with_0);
    }
}

/* A poll where every own status is 0, and one where it is 1. */
#define EXPECT_POLLS(with_0, with_1) expect_polls_at(__LINE__, (with_0), (with_1))

static void expect_after_at(int line, uint8_t with_0, uint8_t with_1, const char *text)
{
    take_the_bus();
    commands(text);
    expect_polls_at(line, with_0, with_1);
}

/* The same after these commands. */
#define EXPECT_AFTER(with_0, with_1, text) expect_after_at(__LINE__, (with_0), (with_1), (text))

/* Line 1 by sense 1, line 2 by sense 0, line 8 by sense 1; the last party has a secondary. */
static void three_parties(void)
{
    take_the_bus();
    EXPECT_POLL(0x00);
    commands("22 05 68 3f");
    EXPECT_POLL(0x00);
    commands("23 05 61 3f");
    EXPECT_POLL(0x02);
    commands("24 65 05 6f 3f");
    EXPECT_POLL(0x02);
    own(1, 1);
    EXPECT_POLL(0x03);
    own(2, 1);
    EXPECT_POLL(0x01);
    own(3, 1);
    EXPECT_POLL(0x81);
    own(1, 0);
    EXPECT_POLL(0x80);
    own(2, 0);
    EXPECT_POLL(0x82);
    /* These two have no response. */
    own(0, 1);
    own(4, 1);
    EXPECT_POLL(0x82);
}

/* Every line by each sense: each command replaces the response of the one before. Bit 80 of a command is ignored. */
static void lines_and_senses(void)
{
    static const uint8_t wanted[16][3] = {
        {0x60, 0x01, 0x00}, {0x61, 0x02, 0x00}, {0x62, 0x04, 0x00}, {0x63, 0x08, 0x00},
        {0x64, 0x10, 0x00}, {0x65, 0x20, 0x00}, {0x66, 0x40, 0x00}, {0x67, 0x80, 0x00},
        {0x68, 0x00, 0x01}, {0x69, 0x00, 0x02}, {0x6a, 0x00, 0x04}, {0x6b, 0x00, 0x08},
        {0x6c, 0x00, 0x10}, {0x6d, 0x00, 0x20}, {0x6e, 0x00, 0x40}, {0x6f, 0x00, 0x80}};
    int at;
    take_the_bus();
    commands("22 05");
    for (at = 0; at < 32; at++) {
        send_command(PARTIES, (uint8_t)(wanted[at % 16][0] | (at < 16 ? 0 : 0x80)));
        EXPECT_POLLS(wanted[at % 16][1], wanted[at % 16][2]);
    }
    EXPECT_AFTER(0x00, 0x01, "a2 85 e8");
    EXPECT_AFTER(0x00, 0x20, "22 05 68 6d");
    EXPECT_AFTER(0x20, 0x00, "22 05 6d 65");
}

/* All of 70 to 7F remove it, and the mark lasts. */
static void removed_by_ppd(void)
{
    int code;
    take_the_bus();
    commands("22 05");
    for (code = 0x70; code < 0x80; code++) {
        commands("6b");
        EXPECT_POLLS(0x00, 0x08);
        send_command(PARTIES, (uint8_t)(code % 2 == 0 ? code : code | 0x80));
        EXPECT_POLLS(0x00, 0x00);
    }
    EXPECT_AFTER(0x00, 0x02, "22 05 68 7f 69");
    EXPECT_AFTER(0x00, 0x02, "22 05 ff 69");
    /* Not from who is not configuring. */
    EXPECT_AFTER(0x00, 0x01, "22 05 68 3f 70");
    EXPECT_AFTER(0x00, 0x01, "22 05 68 3f 7f");
    EXPECT_AFTER(0x00, 0x01, "22 23 05 68 3f 23 05 70");
}

/* From everybody, listening or not, the sender too; the mark goes as well. */
static void removed_by_ppu(void)
{
    EXPECT_AFTER(0x00, 0x00, "22 05 68 15");
    EXPECT_AFTER(0x00, 0x00, "22 05 68 3f 15");
    EXPECT_AFTER(0x00, 0x00, "22 05 68 3f 95");
    EXPECT_AFTER(0x00, 0x00, "22 23 05 68 3f 24 65 05 61 3f 23 15");
    EXPECT_AFTER(0x00, 0x00, "21 05 68 3f 15");
    EXPECT_AFTER(0x00, 0x00, "22 05 15 68");
    EXPECT_AFTER(0x00, 0x02, "22 05 68 15 05 69");
}

/* The names of the commands. */
static void by_name(void)
{
    int line;
    CHECK(MESKVORN_PPC == 0x05 && MESKVORN_PPU == 0x15 && MESKVORN_PPD == 0x70);
    CHECK(MESKVORN_PPE == 0x60 && MESKVORN_PPE_SENSE == 0x08);
    take_the_bus();
    commands("22");
    for (line = 1; line <= 8; line++) {
        send_command(PARTIES, MESKVORN_PPC);
        send_command(PARTIES, (uint8_t)(MESKVORN_PPE | (line - 1)));
        EXPECT_POLLS((uint8_t)(1 << (line - 1)), 0x00);
        send_command(PARTIES, (uint8_t)(MESKVORN_PPE | MESKVORN_PPE_SENSE | (line - 1)));
        EXPECT_POLLS(0x00, (uint8_t)(1 << (line - 1)));
        send_command(PARTIES, line % 2 == 0 ? MESKVORN_PPD : MESKVORN_PPU);
        EXPECT_POLLS(0x00, 0x00);
    }
}

/* PPC is for who listens. */
static void configuring(void)
{
    EXPECT_AFTER(0x00, 0x00, "68");
    EXPECT_AFTER(0x00, 0x00, "22 68");
    EXPECT_AFTER(0x00, 0x00, "05 68");
    EXPECT_AFTER(0x00, 0x00, "05 22 68");
    EXPECT_AFTER(0x00, 0x00, "42 05 68");
    EXPECT_AFTER(0x00, 0x00, "22 3f 05 68");
    EXPECT_AFTER(0x00, 0x00, "22 05 3f 05 68");
    EXPECT_AFTER(0x00, 0x01, "22 05 05 68");
    EXPECT_AFTER(0x00, 0x03, "22 05 68 3f 23 05 69");
    EXPECT_AFTER(0x00, 0x02, "22 05 68 23 05 69");
    /* Heard while not listening it takes nothing away. */
    take_the_bus();
    commands("22 05");
    EXPECT(NONE, meskvorn_bus_listen_only(bus, 1, 0));
    EXPECT_ROLES(".....");
    commands("05 68");
    EXPECT_POLLS(0x00, 0x01);
    commands("05 70");
    EXPECT_POLLS(0x00, 0x00);
}

/* Every other primary command ends it, with a meaning or without, and leaves the response, except PPU. */
static void other_primary_commands(void)
{
    int code;
    for (code = 0; code < 0xe0; code++) {
        int seven = code & 0x7f;
        if (seven < 0x60 && seven != 0x05) {
            take_the_bus();
            commands("22 05 68");
            send_command(PARTIES, (uint8_t)code);
            commands("69 70");
            EXPECT_POLLS(0x00, seven == 0x15 ? 0x00 : 0x01);
        }
    }
}

static void two_on_a_line(void)
{
    take_the_bus();
    commands("22 23 05 6a 3f");
    EXPECT_POLL(0x00);
    own(1, 1);
    EXPECT_POLL(0x04);
    own(2, 1);
    EXPECT_POLL(0x04);
    own(1, 0);
    EXPECT_POLL(0x04);
    own(2, 0);
    EXPECT_POLL(0x00);
    /* By different senses. */
    commands("23 05 62");
    EXPECT_POLL(0x04);
    own(1, 1);
    EXPECT_POLL(0x04);
    own(2, 1);
    EXPECT_POLL(0x04);
    own(1, 0);
    EXPECT_POLL(0x00);
}

static void expect_secondary_at(int line, uint8_t with_0, uint8_t with_1, const char *roles, const char *text)
{
    expect_after_at(line, with_0, with_1, text);
    expect_roles_at(line, roles);
}

/* Polls, and who talks and listens. */
#define EXPECT_SECONDARY(with_0, with_1, roles, text) expect_secondary_at(__LINE__, (with_0), (with_1), (roles), (text))

static void secondary_addresses(void)
{
    EXPECT_SECONDARY(0x00, 0x04, "...L.", "24 65 05 6a");
    EXPECT_SECONDARY(0x00, 0x01, "....L", "24 7a 05 68");
    EXPECT_SECONDARY(0x00, 0x03, "....L", "24 65 05 68 3f 24 7a 05 69");
    /* Who still listens is configured again. */
    EXPECT_SECONDARY(0x00, 0x02, "...LL", "24 65 05 68 24 7a 05 69");
    /* While configuring the own secondary is no address. */
    EXPECT_SECONDARY(0x20, 0x00, "...L.", "24 65 05 65");
    EXPECT_SECONDARY(0x20, 0x00, "...L.", "24 65 44 05 65");
    EXPECT_SECONDARY(0x00, 0x00, "....L", "24 7a 05 68 7a");
    EXPECT_SECONDARY(0x20, 0x00, ".L...", "22 05 65");
    /* PPC is a primary command, so that who does not listen loses its mark. */
    EXPECT_SECONDARY(0x00, 0x00, ".....", "24 05 65");
    EXPECT_SECONDARY(0x00, 0x00, ".....", "44 05 65");
    EXPECT_SECONDARY(0x00, 0x00, "....T", "44 65 7a");
    EXPECT_SECONDARY(0x00, 0x00, "...T.", "44 65 05 7a");
    EXPECT_SECONDARY(0x20, 0x00, "....L", "24 7a 05 65");
    /* The own address ends configuring, and a secondary after it is an address again. */
    EXPECT_SECONDARY(0x00, 0x04, "...LL", "24 65 05 6a 24 7a");
    EXPECT_SECONDARY(0x00, 0x04, "...T.", "24 65 05 6a 44 65");
}

/* The sender hears its command when it ends. Until it is put up, and from then on, a poll is answered. */
static void controller_itself(void)
{
    static const char *const answers[3] = {MOVED, "0 heard 6b 0 0 0", MOVED};
    int round;
    uint8_t party;
    take_the_bus();
    own(0, 1);
    commands("21 05");
    EXPECT(NONE, meskvorn_bus_write(bus, 0, 0x6b, 0));
    EXPECT_POLL(0x00);
    EXPECT(MOVED, meskvorn_bus_step(bus, 0));
    for (round = 0; round < 3; round++) {
        for (party = 1; party < PARTIES; party++) {
            EXPECT(answers[round], meskvorn_bus_step(bus, party));
        }
        if (round == 0) {
            EXPECT_POLL(0x00);
            EXPECT("0 cmd 6b 0 0 0", meskvorn_bus_step(bus, 0));
        }
        EXPECT(REFUSED(7), poll_by(0));
    }
    EXPECT(REFUSED(7), meskvorn_bus_reset(bus, 0));
    EXPECT("0 ended 6b 0 0 0", meskvorn_bus_step(bus, 0));
    EXPECT_POLL(0x08);
    own(0, 0);
    EXPECT_POLL(0x00);
}

int main(void)
{
    begin();
    three_parties();
    lines_and_senses();
    removed_by_ppd();
    removed_by_ppu();
    by_name();
    configuring();
    other_primary_commands();
    two_on_a_line();
    secondary_addresses();
    controller_itself();
    return report("host/parallel_poll_test.c");
}
