/* The second request bit through meskvorn.h: SRQ, the status bytes of a poll and of the next, and what takes a request
 * back.
 * What is expected is worked out from document 01 and from document 02's Q-5. */
#include "check.h"

/* The active party 0 sends one command to its end. From AWNS party 1 has two turns to ACRS, and two to take and let
 * go. */
static void command(uint8_t byte)
{
    EXPECT(NONE, meskvorn_bus_write(bus, 0, byte, 0));
    give_turns(10);
    EXPECT(NONE, meskvorn_bus_drop(bus, 0));
}

/* Party 0 is active and listens; party 1 talks in poll mode. */
static void address(void)
{
    EXPECT(NONE, meskvorn_bus_interface_clear(bus, 0));
    EXPECT(NONE, meskvorn_bus_listen_only(bus, 0, 1));
    command(0x18);
    command(0x46);
}

/* The same, with this poll register of party 1. */
static void addressed(uint8_t value)
{
    build(2);
    EXPECT(NONE, meskvorn_bus_poll_register(bus, 1, value));
    address();
}

static void expect_srq_at(int line, int on)
{
    meskvorn_answer lines = meskvorn_bus_lines(bus);
    check_at(line, lines.event == MESKVORN_EVENT_LINES && ((lines.byte & MESKVORN_LINE_SRQ) != 0) == on,
             on ? "SRQ is on" : "SRQ is off");
    last = *bus;
}

#define EXPECT_SRQ(on) expect_srq_at(__LINE__, (on))

static void second_request(uint8_t on)
{
    EXPECT(NONE, meskvorn_bus_second_request(bus, 1, on));
}

/* Party 1 has register 01 and asks. */
static void asking(void)
{
    addressed(0x01);
    EXPECT_SRQ(0);
    second_request(1);
    EXPECT_SRQ(1);
}

static void begin_poll(void)
{
    EXPECT(NONE, meskvorn_bus_go_to_standby(bus, 0));
    EXPECT_SRQ(0);
}

static void end_poll(void)
{
    EXPECT(NONE, meskvorn_bus_take_control(bus, 0));
}

/* The next status byte, from its offer until it is read and its listener is in ANRS. */
static void expect_status_at(int line, uint8_t byte)
{
    expect_at(line, MOVED, meskvorn_bus_step(bus, 1));
    expect_at(line, MOVED, meskvorn_bus_step(bus, 0));
    expect_at(line, with_byte("stat", byte), meskvorn_bus_step(bus, 1));
    expect_at(line, with_byte("took", byte), meskvorn_bus_step(bus, 0));
    expect_at(line, MOVED, meskvorn_bus_step(bus, 0));
    expect_at(line, with_byte("ended", byte), meskvorn_bus_step(bus, 1));
    expect_at(line, with_byte("read", byte), meskvorn_bus_read(bus, 0));
    expect_at(line, MOVED, meskvorn_bus_step(bus, 0));
}

#define EXPECT_STATUS(byte) expect_status_at(__LINE__, (byte))

static void expect_poll_at(int line, uint8_t byte)
{
    begin_poll();
    expect_status_at(line, byte);
    end_poll();
}

/* A poll of one status byte. */
#define EXPECT_POLL(byte) expect_poll_at(__LINE__, (byte))

/* Every status byte of the first poll tells of the request, and none of a later poll. */
static void first_poll_and_later_ones(void)
{
    asking();
    begin_poll();
    EXPECT_STATUS(0x41);
    EXPECT_STATUS(0x41);
    EXPECT_STATUS(0x41);
    end_poll();
    EXPECT_SRQ(0);
    EXPECT_POLL(0x01);
    EXPECT_POLL(0x01);
    second_request(1);
    EXPECT_SRQ(1);
    EXPECT_POLL(0x41);
    EXPECT_POLL(0x01);
}

/* Polls without a status byte take nothing, be it that nobody listens; SRQ is off from the first of them on. */
static void polls_that_put_nothing(void)
{
    asking();
    begin_poll();
    end_poll();
    EXPECT_SRQ(0);
    EXPECT(NONE, meskvorn_bus_listen_only(bus, 0, 0));
    begin_poll();
    EXPECT(MOVED, meskvorn_bus_step(bus, 1));
    EXPECT("0 noacc 41 0 0 0", meskvorn_bus_step(bus, 1));
    EXPECT("0 noacc 41 0 0 0", meskvorn_bus_step(bus, 1));
    end_poll();
    EXPECT(NONE, meskvorn_bus_listen_only(bus, 0, 1));
    EXPECT_POLL(0x41);
    EXPECT_POLL(0x01);
}

/* The put itself clears the bit: the byte is broken off, and the next poll follows at once. */
static void broken_off(void)
{
    asking();
    begin_poll();
    EXPECT(MOVED, meskvorn_bus_step(bus, 1));
    EXPECT(MOVED, meskvorn_bus_step(bus, 0));
    EXPECT("0 stat 41 0 0 0", meskvorn_bus_step(bus, 1));
    EXPECT("0 none -- 0 0 1", meskvorn_bus_take_control(bus, 0));
    EXPECT(NONE, meskvorn_bus_go_to_standby(bus, 0));
    EXPECT_STATUS(0x01);
}

static void reset_and_interface_clear(void)
{
    asking();
    EXPECT(NONE, meskvorn_bus_reset(bus, 1));
    EXPECT_SRQ(0);
    address();
    EXPECT_POLL(0x01);
    asking();
    address();
    EXPECT_SRQ(1);
    EXPECT_POLL(0x41);
    /* Reset of another party leaves it. */
    build(2);
    second_request(1);
    EXPECT(NONE, meskvorn_bus_reset(bus, 0));
    EXPECT_SRQ(1);
}

/* Off before the poll nothing is told; off in the poll its status bytes still tell, since APRS lasts until its end. */
static void switched_off(void)
{
    asking();
    second_request(0);
    EXPECT_SRQ(0);
    EXPECT_POLL(0x01);
    asking();
    begin_poll();
    second_request(0);
    EXPECT_STATUS(0x41);
    end_poll();
    EXPECT_SRQ(0);
    EXPECT_POLL(0x01);
}

/* On in a poll that began in NPRS it is a request for after that poll; in APRS, after its byte, one that the next poll
 * tells of without SRQ. */
static void switched_on_in_a_poll(void)
{
    addressed(0x01);
    begin_poll();
    second_request(1);
    EXPECT_SRQ(0);
    EXPECT_STATUS(0x01);
    EXPECT_STATUS(0x01);
    end_poll();
    EXPECT_SRQ(1);
    begin_poll();
    EXPECT_STATUS(0x41);
    second_request(1);
    end_poll();
    EXPECT_SRQ(0);
    EXPECT_POLL(0x41);
    EXPECT_POLL(0x01);
}

/* Bit 64 of the register asks beside it, and stays when the second bit is cleared. */
static void beside_the_register(void)
{
    addressed(0x41);
    EXPECT_SRQ(1);
    second_request(1);
    EXPECT_POLL(0x41);
    EXPECT_POLL(0x41);
    EXPECT(NONE, meskvorn_bus_poll_register(bus, 1, 0xbf));
    EXPECT_POLL(0xbf);
    second_request(1);
    EXPECT_POLL(0xff);
    EXPECT_POLL(0xbf);
}

/* Each of fifteen parties has its own, and on and off again leaves the bus as it was. */
static void every_party(void)
{
    uint16_t asked = 0;
    uint8_t party;
    build(15);
    for (party = 0; party < 15; party++) {
        meskvorn_bus before = *bus;
        EXPECT(NONE, meskvorn_bus_second_request(bus, party, 1));
        CHECK(memcmp(bus, &before, sizeof before) != 0);
        EXPECT(NONE, meskvorn_bus_second_request(bus, party, 0));
        CHECK(memcmp(bus, &before, sizeof before) == 0);
        EXPECT(NONE, meskvorn_bus_call(bus, MESKVORN_OPERATION_SECOND_REQUEST, party, 1, 255));
        asked = (uint16_t)(asked | 1u << party);
        CHECK(meskvorn_bus_drivers(bus).masks[MESKVORN_DRIVERS_OF_SRQ] == asked);
    }
    build(15);
    EXPECT_SRQ(0);
    EXPECT_SRQ(0);
}

/* The party before the value, and 14 is no operation. */
static void refusals(void)
{
    int value;
    asking();
    for (value = 2; value < 256; value++) {
        EXPECT(REFUSED(3), meskvorn_bus_second_request(bus, 1, (uint8_t)value));
        EXPECT(REFUSED(1), meskvorn_bus_second_request(bus, 2, (uint8_t)value));
    }
    EXPECT(REFUSED(1), meskvorn_bus_second_request(bus, 255, 1));
    EXPECT(REFUSED(3), meskvorn_bus_call(bus, MESKVORN_OPERATION_SECOND_REQUEST + 1, 1, 0, 0));
    EXPECT(REFUSED(10), meskvorn_bus_second_request(NULL, 1, 1));
    EXPECT_SRQ(1);
    EXPECT(REFUSED(2), meskvorn_bus_build(bus, addresses, 0, 0));
    EXPECT(REFUSED(1), meskvorn_bus_second_request(bus, 0, 0));
}

/* A run's turns poll as single steps do. */
static void polls_by_runs(void)
{
    static const uint8_t wanted[3] = {0x41, 0x01, 0x01};
    int poll;
    asking();
    for (poll = 0; poll < 3; poll++) {
        begin_poll();
        give_turns(8);
        EXPECT(with_byte("read", wanted[poll]), meskvorn_bus_read(bus, 0));
        end_poll();
    }
}

static void scripts(void)
{
    static const uint8_t script[] = {0x47, 0x42, 0,  0, 2, 5, 0x47, 0x42, 13, 1, 1, 9,
                                     0x47, 0x42, 12, 0, 0, 0, 0x47, 0x42, 13, 1, 2, 0,
                                     0x47, 0x42, 13, 2, 2, 0, 0x47, 0x42, 13, 1, 0, 0,
                                     0x47, 0x42, 12, 0, 0, 0, 0x47, 0x42, 14, 1, 0, 0};
    static const char wanted[] = "1 0 none -- 0 0 0\n2 0 none -- 0 0 0\n3 0 lines 04 0 0 0\n4 3 none -- 0 0 0\n"
                                 "5 1 none -- 0 0 0\n6 0 none -- 0 0 0\n7 0 lines 00 0 0 0\n8 3 none -- 0 0 0\n";
    uint8_t out[8 * 34];
    CHECK(meskvorn_script_run(script, sizeof script, out, sizeof out) == sizeof wanted - 1);
    CHECK(memcmp(out, wanted, sizeof wanted - 1) == 0);
}

int main(void)
{
    begin();
    first_poll_and_later_ones();
    polls_that_put_nothing();
    broken_off();
    reset_and_interface_clear();
    switched_off();
    switched_on_in_a_poll();
    beside_the_register();
    every_party();
    refusals();
    polls_by_runs();
    scripts();
    return report("host/request_test.c");
}
