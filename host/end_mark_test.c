/* The END mark that feoi gives a party, through meskvorn.h: which write has END by it, what keeps it, what removes it.
 * What is expected is worked out from documents 01 and 02. */
#include "check.h"

static meskvorn_answer in(uint8_t party, uint8_t offset)
{
    return meskvorn_bus_read_register(bus, party, offset);
}

static meskvorn_answer out(uint8_t party, uint8_t offset, uint8_t value)
{
    return meskvorn_bus_write_register(bus, party, offset, value);
}

static meskvorn_answer command(uint8_t party, uint8_t value)
{
    return out(party, MESKVORN_WRITE_AUXILIARY, value);
}

/* A byte that somebody takes, with this END, from its write through offset 7 until it is read there. */
static void expect_transfer_at(int line, uint8_t byte, int end)
{
    char read[] = "0 read 00 0 0 0";
    snprintf(read, sizeof read, "0 read %02x %d 0 0", byte, end);
    expect_at(line, NONE, out(0, MESKVORN_WRITE_DATA_OUT, byte));
    give_turns(21);
    expect_at(line, read, in(1, MESKVORN_READ_DATA_IN));
}

#define EXPECT_TRANSFER(byte, end) expect_transfer_at(__LINE__, (byte), (end))

/* A message by registers alone, with document 01's lines on the way. */
static void message(void)
{
    build(3);
    EXPECT(NONE, command(0, MESKVORN_AUX_SWRST | MESKVORN_AUX_SET));
    EXPECT(NONE, command(0, MESKVORN_AUX_SWRST));
    EXPECT(NONE, command(0, MESKVORN_AUX_TON | MESKVORN_AUX_SET));
    EXPECT(NONE, command(1, MESKVORN_AUX_LON | MESKVORN_AUX_SET));
    EXPECT("0 lines 30 0 0 0", in(2, MESKVORN_READ_BUS_STATUS));
    EXPECT_TRANSFER(0x41, 0);
    EXPECT(NONE, command(0, MESKVORN_AUX_FEOI));
    EXPECT_TRANSFER(0x42, 1);
    EXPECT_TRANSFER(0x43, 0);
    EXPECT(NONE, command(0, MESKVORN_AUX_FEOI));
    EXPECT(NONE, out(0, MESKVORN_WRITE_DATA_OUT, 0x44));
    EXPECT(MOVED, meskvorn_bus_step(bus, 0));
    EXPECT(MOVED, meskvorn_bus_step(bus, 1));
    EXPECT("0 data 44 1 0 0", meskvorn_bus_step(bus, 0));
    EXPECT("0 lines 68 0 0 0", in(0, MESKVORN_READ_BUS_STATUS));
    EXPECT(NONE, out(2, MESKVORN_WRITE_SERIAL_POLL, 0x40));
    EXPECT("0 lines 6c 0 0 0", in(0, MESKVORN_READ_BUS_STATUS));
    EXPECT(NONE, out(2, MESKVORN_WRITE_SERIAL_POLL, 0xbf));
    EXPECT(NONE, command(2, MESKVORN_AUX_RSV2 | MESKVORN_AUX_SET));
    EXPECT("0 lines 6c 0 0 0", in(0, MESKVORN_READ_BUS_STATUS));
}

/* Whether the party's next write through offset 7 has END. On copies, since the byte goes where one is held. */
static int is_marked(uint8_t party)
{
    meskvorn_bus tried = *bus, with, without;
    meskvorn_bus_drop(&tried, party);
    meskvorn_bus_write_register(&tried, party, MESKVORN_WRITE_DATA_OUT, 0x41);
    with = without = tried;
    meskvorn_bus_drop(&with, party);
    meskvorn_bus_write(&with, party, 0x41, 1);
    meskvorn_bus_drop(&without, party);
    meskvorn_bus_write(&without, party, 0x41, 0);
    CHECK(same_bus(&tried, &with) != same_bus(&tried, &without));
    return same_bus(&tried, &with);
}

#define EXPECT_MARK(party, on) CHECK(is_marked(party) == (on))

/* The party's mark, which feoi sets whatever its set bit and bits 32 and 64 are, and once more with no effect. */
static void mark(uint8_t party)
{
    static const uint8_t ways[] = {MESKVORN_AUX_FEOI, 0x28, 0x48, 0x88, 0xe8};
    size_t way;
    EXPECT_MARK(party, 0);
    EXPECT(NONE, command(party, ways[0]));
    for (way = 0; way < sizeof ways; way++) {
        meskvorn_bus before = *bus;
        EXPECT(NONE, command(party, ways[way]));
        CHECK(same_bus(bus, &before));
    }
    EXPECT_MARK(party, 1);
}

/* The host's own calls, and accesses that are refused, keep it. */
static void kept_by_other_writes(void)
{
    build(3);
    mark(1);
    EXPECT(NONE, meskvorn_bus_write(bus, 1, 0x42, 0));
    EXPECT(REFUSED(8), meskvorn_bus_write(bus, 1, 0x43, 0));
    EXPECT(REFUSED(8), out(1, MESKVORN_WRITE_DATA_OUT, 0x43));
    EXPECT(REFUSED(11), out(1, 6, 0x43));
    EXPECT(REFUSED(11), command(1, MESKVORN_AUX_SET | 13));
    EXPECT(REFUSED(4), command(1, MESKVORN_AUX_SIC | MESKVORN_AUX_SET));
    EXPECT(NONE, command(1, MESKVORN_AUX_SIC));
    EXPECT(NONE, command(1, MESKVORN_AUX_SWRST));
    EXPECT_MARK(1, 1);
    EXPECT("0 none -- 0 1 0", command(1, MESKVORN_AUX_NBAF));
    EXPECT(NONE, command(1, MESKVORN_AUX_NBAF | MESKVORN_AUX_SET));
    EXPECT(NONE, meskvorn_bus_write(bus, 1, 0x42, 1));
    EXPECT("0 none -- 0 1 0", meskvorn_bus_drop(bus, 1));
    EXPECT_MARK(1, 1);
    EXPECT(NONE, out(0, MESKVORN_WRITE_DATA_OUT, 0x41));
    EXPECT("0 none -- 0 1 0", meskvorn_bus_reset(bus, 0));
    EXPECT_MARK(1, 1);
    EXPECT_MARK(0, 0);
    EXPECT_MARK(2, 0);
}

/* Interface clear and attention keep it, a reset that is refused too, and a command uses it up without END. */
static void kept_by_attention(void)
{
    build(3);
    mark(0);
    mark(1);
    EXPECT(NONE, meskvorn_bus_interface_clear(bus, 0));
    EXPECT(NONE, command(0, MESKVORN_AUX_SIC | MESKVORN_AUX_SET));
    EXPECT(NONE, command(0, MESKVORN_AUX_GTS));
    EXPECT(NONE, command(0, MESKVORN_AUX_TCA));
    EXPECT_MARK(0, 1);
    EXPECT(NONE, meskvorn_bus_write(bus, 0, 0x46, 1));
    give_turns(21);
    EXPECT(NONE, out(0, MESKVORN_WRITE_DATA_OUT, 0x09));
    EXPECT_MARK(0, 0);
    mark(0);
    EXPECT(MOVED, meskvorn_bus_step(bus, 0));
    EXPECT("0 cmd 09 0 0 0", meskvorn_bus_step(bus, 0));
    EXPECT(REFUSED(7), meskvorn_bus_reset(bus, 0));
    EXPECT(REFUSED(7), command(0, MESKVORN_AUX_SWRST | MESKVORN_AUX_SET));
    EXPECT_MARK(0, 1);
    give_turns(21);
    EXPECT(NONE, command(1, MESKVORN_AUX_GTS));
    EXPECT_MARK(0, 1);
    EXPECT_MARK(1, 1);
}

/* What else a party's host does, by accesses and by calls, keeps it. */
static void kept_by_the_rest(void)
{
    static const uint8_t switches[] = {MESKVORN_AUX_TON, MESKVORN_AUX_LON, MESKVORN_AUX_RSV2};
    size_t at;
    build(3);
    mark(1);
    for (at = 0; at < sizeof switches; at++) {
        EXPECT(NONE, command(1, switches[at] | MESKVORN_AUX_SET));
        EXPECT(NONE, command(1, switches[at]));
    }
    EXPECT(NONE, out(1, MESKVORN_WRITE_SERIAL_POLL, 0xff));
    EXPECT("0 lines 04 0 0 0", in(1, MESKVORN_READ_BUS_STATUS));
    EXPECT(NONE, command(0, MESKVORN_AUX_TON | MESKVORN_AUX_SET));
    EXPECT(NONE, command(1, MESKVORN_AUX_LON | MESKVORN_AUX_SET));
    EXPECT_TRANSFER(0x41, 0);
    EXPECT(REFUSED(9), in(1, MESKVORN_READ_DATA_IN));
    EXPECT_MARK(1, 1);
    /* The host's own write says its END by itself. */
    mark(0);
    EXPECT(NONE, meskvorn_bus_write(bus, 0, 0x42, 0));
    give_turns(21);
    EXPECT("0 read 42 0 0 0", in(1, MESKVORN_READ_DATA_IN));
    EXPECT_MARK(0, 1);
}

static void removed(void)
{
    static const uint8_t resets[] = {0x80, 0xa0, 0xc0, 0xe0};
    size_t at;
    build(3);
    for (at = 0; at < sizeof resets; at++) {
        meskvorn_bus before = *bus;
        mark(1);
        EXPECT(NONE, command(1, resets[at]));
        CHECK(same_bus(bus, &before));
    }
    mark(1);
    EXPECT(NONE, meskvorn_bus_reset(bus, 1));
    EXPECT_MARK(1, 0);
    mark(1);
    EXPECT(NONE, out(1, MESKVORN_WRITE_DATA_OUT, 0x41));
    EXPECT("0 none -- 0 1 0", command(1, MESKVORN_AUX_NBAF));
    EXPECT_MARK(1, 0);
    mark(1);
    build(3);
    EXPECT_MARK(1, 0);
}

int main(void)
{
    begin();
    message();
    kept_by_other_writes();
    kept_by_attention();
    kept_by_the_rest();
    removed();
    return report("host/end_mark_test.c");
}
