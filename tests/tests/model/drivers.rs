//! Drivers of the lines on the model, worked out from document 01's text and document 02's Q-4.

use crate::script_lines::{check, NONE};
use meskvorn_tests::lists::composer::Composer;
use meskvorn_tests::model::script::{
    BUILD, CLEAR, LINES, LISTEN, POLL, READ, STANDBY, STEP, TAKE, TALK, WRITE,
};
use meskvorn_tests::model::{Answer, Bus, Drivers, Event, Line};

/// The masks of ATN, DAV, NRFD, NDAC, EOI and SRQ, and how many parties each names.
fn told(masks: [u16; 6], counts: [u32; 6]) -> Drivers {
    Drivers {
        answer: Answer::NOTHING,
        masks,
        counts,
    }
}

/// Asks for the drivers, which changes nothing, and for the lines.
#[track_caller]
fn expect(bus: &mut Composer, masks: [u16; 6], counts: [u32; 6]) {
    let before = bus.bus;
    assert_eq!(bus.drivers(), told(masks, counts));
    assert_eq!(bus.bus, before);
    let lines = bus.call(LINES, 0, 0, 0).byte;
    for line in Line::ALL {
        let on = lines & line.bit() != 0;
        assert_eq!(on, masks[line as usize] != 0, "{line:?}");
    }
}

/// Parties at addresses 5 and up; party 0 is the system party.
fn built(parties: u8) -> Composer {
    let mut bus = Composer::new();
    assert!(bus.call(BUILD, 0, parties, 5).accepted());
    bus
}

/// Party 0 talks to all others, which are in ACRS; the byte 41 stands.
fn standing(parties: u8, end: u8) -> Composer {
    let mut bus = built(parties);
    bus.call(TALK, 0, 1, 0);
    for party in 1..parties {
        bus.call(LISTEN, party, 1, 0);
        assert_eq!(bus.step(party), Answer::moved());
    }
    bus.call(WRITE, 0, 0x41, end);
    assert_eq!(bus.step(0), Answer::moved());
    assert_eq!(bus.step(0).event, Event::Data);
    bus
}

#[test]
fn the_worked_script_record_by_record() {
    let anrs = ([0, 0, 2, 2, 0, 0], [0, 0, 1, 1, 0, 0]);
    let acrs = ([0, 0, 0, 2, 0, 0], [0, 0, 0, 1, 0, 0]);
    let put = ([0, 1, 0, 2, 1, 0], [0, 1, 0, 1, 1, 0]);
    let acds = ([0, 1, 2, 2, 1, 0], [0, 1, 1, 1, 1, 0]);
    let awns = ([0, 1, 2, 0, 1, 0], [0, 1, 1, 0, 1, 0]);
    let ended = ([0, 0, 2, 0, 0, 0], [0, 0, 1, 0, 0, 0]);
    let nobody = ([0; 6], [0; 6]);
    let records = [
        ([BUILD, 0, 2, 5], nobody),
        ([TALK, 0, 1, 0], nobody),
        ([LISTEN, 1, 1, 0], anrs),
        ([WRITE, 0, 0x41, 1], anrs),
        ([STEP, 0, 0, 0], anrs),
        ([STEP, 1, 0, 0], acrs),
        ([STEP, 0, 0, 0], put),
        ([STEP, 1, 0, 0], acds),
        ([STEP, 0, 0, 0], acds),
        ([STEP, 1, 0, 0], awns),
        ([STEP, 0, 0, 0], ended),
        ([READ, 1, 0, 0], ended),
    ];
    let mut bus = Composer::new();
    for ([operation, party, value, extra], (masks, counts)) in records {
        assert!(bus.call(operation, party, value, extra).accepted());
        expect(&mut bus, masks, counts);
    }
}

#[test]
fn nobody_drives_the_bus_of_no_parties() {
    expect(&mut Composer::new(), [0; 6], [0; 6]);
    let mut refused = Composer::new();
    refused.call(BUILD, 0, 16, 0);
    expect(&mut refused, [0; 6], [0; 6]);
    assert_eq!(refused.bus, Bus::new());
}

#[test]
fn fifteen_listeners() {
    let mut bus = built(15);
    for party in 0..15 {
        bus.call(LISTEN, party, 1, 0);
    }
    expect(&mut bus, [0, 0, 0x7FFF, 0x7FFF, 0, 0], [0, 0, 15, 15, 0, 0]);
    bus.step(0);
    bus.step(14);
    expect(&mut bus, [0, 0, 0x3FFE, 0x7FFF, 0, 0], [0, 0, 13, 15, 0, 0]);
    let mut bus = standing(15, 1);
    bus.step(9);
    expect(&mut bus, [0, 1, 0x0200, 0x7FFE, 1, 0], [0, 1, 1, 14, 1, 0]);
}

#[test]
fn several_ask_for_service_and_one_is_polled() {
    let mut bus = built(3);
    bus.call(POLL, 2, 0x40, 0);
    expect(&mut bus, [0, 0, 0, 0, 0, 4], [0, 0, 0, 0, 0, 1]);
    bus.call(POLL, 1, 0x41, 0);
    bus.call(POLL, 0, 0xBF, 0);
    expect(&mut bus, [0, 0, 0, 0, 0, 6], [0, 0, 0, 0, 0, 2]);
    bus.call(CLEAR, 0, 0, 0);
    expect(&mut bus, [1, 0, 6, 6, 0, 6], [1, 0, 2, 2, 0, 2]);
    // SPE, and party 1 talks: both others have let the command go, in AWNS.
    assert!(bus.command(0x18) && bus.command(0x46));
    expect(&mut bus, [1, 0, 6, 0, 0, 6], [1, 0, 2, 0, 0, 2]);
    bus.call(LISTEN, 0, 1, 0);
    bus.call(STANDBY, 0, 0, 0);
    // In APRS party 1 no longer asks.
    expect(&mut bus, [0, 0, 1, 1, 0, 4], [0, 0, 1, 1, 0, 1]);
    assert!(bus.walk_until(Event::is_put));
    // A status byte has no END.
    expect(&mut bus, [0, 2, 0, 1, 0, 4], [0, 1, 0, 1, 0, 1]);
    bus.call(TAKE, 0, 0, 0);
    expect(&mut bus, [1, 0, 6, 6, 0, 4], [1, 0, 2, 2, 0, 1]);
    // Nor does it ask again while its register does.
    bus.call(POLL, 2, 0, 0);
    expect(&mut bus, [1, 0, 6, 6, 0, 0], [1, 0, 2, 2, 0, 0]);
}

#[test]
fn the_active_party_drives_atn() {
    let mut bus = built(2);
    bus.call(CLEAR, 0, 0, 0);
    expect(&mut bus, [1, 0, 2, 2, 0, 0], [1, 0, 1, 1, 0, 0]);
    bus.call(STANDBY, 0, 0, 0);
    expect(&mut bus, [0; 6], [0; 6]);
    bus.call(TAKE, 0, 0, 0);
    assert!(bus.command(0x46) && bus.command(0x09));
    // Control has passed, and all begin anew.
    expect(&mut bus, [2, 0, 1, 1, 0, 0], [1, 0, 1, 1, 0, 0]);
}

#[test]
fn eoi_is_the_senders_alone_and_only_with_end() {
    let mut bus = standing(4, 1);
    expect(&mut bus, [0, 1, 0, 14, 1, 0], [0, 1, 0, 3, 1, 0]);
    bus.call(TALK, 0, 0, 0);
    expect(&mut bus, [0, 0, 0, 14, 0, 0], [0, 0, 0, 3, 0, 0]);
    expect(&mut standing(4, 0), [0, 1, 0, 14, 0, 0], [0, 1, 0, 3, 0, 0]);
    // A command has no END, though it was written with one.
    let mut bus = built(2);
    bus.call(CLEAR, 0, 0, 0);
    bus.call(WRITE, 0, 0x3F, 1);
    assert!(bus.walk_until(Event::is_put));
    expect(&mut bus, [1, 1, 0, 2, 0, 0], [1, 1, 0, 1, 0, 0]);
}

/// P5 and P3: the end waits for party 2 alone; party 1, off and on again, holds NRFD alone.
#[test]
fn who_is_waited_for() {
    let mut bus = standing(3, 0);
    bus.step(1);
    bus.step(1);
    expect(&mut bus, [0, 1, 2, 4, 0, 0], [0, 1, 1, 1, 0, 0]);
    bus.call(LISTEN, 1, 0, 0);
    expect(&mut bus, [0, 1, 0, 4, 0, 0], [0, 1, 0, 1, 0, 0]);
    bus.call(LISTEN, 1, 1, 0);
    expect(&mut bus, [0, 1, 2, 4, 0, 0], [0, 1, 1, 1, 0, 0]);
}

/// Party 2 does not read what it took, and the next byte waits for it.
#[test]
fn who_holds_a_hung_bus() {
    let mut bus = standing(3, 0);
    assert!(bus.walk_until(Event::is_end));
    bus.call(READ, 1, 0, 0);
    bus.call(WRITE, 0, 0x42, 0);
    assert!(!bus.walk_until(Event::is_put));
    expect(&mut bus, [0, 0, 4, 6, 0, 0], [0, 0, 1, 2, 0, 0]);
    bus.call(READ, 2, 0, 0);
    assert!(bus.walk_until(Event::is_put));
    expect(&mut bus, [0, 1, 0, 6, 0, 0], [0, 1, 0, 2, 0, 0]);
}

/// No list leads to a bus that is left to settle. The drivers are those before that, as lines are.
#[test]
fn the_drivers_are_those_of_the_bus_as_it_is_found() {
    let mut bus = built(2).bus;
    bus.parties[1].saved = 0x40;
    let mut beside = bus;
    assert_eq!(bus.drivers(), Drivers::NOBODY);
    assert_eq!(beside.lines().byte, 0);
    assert_eq!(bus, beside);
    assert_eq!(bus.drivers().mask(Line::Srq), 2);
}

#[test]
fn no_record_asks_for_the_drivers() {
    check(&[
        ("0e000000", "3 none -- 0 0 0"),
        ("00000205", NONE),
        ("0e000000", "3 none -- 0 0 0"),
        ("ff000000", "3 none -- 0 0 0"),
    ]);
}
