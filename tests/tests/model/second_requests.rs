//! The second request bit, worked out from document 01's text and document 02's Q-5.

use crate::script_lines::{check, MOVED, NONE};
use meskvorn_tests::lists::composer::Composer;
use meskvorn_tests::model::script::{
    BUILD, CLEAR, LAST_OPERATION, LINES, LISTEN, POLL, READ, REQUEST, RESET, STANDBY, TAKE, TALK,
    WRITE,
};
use meskvorn_tests::model::{Answer, Bus, Event, Line, Refusal, Service, SRQ};

fn told(event: Event, byte: u8) -> Answer {
    Answer::with_byte(event, byte, false)
}

/// Party 1 at address 6 asks by its second bit beside register 01, and party 0 at address 5 takes
/// the bus and addresses it for a poll.
const ASKED_AND_ADDRESSED: [(&str, &str); 22] = [
    ("00000205", NONE),
    ("04010100", NONE),
    ("0d010100", NONE),
    ("0c000000", "0 lines 04 0 0 0"),
    ("09000000", NONE),
    ("0c000000", "0 lines b4 0 0 0"),
    ("05000100", NONE),
    ("02001800", NONE),
    ("01000000", MOVED),
    ("01010000", MOVED),
    ("01000000", "0 cmd 18 0 0 0"),
    ("01010000", "0 heard 18 0 0 0"),
    ("01010000", MOVED),
    ("01000000", "0 ended 18 0 0 0"),
    ("02004600", NONE),
    ("01000000", MOVED),
    ("01010000", MOVED),
    ("01010000", MOVED),
    ("01000000", "0 cmd 46 0 0 0"),
    ("01010000", "0 heard 46 0 0 0"),
    ("01010000", MOVED),
    ("01000000", "0 ended 46 0 0 0"),
];

#[test]
fn a_request_is_told_in_its_first_poll_and_in_no_later_one() {
    let polls = [
        ("08000000", NONE),
        ("0c000000", "0 lines 30 0 0 0"),
        ("01010000", MOVED),
        ("01000000", MOVED),
        ("01010000", "0 stat 41 0 0 0"),
        ("01000000", "0 took 41 0 0 0"),
        ("01000000", MOVED),
        ("01010000", "0 ended 41 0 0 0"),
        ("03000000", "0 read 41 0 0 0"),
        // A second status byte of the same poll.
        ("01010000", MOVED),
        ("01000000", MOVED),
        ("01000000", MOVED),
        ("01010000", "0 stat 41 0 0 0"),
        ("01000000", "0 took 41 0 0 0"),
        ("01000000", MOVED),
        ("01010000", "0 ended 41 0 0 0"),
        ("07000000", NONE),
        ("0c000000", "0 lines b0 0 0 0"),
        // The next poll.
        ("08000000", NONE),
        ("01010000", MOVED),
        ("03000000", "0 read 41 0 0 0"),
        ("01000000", MOVED),
        ("01010000", "0 stat 01 0 0 0"),
        ("0c000000", "0 lines 60 0 0 0"),
        ("07000000", "0 none -- 0 0 1"),
        ("0c000000", "0 lines b0 0 0 0"),
    ];
    check(&[&ASKED_AND_ADDRESSED[..], &polls].concat());
}

/// Party 0 is active and listens; party 1 talks in poll mode and has register 01.
fn addressed() -> Composer {
    let mut bus = Composer::new();
    bus.call(BUILD, 0, 2, 5);
    bus.call(POLL, 1, 0x01, 0);
    bus.call(CLEAR, 0, 0, 0);
    address(&mut bus);
    bus
}

fn address(bus: &mut Composer) {
    bus.call(LISTEN, 0, 1, 0);
    assert!(bus.command(0x18) && bus.command(0x46));
}

/// The same with a request.
fn asking() -> Composer {
    let mut bus = addressed();
    srq(&mut bus, false);
    switch(&mut bus, 1);
    srq(&mut bus, true);
    bus
}

fn switch(bus: &mut Composer, value: u8) {
    assert_eq!(bus.call(REQUEST, 1, value, 0), Answer::NOTHING);
}

fn srq(bus: &mut Composer, wanted: bool) {
    let lines = bus.call(LINES, 0, 0, 0);
    assert_eq!(lines.byte & SRQ != 0, wanted, "{lines:?}");
}

fn begin_poll(bus: &mut Composer) {
    assert_eq!(bus.call(STANDBY, 0, 0, 0), Answer::NOTHING);
}

fn end_poll(bus: &mut Composer) {
    assert_eq!(bus.call(TAKE, 0, 0, 0), Answer::NOTHING);
}

/// The next status byte of the poll, to its end.
fn status(bus: &mut Composer, wanted: u8) {
    assert!(bus.walk_until(Event::is_put));
    assert_eq!(bus.bus.standing.map(|byte| byte.value), Some(wanted));
    assert!(bus.walk_until(Event::is_end));
    assert_eq!(bus.call(READ, 0, 0, 0), told(Event::Read, wanted));
}

/// A poll of one status byte.
fn poll(bus: &mut Composer, wanted: u8) {
    begin_poll(bus);
    status(bus, wanted);
    end_poll(bus);
}

#[test]
fn polls_without_a_status_byte_take_nothing() {
    let mut bus = asking();
    for _ in 0..2 {
        begin_poll(&mut bus);
        srq(&mut bus, false);
        end_poll(&mut bus);
        // It was polled, and asks no more by SRQ.
        srq(&mut bus, false);
        assert_eq!(bus.bus.parties[1].service, Service::Aprs);
    }
    poll(&mut bus, 0x41);
    assert_eq!(bus.bus.parties[1].service, Service::Nprs);
    poll(&mut bus, 0x01);
}

#[test]
fn a_status_byte_that_nobody_takes_is_none_put() {
    let mut bus = asking();
    bus.call(LISTEN, 0, 0, 0);
    begin_poll(&mut bus);
    assert_eq!(bus.step(1), Answer::moved());
    assert_eq!(bus.step(1), told(Event::Noacc, 0x41));
    assert_eq!(bus.step(1), told(Event::Noacc, 0x41));
    end_poll(&mut bus);
    bus.call(LISTEN, 0, 1, 0);
    poll(&mut bus, 0x41);
    poll(&mut bus, 0x01);
}

/// The bit is off with the put itself, so that no later poll has it, though the byte never ended and
/// the next poll follows at once.
#[test]
fn a_status_byte_broken_off_was_put() {
    let mut bus = asking();
    begin_poll(&mut bus);
    assert!(bus.walk_until(Event::is_put));
    assert!(!bus.bus.parties[1].rsv2);
    let broken = Answer {
        broken: 1,
        ..Answer::NOTHING
    };
    assert_eq!(bus.call(TAKE, 0, 0, 0), broken);
    poll(&mut bus, 0x01);
}

#[test]
fn reset_takes_the_request_and_interface_clear_leaves_it() {
    let mut bus = asking();
    assert_eq!(bus.call(RESET, 1, 0, 0), Answer::NOTHING);
    srq(&mut bus, false);
    address(&mut bus);
    poll(&mut bus, 0x01);
    let mut bus = asking();
    assert_eq!(bus.call(CLEAR, 0, 0, 0), Answer::NOTHING);
    srq(&mut bus, true);
    address(&mut bus);
    poll(&mut bus, 0x41);
    // In a poll, where reset ends it.
    let mut bus = asking();
    begin_poll(&mut bus);
    bus.call(RESET, 1, 0, 0);
    assert_eq!(bus.bus.parties[1].service, Service::Nprs);
    end_poll(&mut bus);
    srq(&mut bus, false);
}

#[test]
fn switched_off_before_the_poll_nothing_is_told() {
    let mut bus = asking();
    switch(&mut bus, 0);
    srq(&mut bus, false);
    poll(&mut bus, 0x01);
}

/// APRS has the bit until the poll is over.
#[test]
fn switched_off_in_the_poll_it_is_told_there() {
    let mut bus = asking();
    begin_poll(&mut bus);
    switch(&mut bus, 0);
    status(&mut bus, 0x41);
    end_poll(&mut bus);
    srq(&mut bus, false);
    poll(&mut bus, 0x01);
}

#[test]
fn switched_on_in_a_poll_it_is_a_request_for_after_it() {
    let mut bus = addressed();
    begin_poll(&mut bus);
    switch(&mut bus, 1);
    srq(&mut bus, false);
    status(&mut bus, 0x01);
    status(&mut bus, 0x01);
    end_poll(&mut bus);
    srq(&mut bus, true);
    poll(&mut bus, 0x41);
    srq(&mut bus, false);
    poll(&mut bus, 0x01);
}

/// In APRS a request stays there: it drives no SRQ, and the next status byte tells of it.
#[test]
fn switched_on_again_after_its_status_byte() {
    let mut bus = asking();
    begin_poll(&mut bus);
    status(&mut bus, 0x41);
    switch(&mut bus, 1);
    end_poll(&mut bus);
    srq(&mut bus, false);
    poll(&mut bus, 0x41);
    poll(&mut bus, 0x01);
}

/// Bit 64 of live keeps APRS beside it, until the register is written.
#[test]
fn beside_bit_64_of_the_register() {
    let mut bus = asking();
    bus.call(POLL, 1, 0x41, 0);
    poll(&mut bus, 0x41);
    assert!(!bus.bus.parties[1].rsv2);
    poll(&mut bus, 0x41);
    bus.call(POLL, 1, 0x02, 0);
    srq(&mut bus, false);
    poll(&mut bus, 0x02);
    // A register without it leaves the request.
    let mut bus = asking();
    bus.call(POLL, 1, 0x41, 0);
    bus.call(POLL, 1, 0x02, 0);
    srq(&mut bus, true);
    poll(&mut bus, 0x42);
}

#[test]
fn data_leaves_the_request_and_a_build_does_not() {
    let mut bus = Composer::new();
    bus.call(BUILD, 0, 2, 5);
    switch(&mut bus, 1);
    bus.call(TALK, 1, 1, 0);
    bus.call(LISTEN, 0, 1, 0);
    bus.call(WRITE, 1, 0x55, 0);
    assert!(bus.walk_until(Event::is_end));
    srq(&mut bus, true);
    // A build has it off.
    bus.call(BUILD, 0, 2, 5);
    srq(&mut bus, false);
    srq(&mut bus, false);
}

#[test]
fn each_party_has_its_own() {
    let mut bus = Composer::new();
    bus.call(BUILD, 0, 3, 5);
    for party in [0, 2] {
        assert_eq!(bus.call(REQUEST, party, 1, 0xFF), Answer::NOTHING);
    }
    assert_eq!(bus.drivers().mask(Line::Srq), 0b101);
    bus.call(REQUEST, 0, 0, 0);
    assert_eq!(bus.drivers().mask(Line::Srq), 0b100);
    bus.call(RESET, 1, 0, 0);
    assert_eq!(bus.drivers().mask(Line::Srq), 0b100);
}

#[test]
fn what_is_refused_changes_nothing() {
    let mut bus = asking();
    let before = bus.bus;
    let (party, value) = (
        Answer::refused(Refusal::NoParty),
        Answer::refused(Refusal::BadValue),
    );
    for number in [2, 3, 64, 255] {
        assert_eq!(bus.call(REQUEST, 1, number, 0), value);
        assert_eq!(bus.call(REQUEST, 2, number, 0), party);
    }
    assert_eq!(bus.call(REQUEST, 2, 0, 0), party);
    assert_eq!(bus.call(LAST_OPERATION + 1, 1, 0, 0), value);
    assert_eq!(bus.bus, before);
    assert_eq!(Bus::new().second_request(0, 1), party);
}

/// Turns of party 0 and party 1: offer and ACRS, put, taking, AWNS, end.
#[test]
fn polls_by_runs() {
    let mut bus = asking();
    for wanted in [0x41, 0x01, 0x01] {
        begin_poll(&mut bus);
        bus.run(8);
        assert_eq!(bus.call(READ, 0, 0, 0), told(Event::Read, wanted));
        bus.call(TAKE, 0, 0, 0);
    }
}
