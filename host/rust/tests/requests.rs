//! The second request bit; what is expected is worked out from document 01 and from document 02's Q-5.

mod expected;

use expected::{accepted, refused, NONE};
use meskvorn::{run, Answer, Bus, Event, Line, Operation, Refusal};

const MOVED: Answer = accepted(Event::Moved, 0, false);
const SRQ: u8 = 4;

/// The active party 0 sends one command to its end.
fn command(bus: &mut Bus, byte: u8) {
    assert_eq!(bus.write(0, byte, false), NONE);
    bus.give_turns(10);
    assert_eq!(bus.drop_byte(0), NONE);
}

/// Party 0 is active and listens; party 1 at address 6 talks in poll mode.
fn address(bus: &mut Bus) {
    assert_eq!(bus.interface_clear(0), NONE);
    assert_eq!(bus.listen_only(0, true), NONE);
    command(bus, 0x18);
    command(bus, 0x46);
}

/// The same, with register 01 of party 1.
fn addressed() -> Bus {
    let (mut bus, answer) = Bus::build(&[5, 6], 0);
    assert_eq!(answer, NONE);
    assert_eq!(bus.poll_register(1, 0x01), NONE);
    address(&mut bus);
    bus
}

fn srq(bus: &mut Bus) -> bool {
    bus.lines().byte & SRQ != 0
}

/// Party 1 asks.
fn asking() -> Bus {
    let mut bus = addressed();
    assert!(!srq(&mut bus));
    assert_eq!(bus.second_request(1, true), NONE);
    assert!(srq(&mut bus));
    bus
}

/// The next status byte, from its offer until it is read and its listener is in ANRS.
#[track_caller]
fn status(bus: &mut Bus, byte: u8) {
    assert_eq!(bus.step(1), MOVED);
    assert_eq!(bus.step(0), MOVED);
    assert_eq!(bus.step(1), accepted(Event::Stat, byte, false));
    assert_eq!(bus.step(0), accepted(Event::Took, byte, false));
    assert_eq!(bus.step(0), MOVED);
    assert_eq!(bus.step(1), accepted(Event::Ended, byte, false));
    assert_eq!(bus.read(0), accepted(Event::Read, byte, false));
    assert_eq!(bus.step(0), MOVED);
}

/// A poll with these status bytes.
#[track_caller]
fn poll(bus: &mut Bus, bytes: &[u8]) {
    assert_eq!(bus.go_to_standby(0), NONE);
    assert!(!srq(bus));
    for byte in bytes {
        status(bus, *byte);
    }
    assert_eq!(bus.take_control(0), NONE);
}

#[test]
fn the_first_poll_tells_and_no_later_one() {
    let mut bus = asking();
    poll(&mut bus, &[0x41, 0x41]);
    assert!(!srq(&mut bus));
    poll(&mut bus, &[0x01, 0x01]);
    poll(&mut bus, &[0x01]);
}

#[test]
fn polls_without_a_status_byte_take_nothing() {
    let mut bus = asking();
    for _ in 0..3 {
        poll(&mut bus, &[]);
        assert!(!srq(&mut bus));
    }
    poll(&mut bus, &[0x41]);
    poll(&mut bus, &[0x01]);
}

#[test]
fn the_put_clears_it_though_the_byte_is_broken_off() {
    let mut bus = asking();
    assert_eq!(bus.go_to_standby(0), NONE);
    assert_eq!(bus.step(1), MOVED);
    assert_eq!(bus.step(0), MOVED);
    assert_eq!(bus.step(1), accepted(Event::Stat, 0x41, false));
    assert_eq!(bus.take_control(0), Answer { broken: 1, ..NONE });
    assert_eq!(bus.go_to_standby(0), NONE);
    status(&mut bus, 0x01);
}

#[test]
fn reset_takes_it_and_interface_clear_does_not() {
    let mut bus = asking();
    assert_eq!(bus.reset(1), NONE);
    assert!(!srq(&mut bus));
    address(&mut bus);
    poll(&mut bus, &[0x01]);
    let mut bus = asking();
    address(&mut bus);
    assert!(srq(&mut bus));
    poll(&mut bus, &[0x41]);
}

#[test]
fn switched_off_before_the_poll() {
    let mut bus = asking();
    assert_eq!(bus.second_request(1, false), NONE);
    assert!(!srq(&mut bus));
    assert_eq!(bus, addressed());
    poll(&mut bus, &[0x01]);
}

#[test]
fn switched_on_in_a_poll_it_asks_after_it() {
    let mut bus = addressed();
    assert_eq!(bus.go_to_standby(0), NONE);
    assert_eq!(bus.second_request(1, true), NONE);
    assert!(!srq(&mut bus));
    status(&mut bus, 0x01);
    assert_eq!(bus.take_control(0), NONE);
    assert!(srq(&mut bus));
    poll(&mut bus, &[0x41]);
    poll(&mut bus, &[0x01]);
}

#[test]
fn each_party_has_its_own() {
    let addresses: Vec<u8> = (0..15).collect();
    let (mut bus, _) = Bus::build(&addresses, 0);
    for party in 0..15 {
        assert_eq!(bus.second_request(party, true), NONE);
        let told = bus.drivers();
        assert!(told.of(Line::Srq).parties().eq(0..=party));
    }
    bus.rebuild(&addresses, 0);
    assert!(!srq(&mut bus) && !srq(&mut bus));
}

#[test]
fn refusals_change_nothing() {
    let mut bus = asking();
    let before = bus.clone();
    let number = Operation::SecondRequest as u8;
    assert_eq!(number, 13);
    for value in 2..=255 {
        assert_eq!(bus.call(number, 1, value, 0), refused(Refusal::BadValue));
        assert_eq!(bus.call(number, 2, value, 0), refused(Refusal::NoParty));
    }
    assert_eq!(bus.second_request(2, true), refused(Refusal::NoParty));
    assert_eq!(bus, before);
    // The extra is ignored.
    assert_eq!(bus.call(number, 1, 0, 255), NONE);
    let nobody = Bus::default().second_request(0, true);
    assert_eq!(nobody, refused(Refusal::NoParty));
}

#[test]
fn polls_by_runs() {
    let mut bus = asking();
    for wanted in [0x41, 0x01, 0x01] {
        assert_eq!(bus.go_to_standby(0), NONE);
        bus.give_turns(8);
        assert_eq!(bus.read(0), accepted(Event::Read, wanted, false));
        assert_eq!(bus.take_control(0), NONE);
    }
}

#[test]
fn a_script_switches_it_by_operation_13() {
    let calls = [
        [0, 0, 2, 5],
        [13, 1, 1, 9],
        [12, 0, 0, 0],
        [13, 1, 2, 0],
        [13, 2, 2, 0],
        [14, 1, 0, 0],
    ];
    let script = calls.map(|call| [&[0x47, 0x42], &call[..]].concat());
    let wanted = "1 0 none -- 0 0 0\n2 0 none -- 0 0 0\n3 0 lines 04 0 0 0\n4 3 none -- 0 0 0\n\
        5 1 none -- 0 0 0\n6 3 none -- 0 0 0\n";
    let mut out = [0; 6 * 34];
    let written = run(&script.concat(), &mut out).expect("34 bytes for each record");
    assert_eq!(&out[..written], wanted.as_bytes());
}
