//! The parallel poll; what is expected is worked out from document 01 and from document 02's Q-8.

mod expected;

use expected::{accepted, refused, NONE};
use meskvorn::parallel_poll::{PPC, PPD, PPE, PPU, SENSE};
use meskvorn::{Answer, Bus, Event, Name, Refusal};

const PARTIES: u8 = 5;

/// The secondaries are 65 and 7A on the bus.
const RACK: [Name; PARTIES as usize] = [
    Name::plain(1),
    Name::plain(2),
    Name::plain(3),
    Name::extended(4, 5),
    Name::extended(4, 26),
];

/// Party 0 is the system party, and active.
fn under_control() -> Bus {
    let (mut bus, answer) = Bus::build_extended(&RACK, 0);
    assert_eq!(answer, NONE);
    assert_eq!(bus.interface_clear(0), NONE);
    bus
}

/// The party, which is active, sends these commands, each to its end.
#[track_caller]
fn send_by(bus: &mut Bus, party: u8, commands: &[u8]) {
    for command in commands {
        assert_eq!(bus.write(party, *command, false), NONE);
        let mut turns = (0..7).flat_map(|_| 0..PARTIES);
        let ended = |turn| matches!(bus.step(turn).event, Event::Ended | Event::Passed);
        assert!(turns.any(ended), "{command:02x}");
    }
}

#[track_caller]
fn send(bus: &mut Bus, commands: &[u8]) {
    send_by(bus, 0, commands);
}

/// A poll by the party has this byte, and leaves the bus as it was.
#[track_caller]
fn poll_by(bus: &mut Bus, party: u8, byte: u8) {
    let before = bus.clone();
    assert_eq!(
        bus.parallel_poll(party),
        accepted(Event::Lines, byte, false)
    );
    assert_eq!(*bus, before);
}

#[track_caller]
fn poll(bus: &mut Bus, byte: u8) {
    poll_by(bus, 0, byte);
}

/// A call that is refused, and leaves the bus as it was.
#[track_caller]
fn refuses(bus: &mut Bus, refusal: Refusal, call: impl Fn(&mut Bus) -> Answer) {
    let before = bus.clone();
    assert_eq!(call(bus), refused(refusal));
    assert_eq!(*bus, before);
}

/// Polls after these commands, where every own status is false and where it is true.
fn after(commands: &[u8]) -> [u8; 2] {
    let mut bus = under_control();
    send(&mut bus, commands);
    [false, true].map(|status| {
        for party in 0..PARTIES {
            assert_eq!(bus.own_status(party, status), NONE);
        }
        bus.parallel_poll(0).byte
    })
}

#[test]
fn three_parties_are_configured_and_polled() {
    let mut bus = under_control();
    poll(&mut bus, 0x00);
    send(&mut bus, &[0x22, 0x05, 0x68, 0x3f]);
    send(&mut bus, &[0x23, 0x05, 0x61, 0x3f]);
    send(&mut bus, &[0x24, 0x65, 0x05, 0x6f, 0x3f]);
    poll(&mut bus, 0x02);
    for (party, status, byte) in [
        (1, true, 0x03),
        (2, true, 0x01),
        (3, true, 0x81),
        (1, false, 0x80),
        (2, false, 0x82),
        (4, true, 0x82),
    ] {
        assert_eq!(bus.own_status(party, status), NONE);
        poll(&mut bus, byte);
    }
}

#[test]
fn every_line_by_each_sense() {
    assert_eq!([PPC, PPU, PPE, SENSE, PPD], [0x05, 0x15, 0x60, 0x08, 0x70]);
    let bits = [0x01, 0x02, 0x04, 0x08, 0x10, 0x20, 0x40, 0x80];
    for (line, bit) in (1..).zip(bits) {
        assert_eq!(after(&[0x22, PPC, PPE | (line - 1)]), [bit, 0x00]);
        assert_eq!(after(&[0x22, PPC, PPE | SENSE | (line - 1)]), [0x00, bit]);
    }
}

#[test]
fn a_second_response_replaces_the_first() {
    assert_eq!(after(&[0x22, 0x05, 0x68, 0x6d]), [0x00, 0x20]);
    assert_eq!(after(&[0x22, 0x05, 0x68, 0x65]), [0x20, 0x00]);
}

#[test]
fn two_parties_on_a_line() {
    let mut bus = under_control();
    send(&mut bus, &[0x22, 0x05, 0x6a, 0x3f, 0x23, 0x05, 0x62]);
    for (first, second, byte) in [
        (false, false, 0x04),
        (true, false, 0x04),
        (true, true, 0x04),
        (false, true, 0x00),
    ] {
        bus.own_status(1, first);
        bus.own_status(2, second);
        poll(&mut bus, byte);
    }
}

#[test]
fn ppd_and_ppu_remove_it() {
    for code in 0x70..0x80 {
        assert_eq!(after(&[0x22, 0x05, 0x68, code]), [0x00, 0x00]);
        assert_eq!(after(&[0x22, 0x05, code, 0x68]), [0x00, 0x01]);
        assert_eq!(after(&[0x22, 0x05, 0x68, 0x3f, code]), [0x00, 0x01]);
    }
    assert_eq!(after(&[0x22, 0x05, 0x68, PPD]), [0x00, 0x00]);
    assert_eq!(after(&[0x22, 0x05, 0x68, PPU]), [0x00, 0x00]);
    assert_eq!(after(&[0x22, 0x05, 0x68, 0x3f, PPU]), [0x00, 0x00]);
    assert_eq!(after(&[0x22, 0x05, PPU, 0x68]), [0x00, 0x00]);
}

#[test]
fn configuring_is_for_listeners_and_ends_with_the_next_primary_command() {
    assert_eq!(after(&[0x05, 0x68]), [0x00, 0x00]);
    assert_eq!(after(&[0x42, 0x05, 0x68]), [0x00, 0x00]);
    assert_eq!(after(&[0x22, 0x68]), [0x00, 0x00]);
    for code in (0x00..0x60).filter(|code| *code != 0x05) {
        assert_eq!(after(&[0x22, 0x05, code, 0x68]), [0x00, 0x00]);
    }
    assert_eq!(after(&[0x22, 0x05, 0x05, 0x68]), [0x00, 0x01]);
    // Heard while not listening PPC takes nothing away.
    let mut bus = under_control();
    send(&mut bus, &[0x22, 0x05]);
    assert_eq!(bus.listen_only(1, false), NONE);
    send(&mut bus, &[0x05, 0x60]);
    poll(&mut bus, 0x01);
}

/// Who talks is refused listen-only with 4.
fn talks(bus: &Bus, party: u8) -> bool {
    bus.clone().listen_only(party, true).refusal == Refusal::Role
}

#[test]
fn a_secondary_while_configuring_is_no_address() {
    assert_eq!(after(&[0x24, 0x65, 0x05, 0x65]), [0x20, 0x00]);
    assert_eq!(after(&[0x24, 0x7a, 0x05, 0x68, 0x7a]), [0x00, 0x00]);
    let mut bus = under_control();
    send(&mut bus, &[0x24, 0x65, 0x44, 0x05, 0x65]);
    poll(&mut bus, 0x20);
    assert!(!talks(&bus, 3));
    send(&mut bus, &[0x44, 0x65]);
    assert!(talks(&bus, 3));
    // PPC costs party 3, which does not listen, its mark, so that 7A does not move talk.
    send(&mut bus, &[0x05, 0x7a]);
    assert!(talks(&bus, 3) && !talks(&bus, 4));
    poll(&mut bus, 0x20);
}

#[test]
fn the_controller_is_configured_when_its_command_ends() {
    let mut bus = under_control();
    bus.own_status(0, true);
    send(&mut bus, &[0x21, 0x05]);
    assert_eq!(bus.write(0, 0x6b, false), NONE);
    // From AWNS the others are ready after two rounds; then party 0 puts the command up, and party 1 hears it.
    bus.give_turns(12);
    refuses(&mut bus, Refusal::Standing, |bus| bus.parallel_poll(0));
    bus.give_turns(20);
    poll(&mut bus, 0x08);
}

#[test]
fn reset_removes_response_and_mark_and_keeps_the_status() {
    let mut bus = under_control();
    bus.own_status(1, true);
    send(&mut bus, &[0x22, 0x05, 0x68]);
    poll(&mut bus, 0x01);
    assert_eq!(bus.reset(2), NONE);
    poll(&mut bus, 0x01);
    assert_eq!(bus.reset(1), NONE);
    poll(&mut bus, 0x00);
    send(&mut bus, &[0x68]);
    poll(&mut bus, 0x00);
    send(&mut bus, &[0x22, 0x05, 0x68]);
    poll(&mut bus, 0x01);
}

#[test]
fn attention_keeps_response_and_mark() {
    let mut bus = under_control();
    bus.own_status(1, true);
    send(&mut bus, &[0x22, 0x05]);
    assert_eq!(bus.interface_clear(0), NONE);
    send(&mut bus, &[0x68]);
    poll(&mut bus, 0x01);
    assert_eq!(bus.go_to_standby(0), NONE);
    refuses(&mut bus, Refusal::Role, |bus| bus.parallel_poll(0));
    assert_eq!(bus.take_control(0), NONE);
    poll(&mut bus, 0x01);
    send(&mut bus, &[0x69]);
    poll(&mut bus, 0x02);
}

#[test]
fn who_gets_control_polls_and_configures() {
    let mut bus = under_control();
    bus.own_status(1, true);
    send(&mut bus, &[0x22, 0x05, 0x69, 0x43, 0x09]);
    refuses(&mut bus, Refusal::Role, |bus| bus.parallel_poll(0));
    poll_by(&mut bus, 2, 0x02);
    send_by(&mut bus, 2, &[0x22, 0x05, 0x6c, 0x3f]);
    poll_by(&mut bus, 2, 0x10);
}

#[test]
fn refusals_in_their_order() {
    let (mut bus, _) = Bus::build_extended(&RACK, 0);
    for party in 0..=255 {
        let wanted = match party {
            0..PARTIES => Refusal::Role,
            _ => Refusal::NoParty,
        };
        refuses(&mut bus, wanted, |bus| bus.parallel_poll(party));
    }
    bus.interface_clear(0);
    bus.write(0, 0x3f, false);
    bus.give_turns(7);
    for party in 0..=255 {
        let wanted = match party {
            0 => Refusal::Standing,
            1..PARTIES => Refusal::Role,
            _ => Refusal::NoParty,
        };
        refuses(&mut bus, wanted, |bus| bus.parallel_poll(party));
    }
    for party in PARTIES..=255 {
        for status in [false, true] {
            refuses(&mut bus, Refusal::NoParty, |bus| {
                bus.own_status(party, status)
            });
        }
    }
    let mut nobody = Bus::default();
    refuses(&mut nobody, Refusal::NoParty, |bus| bus.own_status(0, true));
    refuses(&mut nobody, Refusal::NoParty, |bus| bus.parallel_poll(0));
}

#[test]
fn buses_that_differ_in_a_status_differ_in_polls_alone() {
    let mut bus = under_control();
    send(&mut bus, &[0x22, 0x05, 0x68]);
    let mut other = bus.clone();
    bus.own_status(1, true);
    assert_ne!(bus, other);
    poll(&mut bus, 0x01);
    poll(&mut other, 0x00);
    // The status is no request for service.
    assert_eq!(bus.lines(), other.lines());
    assert_eq!(bus.drivers(), other.drivers());
    bus.own_status(1, false);
    assert_eq!(bus, other);
}

#[test]
fn a_build_leaves_neither_response_nor_status() {
    let mut bus = under_control();
    bus.own_status(1, true);
    send(&mut bus, &[0x22, 0x05, 0x68]);
    assert_eq!(bus.rebuild_extended(&RACK, 0), NONE);
    assert_eq!(bus.interface_clear(0), NONE);
    assert_eq!(bus, under_control());
    send(&mut bus, &[0x22, 0x05, 0x60]);
    poll(&mut bus, 0x01);
}
