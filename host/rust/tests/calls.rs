//! Calls one by one; what is expected is worked out from document 01.

mod expected;

use expected::{accepted, refused, NONE};
use meskvorn::{Answer, Bus, Event, Refusal};

const MOVED: Answer = accepted(Event::Moved, 0, false);

/// Parties at addresses 5, 6, ..; party 0 is the system party.
fn built(parties: u8) -> Bus {
    let addresses: Vec<u8> = (5..5 + parties).collect();
    let (bus, answer) = Bus::build(&addresses, 0);
    assert_eq!(answer, NONE);
    bus
}

/// Party 0 talks, party 1 listens; the byte 41 with END stands.
fn standing() -> Bus {
    let mut bus = built(2);
    assert_eq!(bus.talk_only(0, true), NONE);
    assert_eq!(bus.listen_only(1, true), NONE);
    assert_eq!(bus.write(0, 0x41, true), NONE);
    assert_eq!(bus.step(0), MOVED);
    assert_eq!(bus.step(1), MOVED);
    assert_eq!(bus.step(0), accepted(Event::Data, 0x41, true));
    bus
}

/// The active party 0 sends a command to its end; party 1 takes it with the event given.
fn command(bus: &mut Bus, byte: u8, heard: Event) -> Answer {
    assert_eq!(bus.write(0, byte, false), NONE);
    assert_eq!(bus.step(0), MOVED);
    // From ANRS or AWNS to ACRS.
    bus.step(1);
    bus.step(1);
    assert_eq!(bus.step(0), accepted(Event::Cmd, byte, false));
    assert_eq!(bus.go_to_standby(0), refused(Refusal::Standing));
    assert_eq!(bus.reset(0), refused(Refusal::Standing));
    assert_eq!(bus.step(1), accepted(heard, byte, false));
    assert_eq!(bus.step(1), MOVED);
    bus.step(0)
}

#[test]
fn p1_and_p2_a_byte_from_party_to_party() {
    let mut bus = standing();
    assert_eq!(bus.step(1), accepted(Event::Took, 0x41, true));
    assert_eq!(bus.lines(), accepted(Event::Lines, 0x78, false));
    assert_eq!(bus.step(0), NONE);
    assert_eq!(bus.step(1), MOVED);
    assert_eq!(bus.step(0), accepted(Event::Ended, 0x41, true));
    assert_eq!(bus.read(1), accepted(Event::Read, 0x41, true));
    assert_eq!(bus.read(1), refused(Refusal::Empty));
}

#[test]
fn a_clone_goes_its_own_way() {
    let mut bus = standing();
    let mut other = bus.clone();
    assert_eq!(other.reset(0), Answer { broken: 1, ..NONE });
    assert_eq!(other.lines(), accepted(Event::Lines, 0x20, false));
    assert_eq!(bus.lines(), accepted(Event::Lines, 0x68, false));
}

#[test]
fn p7_no_listener_keeps_the_byte() {
    let mut bus = built(2);
    assert_eq!(bus.talk_only(0, true), NONE);
    assert_eq!(bus.write(0, 0x41, true), NONE);
    assert_eq!(bus.write(0, 0x42, true), refused(Refusal::Full));
    assert_eq!(bus.step(0), MOVED);
    assert_eq!(bus.step(0), accepted(Event::Noacc, 0x41, true));
    assert_eq!(bus.step(0), accepted(Event::Noacc, 0x41, true));
    assert_eq!(bus.listen_only(1, true), NONE);
    assert_eq!(bus.step(1), MOVED);
    assert_eq!(bus.step(0), accepted(Event::Data, 0x41, true));
    assert_eq!(bus.step(1), accepted(Event::Took, 0x41, true));
    assert_eq!(bus.write(0, 0x42, true), NONE);
    assert_eq!(bus.drop_byte(0), Answer { dropped: 1, ..NONE });
}

#[test]
fn p8_and_p9_builds() {
    let addresses: Vec<u8> = (0..16).rev().collect();
    let (mut bus, answer) = Bus::build(&addresses[..15], 14);
    assert_eq!(answer, NONE);
    assert_eq!(bus.interface_clear(13), refused(Refusal::Role));
    assert_eq!(bus.interface_clear(14), NONE);
    assert_eq!(bus.step(15), refused(Refusal::NoParty));
    assert_eq!(Bus::build(&[30, 0], 0).1, NONE);
    for (addresses, system) in [
        (&addresses[..], 0),
        (&[31], 0),
        (&[7, 2, 7], 0),
        (&[5, 6], 2),
        (&[], 0),
    ] {
        let (mut bus, answer) = Bus::build(addresses, system);
        assert_eq!(answer, refused(Refusal::BadBuild), "{addresses:?}");
        assert_eq!(bus.step(0), refused(Refusal::NoParty));
        assert_eq!(bus.lines(), accepted(Event::Lines, 0, false));
    }
}

#[test]
fn a_build_leaves_nothing_of_the_bus_before() {
    let mut bus = standing();
    assert_eq!(bus.rebuild(&[6, 5], 1), NONE);
    assert_eq!(bus.lines(), accepted(Event::Lines, 0, false));
    assert_eq!(bus.interface_clear(0), refused(Refusal::Role));
    assert_eq!(bus.drop_byte(0), NONE);
    assert_eq!(bus.rebuild(&[6, 6], 0), refused(Refusal::BadBuild));
    assert_eq!(bus.drop_byte(0), refused(Refusal::NoParty));
}

#[test]
fn p10_p11_commands_and_control_that_passes() {
    let (mut bus, _) = Bus::build(&[4, 5], 0);
    assert_eq!(bus.interface_clear(0), NONE);
    assert_eq!(bus.talk_only(0, true), refused(Refusal::Attention));
    for (byte, heard) in [
        (0x25, Event::Heard),
        (0x04, Event::Clear),
        (0x08, Event::Trigger),
        (0xc5, Event::Heard),
    ] {
        assert_eq!(
            command(&mut bus, byte, heard),
            accepted(Event::Ended, byte, false)
        );
    }
    assert_eq!(bus.listen_only(1, true), refused(Refusal::Role));
    assert_eq!(bus.write(1, 0x77, false), NONE);
    let passed = Answer {
        dropped: 1,
        ..accepted(Event::Passed, 0x09, false)
    };
    assert_eq!(command(&mut bus, 0x09, Event::Heard), passed);
    assert_eq!(bus.go_to_standby(1), NONE);
    assert_eq!(bus.talk_only(0, true), refused(Refusal::Talker));
    assert_eq!(bus.take_control(0), refused(Refusal::Role));
    assert_eq!(bus.take_control(1), NONE);
    assert_eq!(bus.lines(), accepted(Event::Lines, 0xb0, false));
}

/// P12 for every register: all its bits arrive, and bit 64 asks for service.
#[test]
fn p12_status_bytes() {
    for register in 0..=255 {
        let mut bus = built(2);
        assert_eq!(bus.poll_register(1, register), NONE);
        let lines = if register & 64 == 0 { 0 } else { 4 };
        assert_eq!(bus.lines(), accepted(Event::Lines, lines, false));
        assert_eq!(bus.interface_clear(0), NONE);
        assert_eq!(bus.listen_only(0, true), NONE);
        for byte in [0x18, 0x46] {
            assert_eq!(
                command(&mut bus, byte, Event::Heard),
                accepted(Event::Ended, byte, false)
            );
        }
        assert_eq!(bus.go_to_standby(0), NONE);
        assert_eq!(bus.step(1), MOVED);
        assert_eq!(bus.step(0), MOVED);
        assert_eq!(bus.step(1), accepted(Event::Stat, register, false));
        assert_eq!(bus.step(0), accepted(Event::Took, register, false));
        assert_eq!(bus.read(0), accepted(Event::Read, register, false));
    }
}

#[test]
fn unknown_operations_and_values_are_refused() {
    let mut bus = built(2);
    for operation in (14..=255).chain([0]) {
        assert_eq!(
            bus.call(operation, 2, 0, 0),
            refused(Refusal::BadValue),
            "{operation}"
        );
    }
    for operation in (1..12).chain([13]) {
        assert_eq!(
            bus.call(operation, 2, 2, 2),
            refused(Refusal::NoParty),
            "{operation}"
        );
    }
    for (operation, value, extra) in [(2, 0, 2), (5, 2, 0), (6, 255, 0), (13, 2, 0)] {
        assert_eq!(
            bus.call(operation, 0, value, extra),
            refused(Refusal::BadValue)
        );
    }
    assert_eq!(
        bus.call(12, 255, 255, 255),
        accepted(Event::Lines, 0, false)
    );
}
