//! The chip's registers; what is expected is worked out from documents 01 and 02, and from document
//! 001's tables 2-1 to 2-3.

mod expected;

use expected::{accepted, refused, NONE};
use meskvorn::registers::{auxiliary, read, write};
use meskvorn::{Answer, Bus, Event, Operation, Refusal};

/// Party 0 talks, party 1 listens and has taken 41 with END, party 2 is idle and holds a byte.
fn busy() -> Bus {
    let (mut bus, answer) = Bus::build(&[5, 6, 7], 0);
    assert_eq!(answer, NONE);
    bus.talk_only(0, true);
    bus.listen_only(1, true);
    bus.write(0, 0x41, true);
    bus.write(2, 0x42, false);
    bus.give_turns(21);
    bus
}

/// Party 1 is the system party and active, and its command stands.
fn commanding() -> Bus {
    let (mut bus, _) = Bus::build(&[5, 6, 7], 1);
    bus.interface_clear(1);
    bus.write(1, 0x25, false);
    bus.give_turns(5);
    assert_eq!(bus.lines().byte, 0xe0);
    bus
}

fn parties_of_both() -> impl Iterator<Item = (Bus, u8)> {
    (0..3).flat_map(|party| [(busy(), party), (commanding(), party)])
}

fn command(bus: &mut Bus, party: u8, value: u8) -> Answer {
    bus.write_register(party, write::AUXILIARY, value)
}

/// The call that an auxiliary command stands for, by f4 to f0; None if it is not carried.
fn call_of(value: u8) -> Option<(Operation, u8)> {
    let cs = value >> 7;
    match value & 0b11111 {
        0b00000 if cs == 1 => Some((Operation::Reset, 0)),
        0b00101 => Some((Operation::Drop, 0)),
        0b01001 => Some((Operation::ListenOnly, cs)),
        0b01010 => Some((Operation::TalkOnly, cs)),
        0b01011 => Some((Operation::GoToStandby, 0)),
        0b01100 => Some((Operation::TakeControl, 0)),
        0b01111 if cs == 1 => Some((Operation::InterfaceClear, 0)),
        0b11000 => Some((Operation::SecondRequest, cs)),
        _ => None,
    }
}

/// swrst and sic cleared, which do nothing, and feoi.
fn is_silent(value: u8) -> bool {
    matches!(value & 0b11111, 0b01000) || matches!(value & 0b1001_1111, 0b00000 | 0b01111)
}

#[test]
fn every_command_is_its_call() {
    for (start, party) in parties_of_both() {
        for value in 0..=255 {
            let (mut bus, mut beside) = (start.clone(), start.clone());
            let wanted = match call_of(value) {
                Some((operation, on)) => beside.call(operation as u8, party, on, 0),
                None if is_silent(value) => NONE,
                None => refused(Refusal::NoReg),
            };
            assert_eq!(
                command(&mut bus, party, value),
                wanted,
                "{party} {value:02x}"
            );
            let is_marked = value & 0b11111 == auxiliary::FEOI;
            assert_eq!(bus == beside, !is_marked, "{party} {value:02x}");
        }
    }
}

#[test]
fn the_other_registers_are_their_calls() {
    for (start, party) in parties_of_both() {
        for value in 0..=255 {
            let (mut bus, mut beside) = (start.clone(), start.clone());
            let polled = bus.write_register(party, write::SERIAL_POLL, value);
            assert_eq!(polled, beside.poll_register(party, value));
            let written = bus.write_register(party, write::DATA_OUT, value);
            assert_eq!(written, beside.write(party, value, false));
            assert_eq!(bus, beside);
        }
        let (mut bus, mut beside) = (start.clone(), start.clone());
        assert_eq!(bus.read_register(party, read::BUS_STATUS), beside.lines());
        assert_eq!(bus.read_register(party, read::DATA_IN), beside.read(party));
        assert_eq!(bus, beside);
    }
}

#[test]
fn other_offsets_are_no_registers_and_no_party_comes_first() {
    let start = busy();
    let mut bus = start.clone();
    for offset in 0..=255 {
        if ![read::BUS_STATUS, read::DATA_IN].contains(&offset) {
            assert_eq!(bus.read_register(1, offset), refused(Refusal::NoReg));
        }
        if ![write::AUXILIARY, write::SERIAL_POLL, write::DATA_OUT].contains(&offset) {
            for value in 0..=255 {
                assert_eq!(
                    bus.write_register(1, offset, value),
                    refused(Refusal::NoReg)
                );
            }
        }
        for party in [3, 15, 255] {
            assert_eq!(bus.read_register(party, offset), refused(Refusal::NoParty));
            assert_eq!(
                bus.write_register(party, offset, 5),
                refused(Refusal::NoParty)
            );
        }
    }
    assert_eq!(bus, start);
    assert_eq!(
        Bus::default().read_register(0, read::BUS_STATUS),
        refused(Refusal::NoParty)
    );
}

/// The byte through data out by party 0 until party 1 has read it.
#[track_caller]
fn transfer(bus: &mut Bus, byte: u8, end: bool) {
    assert_eq!(bus.write_register(0, write::DATA_OUT, byte), NONE);
    bus.give_turns(21);
    let read = bus.read_register(1, read::DATA_IN);
    assert_eq!(read, accepted(Event::Read, byte, end));
}

#[test]
fn feoi_marks_the_next_byte_alone() {
    let mut bus = busy();
    let taken = bus.read_register(1, read::DATA_IN);
    assert_eq!(taken, accepted(Event::Read, 0x41, true));
    transfer(&mut bus, 0x43, false);
    assert_eq!(command(&mut bus, 0, auxiliary::FEOI), NONE);
    transfer(&mut bus, 0x44, true);
    transfer(&mut bus, 0x45, false);
    assert_eq!(command(&mut bus, 2, auxiliary::FEOI), NONE);
    transfer(&mut bus, 0x46, false);
}

#[test]
fn a_refused_write_and_the_hosts_own_keep_the_mark() {
    let mut bus = busy();
    bus.read(1);
    assert_eq!(command(&mut bus, 0, auxiliary::FEOI), NONE);
    assert_eq!(bus.write(0, 0x43, false), NONE);
    let full = bus.write_register(0, write::DATA_OUT, 0x44);
    assert_eq!(full, refused(Refusal::Full));
    bus.give_turns(21);
    assert_eq!(bus.read(1), accepted(Event::Read, 0x43, false));
    transfer(&mut bus, 0x45, true);
}

#[test]
fn both_resets_remove_the_mark() {
    let resets: [fn(&mut Bus) -> Answer; 2] = [
        |bus| bus.reset(0),
        |bus| command(bus, 0, auxiliary::SWRST | auxiliary::SET),
    ];
    for reset in resets {
        let mut bus = busy();
        bus.read(1);
        assert_eq!(command(&mut bus, 0, auxiliary::FEOI), NONE);
        assert_eq!(reset(&mut bus), NONE);
        bus.talk_only(0, true);
        transfer(&mut bus, 0x43, false);
    }
}

/// Party 0 knows accesses alone and polls party 1, at address 6, which asks.
#[test]
fn a_serial_poll_by_accesses() {
    use auxiliary::{GTS, RSV2, SET, SIC, TCA};
    let (mut bus, _) = Bus::build(&[5, 6], 0);
    assert_eq!(bus.write_register(1, write::SERIAL_POLL, 0x01), NONE);
    assert_eq!(command(&mut bus, 1, RSV2 | SET), NONE);
    assert_eq!(command(&mut bus, 0, SIC | SET), NONE);
    assert_eq!(command(&mut bus, 0, SIC), NONE);
    for byte in [0x3f, 0x25, 0x18, 0x46] {
        assert_eq!(bus.write_register(0, write::DATA_OUT, byte), NONE);
        bus.give_turns(14);
    }
    assert_eq!(bus.read_register(0, read::BUS_STATUS).byte & 4, 4);
    assert_eq!(command(&mut bus, 0, GTS), NONE);
    bus.give_turns(14);
    let status = bus.read_register(0, read::DATA_IN);
    assert_eq!(status, accepted(Event::Read, 0x41, false));
    assert_eq!(bus.read_register(0, read::BUS_STATUS).byte & 4, 0);
    assert_eq!(command(&mut bus, 0, TCA), NONE);
    for byte in [0x19, 0x5f] {
        assert_eq!(bus.write_register(0, write::DATA_OUT, byte), NONE);
        bus.give_turns(14);
    }
    assert_eq!(bus.read_register(0, read::BUS_STATUS).byte, 0xa0);
}
