//! Drivers of the lines; what is expected is worked out from document 01 and from document 02's Q-4.

use meskvorn::{Answer, Bus, Event, Line, LineDrivers, Operation, Refusal};

const NONE: Answer = Answer {
    refusal: Refusal::Accepted,
    event: Event::None,
    byte: 0,
    end: false,
    dropped: 0,
    broken: 0,
};

/// The parties that drive ATN, DAV, NRFD, NDAC, EOI and SRQ.
type Parties<'a> = [&'a [u8]; 6];

const NOBODY: Parties = [&[]; 6];

/// Asks for the drivers, which leaves the bus of a list as it is, and for the lines beside them.
#[track_caller]
fn expect(bus: &mut Bus, wanted: Parties) {
    let before = bus.clone();
    let drivers = bus.drivers();
    assert_eq!(drivers.answer, NONE);
    assert_eq!(*bus, before);
    let mut lines = 0;
    for (line, parties) in Line::ALL.into_iter().zip(wanted) {
        let told = drivers.of(line);
        let mask: u16 = parties.iter().map(|party| 1 << party).sum();
        assert_eq!(told.mask, mask, "{line:?}");
        assert_eq!(told.count as usize, parties.len(), "{line:?}");
        assert!(told.parties().eq(parties.iter().copied()), "{line:?}");
        for party in 0..=255 {
            let drives = parties.contains(&party);
            assert_eq!(told.is_driven_by(party), drives, "{line:?} by {party}");
        }
        lines |= if parties.is_empty() { 0 } else { line.bit() };
    }
    assert_eq!(bus.lines().byte, lines);
    assert_eq!(*bus, before);
}

/// Parties at addresses 5, 6, ..; party 0 is the system party.
fn built(parties: u8) -> Bus {
    let addresses: Vec<u8> = (5..5 + parties).collect();
    let (bus, answer) = Bus::build(&addresses, 0);
    assert_eq!(answer, NONE);
    bus
}

/// Party 0 talks to the others, which are in ACRS; the byte 41 stands.
fn standing(parties: u8, end: bool) -> Bus {
    let mut bus = built(parties);
    bus.talk_only(0, true);
    for party in 1..parties {
        bus.listen_only(party, true);
        assert_eq!(bus.step(party).event, Event::Moved);
    }
    bus.write(0, 0x41, end);
    assert_eq!(bus.step(0).event, Event::Moved);
    assert_eq!(bus.step(0).event, Event::Data);
    bus
}

/// The active party 0 of three sends a command to its end.
fn command(bus: &mut Bus, byte: u8) {
    assert_eq!(bus.write(0, byte, true), NONE);
    // Offered, put, waited with, ended.
    bus.give_turns(4 * 3);
}

#[test]
fn the_worked_script_record_by_record() {
    let mut bus = built(2);
    expect(&mut bus, NOBODY);
    bus.talk_only(0, true);
    expect(&mut bus, NOBODY);
    bus.listen_only(1, true);
    let anrs: Parties = [&[], &[], &[1], &[1], &[], &[]];
    expect(&mut bus, anrs);
    bus.write(0, 0x41, true);
    expect(&mut bus, anrs);
    bus.step(0);
    expect(&mut bus, anrs);
    bus.step(1);
    expect(&mut bus, [&[], &[], &[], &[1], &[], &[]]);
    assert_eq!(bus.step(0).event, Event::Data);
    expect(&mut bus, [&[], &[0], &[], &[1], &[0], &[]]);
    // P2: the lines are 78.
    assert_eq!(bus.step(1).event, Event::Took);
    let acds: Parties = [&[], &[0], &[1], &[1], &[0], &[]];
    expect(&mut bus, acds);
    bus.step(0);
    expect(&mut bus, acds);
    bus.step(1);
    expect(&mut bus, [&[], &[0], &[1], &[], &[0], &[]]);
    assert_eq!(bus.step(0).event, Event::Ended);
    let awns: Parties = [&[], &[], &[1], &[], &[], &[]];
    expect(&mut bus, awns);
    bus.read(1);
    expect(&mut bus, awns);
}

#[test]
fn nobody_drives_the_bus_of_no_parties() {
    expect(&mut Bus::default(), NOBODY);
    let (mut refused, answer) = Bus::build(&[7, 7], 0);
    assert_eq!(answer.refusal, Refusal::BadBuild);
    expect(&mut refused, NOBODY);
    assert_eq!(refused, Bus::default());
}

#[test]
fn fifteen_listeners() {
    let all: Vec<u8> = (0..15).collect();
    let mut bus = built(15);
    for party in 0..15 {
        bus.listen_only(party, true);
    }
    expect(&mut bus, [&[], &[], &all, &all, &[], &[]]);
    for party in 0..15 {
        bus.step(party);
        let left = &all[usize::from(party) + 1..];
        expect(&mut bus, [&[], &[], left, &all, &[], &[]]);
    }
    let mut bus = standing(15, true);
    expect(&mut bus, [&[], &[0], &[], &all[1..], &[0], &[]]);
}

#[test]
fn several_ask_for_service() {
    let mut bus = built(15);
    for party in [14, 3, 0] {
        bus.poll_register(party, 0x40);
    }
    bus.poll_register(7, 0xBF);
    expect(&mut bus, [&[], &[], &[], &[], &[], &[0, 3, 14]]);
    bus.poll_register(3, 0);
    expect(&mut bus, [&[], &[], &[], &[], &[], &[0, 14]]);
}

#[test]
fn a_polled_party_has_stopped_asking() {
    let mut bus = built(3);
    bus.poll_register(1, 0x41);
    bus.poll_register(2, 0x40);
    bus.interface_clear(0);
    let under_control: Parties = [&[0], &[], &[1, 2], &[1, 2], &[], &[1, 2]];
    expect(&mut bus, under_control);
    command(&mut bus, 0x18);
    command(&mut bus, 0x46);
    expect(&mut bus, under_control);
    bus.listen_only(0, true);
    bus.go_to_standby(0);
    expect(&mut bus, [&[], &[], &[0], &[0], &[], &[2]]);
    bus.step(1);
    bus.step(0);
    // A status byte has no END.
    assert_eq!(bus.step(1).event, Event::Stat);
    expect(&mut bus, [&[], &[1], &[], &[0], &[], &[2]]);
}

#[test]
fn the_controller_drives_atn() {
    let (mut bus, _) = Bus::build(&[9, 3, 6], 2);
    bus.interface_clear(2);
    expect(&mut bus, [&[2], &[], &[0, 1], &[0, 1], &[], &[]]);
    bus.go_to_standby(2);
    expect(&mut bus, NOBODY);
    bus.take_control(2);
    expect(&mut bus, [&[2], &[], &[0, 1], &[0, 1], &[], &[]]);
    let mut bus = built(3);
    bus.interface_clear(0);
    command(&mut bus, 0x47);
    command(&mut bus, 0x09);
    // Control went to party 2. Party 1 had its turn after that, and is in ACRS.
    expect(&mut bus, [&[2], &[], &[0], &[0, 1], &[], &[]]);
}

#[test]
fn eoi_is_the_senders_alone_and_only_with_end() {
    let mut bus = standing(4, true);
    expect(&mut bus, [&[], &[0], &[], &[1, 2, 3], &[0], &[]]);
    bus.step(2);
    expect(&mut bus, [&[], &[0], &[2], &[1, 2, 3], &[0], &[]]);
    assert_eq!(bus.talk_only(0, false).broken, 1);
    expect(&mut bus, [&[], &[], &[2], &[1, 2, 3], &[], &[]]);
    let mut bus = standing(4, false);
    expect(&mut bus, [&[], &[0], &[], &[1, 2, 3], &[], &[]]);
    // A command has no END, though it was written with one.
    let mut bus = built(2);
    bus.interface_clear(0);
    bus.write(0, 0x3F, true);
    bus.step(0);
    bus.step(1);
    assert_eq!(bus.step(0).event, Event::Cmd);
    expect(&mut bus, [&[0], &[0], &[], &[1], &[], &[]]);
}

#[test]
fn who_joins_under_dav_holds_nrfd_alone() {
    let mut bus = standing(3, true);
    bus.listen_only(2, false);
    expect(&mut bus, [&[], &[0], &[], &[1], &[0], &[]]);
    bus.listen_only(2, true);
    expect(&mut bus, [&[], &[0], &[2], &[1], &[0], &[]]);
}

/// Party 2 does not read, and so has the next byte wait.
#[test]
fn who_holds_a_hung_bus() {
    let mut bus = standing(3, false);
    bus.give_turns(12);
    assert_eq!(bus.read(1).event, Event::Read);
    bus.write(0, 0x42, false);
    bus.give_turns(1000);
    expect(&mut bus, [&[], &[], &[2], &[1, 2], &[], &[]]);
    let holder = bus.drivers().of(Line::Nrfd).parties().next();
    assert_eq!(holder, Some(2));
    assert_eq!(bus.read(2).event, Event::Read);
    bus.step(2);
    expect(&mut bus, [&[], &[], &[], &[1, 2], &[], &[]]);
    assert_eq!(bus.step(0).event, Event::Data);
}

#[test]
fn every_party_has_its_bit() {
    for party in 0..15 {
        let others: Vec<u8> = (0..15).filter(|&other| other != party).collect();
        let addresses: Vec<u8> = (0..15).rev().collect();
        let (mut bus, _) = Bus::build(&addresses, party);
        bus.poll_register(party, 0x40);
        bus.interface_clear(party);
        let own = &[party][..];
        expect(&mut bus, [own, &[], &others, &others, &[], own]);
    }
}

/// Where every bit is on, each of fifteen parties drives the line, and nobody else.
#[test]
fn there_is_no_sixteenth_party() {
    let all = LineDrivers {
        mask: u16::MAX,
        count: 15,
    };
    for party in 0..=255 {
        assert_eq!(all.is_driven_by(party), party < 15, "{party}");
    }
    assert!(all.parties().eq(0..15));
}

#[test]
fn no_operation_asks_for_the_drivers() {
    let mut bus = standing(2, true);
    let before = bus.clone();
    for operation in Operation::SecondRequest as u8 + 1..=255 {
        let answer = bus.call(operation, 0, 0, 0);
        assert_eq!(answer.refusal, Refusal::BadValue);
        assert_eq!(bus, before);
    }
}
