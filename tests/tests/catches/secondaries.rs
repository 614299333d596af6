//! The comparison must catch machines that get secondaries wrong, and count what secondaries do.

use crate::findings::{first_finding, ledger_says};
use meskvorn_tests::compare::subject::ModelSubject;
use meskvorn_tests::compare::{builds, Comparison, Difference};
use meskvorn_tests::ledger::tally::{Lengths, Marks};
use meskvorn_tests::lists::composer::Composer;
use meskvorn_tests::lists::hex::records;
use meskvorn_tests::lists::pieces;
use meskvorn_tests::lists::tables;
use meskvorn_tests::model::script::{Record, CLEAR, RECORD, RESET, STANDBY, TAKE, WRITE};
use meskvorn_tests::model::{Answer, Bus, Event, Lists, Name};
use meskvorn_tests::wrong::{BuildFault, Wrong, LENGTH_FAULTS, NAME_FAULTS, SECONDARY_FAULTS};

const RACK: [Name; 3] = [Name::plain(1), Name::extended(2, 12), Name::extended(2, 13)];

fn build_of(names: &[Name]) -> Vec<Record> {
    pieces::build(&Lists::of(names), 0)
}

/// Party 0 is active and has sent these commands.
fn after(commands: &[u8]) -> Composer {
    let mut bus = Composer::new();
    bus.build(&RACK, 0);
    bus.call(CLEAR, 0, 0, 0);
    for command in commands {
        assert!(bus.command(*command), "{command:02x}");
    }
    bus
}

#[test]
fn comparison_catches_every_fault_of_secondaries() {
    for (name, fault) in SECONDARY_FAULTS {
        let finding = first_finding(&mut Wrong::new(*fault), 300_000);
        let finding = finding.unwrap_or_else(|| panic!("not caught: {name}"));
        let pieces = finding.list.len() / RECORD;
        assert!(pieces <= 60, "{name}: {pieces} pieces");
    }
}

#[test]
fn tables_of_heard_bytes_catch_every_fault_of_secondaries() {
    for (name, fault) in SECONDARY_FAULTS {
        let mut machine = Wrong::new(*fault);
        let found = tables::heard_bytes::run(&mut Comparison::new(&mut machine), 3);
        assert!(found.is_err(), "not caught: {name}");
    }
}

#[test]
fn builds_catch_every_wrong_build() {
    let of_names = NAME_FAULTS.iter();
    let of_names = of_names.map(|(name, build)| (name, BuildFault::OfNames(*build)));
    let of_lengths = LENGTH_FAULTS.iter();
    let of_lengths = of_lengths.map(|(name, build)| (name, BuildFault::OfLengths(*build)));
    for (name, build) in of_names.chain(of_lengths) {
        let found = builds::run(&mut Wrong::building(build), 5);
        assert!(found.is_err(), "not caught: {name}");
    }
}

#[test]
fn guided_lists_catch_wrong_lengths_by_a_build_and_what_shows_it() {
    for (name, build) in LENGTH_FAULTS {
        let mut machine = Wrong::building(BuildFault::OfLengths(*build));
        let finding = first_finding(&mut machine, 300_000);
        let finding = finding.unwrap_or_else(|| panic!("not caught: {name}"));
        let pieces = finding.list.len() / RECORD;
        assert!(pieces <= 6, "{name}: {pieces} pieces");
    }
}

fn names_forgotten(bus: &mut Bus, _: &Bus, _: Record, _: &mut Answer) {
    for party in &mut bus.parties {
        party.name.secondary = None;
    }
}

#[test]
fn a_wrong_name_is_found() {
    let mut machine = Wrong::new(names_forgotten);
    let list = build_of(&RACK).concat();
    let finding = Comparison::new(&mut machine).list(&list).unwrap_err();
    assert!(matches!(finding.difference, Difference::Name { .. }));
    // An address, a secondary and the build are enough to show it.
    assert_eq!(finding.list.len(), 3 * RECORD);
}

/// Both parties at primary 2 are left talking, and each puts its byte up.
#[test]
fn ledger_catches_two_talkers() {
    let mut bus = after(&[0x42, 0x6C, 0x6D]);
    bus.call(STANDBY, 0, 0, 0);
    for party in [1, 2] {
        bus.call(WRITE, party, 0x41, 0);
    }
    bus.records.extend(records(
        "05000100 01000000 01010000 01020000 01010000 01020000",
    ));
    let rule = ledger_says("a wrong secondary leaves talk on", &bus.records.concat());
    assert_eq!(rule, Some("a byte was put up while another stood"));
}

#[test]
fn what_secondaries_did_is_counted() {
    let count = |bus: &Composer, word: &str| {
        let mut subject = ModelSubject::default();
        let mut comparison = Comparison::new(&mut subject);
        comparison.list(&bus.records.concat()).unwrap();
        let place = Marks::WORDS.iter().position(|known| *known == word);
        comparison.tally.marks.counts[place.expect("a known word")]
    };
    let moved = after(&[0x42, 0x6C, 0x6D]);
    assert_eq!(count(&moved, "talk on by a secondary"), 2);
    assert_eq!(count(&moved, "talk off by a secondary"), 1);
    assert_eq!(count(&moved, "listen on by a secondary"), 0);
    let listeners = after(&[0x22, 0x6C, 0x6D, 0x14]);
    assert_eq!(count(&listeners, "listen on by a secondary"), 2);
    assert_eq!(count(&listeners, "mark lost by a command"), 2);
    let mut lost = after(&[0x42]);
    lost.call(RESET, 1, 0, 0);
    lost.call(STANDBY, 0, 0, 0);
    lost.call(TAKE, 0, 0, 0);
    assert_eq!(count(&lost, "mark lost by reset"), 1);
    assert_eq!(count(&lost, "mark lost by attention"), 1);
    assert_eq!(count(&lost, "mark lost by a command"), 0);
    let mut passed = after(&[0x42, 0x6C]);
    passed.call(WRITE, 0, 0x09, 0);
    assert!(passed.walk_until(|event| event == Event::Passed));
    assert_eq!(count(&passed, "control to an extended talker"), 1);
    for command in [0x42, 0x6D] {
        assert!(passed.command(command));
    }
    assert_eq!(count(&passed, "mark of a sender's own"), 1);
}

#[test]
fn what_never_came_is_told() {
    let mut subject = ModelSubject::default();
    let mut comparison = Comparison::new(&mut subject);
    comparison
        .list(&after(&[0x42, 0x6C]).records.concat())
        .unwrap();
    let missing = comparison.tally.missing();
    assert!(missing.contains(&"talk off by a secondary"));
    assert!(missing.contains(&"starts of the bound with secondaries"));
    assert!(!missing.contains(&"talk on by a secondary"));
}

#[test]
fn lengths_of_lists_are_counted() {
    let lists = |addresses: &[u8], secondaries: &[Option<u8>]| Lists {
        addresses: addresses.to_vec(),
        secondaries: secondaries.to_vec(),
    };
    let mut builds = Vec::new();
    for (addresses, secondaries) in [
        (&[5, 6][..], &[][..]),
        (&[5, 5], &[]),
        (&[5, 5], &[Some(1), Some(2)]),
        (&[5, 5], &[Some(1), Some(1)]),
        (&[5, 6], &[Some(1)]),
        (&[5, 6], &[Some(1), None, Some(31)]),
        // Refused for more than their lengths.
        (&[5, 5], &[Some(1)]),
        (&[5, 31], &[Some(1), None, None]),
    ] {
        builds.extend(pieces::build(&lists(addresses, secondaries), 0));
    }
    let mut subject = ModelSubject::default();
    let mut comparison = Comparison::new(&mut subject);
    comparison.list(&builds.concat()).unwrap();
    assert_eq!(comparison.tally.lengths.counts, [1; 6]);
    let missing = comparison.tally.missing();
    assert!(Lengths::WORDS.iter().all(|word| missing.contains(word)));
}

#[test]
fn a_build_from_lists_is_no_script() {
    let build = build_of(&RACK).concat();
    assert_eq!(pieces::as_script(&build), None);
    let step = records("01000000").concat();
    assert_eq!(pieces::as_script(&[build, step].concat()), None);
    assert_eq!(pieces::bus_after(&build_of(&RACK).concat()).count, 3);
    // Lists reach no further than the build after them.
    let twice = [build_of(&RACK), build_of(&RACK[..1])].concat();
    assert_eq!(pieces::bus_after(&twice.concat()).count, 1);
    let parted = [&build_of(&RACK)[..6], &records("0c000000")].concat();
    let parted = [&parted[..], &build_of(&[])].concat();
    assert_eq!(pieces::bus_after(&parted.concat()).count, 0);
}
