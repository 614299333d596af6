//! The comparison must catch wrong accesses and wrong marks, the ledger what accesses do to delivery,
//! and what came of accesses is counted.

use crate::findings::{first_finding, ledger_of};
use meskvorn_tests::compare::subject::ModelSubject;
use meskvorn_tests::compare::{builds, Comparison, Difference};
use meskvorn_tests::ledger::tally::EndMarkCases;
use meskvorn_tests::lists::composer::Composer;
use meskvorn_tests::lists::every_access::{self, Values};
use meskvorn_tests::lists::hex::records;
use meskvorn_tests::lists::{kinds_of_state, pieces, tables};
use meskvorn_tests::model::registers::{BUS_STATUS, FEOI, LON, NBAF, SET, SWRST, TON};
use meskvorn_tests::model::script::{BUILD, RECORD};
use meskvorn_tests::model::{Access, Answer, Bus, Event};
use meskvorn_tests::wrong::{Wrong, ACCESS_FAULTS, END_MARK_FAULTS};

/// Every wrong machine of accesses and of marks, with its name.
fn all_wrong() -> Vec<(&'static str, Wrong)> {
    let accesses = ACCESS_FAULTS.iter();
    let accesses = accesses.map(|(name, fault)| (*name, Wrong::accessed(*fault)));
    let marks = END_MARK_FAULTS.iter();
    let marks = marks.map(|(name, fault)| (*name, Wrong::marking(*fault)));
    accesses.chain(marks).collect()
}

#[test]
fn comparison_catches_every_fault_of_accesses_and_marks() {
    for (name, mut machine) in all_wrong() {
        let finding = first_finding(&mut machine, 300_000);
        let finding = finding.unwrap_or_else(|| panic!("not caught: {name}"));
        let pieces = finding.list.len() / RECORD;
        assert!(pieces <= 60, "{name}: {pieces} pieces");
    }
}

#[test]
fn tables_catch_every_fault_of_accesses_and_marks() {
    for (name, mut machine) in all_wrong() {
        let mut comparison = Comparison::new(&mut machine);
        let found = tables::registers::run(&mut comparison, 3);
        let found = found.and_then(|()| tables::end_marks::run(&mut comparison));
        assert!(found.is_err(), "not caught: {name}");
    }
}

/// Of no kind of state is END in data-in.
const NOT_ON_KINDS: &str = "data in loses END";

/// Whatever else is wrong with an access by itself shows on some kind of state, without a list that
/// goes on after it.
#[test]
fn every_access_on_every_kind_of_state_catches_wrong_accesses() {
    let prefixes = kinds_of_state::prefixes();
    let shown = ACCESS_FAULTS
        .iter()
        .filter(|(name, _)| *name != NOT_ON_KINDS);
    for (name, fault) in shown {
        let mut machine = Wrong::accessed(*fault);
        let mut comparison = Comparison::new(&mut machine);
        let found = every_access::run(&mut comparison, &prefixes, Values::OneInEight);
        let finding = found.expect_err(name);
        let alike = matches!(
            finding.difference,
            Difference::Answer { .. } | Difference::LikeCall { .. }
        );
        assert!(alike, "{name}: {}", finding.difference.words());
    }
}

#[test]
fn builds_catch_what_is_wrong_with_every_access() {
    for name in [
        "NOREG before NOPARTY",
        "offsets mod 8",
        "bit 32 is of the command",
    ] {
        let (_, fault) = ACCESS_FAULTS
            .iter()
            .find(|(known, _)| *known == name)
            .unwrap();
        assert!(
            builds::run(&mut Wrong::accessed(*fault), 5).is_err(),
            "{name}"
        );
    }
}

/// Party 0 talks to party 1, and all by accesses; the byte 41 is held.
fn offered() -> Composer {
    let mut bus = Composer::new();
    bus.call(BUILD, 0, 2, 5);
    bus.auxiliary(0, TON | SET);
    bus.auxiliary(1, LON | SET);
    bus.data_out(0, 0x41);
    bus
}

fn byte_lost(bus: &mut Bus, access: Access) -> Answer {
    let answer = bus.access(access);
    if answer.accepted() && access == Access::data_out(0, 0x41) {
        bus.parties[0].held = None;
    }
    answer
}

#[test]
fn an_accepted_data_out_is_a_host_byte_accepted() {
    let list = offered().records.concat();
    let rule = ledger_of(&mut Wrong::accessed(byte_lost), &list);
    assert_eq!(rule, Some("accepted writes are not puts + dropped + held"));
    assert_eq!(ledger_of(&mut Wrong::accessed(Bus::access), &list), None);
}

/// The byte stands, and party 1 leaves before it takes it.
fn ended_without(leave: u8) -> Option<&'static str> {
    let mut bus = offered();
    assert!(bus.walk_until(Event::is_put));
    assert!(bus.auxiliary(1, leave).accepted());
    assert_eq!(bus.step(0).event, Event::Ended);
    ledger_of(&mut Wrong::accessed(Bus::access), &bus.records.concat())
}

#[test]
fn lon_off_and_swrst_are_leaves() {
    assert_eq!(ended_without(LON), None);
    assert_eq!(ended_without(SWRST | SET), None);
}

/// The party that has left by another's access has not left: NDAC falls all the same.
fn leaves_for_another(bus: &mut Bus, access: Access) -> Answer {
    match access {
        Access::Write {
            party: 0,
            offset,
            value: LON,
        } => bus.access(Access::Write {
            party: 1,
            offset,
            value: LON,
        }),
        _ => bus.access(access),
    }
}

#[test]
fn the_ledger_knows_who_leaves() {
    let mut bus = offered();
    assert!(bus.walk_until(Event::is_put));
    bus.auxiliary(0, LON);
    bus.step(0);
    let list = bus.records.concat();
    let rule = ledger_of(&mut Wrong::accessed(leaves_for_another), &list);
    assert_eq!(rule, Some("a byte ended that a ready party had not taken"));
}

#[test]
fn what_never_came_is_told() {
    let mut subject = ModelSubject::default();
    let mut comparison = Comparison::new(&mut subject);
    comparison.list(&offered().records.concat()).unwrap();
    let missing = comparison.tally.missing();
    for word in EndMarkCases::WORDS {
        assert!(missing.contains(&word), "{word}");
    }
    for word in [
        "NOREG",
        "swrst STANDING",
        "ton TALKER",
        "sic cleared",
        "a command NOREG",
    ] {
        assert!(missing.contains(&word), "{word}");
    }
    assert_eq!(comparison.tally.accesses.count(), 3);
    assert_eq!(comparison.tally.calls(), 4);
}

/// In a script each access is its host call, with the mark as END, or nothing.
#[test]
fn a_list_with_accesses_is_a_script_of_their_calls() {
    let mut bus = offered();
    bus.auxiliary(0, FEOI);
    bus.auxiliary(0, NBAF);
    bus.data_out(0, 0x42);
    bus.auxiliary(0, SWRST);
    bus.auxiliary(0, 0x07);
    bus.auxiliary(0, SWRST | SET);
    bus.access(Access::Read {
        party: 1,
        offset: BUS_STATUS,
    });
    let script = "00000205 06000100 05010100 02004100 0b000000 02004201 0a000000 0c000000";
    let list = bus.records.concat();
    assert_eq!(
        pieces::as_script(&list),
        Some(records(script).concat().into())
    );
    assert_eq!(pieces::bus_after(&list), bus.bus);
}
