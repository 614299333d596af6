//! The ledger and the comparison must catch what a machine gets wrong about document 01's calls.

use crate::findings::{first_by, first_finding, ledger_says};
use meskvorn_tests::compare::{whole_run, Comparison, Difference};
use meskvorn_tests::lists::guided::Guided;
use meskvorn_tests::lists::hex::records;
use meskvorn_tests::lists::{kinds_of_state, tables};
use meskvorn_tests::model::script::RECORD;
use meskvorn_tests::wrong::{Wrong, MACHINE_FAULTS};

/// A talker at 0; listeners at 1 and 2 that are ready, or the first alone; byte 41 stands.
const ONE_LISTENER: &str = "00000305 06000100 05010100 02004101 01000000 01010000 01000000";
const TWO_LISTENERS: &str =
    "00000305 06000100 05010100 05020100 02004101 01000000 01010000 01020000 01000000";

#[test]
fn ledger_catches_the_joiner() {
    let calls = format!("{ONE_LISTENER} 05020100 01020000 01020000");
    let rule = ledger_says("joiner in ANRS under DAV", &records(&calls).concat());
    assert_eq!(rule, Some("a byte was taken by a party that was not ready"));
}

#[test]
fn ledger_catches_the_early_end() {
    let calls = format!("{TWO_LISTENERS} 01010000 01010000 01000000");
    let rule = ledger_says(
        "ended when the first listener lets go",
        &records(&calls).concat(),
    );
    assert_eq!(rule, Some("a byte ended that a ready party had not taken"));
}

#[test]
fn ledger_catches_the_broken_byte_put_again() {
    let calls = format!("{TWO_LISTENERS} 06000000");
    let rule = ledger_says("broken byte put again", &records(&calls).concat());
    assert_eq!(rule, Some("accepted writes are not puts + dropped + held"));
}

#[test]
fn ledger_catches_tct_acted_on_when_heard() {
    let calls = "00000205 09000000 02004600 01000000 01010000 01000000 01010000 01010000 01000000
        02000900 01000000 01010000 01010000 01000000 01010000";
    let rule = ledger_says("TCT acted on when heard", &records(calls).concat());
    assert_eq!(rule, Some("two parties drive ATN"));
}

#[test]
fn ledger_catches_a_second_taking() {
    let calls = format!("{ONE_LISTENER} 01010000 01010000 01010000");
    let rule = ledger_says("a listener takes twice", &records(&calls).concat());
    assert_eq!(rule, Some("a byte was taken twice by one party"));
}

#[test]
fn ledger_catches_a_lost_end() {
    let calls = format!("{ONE_LISTENER} 01010000");
    let rule = ledger_says("END lost in taking", &records(&calls).concat());
    assert_eq!(rule, Some("the END taken is not the END put up"));
}

#[test]
fn ledger_catches_made_up_counts() {
    let drops = records("00000205 02004100 0b000000").concat();
    let rule = ledger_says("dropped counted twice", &drops);
    assert_eq!(rule, Some("accepted writes are not puts + dropped + held"));
    let rule = ledger_says("broken made up", &records("00000205 0a000000").concat());
    assert_eq!(rule, Some("a byte was broken off while none stood"));
}

#[test]
fn ledger_catches_each_named_mistake_by_chance_too() {
    for (name, _) in &MACHINE_FAULTS[..4] {
        let mut guided = Guided::new(1);
        let caught = (0..2000).any(|_| ledger_says(name, guided.list()).is_some());
        assert!(caught, "{name}");
    }
}

#[test]
fn comparison_catches_every_fault() {
    for (name, fault) in MACHINE_FAULTS {
        let finding = first_finding(&mut Wrong::new(*fault), 300_000);
        let finding = finding.unwrap_or_else(|| panic!("not caught: {name}"));
        assert!(
            finding.list.len() <= 60 * RECORD,
            "{name}: {} bytes",
            finding.list.len()
        );
    }
}

#[test]
fn systematic_part_catches_every_fault() {
    let prefixes = kinds_of_state::prefixes();
    for (name, fault) in MACHINE_FAULTS {
        let mut machine = Wrong::new(*fault);
        let mut comparison = Comparison::new(&mut machine);
        let found = kinds_of_state::run(&mut comparison, &prefixes, 3).is_err();
        assert!(
            found || tables::run(&mut comparison, 3).is_err(),
            "not caught: {name}"
        );
    }
}

#[test]
fn the_joiner_is_shown_by_a_short_script() {
    let mut machine = Wrong::named("joiner in ANRS under DAV");
    let mut comparison = Comparison::of_calls_alone(&mut machine);
    let finding = first_by(&mut comparison, 300_000).expect("a difference");
    let finding = whole_run::shortest(&mut comparison, 4, finding);
    // Build, talker, listener, write, two steps, put, joining, and the joiner's step or the drivers;
    // where the listener itself joins again it leaves before.
    assert!(finding.list.len() <= 10 * RECORD, "{:?}", finding.list);
    assert!(matches!(
        finding.difference,
        Difference::Answer { .. } | Difference::Drivers { .. }
    ));
}
