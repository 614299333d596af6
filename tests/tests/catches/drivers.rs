//! The comparison and the ledger must catch wrong calls for drivers, and count what the right one tells.

use crate::findings::{first_finding, ledger_of};
use meskvorn_tests::compare::subject::{like_lines_by, ModelSubject};
use meskvorn_tests::compare::{builds, compare, Comparison, Difference};
use meskvorn_tests::ledger::tally::Tally;
use meskvorn_tests::lists::guided::Guided;
use meskvorn_tests::lists::hex::records;
use meskvorn_tests::lists::pieces::{self, DRIVERS};
use meskvorn_tests::lists::tables;
use meskvorn_tests::model::script::{Record, LAST_OPERATION, RECORD};
use meskvorn_tests::model::{Answer, Bus, Drivers, Line, Refusal, Service};
use meskvorn_tests::wrong::{DriversFault, Shows, Wrong, DRIVERS_FAULTS};

/// The lines of which one tells other drivers than the other does.
fn lines_apart(one: &Drivers, other: &Drivers) -> Vec<Line> {
    let told = |drivers: &Drivers, line| (drivers.mask(line), drivers.count(line));
    let apart = |line: &Line| told(one, *line) != told(other, *line);
    Line::ALL.into_iter().filter(apart).collect()
}

/// Whether the difference is what the mistake has to show.
fn is_shown(shows: Shows, difference: &Difference) -> bool {
    match (shows, difference) {
        (Shows::Lines(lines), Difference::Drivers { model, subject, .. }) => {
            let apart = lines_apart(model, subject);
            !apart.is_empty() && apart.iter().all(|line| lines.contains(line))
        }
        (Shows::Answer, Difference::Answer { .. }) => true,
        (Shows::Bus, Difference::LikeLines { .. }) => true,
        _ => false,
    }
}

fn fault_named(name: &str) -> DriversFault {
    let found = DRIVERS_FAULTS.iter().find(|(known, ..)| *known == name);
    found.expect("a known fault").1
}

#[test]
fn comparison_catches_every_wrong_call_for_what_is_wrong_in_it() {
    for (name, fault, shows) in DRIVERS_FAULTS {
        let finding = first_finding(&mut Wrong::driven(*fault), 300_000);
        let finding = finding.unwrap_or_else(|| panic!("not caught: {name}"));
        let difference = &finding.difference;
        assert!(
            is_shown(*shows, difference),
            "{name}: {}",
            difference.words()
        );
        assert!(finding.list.ends_with(&DRIVERS), "{name}");
        let pieces = finding.list.len() / RECORD;
        assert!(pieces <= 45, "{name}: {pieces} pieces");
    }
}

#[test]
fn tables_of_drivers_catch_every_wrong_call() {
    for (name, fault, shows) in DRIVERS_FAULTS {
        let mut machine = Wrong::driven(*fault);
        let found = tables::drivers::run(&mut Comparison::new(&mut machine));
        let finding = found.expect_err(name);
        assert!(is_shown(*shows, &finding.difference), "{name}");
    }
}

#[test]
fn builds_catch_what_is_wrong_with_every_line() {
    let of_every_line = |shows: Shows| matches!(shows, Shows::Lines(lines) if lines.len() == 6);
    for (name, fault, _) in DRIVERS_FAULTS.iter().filter(|fault| of_every_line(fault.2)) {
        let found = builds::run(&mut Wrong::driven(*fault), 5);
        assert!(found.is_err(), "not caught: {name}");
    }
}

/// No list leads to a bus on which settling would show, so none can find this one.
#[test]
fn a_call_that_does_not_settle_is_not_like_lines() {
    let mut bus = Bus::new();
    bus.build(&[5, 6], 0);
    let not_settled = |bus: &mut Bus| bus.drivers_now();
    assert!(like_lines_by(&bus, not_settled, Bus::lines));
    bus.parties[1].service = Service::Srqs;
    assert!(!like_lines_by(&bus, not_settled, Bus::lines));
    assert!(like_lines_by(&bus, Bus::drivers, Bus::lines));
}

const ON_OR_OFF: &str = "a line is on without a driver, or off with one";
const ONES: &str = "a line's count is not that of its mask's ones";
const CHANGED: &str = "a call for drivers changed the bus";

/// What the ledger says of wrong calls, without a second machine.
const RULES: &[(&str, &str)] = &[
    ("bits one too high", "a driver is no party"),
    ("party 0 highest", "a driver is no party"),
    ("the last party left out", ON_OR_OFF),
    ("ones of the low eight bits", ONES),
    ("1 wherever the line is on", ONES),
    ("drivers of NRFD told of NDAC", ON_OR_OFF),
    ("NRFD in ACRS", ON_OR_OFF),
    ("EOI by who took the END", "two parties drive EOI"),
    ("EOI without END", ON_OR_OFF),
    ("DAV by talkers", ON_OR_OFF),
    ("ATN in standby", ON_OR_OFF),
    ("SRQ in APRS", ON_OR_OFF),
    (
        "refused where there is no party",
        "a call for drivers tells more than them",
    ),
    ("the same, not told", CHANGED),
    ("data-in emptied", CHANGED),
];

#[test]
fn ledger_catches_wrong_calls_by_chance() {
    for (name, rule) in RULES {
        let mut machine = Wrong::driven(fault_named(name));
        let mut guided = Guided::new(1);
        let said = (0..2000).find_map(|_| ledger_of(&mut machine, guided.list()));
        assert_eq!(said, Some(*rule), "{name}");
    }
}

/// Party 0 talks to parties 1 and 2; its byte with END stands.
const STANDS: &str =
    "00000305 06000100 05010100 05020100 02004101 01000000 01010000 01020000 01000000";

fn asked_after(calls: &str) -> Vec<u8> {
    [records(calls), vec![DRIVERS]].concat().concat()
}

#[test]
fn ledger_catches_eoi_by_all_listeners() {
    let mut machine = Wrong::driven(fault_named("EOI by all listeners"));
    let said = ledger_of(&mut machine, &asked_after(STANDS));
    assert_eq!(said, Some("two parties drive EOI"));
    let one_left = format!("{STANDS} 05020000");
    let said = ledger_of(&mut machine, &asked_after(&one_left));
    assert_eq!(said, Some("EOI is driven by a party that does not send"));
}

/// A machine whose script and whose calls know the drivers by a number.
fn known_by_number(_: &mut Bus, _: &Bus, call: Record, answer: &mut Answer) {
    if call[2] == LAST_OPERATION + 1 && answer.refusal == Refusal::BadValue {
        *answer = Answer::NOTHING;
    }
}

#[test]
fn an_operation_for_the_drivers_is_found() {
    let mut machine = Wrong::new(known_by_number);
    let finding = first_finding(&mut machine, 300_000).expect("a difference");
    assert_eq!(finding.list, records("0e000000").concat());
    assert!(builds::run(&mut machine, 5).is_err());
}

#[test]
fn a_call_for_drivers_counts_as_a_call() {
    let mut subject = ModelSubject::default();
    let mut tally = Tally::default();
    compare(&mut subject, &asked_after(STANDS), &mut tally).unwrap();
    assert_eq!((tally.records, tally.calls()), (10, 10));
    assert_eq!(tally.driven.calls, 1);
    // DAV and EOI have one driver, NDAC has two, and the others have none.
    let (none, one, more) = ([1, 0, 0], [0, 1, 0], [0, 0, 1]);
    assert_eq!(tally.driven.counts, [none, one, none, more, one, none]);
    assert_eq!(tally.driven.parties, [0, 1, 0, 6, 1, 0]);
}

#[test]
fn what_never_came_is_told() {
    let mut subject = ModelSubject::default();
    let mut comparison = Comparison::new(&mut subject);
    comparison.list(&asked_after(STANDS)).unwrap();
    let missing = comparison.tally.missing();
    for word in [
        "ATN with a driver",
        "NDAC with one driver",
        "DAV without a driver",
    ] {
        assert!(missing.contains(&word), "{word}");
    }
    assert!(missing.contains(&"each of fifteen parties driving EOI"));
    assert!(!missing.contains(&"EOI with a driver"));
    assert!(!missing.contains(&"NDAC with several drivers"));
    tables::drivers::run(&mut comparison).unwrap();
    let missing = comparison.tally.missing();
    assert!(missing.iter().all(|word| !word.contains("driver")));
    assert!(missing.iter().all(|word| !word.contains("driving")));
}

/// In a script the lines stand in the place of the drivers.
#[test]
fn a_list_with_drivers_is_a_script_with_lines() {
    let list = [&[DRIVERS], &records("00000205")[..], &[DRIVERS]].concat();
    let script = records("0c000000 00000205 0c000000").concat();
    assert_eq!(pieces::as_script(&list.concat()), Some(script.into()));
    assert_eq!(pieces::bus_after(&list.concat()).count, 2);
}
