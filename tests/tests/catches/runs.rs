//! The comparison must catch wrong runs, and a run in a list must stand for its steps.

use crate::findings::first_finding;
use meskvorn_tests::compare::subject::ModelSubject;
use meskvorn_tests::compare::{builds, compare, Comparison, Difference};
use meskvorn_tests::ledger::tally::{Tally, Ties};
use meskvorn_tests::lists::hex::records;
use meskvorn_tests::lists::{pieces, tables};
use meskvorn_tests::model::script::{Record, RECORD};
use meskvorn_tests::model::{Lists, Name};
use meskvorn_tests::wrong::{Wrong, WrongRun, MACHINE_FAULTS, ORDER_FAULTS, RUN_FAULTS};

/// Every machine with a wrong run or a wrong order, by name.
fn wrong_runs() -> impl Iterator<Item = (&'static str, WrongRun)> {
    let runs = RUN_FAULTS.iter();
    let runs = runs.map(|(name, fault)| (*name, WrongRun::new(*fault)));
    let orders = ORDER_FAULTS.iter();
    runs.chain(orders.map(|(name, fault)| (*name, WrongRun::ordered(*fault))))
}

#[test]
fn comparison_catches_every_wrong_run_by_a_short_list() {
    for (name, mut machine) in wrong_runs() {
        let finding = first_finding(&mut machine, 300_000);
        let finding = finding.unwrap_or_else(|| panic!("not caught: {name}"));
        let pieces = finding.list.len() / RECORD;
        assert!(pieces <= 30, "{name}: {pieces} records and runs");
        let run = matches!(
            finding.difference,
            Difference::Turns { .. } | Difference::Bus { .. } | Difference::Bound { .. }
        );
        assert!(run, "{name}: {}", finding.difference.words());
    }
}

#[test]
fn the_table_of_runs_catches_every_wrong_order() {
    for (name, fault) in ORDER_FAULTS {
        let mut machine = WrongRun::ordered(*fault);
        let found = tables::runs::run(&mut Comparison::new(&mut machine), 3);
        assert!(found.is_err(), "not caught: {name}");
    }
}

#[test]
fn builds_catch_every_wrong_order() {
    for (name, fault) in ORDER_FAULTS {
        let found = builds::run(&mut WrongRun::ordered(*fault), 5);
        assert!(found.is_err(), "not caught: {name}");
    }
}

fn build_of(names: &[Name]) -> Vec<Record> {
    pieces::build(&Lists::of(names), 0)
}

#[test]
fn ties_by_place_are_right_in_address_order_and_wrong_against_it() {
    let (name, by_place) = ORDER_FAULTS[0];
    assert_eq!(name, "ties to the lowest place");
    let agrees = |names: &[Name]| {
        let list = [build_of(names), vec![pieces::run(1)]].concat();
        let mut machine = WrongRun::ordered(by_place);
        compare(&mut machine, &list.concat(), &mut Tally::default()).is_ok()
    };
    let [three, low, high] = [Name::plain(3), Name::extended(9, 2), Name::extended(9, 4)];
    for names in [&[three, low, high][..], &[three, high], &[low, high]] {
        assert!(agrees(names), "{names:?}");
    }
    for names in [[low, three], [high, three], [high, low]] {
        assert!(!agrees(&names), "{names:?}");
    }
}

#[test]
fn numberings_and_turns_are_counted() {
    let (plain, extended) = (Name::plain, Name::extended);
    let racks = [
        vec![plain(3), plain(4)],
        vec![plain(9), plain(6), plain(3)],
        vec![extended(5, 9), extended(5, 2)],
        vec![plain(6), extended(5, 2), extended(5, 9)],
        (0..15).map(plain).collect(),
        (0..15).map(|place| extended(9, 14 - place)).collect(),
    ];
    let mut list = Vec::new();
    for rack in racks {
        list.extend(build_of(&rack));
        let round = rack.len() as u16;
        for turns in [0, 1, round, round + 1, 7 * round, 7 * round + 1] {
            list.push(pieces::run(turns));
        }
    }
    // A party alone has no ties.
    list.extend(build_of(&[plain(0)]));
    list.push(pieces::run(1));
    let mut subject = ModelSubject::default();
    let mut comparison = Comparison::new(&mut subject);
    comparison.list(&list.concat()).unwrap();
    let of_racks = [2, 4, 2, 2, 1, 1, 1];
    let counted = of_racks.map(|racks| [racks, racks, 2 * racks, racks]);
    assert_eq!(comparison.tally.ties.counts, counted);
    let missing = comparison.tally.missing();
    assert!(Ties::WORDS.iter().all(|word| missing.contains(word)));
}

/// Party 0 talks, party 1 listens, the byte 41 is held: document 01's script before its steps.
const OFFERED: &str = "00000205 06000100 05010100 02004101";

#[test]
fn a_run_counts_as_its_steps() {
    let mut subject = ModelSubject::default();
    let mut comparison = Comparison::new(&mut subject);
    let list = [records(OFFERED), vec![pieces::run(7)], records("03010000")].concat();
    comparison.list(&list.concat()).unwrap();
    let missing = comparison.tally.missing();
    assert!(missing.contains(&"refused runs") && missing.contains(&"starts of the bound"));
    let Tally {
        records,
        runs,
        turns,
        bound,
        ..
    } = comparison.tally;
    assert_eq!((records, runs, turns), (12, [1, 0], 7));
    // The bus before the run is a start of the bound, and needs these seven turns.
    assert_eq!((bound.starts, bound.closest), ([1, 0, 0, 0], (7, 2)));
    let steps = "01000000 01010000 01000000 01010000 01000000 01010000 01000000";
    let script = records_of(&[OFFERED, steps, "03010000"]);
    assert_eq!(pieces::as_script(&list.concat()), Some(script.into()));
}

#[test]
fn starts_of_the_bound_are_counted_by_their_racks() {
    let (plain, extended) = (Name::plain, Name::extended);
    let offer = records("06000100 05010100 02004101");
    let racks = [
        [plain(5), plain(6)],
        [plain(5), extended(6, 0)],
        [plain(6), plain(5)],
        [extended(6, 1), extended(6, 0)],
    ];
    let mut subject = ModelSubject::default();
    let mut comparison = Comparison::new(&mut subject);
    for (place, rack) in racks.iter().enumerate() {
        for _ in 0..=place {
            let list = [build_of(rack), offer.clone()].concat();
            comparison.list(&list.concat()).unwrap();
        }
    }
    assert_eq!(comparison.tally.bound.starts, [1, 2, 3, 4]);
}

fn records_of(parts: &[&str]) -> Vec<u8> {
    records(&parts.join(" ")).concat()
}

#[test]
fn a_refused_run_is_no_step() {
    let mut subject = ModelSubject::default();
    let mut comparison = Comparison::new(&mut subject);
    let list = [
        vec![pieces::run(9)],
        records("00000205"),
        vec![pieces::run(0)],
    ]
    .concat();
    comparison.list(&list.concat()).unwrap();
    assert_eq!(comparison.tally.runs, [1, 1]);
    assert_eq!(comparison.tally.records, 1);
    let script = records_of(&["00000205"]);
    assert_eq!(pieces::as_script(&list.concat()), Some(script.into()));
}

/// Party 1 joins while party 0 waits with its byte, so that no start of the bound comes before the
/// run, whose fourth step is the taking.
#[test]
fn a_wrong_step_within_a_run_is_found() {
    let (_, fault) = MACHINE_FAULTS
        .iter()
        .find(|(name, _)| *name == "END lost in taking")
        .unwrap();
    let mut machine = Wrong::new(*fault);
    let late = records("00000205 06000100 02004101 01000000 05010100");
    let list = [late, vec![pieces::run(4)]].concat();
    let found = compare(&mut machine, &list.concat(), &mut Tally::default());
    assert!(matches!(found, Err(Difference::Answer { number: 6, .. })));
}
