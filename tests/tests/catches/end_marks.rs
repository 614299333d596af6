//! The books of feoi's marks must catch machines that get them wrong, and what came of marks is counted.

use crate::findings::{end_marks_of, first_finding};
use meskvorn_tests::compare::subject::ModelSubject;
use meskvorn_tests::compare::{compare, Difference};
use meskvorn_tests::ledger::tally::{EndMarkCases, Tally};
use meskvorn_tests::lists::composer::Composer;
use meskvorn_tests::lists::guided::Guided;
use meskvorn_tests::model::registers::{DATA_IN, FEOI, GTS, LON, NBAF, SET, SIC, SWRST, TCA, TON};
use meskvorn_tests::model::script::{BUILD, DROP, RECORD, RESET, WRITE};
use meskvorn_tests::model::{Access, Event};
use meskvorn_tests::wrong::{Wrong, END_MARK_FAULTS};

fn marking(name: &str) -> Wrong {
    let found = END_MARK_FAULTS.iter().find(|(known, _)| *known == name);
    Wrong::marking(found.expect("a known fault").1)
}

const ASKED: &str = "the END of a data byte is not what its write asked for";

/// The wrong marks of which the books say nothing: these speak of a host's accepted calls alone.
const SILENT: [&str; 1] = ["feoi refused while a byte is held"];

#[test]
fn the_books_of_marks_alone_catch_by_chance() {
    for (name, fault) in END_MARK_FAULTS {
        let mut machine = Wrong::marking(*fault);
        let mut guided = Guided::new(1);
        let said = (0..2000).find_map(|_| end_marks_of(&mut machine, guided.list()));
        let wanted = (!SILENT.contains(name)).then_some(ASKED);
        assert_eq!(said, wanted, "{name}");
    }
}

/// Party 0 talks to party 1; the byte 41 is held.
fn offered() -> Composer {
    let mut bus = Composer::new();
    bus.call(BUILD, 0, 2, 5);
    bus.auxiliary(0, TON | SET);
    bus.auxiliary(1, LON | SET);
    bus.data_out(0, 0x41);
    bus
}

fn cases_of(bus: &Composer) -> Vec<(&'static str, u64)> {
    let mut subject = ModelSubject::default();
    let mut tally = Tally::default();
    compare(&mut subject, &bus.records.concat(), &mut tally).unwrap();
    let cases = EndMarkCases::WORDS.into_iter().zip(tally.end_marks.counts);
    cases.filter(|(_, count)| *count > 0).collect()
}

/// The next byte of party 0 to party 1.
fn sent(bus: &mut Composer) {
    bus.data_out(0, 0x42);
    assert!(bus.walk_until(Event::is_end));
    bus.access(Access::Read {
        party: 1,
        offset: DATA_IN,
    });
}

#[test]
fn a_mark_and_what_it_is_kept_over_are_counted() {
    let mut bus = offered();
    bus.auxiliary(0, FEOI);
    bus.data_out(0, 0x43);
    bus.auxiliary(0, NBAF);
    bus.call(WRITE, 0, 0x44, 0);
    bus.call(DROP, 0, 0, 0);
    bus.call(DROP, 0, 0, 0);
    bus.auxiliary(0, SWRST);
    assert_eq!(cases_of(&bus), [("marks of feoi", 1)]);
    sent(&mut bus);
    sent(&mut bus);
    let wanted = [
        ("marks of feoi", 1),
        ("marks shown by END", 1),
        ("data through offset 7 unmarked", 1),
        ("marks kept over a refused data out", 1),
        ("marks kept over the host's write", 1),
        ("marks kept over drop", 1),
        ("marks kept over nbaf", 1),
        ("marks kept over a cleared command", 1),
    ];
    assert_eq!(cases_of(&bus), wanted);
}

#[test]
fn a_mark_that_is_removed_is_counted() {
    for (by_register, word) in [
        (false, "marks removed by reset"),
        (true, "marks removed by swrst"),
    ] {
        let mut bus = offered();
        bus.auxiliary(0, FEOI);
        bus.auxiliary(1, FEOI);
        if by_register {
            bus.auxiliary(0, SWRST | SET);
        } else {
            bus.call(RESET, 0, 0, 0);
        }
        bus.auxiliary(0, TON | SET);
        assert_eq!(cases_of(&bus), [("marks of feoi", 2)]);
        sent(&mut bus);
        let wanted = [
            ("marks of feoi", 2),
            ("data through offset 7 unmarked", 1),
            ("the same beside another's mark", 1),
            (word, 1),
        ];
        assert_eq!(cases_of(&bus), wanted);
    }
}

#[test]
fn a_mark_over_attention_and_a_standing_command_is_counted() {
    let mut bus = offered();
    bus.auxiliary(0, FEOI);
    bus.auxiliary(0, SIC | SET);
    bus.call(WRITE, 0, 0x1F, 1);
    assert!(bus.walk_until(Event::is_put));
    bus.auxiliary(0, SWRST | SET);
    bus.call(RESET, 0, 0, 0);
    assert!(bus.walk_until(Event::is_end));
    bus.auxiliary(0, GTS);
    bus.auxiliary(0, TCA);
    bus.data_out(0, 0x1F);
    assert!(bus.walk_until(Event::is_end));
    let wanted = [("marks of feoi", 1), ("marks used up by a command", 1)];
    assert_eq!(cases_of(&bus), wanted);
    bus.auxiliary(0, FEOI);
    bus.call(WRITE, 0, 0x1F, 1);
    assert!(bus.walk_until(Event::is_put));
    bus.auxiliary(0, SWRST | SET);
    bus.call(RESET, 0, 0, 0);
    bus.auxiliary(0, SIC | SET);
    bus.auxiliary(0, GTS);
    bus.auxiliary(0, TON | SET);
    bus.auxiliary(1, LON | SET);
    sent(&mut bus);
    let shown = cases_of(&bus);
    for word in [
        "marks shown by END",
        "marks kept over the host's write",
        "marks kept over sic",
        "marks kept over attention",
        "marks kept over a refused reset",
        "marks kept over a refused swrst",
    ] {
        assert!(shown.contains(&(word, 1)), "{word}: {shown:?}");
    }
}

/// A mark that is wrong shows in the END of a put, and in what the byte leaves.
#[test]
fn a_wrong_mark_is_shown_by_a_short_list() {
    let mut machine = marking("the host's write uses the mark up");
    let finding = first_finding(&mut machine, 300_000).expect("a difference");
    assert!(
        finding.list.len() <= 12 * RECORD,
        "{:?}",
        finding.difference
    );
    let difference = Difference::LikeCall { number: 4 };
    assert_eq!(difference.last_piece(), Some(4));
    let broken = Difference::EndMark {
        number: 4,
        rule: ASKED,
    };
    assert!(broken.words().ends_with(ASKED));
}
