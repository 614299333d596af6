//! The comparison must catch machines that get parallel polls wrong, the books those that break their
//! rule, and what came of polls is counted.

use crate::findings::{first_finding, polls_of};
use meskvorn_tests::compare::subject::{enter_piece, ModelSubject, Subject, Told};
use meskvorn_tests::compare::without_polls::compare_without_polls;
use meskvorn_tests::compare::{builds, compare, Comparison, Difference};
use meskvorn_tests::ledger::tally::{PollCases, Tally};
use meskvorn_tests::lists::composer::Composer;
use meskvorn_tests::lists::guided::Guided;
use meskvorn_tests::lists::hex::records;
use meskvorn_tests::lists::{pieces, tables};
use meskvorn_tests::model::registers::{SET, SWRST};
use meskvorn_tests::model::script::{BUILD, CLEAR, LISTEN, RECORD, RESET, STANDBY, TAKE, WRITE};
use meskvorn_tests::model::{Event, Name};
use meskvorn_tests::wrong::{poll_faults, Wrong};

fn polling(name: &str) -> Wrong {
    let found = poll_faults().find(|(known, _)| *known == name);
    Wrong::polling(found.expect("a known fault").1)
}

/// It takes fifteen parties to show.
const OF_FIFTEEN: &str = "the fifteenth party left out";

#[test]
fn comparison_catches_every_fault_of_polls() {
    for (name, fault) in poll_faults() {
        let finding = first_finding(&mut Wrong::polling(fault), 300_000);
        let finding = finding.unwrap_or_else(|| panic!("not caught: {name}"));
        let pieces = finding.list.len() / RECORD;
        assert!(pieces <= 60 || name == OF_FIFTEEN, "{name}: {pieces}");
        let stopped = finding.difference == Difference::Stopped;
        assert!(!stopped, "{name}");
    }
}

#[test]
fn tables_of_polls_catch_every_fault() {
    for (name, fault) in poll_faults() {
        let mut machine = Wrong::polling(fault);
        let found = tables::parallel_polls::run(&mut Comparison::new(&mut machine));
        assert!(found.is_err(), "not caught: {name}");
    }
}

#[test]
fn builds_catch_what_is_wrong_with_every_poll() {
    for name in [
        "line 1 highest",
        "bit 8 inverted",
        "any party polls",
        "4 before 1",
        "3 before 1",
        "an own status of 2 accepted",
    ] {
        assert!(builds::run(&mut polling(name), 5).is_err(), "{name}");
    }
}

const SENTENCE: &str = "a poll's lines are not those of the parties whose status is their sense";
const MORE: &str = "a parallel poll tells more than its lines";
const CHANGED: &str = "a parallel poll changed the bus";
const AGAINST: &str = "a parallel poll is refused, or is not, against its rule";
const STATUS: &str = "an own status is not answered as its arguments ask";

/// What the books say, where it is not that the lines are wrong.
const RULES: &[(&str, Option<&str>)] = &[
    ("a poll says END", Some(MORE)),
    ("a poll has the event none", Some(MORE)),
    ("a poll has the event read", Some(MORE)),
    ("a poll counts a dropped byte", Some(MORE)),
    ("a poll counts a byte broken off", Some(MORE)),
    ("a poll drops the held byte", Some(MORE)),
    ("any party polls", Some(AGAINST)),
    ("any party polls under ATN", Some(AGAINST)),
    ("the party in standby polls", Some(AGAINST)),
    ("the system party polls", Some(AGAINST)),
    ("the system party alone polls", Some(AGAINST)),
    ("a poll while the command stands", Some(AGAINST)),
    ("7 before 4 while a byte stands", Some(AGAINST)),
    ("4 for a standing command", Some(AGAINST)),
    ("7 while a byte is held", Some(AGAINST)),
    ("4 before 1", Some(AGAINST)),
    ("a poll removes the responses", Some(CHANGED)),
    ("a poll ends configuring", Some(CHANGED)),
    ("a poll sets the statuses to 0", Some(CHANGED)),
    ("a poll takes the source back", Some(CHANGED)),
    ("a poll has the poller go to standby", Some(CHANGED)),
    ("an own status of 2 accepted", Some(STATUS)),
    ("an own status over 1 accepted", Some(STATUS)),
    ("3 before 1", Some(STATUS)),
    ("an own status says moved", Some(STATUS)),
    ("an own status refused to the active party", Some(STATUS)),
    // Of these the books say nothing: they show in no poll.
    ("another secondary ends talking while configuring", None),
    ("PPU with the event clear", None),
    ("PPC not listening keeps talk primary", None),
];

#[test]
fn the_books_of_polls_alone_catch_by_chance() {
    for (name, fault) in poll_faults().filter(|(name, _)| *name != OF_FIFTEEN) {
        let rule = RULES.iter().find(|(known, _)| *known == name);
        let wanted = rule.map_or(Some(SENTENCE), |(_, rule)| *rule);
        let lists = if wanted.is_some() { 30_000 } else { 2000 };
        let mut machine = Wrong::polling(fault);
        let mut guided = Guided::new(1);
        let said = (0..lists).find_map(|_| polls_of(&mut machine, guided.list()));
        assert_eq!(said, wanted, "{name}");
    }
}

/// Chance seldom configures the last of fifteen.
#[test]
fn the_books_of_polls_know_the_fifteenth_party() {
    let mut bus = Composer::new();
    bus.call(BUILD, 0, 15, 5);
    bus.call(CLEAR, 0, 0, 0);
    send(&mut bus, &[0x33, 0x05, 0x60]);
    bus.parallel_poll(0);
    let said = polls_of(&mut polling(OF_FIFTEEN), &bus.records.concat());
    assert_eq!(said, Some(SENTENCE));
}

/// Party 0 at address 5 is active; the others are at 6/1 and at 7.
fn under_control() -> Composer {
    let mut bus = Composer::new();
    let names = [Name::plain(5), Name::extended(6, 1), Name::plain(7)];
    bus.build(&names, 0);
    bus.call(CLEAR, 0, 0, 0);
    bus
}

fn send(bus: &mut Composer, commands: &[u8]) {
    for command in commands {
        assert!(bus.command(*command), "{command:02x}");
    }
}

/// Where the list with its polls left out shows something else, if it does.
fn without_polls(machine: &mut Wrong, bus: &Composer) -> Option<Difference> {
    let list = bus.records.concat();
    machine.start();
    let pieces = pieces::of_list(&list);
    let told: Vec<Told> = pieces.map(|piece| enter_piece(machine, &piece)).collect();
    compare_without_polls(machine, &list, &told).err()
}

#[test]
fn a_list_without_its_polls_shows_what_they_change() {
    let mut bus = under_control();
    bus.call(WRITE, 0, 0x3F, 0);
    bus.own_status(2, 1);
    bus.parallel_poll(0);
    bus.parallel_poll(0);
    let pieces = bus.records.len();
    let last = Some(Difference::WithoutPolls { number: pieces });
    let mut machine = polling("a poll sets the statuses to 0");
    assert_eq!(without_polls(&mut machine, &bus), last);
    // The byte is held no more, and the next write is accepted.
    bus.call(STANDBY, 1, 0, 0);
    bus.call(WRITE, 0, 0x3F, 0);
    let number = pieces + 2;
    let write = Some(Difference::WithoutPolls { number });
    let mut machine = polling("a poll drops the held byte");
    assert_eq!(without_polls(&mut machine, &bus), write);
    // Polls that are answered wrongly change nothing else.
    for name in ["line 1 highest", "a poll says END"] {
        assert_eq!(without_polls(&mut polling(name), &bus), None);
    }
}

/// What was counted, and how many lines were on by one party, with sense 0 and with sense 1.
fn cases_of(bus: &Composer) -> (Vec<(&'static str, u64)>, [u64; 2]) {
    let mut subject = ModelSubject::default();
    let mut tally = Tally::default();
    compare(&mut subject, &bus.records.concat(), &mut tally).unwrap();
    let cases = PollCases::WORDS.into_iter().zip(tally.polls.counts);
    let cases = cases.filter(|(_, count)| *count > 0).collect();
    (cases, tally.polls.lines.map(|lines| lines.iter().sum()))
}

/// The counts of these words.
fn expect(bus: &Composer, wanted: &[(&str, u64)]) {
    let (came, _) = cases_of(bus);
    for (word, count) in wanted {
        assert!(PollCases::WORDS.contains(word), "{word}");
        let found = came.iter().find(|(known, _)| known == word);
        let found = found.map_or(0, |(_, count)| *count);
        assert_eq!(found, *count, "{word}: {came:?}");
    }
}

#[test]
fn a_poll_and_its_line_are_counted() {
    let mut bus = under_control();
    send(&mut bus, &[0x26, 0x61, 0x05, 0x61]);
    bus.parallel_poll(0);
    bus.own_status(1, 1);
    bus.parallel_poll(0);
    bus.parallel_poll(1);
    bus.parallel_poll(3);
    bus.own_status(1, 2);
    bus.own_status(3, 2);
    let wanted = [
        ("polls with no line on", 1),
        ("polls with one line on", 1),
        ("polls NOPARTY", 1),
        ("polls ROLE", 1),
        ("own statuses 1", 1),
        ("own statuses BADVALUE", 1),
        ("own statuses NOPARTY with a bad value", 1),
        ("lines on by a party with a secondary", 1),
        ("lines on by the own secondary's code", 1),
        ("lines off by the status", 1),
        // Parties 0 and 2, by the second poll: their line would be on.
        ("not marked by PPC, not listening", 2),
        ("own statuses 0 from build on", 1),
    ];
    assert_eq!(cases_of(&bus), (wanted.to_vec(), [1, 0]));
}

#[test]
fn two_parties_on_a_line_are_counted() {
    let mut bus = under_control();
    send(&mut bus, &[0x25, 0x27, 0x05, 0x6F]);
    for party in [1, 0, 2] {
        bus.own_status(party, 1);
        bus.parallel_poll(0);
    }
    let wanted = [
        ("two on a line, off by both", 1),
        ("two on a line, on by one", 1),
        ("two on a line, on by both", 1),
        ("lines on by the party that polls", 1),
        ("polls with several lines on", 0),
    ];
    expect(&bus, &wanted);
    assert_eq!(cases_of(&bus).1, [0, 1]);
}

/// A mark counts as kept or lost where a poll shows the code after it.
#[test]
fn what_configuring_is_kept_over_or_lost_by_is_counted() {
    let mut bus = under_control();
    send(&mut bus, &[0x27, 0x05, 0x70, 0x7F, 0x05]);
    bus.call(LISTEN, 2, 0, 0);
    send(&mut bus, &[0x05]);
    bus.call(STANDBY, 0, 0, 0);
    bus.call(TAKE, 0, 0, 0);
    bus.call(CLEAR, 0, 0, 0);
    send(&mut bus, &[0x62]);
    expect(&bus, &[("configuring kept over 7F", 0)]);
    bus.parallel_poll(0);
    let kept = [
        ("configuring kept over 60 to 6F", 0),
        ("configuring kept over 70 to 7E", 1),
        ("configuring kept over 7F", 1),
        ("configuring kept over PPC", 1),
        ("configuring kept over PPC not listening", 1),
        ("configuring kept over attention", 1),
        ("configuring kept over interface clear", 1),
        ("configuring kept over a switch", 1),
    ];
    expect(&bus, &kept);
    for (command, word) in [
        (0x08, "configuring lost by SDC, GET or TCT"),
        (0x14, "configuring lost by DCL, SPE or SPD"),
        (0x1F, "configuring lost by no meaning"),
        (0x3F, "configuring lost by UNL or UNT"),
        (0x2A, "configuring lost by a listen address"),
        (0x4A, "configuring lost by a talk address"),
        (0x15, "configuring lost by PPU"),
    ] {
        let mut bus = under_control();
        send(&mut bus, &[0x27, 0x05, command, 0x60]);
        expect(&bus, &[(word, 0)]);
        bus.parallel_poll(0);
        bus.parallel_poll(0);
        expect(&bus, &[(word, 1)]);
    }
}

type Remover = fn(&mut Composer);

const REMOVERS: [(Remover, &str); 6] = [
    (|bus| send(bus, &[0x70]), "responses removed by 70 to 7E"),
    (|bus| send(bus, &[0x7F]), "responses removed by 7F"),
    (
        |bus| send(bus, &[0x15]),
        "responses removed by PPU, listening",
    ),
    (|bus| send(bus, &[0x61]), "responses replaced"),
    (
        |bus| _ = bus.call(RESET, 2, 0, 0),
        "responses removed by reset",
    ),
    (
        |bus| _ = bus.auxiliary(2, SWRST | SET),
        "responses removed by swrst",
    ),
];

#[test]
fn what_a_response_is_kept_over_or_removed_by_is_counted() {
    let mut bus = under_control();
    send(&mut bus, &[0x27, 0x05, 0x60, 0x3F, 0x05, 0x61, 0x71]);
    bus.call(RESET, 1, 0, 0);
    bus.call(CLEAR, 0, 0, 0);
    bus.parallel_poll(0);
    let kept = [
        ("responses kept over PPC", 1),
        ("responses kept over a primary command", 1),
        ("responses kept over 60 to 6F unmarked", 1),
        ("responses kept over 70 to 7F unmarked", 1),
        ("responses kept over another's reset", 1),
        ("responses kept over interface clear", 1),
        ("responses kept over attention", 0),
    ];
    expect(&bus, &kept);
    for (remove, word) in REMOVERS {
        let mut bus = under_control();
        send(&mut bus, &[0x27, 0x05, 0x60]);
        remove(&mut bus);
        expect(&bus, &[(word, 0)]);
        bus.parallel_poll(0);
        expect(&bus, &[(word, 1)]);
    }
}

#[test]
fn what_never_came_is_told() {
    let mut subject = ModelSubject::default();
    let mut comparison = Comparison::new(&mut subject);
    let mut bus = under_control();
    send(&mut bus, &[0x27, 0x05, 0x60]);
    bus.parallel_poll(0);
    comparison.list(&bus.records.concat()).unwrap();
    let missing = comparison.tally.missing();
    assert!(PollCases::WORDS.iter().all(|word| missing.contains(word)));
    assert!(missing.contains(&"line 1 on by sense 0") && missing.contains(&"line 8 on by sense 1"));
    tables::parallel_polls::run(&mut comparison).unwrap();
    let missing = comparison.tally.missing();
    assert!(missing.iter().all(|word| !word.contains(" on by sense ")));
    assert!(missing
        .iter()
        .all(|word| !word.starts_with("responses removed by P")));
}

/// In a script they are nothing.
#[test]
fn a_list_with_polls_is_a_script_without_them() {
    let mut bus = Composer::new();
    bus.parallel_poll(0);
    bus.call(BUILD, 0, 2, 5);
    bus.own_status(1, 1);
    bus.call(CLEAR, 0, 0, 0);
    bus.parallel_poll(0);
    bus.own_status(1, 2);
    let list = bus.records.concat();
    let script = records("00000205 09000000").concat();
    assert_eq!(pieces::as_script(&list), Some(script.into()));
    assert_eq!(pieces::bus_after(&list), bus.bus);
    assert!(bus.bus.parties[1].own_status);
    assert_eq!(bus.parallel_poll(0).event, Event::Lines);
}
