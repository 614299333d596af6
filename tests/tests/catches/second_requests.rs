//! The comparison must catch machines that get the second request bit wrong, the books of the
//! user's condition those that break it, and what came of requests is counted.

use crate::findings::{condition_of, first_finding};
use meskvorn_tests::compare::subject::ModelSubject;
use meskvorn_tests::compare::{Comparison, Difference};
use meskvorn_tests::ledger::tally::Asked;
use meskvorn_tests::lists::composer::Composer;
use meskvorn_tests::lists::guided::Guided;
use meskvorn_tests::lists::hex::records;
use meskvorn_tests::lists::tables;
use meskvorn_tests::model::script::{
    Record, BUILD, CLEAR, LISTEN, POLL, READ, RECORD, REQUEST, RESET, STANDBY, TAKE,
};
use meskvorn_tests::model::{Answer, Bus, Event, Service};
use meskvorn_tests::wrong::{Wrong, REQUEST_FAULTS};

#[test]
fn comparison_catches_every_fault_of_requests() {
    for (name, fault) in REQUEST_FAULTS {
        let finding = first_finding(&mut Wrong::new(*fault), 300_000);
        let finding = finding.unwrap_or_else(|| panic!("not caught: {name}"));
        let pieces = finding.list.len() / RECORD;
        assert!(pieces <= 60, "{name}: {pieces} pieces");
    }
}

#[test]
fn tables_of_polls_catch_every_fault_of_requests() {
    for (name, fault) in REQUEST_FAULTS {
        let mut machine = Wrong::new(*fault);
        let found = tables::second_requests::run(&mut Comparison::new(&mut machine));
        assert!(found.is_err(), "not caught: {name}");
    }
}

const LATER: &str = "a request sets bit 64 in a status byte of a later poll";
const FIRST: &str = "a request leaves bit 64 off in a status byte of its first poll";

/// What the condition alone says of wrong machines, without a second one. It is silent where a
/// request is switched on in a poll, switched again or reset, and of refusals.
const RULES: &[(&str, &str)] = &[
    ("cleared when the poll begins", FIRST),
    ("cleared when the status byte ends", LATER),
    ("never cleared", LATER),
    ("cleared one call late", LATER),
    ("cleared by noacc", FIRST),
    ("cleared by data", FIRST),
    ("cleared by a command put", FIRST),
    ("cleared by a clear that is heard", FIRST),
    ("cleared by interface clear", FIRST),
    ("cleared by attention", FIRST),
    ("cleared by a poll register", FIRST),
    ("on again when its byte is broken off", LATER),
    ("no service rule reads it", FIRST),
    ("the rule for NPRS does not read it", FIRST),
    ("the rule for SRQS does not read it", FIRST),
    ("the rule for APRS does not read it", FIRST),
    ("APRS left in the poll once it is off", FIRST),
    ("bit 64 by it in place of APRS", FIRST),
    ("the bit of party 0 switched", FIRST),
];

#[test]
fn the_condition_alone_catches_by_chance() {
    for (name, rule) in RULES {
        let mut machine = Wrong::named(name);
        let mut guided = Guided::new(1);
        let said = (0..5000).find_map(|_| condition_of(&mut machine, guided.list()));
        assert_eq!(said, Some(*rule), "{name}");
    }
}

/// A status byte is put in NPRS only where its request was switched on in that poll, and of such
/// a request the condition says nothing.
#[test]
fn the_condition_is_silent_where_it_says_nothing() {
    let silent = REQUEST_FAULTS
        .iter()
        .filter(|(name, _)| RULES.iter().all(|(known, _)| known != name));
    for (name, fault) in silent {
        let mut machine = Wrong::new(*fault);
        let mut guided = Guided::new(1);
        let said = (0..2000).find_map(|_| condition_of(&mut machine, guided.list()));
        assert_eq!(said, None, "{name}");
    }
}

/// Party 0 at address 5 is active and listens; party 1 at address 6 talks in poll mode, and its
/// register has bit 64 off.
fn ready() -> Composer {
    let mut bus = Composer::new();
    bus.call(BUILD, 0, 2, 5);
    bus.call(POLL, 1, 0x01, 0);
    bus.call(CLEAR, 0, 0, 0);
    bus.call(LISTEN, 0, 1, 0);
    assert!(bus.command(0x18) && bus.command(0x46));
    bus
}

/// A poll of so many status bytes.
fn poll(bus: &mut Composer, bytes: usize) {
    bus.call(STANDBY, 0, 0, 0);
    for _ in 0..bytes {
        bus.call(READ, 0, 0, 0);
        assert!(bus.walk_until(Event::is_end));
    }
    bus.call(TAKE, 0, 0, 0);
}

fn asked_of(bus: &Composer) -> Asked {
    let mut subject = ModelSubject::default();
    let mut comparison = Comparison::new(&mut subject);
    comparison.list(&bus.records.concat()).unwrap();
    comparison.tally.asked
}

/// Everything that was counted, but the calls that switch.
fn expect(bus: &Composer, wanted: &[(&str, u64)]) {
    let calls = ["switched on", "switched off", "refused", "on in a poll"];
    let counted = |word: &str| !calls.iter().any(|call| word.ends_with(call));
    let asked = asked_of(bus);
    let came: Vec<(&str, u64)> = Asked::WORDS
        .into_iter()
        .zip(asked.counts)
        .filter(|(word, count)| *count > 0 && counted(word))
        .collect();
    assert_eq!(came, wanted);
}

#[test]
fn a_request_through_its_polls_is_counted() {
    let mut bus = ready();
    bus.call(REQUEST, 1, 1, 0);
    expect(&bus, &[("requests in NPRS outside a poll", 1)]);
    poll(&mut bus, 0);
    poll(&mut bus, 0);
    poll(&mut bus, 2);
    poll(&mut bus, 1);
    poll(&mut bus, 0);
    poll(&mut bus, 2);
    let wanted = [
        ("requests in NPRS outside a poll", 1),
        ("first polls with several", 1),
        ("later polls with a status byte", 2),
        ("polls without one before", 2),
    ];
    expect(&bus, &wanted);
    bus.call(REQUEST, 1, 1, 0);
    bus.call(STANDBY, 0, 0, 0);
    bus.call(READ, 0, 0, 0);
    assert!(bus.walk_until(Event::is_put));
    bus.call(CLEAR, 0, 0, 0);
    let wanted = [
        ("requests in NPRS outside a poll", 2),
        ("first polls with one status byte", 1),
        ("first polls with several", 1),
        ("later polls with a status byte", 2),
        ("polls without one before", 2),
        ("status bytes of one broken off", 1),
    ];
    expect(&bus, &wanted);
}

#[test]
fn a_request_that_is_lost_is_counted() {
    let losses: [(Record, &str); 5] = [
        (records("0d010000")[0], "requests lost by a switch"),
        (records("0d010100")[0], "requests lost by a switch"),
        (records("0a010000")[0], "requests lost by reset"),
        (records("04014100")[0], "requests lost by bit 64"),
        (records("09000000")[0], "interface clears under one"),
    ];
    for ([_, _, operation, party, value, extra], word) in losses {
        let mut bus = ready();
        bus.call(REQUEST, 1, 1, 0);
        bus.call(operation, party, value, extra);
        expect(&bus, &[("requests in NPRS outside a poll", 1), (word, 1)]);
        // What is refused loses nothing.
        bus.call(REQUEST, 1, 2, 0);
        bus.call(RESET, 2, 0, 0);
        expect(&bus, &[("requests in NPRS outside a poll", 1), (word, 1)]);
    }
}

/// In a poll, beside bit 64 of the register, and after another request that waits.
#[test]
fn of_other_requests_the_condition_says_nothing() {
    let mut bus = ready();
    bus.call(STANDBY, 0, 0, 0);
    bus.call(REQUEST, 1, 1, 0);
    assert!(bus.walk_until(Event::is_end));
    expect(&bus, &[("status bytes in NPRS under one", 1)]);
    assert_eq!(bus.bus.parties[1].service, Service::Nprs);
    let mut bus = ready();
    bus.call(POLL, 1, 0x41, 0);
    bus.call(REQUEST, 1, 1, 0);
    poll(&mut bus, 1);
    expect(&bus, &[]);
}

fn bit_lost(bus: &mut Bus, _: &Bus, _: Record, answer: &mut Answer) {
    if answer.event == Event::Stat {
        answer.byte &= 0xBF;
        bus.standing.iter_mut().for_each(|byte| byte.value &= 0xBF);
    }
}

/// Each poll's status bytes are judged by themselves: two of the first, and one of the next.
#[test]
fn the_condition_reads_every_status_byte() {
    let mut bus = ready();
    bus.call(REQUEST, 1, 1, 0);
    poll(&mut bus, 1);
    let said = condition_of(&mut Wrong::new(bit_lost), &bus.records.concat());
    assert_eq!(said, Some(FIRST));
    poll(&mut bus, 1);
    let list = bus.records.concat();
    assert_eq!(
        condition_of(&mut Wrong::named("never cleared"), &list),
        Some(LATER)
    );
    let mut bus = ready();
    bus.call(REQUEST, 1, 1, 0);
    poll(&mut bus, 2);
    let list = bus.records.concat();
    let left = "APRS left in the poll once it is off";
    assert_eq!(condition_of(&mut Wrong::named(left), &list), Some(FIRST));
    assert_eq!(
        condition_of(&mut Wrong::named("never cleared"), &list),
        None
    );
}

#[test]
fn what_never_came_is_told() {
    let mut subject = ModelSubject::default();
    let mut comparison = Comparison::new(&mut subject);
    comparison.list(&ready().records.concat()).unwrap();
    let missing = comparison.tally.missing();
    for word in Asked::WORDS {
        assert!(missing.contains(&word), "{word}");
    }
}

/// The finding tells which rule of which book is broken.
#[test]
fn a_broken_condition_is_told() {
    let difference = Difference::Request {
        number: 7,
        rule: LATER,
    };
    assert_eq!(difference.last_piece(), Some(7));
    assert!(difference.words().ends_with(LATER));
}
