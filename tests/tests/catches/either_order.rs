//! Steps in two orders must catch machines in which the order of acceptors counts, by these machines alone.

use crate::findings::{first_finding, orders_of};
use meskvorn_tests::compare::either_order::{self, Unlike, What};
use meskvorn_tests::compare::subject::{enter_list, try_orders_by, ModelSubject, Orders, Subject};
use meskvorn_tests::compare::{compare, Comparison, Difference};
use meskvorn_tests::ledger::tally::{OrderCases, Tally};
use meskvorn_tests::lists::composer::Composer;
use meskvorn_tests::lists::guided::Guided;
use meskvorn_tests::lists::{every_order, kinds_of_state, tables};
use meskvorn_tests::model::script::{BUILD, LISTEN, RECORD, TALK, WRITE};
use meskvorn_tests::model::{Answer, Bus, Event};
use meskvorn_tests::wrong::{Wrong, HIDDEN_ORDER_FAULTS, STEP_ORDER_FAULTS};

/// The wrong machines whose order counts, by name.
fn wrong_orders() -> impl Iterator<Item = (&'static str, Wrong)> {
    let faults = STEP_ORDER_FAULTS.iter().chain(HIDDEN_ORDER_FAULTS);
    faults.map(|(name, fault)| (*name, Wrong::new(*fault)))
}

fn named(name: &str) -> Wrong {
    let found = wrong_orders().find(|(known, _)| *known == name);
    found.expect("a known fault").1
}

#[test]
fn orders_alone_catch_every_fault_by_chance() {
    for (name, mut machine) in wrong_orders() {
        let mut guided = Guided::new(1);
        let said = (0..2000).find_map(|_| orders_of(&mut machine, guided.list()));
        assert!(said.is_some(), "not caught: {name}");
    }
}

#[test]
fn orders_alone_are_quiet_about_faults_in_which_none_counts() {
    let quiet = [
        "END lost in taking",
        "step always says none",
        "noacc drops its byte",
    ];
    for name in quiet {
        let mut machine = Wrong::named(name);
        let mut guided = Guided::new(1);
        let said = (0..300).find_map(|_| orders_of(&mut machine, guided.list()));
        assert_eq!(said, None, "{name}");
    }
}

#[test]
fn comparison_catches_every_fault() {
    for (name, mut machine) in wrong_orders() {
        let finding = first_finding(&mut machine, 300_000);
        let finding = finding.unwrap_or_else(|| panic!("not caught: {name}"));
        let pieces = finding.list.len() / RECORD;
        assert!(pieces <= 60, "{name}: {pieces} pieces");
    }
}

/// No answer tells of these, so that nothing else finds them.
#[test]
fn what_no_answer_tells_is_found_by_orders() {
    for (name, fault) in HIDDEN_ORDER_FAULTS {
        let mut machine = Wrong::new(*fault);
        let finding = first_finding(&mut machine, 300_000).expect(name);
        let buses = matches!(
            &finding.difference,
            Difference::Orders { unlike, .. } if unlike.what == What::Buses { whose: "subject" }
        );
        assert!(buses, "{name}: {}", finding.difference.words());
        let pieces = finding.list.len() / RECORD;
        assert!(pieces <= 15, "{name}: {pieces} pieces");
        let prefixes = kinds_of_state::prefixes();
        let found = every_order::run(&mut Comparison::new(&mut machine), &prefixes);
        assert!(found.is_err(), "{name}: every order");
        let found = tables::step_orders::run(&mut Comparison::new(&mut machine));
        assert!(found.is_err(), "{name}: the table of orders");
    }
}

/// Party 0 talks and has the byte 41 with END on offer; the others listen, and are ready.
fn ready(parties: u8) -> Composer {
    let mut bus = Composer::new();
    bus.call(BUILD, 0, parties, 5);
    bus.call(TALK, 0, 1, 0);
    for party in 1..parties {
        bus.call(LISTEN, party, 1, 0);
    }
    bus.call(WRITE, 0, 0x41, 1);
    for party in 0..parties {
        assert_eq!(bus.step(party), Answer::moved());
    }
    bus
}

/// The byte stands.
fn data_stands(parties: u8) -> Composer {
    let mut bus = ready(parties);
    assert_eq!(bus.step(0).event, Event::Data);
    bus
}

/// What is said of two orders by the machine with this fault, from this bus.
fn said(fault: &str, bus: &Composer, orders: &Orders) -> Result<(), What> {
    let mut machine = named(fault);
    machine.bus = bus.bus;
    either_order::check("machine", orders, &machine.try_orders(orders))
}

#[test]
fn what_is_said_of_a_bus_and_of_an_answer() {
    let bus = data_stands(3);
    let orders = [vec![1, 2], vec![2, 1]];
    let took = |end| Answer::with_byte(Event::Took, 0x41, end);
    let answers = |party, answers| {
        let whose = "machine";
        Err(What::Answers {
            whose,
            party,
            answers,
        })
    };
    let first = answers(1, [took(true), Answer::NOTHING]);
    assert_eq!(said("taking waits for NRFD", &bus, &orders), first);
    let first = answers(1, [took(true), took(false)]);
    assert_eq!(said("END for the first taker alone", &bus, &orders), first);
    assert_eq!(said("END lost for the third taker", &bus, &orders), Ok(()));
    let orders = [vec![1, 2, 3], vec![1, 3, 2]];
    let third = answers(2, [took(true), took(false)]);
    let bus = data_stands(4);
    assert_eq!(said("END lost for the third taker", &bus, &orders), third);
}

/// From one bus, two steps of each show what one step of each does not.
#[test]
fn second_steps_that_wait_for_another() {
    let bus = data_stands(3);
    let fault = "ACDS waits for another's";
    assert_eq!(said(fault, &bus, &[vec![1, 2], vec![2, 1]]), Ok(()));
    let orders = [vec![1, 1, 2, 2], vec![1, 2, 1, 2]];
    let second = What::Answers {
        whose: "machine",
        party: 1,
        answers: [Answer::moved(), Answer::NOTHING],
    };
    assert_eq!(said(fault, &bus, &orders), Err(second));
}

#[test]
fn answers_are_compared_one_after_the_other() {
    let bus = data_stands(3);
    let orders = [vec![2, 1, 1], vec![1, 1, 2]];
    let mut right = try_orders_by(&bus.bus, &orders, Bus::step);
    assert_eq!(either_order::check("model", &orders, &right), Ok(()));
    // The same answers, the second one first.
    right.answers[1].swap(0, 1);
    let first = What::Answers {
        whose: "model",
        party: 1,
        answers: [Answer::with_byte(Event::Took, 0x41, true), Answer::moved()],
    };
    assert_eq!(either_order::check("model", &orders, &right), Err(first));
}

#[test]
fn two_orders_of_the_same_steps_are_drawn() {
    let bus = data_stands(4).bus;
    let mut random = either_order::chance_of(&[1]);
    let mut most = Vec::new();
    for _ in 0..300 {
        let [one, other] = either_order::draw(&bus, &mut random).expect("three are no source");
        assert_ne!(one, other);
        let counts = |order: &[u8]| {
            [0, 1, 2, 3].map(|party| order.iter().filter(|own| **own == party).count())
        };
        assert_eq!(counts(&one), counts(&other));
        assert_eq!(counts(&one)[0], 0);
        most.extend(counts(&one).into_iter().max());
    }
    let number = |steps| most.iter().filter(|own| **own == steps).count();
    // In two of three draws one step each, in the others mostly more.
    assert!((180..240).contains(&number(1)));
    assert!(number(2) > 10 && number(3) > 10);
    assert_eq!(number(1) + number(2) + number(3), 300);
}

#[test]
fn a_bus_alone_and_an_answer_alone_are_enough() {
    let bus = data_stands(3);
    let orders = [vec![1, 2], vec![2, 1]];
    let mut right = try_orders_by(&bus.bus, &orders, Bus::step);
    assert_eq!(either_order::check("model", &orders, &right), Ok(()));
    right.same = false;
    let whose = "model";
    let buses = Err(What::Buses { whose });
    assert_eq!(either_order::check("model", &orders, &right), buses);
    right.same = true;
    right.answers[1][0].dropped = 1;
    let found = either_order::check("model", &orders, &right);
    assert!(matches!(found, Err(What::Answers { party: 2, .. })));
}

/// What is said of the orders 1 2 and 2 1 after piece 9.
fn words(what: What) -> String {
    let orders = [vec![1, 2], vec![2, 1]];
    let unlike = Unlike { orders, what };
    let words = Difference::Orders { number: 9, unlike }.words();
    let what = words.strip_prefix("piece 9: steps 1 2, or 2 1: ");
    what.expect("both orders").to_string()
}

#[test]
fn a_difference_in_words() {
    let (model, subject) = (Answer::with_byte(Event::Took, 0x41, true), Answer::NOTHING);
    let buses = What::Buses { whose: "subject" };
    assert_eq!(words(buses), "the subject leaves two different buses");
    let answers = What::Answers {
        whose: "model",
        party: 2,
        answers: [model, subject],
    };
    let wanted = "the model answers party 2 0 took 41 1 0 0, and 0 none -- 0 0 0";
    assert_eq!(words(answers), wanted);
    let as_model = What::AsModel {
        party: 1,
        model,
        subject,
    };
    let wanted = "party 1: model 0 took 41 1 0 0, subject 0 none -- 0 0 0";
    assert_eq!(words(as_model), wanted);
    let same = What::Same {
        model: true,
        subject: false,
    };
    let wanted = "the same bus in both: model true, subject false";
    assert_eq!(words(same), wanted);
}

/// Parties 1 and 2 by this machine from this bus, after the source and before it.
fn with_source(mut machine: Wrong, bus: &Composer) -> Result<OrderCases, Unlike> {
    machine.bus = bus.bus;
    let mut cases = OrderCases::default();
    either_order::try_source(&machine, &bus.bus, &[1, 2], &mut cases)?;
    Ok(cases)
}

#[test]
fn with_a_source_the_order_counts() {
    let right = || Wrong::new(|_, _, _, _| {});
    let mut bus = ready(3);
    let [another_bus, another_answer] = [
        ("a source first or last, another bus", 1),
        ("a source first or last, another answer", 1),
    ];
    let taken = ("a source's byte taken if it is first alone", 1);
    let cases = with_source(right(), &bus).unwrap();
    assert_eq!(shown(&cases), [another_bus, another_answer, taken]);
    // The source waits for both, before and after they take.
    bus.step(0);
    assert_eq!(shown(&with_source(right(), &bus).unwrap()), []);
    bus.step(1);
    bus.step(2);
    let ends = ("a source's byte ends if it is last alone", 1);
    let cases = with_source(right(), &bus).unwrap();
    assert_eq!(shown(&cases), [another_bus, another_answer, ends]);
}

#[test]
fn with_a_source_the_subject_is_as_the_model() {
    let bus = data_stands(3);
    let unlike = with_source(named("taking waits for NRFD"), &bus).expect_err("an answer");
    assert!(matches!(unlike.what, What::AsModel { party: 2, .. }));
    let unlike = with_source(named("the last step is remembered"), &bus).expect_err("a bus");
    let (model, subject) = (true, false);
    assert_eq!(unlike.what, What::Same { model, subject });
    assert_eq!(unlike.orders, [[0, 1, 2], [1, 2, 0]]);
}

/// The words of what came, with how often.
fn shown(cases: &OrderCases) -> Vec<(&'static str, u64)> {
    let counts = OrderCases::WORDS.into_iter().zip(cases.counts);
    counts.filter(|(_, count)| *count > 0).collect()
}

/// What came in these two orders by the model.
fn cases_of(bus: &Composer, orders: Orders) -> OrderCases {
    let mut subject = ModelSubject::default();
    enter_list(&mut subject, &bus.records.concat());
    let mut cases = OrderCases::default();
    either_order::try_acceptors(&subject, &bus.bus, orders, &mut cases).unwrap();
    cases
}

#[test]
fn what_came_is_counted() {
    let bus = data_stands(3);
    let cases = cases_of(&bus, [vec![1, 2], vec![2, 1]]);
    let wanted = [
        "orders of two",
        "orders without ATN",
        "orders with data standing",
        "orders with data taken twice",
        "orders with END taken twice",
        "orders with a move under another NRFD",
    ];
    assert_eq!(shown(&cases), wanted.map(|word| (word, 1)));
    assert_eq!(cases.tried, 1);
}

#[test]
fn several_steps_are_counted() {
    let bus = data_stands(3);
    let one_each = [
        "orders without ATN",
        "orders with data standing",
        "orders with data taken twice",
        "orders with END taken twice",
        "orders with a move under another NRFD",
    ];
    let several = "orders with several steps of a party";
    let one_goes_on = cases_of(&bus, [vec![1, 2, 1], vec![2, 1, 1]]);
    let wanted = [&[several], &one_each[..]].concat();
    let words = |cases| shown(&cases).into_iter().map(|(word, _)| word);
    assert!(words(one_goes_on).eq(wanted));
    let both_go_on = cases_of(&bus, [vec![1, 1, 2, 2], vec![2, 1, 2, 1]]);
    let more = [
        several,
        "orders with two moves of each of two",
        "orders with a byte taken and let go by two",
    ];
    let wanted = [&more[..], &one_each].concat();
    assert!(words(both_go_on).eq(wanted));
}

#[test]
fn a_list_is_tried_at_its_end() {
    let mut tally = Tally::default();
    let list = data_stands(3).records.concat();
    compare(&mut ModelSubject::default(), &list, &mut tally).unwrap();
    assert!(tally.orders.tried > 0);
    let missing = tally.missing();
    assert!(OrderCases::WORDS.iter().all(|word| missing.contains(word)));
}
