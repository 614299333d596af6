//! Steps of parties that are no source, in every order, worked out from document 01's text for document
//! 02's Q-10. With a source among them the order counts, and so it does how often a party is stepped.

use meskvorn_tests::lists::all_orders::all_orders;
use meskvorn_tests::model::{Acceptor, Answer, Bus, Data, Event, Lists, Name, NDAC, NRFD};

const GET: u8 = 0x08;
const DCL: u8 = 0x14;

fn told(event: Event, byte: u8, end: bool) -> Answer {
    Answer::with_byte(event, byte, end)
}

/// Each party's answers by its place, one after the other; none for a party that is not stepped.
type Answers = Vec<Vec<Answer>>;

/// The bus after steps of these parties, and the answers.
fn stepped(bus: &Bus, order: &[u8]) -> (Bus, Answers) {
    let mut bus = *bus;
    let mut answers = vec![Vec::new(); bus.count];
    for &party in order {
        answers[usize::from(party)].push(bus.step(party));
    }
    (bus, answers)
}

/// In every order steps of these parties leave the same bus, and are answered so, a party's first to last.
fn in_every_order(bus: &Bus, steps: &[u8], wanted: &[Answer]) -> Bus {
    assert!(steps.iter().all(|party| bus.no_sources().contains(party)));
    assert_eq!(steps.len(), wanted.len());
    let mut by_place = vec![Vec::new(); bus.count];
    for (&party, &answer) in steps.iter().zip(wanted) {
        by_place[usize::from(party)].push(answer);
    }
    let (first, _) = stepped(bus, steps);
    for order in all_orders(steps) {
        let (left, answers) = stepped(bus, &order);
        assert_eq!(left, first, "{order:?}");
        assert_eq!(answers, by_place, "{order:?}");
    }
    first
}

/// Party 0 talks, the others listen; the byte 41 with END is held.
fn offered(parties: u8) -> Bus {
    let mut bus = Bus::new();
    bus.build(&(5..5 + parties).collect::<Vec<u8>>(), 0);
    bus.talk_only(0, 1);
    for party in 1..parties {
        bus.listen_only(party, 1);
    }
    bus.write(0, 0x41, 1);
    bus
}

/// All are ready, and the byte stands.
fn data_stands(parties: u8) -> Bus {
    let mut bus = offered(parties);
    for party in 0..parties {
        assert_eq!(bus.step(party), Answer::moved());
    }
    assert_eq!(bus.step(0), told(Event::Data, 0x41, true));
    bus
}

#[test]
fn two_listeners_take_one_byte() {
    let bus = data_stands(3);
    let took = told(Event::Took, 0x41, true);
    // The second finds NRFD on, by the first in ACDS, and takes as well.
    assert_eq!(bus.line_bits() & NRFD, 0);
    let (between, _) = stepped(&bus, &[1]);
    assert_eq!(between.line_bits() & NRFD, NRFD);
    let left = in_every_order(&bus, &[1, 2], &[took, took]);
    let data = Data {
        value: 0x41,
        end: true,
    };
    for party in &left.parties[1..3] {
        assert_eq!(party.acceptor, Acceptor::Acds);
        assert_eq!(party.data_in, Some(data));
    }
}

#[test]
fn one_takes_while_another_lets_go() {
    let mut bus = data_stands(4);
    bus.step(1);
    bus.step(2);
    bus.step(2);
    // ACDS to AWNS, AWNS stays under DAV, ACRS takes.
    let took = told(Event::Took, 0x41, true);
    let wanted = [Answer::moved(), Answer::NOTHING, took];
    in_every_order(&bus, &[1, 2, 3], &wanted);
}

#[test]
fn after_the_end_each_goes_on_whatever_ndac_is() {
    let mut bus = data_stands(4);
    for party in [1, 2, 3, 1, 2, 3] {
        bus.step(party);
    }
    assert_eq!(bus.step(0), told(Event::Ended, 0x41, true));
    // The first to leave AWNS turns NDAC on for the others.
    assert_eq!(bus.line_bits() & NDAC, 0);
    let (between, _) = stepped(&bus, &[2]);
    assert_eq!(between.line_bits() & NDAC, NDAC);
    let left = in_every_order(&bus, &[1, 2, 3], &[Answer::moved(); 3]);
    let states = left.parties[1..4].iter().map(|party| party.acceptor);
    assert!(states.eq([Acceptor::Anrs; 3]));
}

#[test]
fn data_in_full_waits_beside_one_that_is_ready() {
    // Both took the byte, and it has ended; party 2 alone has read it.
    let mut bus = data_stands(3);
    for party in [1, 2, 1, 2, 0, 1, 2] {
        bus.step(party);
    }
    bus.read(2);
    let wanted = [Answer::NOTHING, Answer::moved()];
    let left = in_every_order(&bus, &[1, 2], &wanted);
    assert_eq!(left.parties[1].acceptor, Acceptor::Anrs);
    assert_eq!(left.parties[2].acceptor, Acceptor::Acrs);
    // That one in ACRS stays, as no byte stands.
    let wanted = [Answer::NOTHING, Answer::NOTHING];
    assert_eq!(in_every_order(&left, &[1, 2], &wanted), left);
}

/// Party 0 is active, and this command stands for all others.
fn command_stands(mut bus: Bus, byte: u8) -> Bus {
    bus.write(0, byte, 0);
    for party in 0..bus.count as u8 {
        assert_eq!(bus.step(party), Answer::moved());
    }
    assert_eq!(bus.step(0), told(Event::Cmd, byte, false));
    bus
}

/// It is heard, and ends; the acceptors are in ANRS again.
fn command_ended(bus: Bus, byte: u8) -> Bus {
    let mut bus = command_stands(bus, byte);
    let others: Vec<u8> = (1..bus.count as u8).collect();
    for party in [&others[..], &others, &[0], &others].concat() {
        bus.step(party);
    }
    bus
}

fn under_control(names: &[Name]) -> Bus {
    let mut bus = Bus::new();
    assert!(bus.build_extended(&Lists::of(names), 0).accepted());
    bus.clear(0);
    bus
}

const PLAIN: [Name; 4] = [
    Name::plain(5),
    Name::plain(6),
    Name::plain(7),
    Name::plain(8),
];

#[test]
fn three_parties_hear_a_command() {
    let mut bus = under_control(&PLAIN);
    bus.listen_only(1, 1);
    bus.listen_only(3, 1);
    let heard = [
        (GET, [Event::Trigger, Event::Heard, Event::Trigger]),
        (DCL, [Event::Clear; 3]),
        (0x3F, [Event::Heard; 3]),
    ];
    for (byte, events) in heard {
        let wanted = events.map(|event| told(event, byte, false));
        let left = in_every_order(&command_stands(bus, byte), &[1, 2, 3], &wanted);
        let listens = left.parties[1..4].iter().map(|party| party.listen);
        assert!(listens.eq([byte != 0x3F, false, byte != 0x3F]));
    }
}

#[test]
fn a_talk_address_turns_one_on_and_another_off() {
    let mut bus = command_ended(under_control(&PLAIN), 0x46);
    bus.listen_only(2, 1);
    // Between the steps both talk, or neither does.
    let bus = command_stands(bus, 0x47);
    assert!(stepped(&bus, &[2]).0.parties[1].talk);
    let wanted = [told(Event::Heard, 0x47, false); 3];
    let left = in_every_order(&bus, &[1, 2, 3], &wanted);
    let flags = left.parties[1..4].iter().map(|p| (p.talk, p.listen));
    assert!(flags.eq([(false, false), (true, false), (false, false)]));
}

#[test]
fn a_secondary_turns_one_on_and_another_off() {
    let extended = Name::extended;
    let names = [
        Name::plain(5),
        extended(6, 1),
        extended(6, 2),
        Name::plain(7),
    ];
    let bus = command_ended(command_ended(under_control(&names), 0x46), 0x61);
    assert!(bus.parties[1].talk);
    // Both stay talk primary, and the next secondary is the other's.
    let bus = command_stands(bus, 0x62);
    let wanted = [told(Event::Heard, 0x62, false); 3];
    let left = in_every_order(&bus, &[1, 2, 3], &wanted);
    let talks = left.parties[1..4].iter().map(|party| party.talk);
    assert!(talks.eq([false, true, false]));
}

#[test]
fn two_listeners_take_and_let_go() {
    let bus = data_stands(3);
    let took = told(Event::Took, 0x41, true);
    // Four steps, in six orders: the other takes before one lets go, or after, and finds DAV on in both.
    let wanted = [took, Answer::moved(), took, Answer::moved()];
    let mut left = in_every_order(&bus, &[1, 1, 2, 2], &wanted);
    let states = left.parties[1..3].iter().map(|party| party.acceptor);
    assert!(states.eq([Acceptor::Awns; 2]));
    // The byte stands until the talker finds NDAC off; a third step does nothing before.
    let more = in_every_order(&left, &[1, 1, 2], &[Answer::NOTHING; 3]);
    assert_eq!(more, left);
    assert_eq!(left.step(0), told(Event::Ended, 0x41, true));
}

#[test]
fn after_the_end_two_steps_lead_to_ready_where_data_in_is_empty() {
    let mut bus = data_stands(3);
    for party in [1, 2, 1, 2, 0] {
        bus.step(party);
    }
    bus.read(2);
    // AWNS to ANRS for both; from there party 2 alone goes on, as it has read.
    let moved = Answer::moved();
    let wanted = [moved, Answer::NOTHING, moved, moved, Answer::NOTHING];
    let left = in_every_order(&bus, &[1, 1, 2, 2, 2], &wanted);
    assert_eq!(left.parties[1].acceptor, Acceptor::Anrs);
    assert_eq!(left.parties[2].acceptor, Acceptor::Acrs);
}

#[test]
fn fourteen_listeners_in_two_orders() {
    let bus = data_stands(15);
    let forward: Vec<u8> = (1..15).collect();
    let backward: Vec<u8> = (1..15).rev().collect();
    assert_eq!(stepped(&bus, &forward), stepped(&bus, &backward));
}

#[test]
fn a_byte_ends_only_after_its_last_acceptor() {
    let mut bus = data_stands(2);
    bus.step(1);
    let (early, first) = stepped(&bus, &[0, 1]);
    assert_eq!(first, [[Answer::NOTHING], [Answer::moved()]]);
    assert!(early.standing.is_some());
    let (late, last) = stepped(&bus, &[1, 0]);
    let ended = told(Event::Ended, 0x41, true);
    assert_eq!(last, [[ended], [Answer::moved()]]);
    assert!(late.standing.is_none());
    assert_ne!(early, late);
}

#[test]
fn a_byte_is_taken_only_after_its_put() {
    let mut bus = offered(2);
    bus.step(0);
    bus.step(1);
    let data = told(Event::Data, 0x41, true);
    let (_, first) = stepped(&bus, &[0, 1]);
    assert_eq!(first, [[data], [told(Event::Took, 0x41, true)]]);
    let (_, last) = stepped(&bus, &[1, 0]);
    assert_eq!(last, [[data], [Answer::NOTHING]]);
}

#[test]
fn a_party_twice_is_not_once() {
    let bus = data_stands(3);
    let (once, _) = stepped(&bus, &[1, 2]);
    let (twice, answers) = stepped(&bus, &[1, 2, 1]);
    assert_ne!(once, twice);
    assert_eq!(answers[1], [told(Event::Took, 0x41, true), Answer::moved()]);
    assert_eq!(twice.parties[1].acceptor, Acceptor::Awns);
}

#[test]
fn who_is_no_source() {
    let bus = offered(3);
    assert_eq!(bus.no_sources(), [1, 2]);
    // Under ATN the active party alone is a source, talk or not.
    let mut bus = command_ended(under_control(&PLAIN), 0x46);
    assert_eq!(bus.no_sources(), [1, 2, 3]);
    bus.standby(0);
    assert_eq!(bus.no_sources(), [0, 2, 3]);
    bus.talk_only(1, 0);
    assert_eq!(bus.no_sources(), [0, 1, 2, 3]);
    assert!(Bus::new().no_sources().is_empty());
}
