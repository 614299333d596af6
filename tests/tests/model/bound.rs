//! The starts of the bound of document 02's Q-1, and the turns that it takes, worked out by hand.

use meskvorn_tests::ledger::bound::Start;
use meskvorn_tests::model::{Answer, Bus};

type Call = fn(&mut Bus) -> Answer;

/// Calls on the model; each is accepted.
fn bus_after(calls: &[Call]) -> Bus {
    at([5, 6, 7], calls)
}

/// The same with these addresses.
fn at(addresses: [u8; 3], calls: &[Call]) -> Bus {
    let mut bus = Bus::new();
    assert!(bus.build(&addresses, 0).accepted());
    for call in calls {
        assert!(call(&mut bus).accepted());
    }
    bus
}

/// Party 1 talks and holds the byte 41, party 2 listens.
const OFFER: [Call; 3] = [
    |bus| bus.talk_only(1, 1),
    |bus| bus.listen_only(2, 1),
    |bus| bus.write(1, 0x41, 1),
];

/// After how many turns the byte ends in a run of 21.
fn needed(bus: &Bus) -> Option<usize> {
    let start = Start::of(bus).expect("a start");
    assert_eq!(start.turns(), 21);
    let order: Vec<u8> = bus.order_of(start.turns()).collect();
    let mut copy = *bus;
    let answers: Vec<Answer> = order.iter().map(|&party| copy.step(party)).collect();
    start.ended_after(&order, &answers)
}

#[test]
fn a_ready_listener() {
    // Rounds of 0, 1, 2: offer, ACRS; put, took; stay, AWNS; ended by the eleventh turn.
    assert_eq!(needed(&bus_after(&OFFER)), Some(11));
}

#[test]
fn a_ready_listener_against_address_order() {
    // Rounds of 2, 1, 0: ACRS, offer; put; took, stay; AWNS, ended by the eleventh turn.
    assert_eq!(needed(&at([7, 6, 5], &OFFER)), Some(11));
    // Rounds of 1, 2, 0: offer, ACRS; put, took; stay, AWNS; ended by the tenth.
    assert_eq!(needed(&at([7, 5, 6], &OFFER)), Some(10));
    // Rounds of 2, 0, 1: ACRS, offer; put; took, stay; AWNS, ended by the twelfth.
    assert_eq!(needed(&at([6, 7, 5], &OFFER)), Some(12));
}

/// The listener took a byte that was broken off, and is in ACDS with data-in read.
fn slowest(addresses: [u8; 3]) -> Bus {
    let mut bus = at(addresses, &OFFER);
    for party in [1, 2, 1, 2] {
        bus.step(party);
    }
    assert_eq!(bus.talk_only(1, 0).broken, 1);
    assert!(Start::of(&bus).is_none());
    bus.read(2);
    bus.talk_only(1, 1);
    bus.write(1, 0x42, 0);
    bus
}

#[test]
fn the_slowest_start_takes_six_turns_a_party_less_one() {
    // AWNS; ANRS; ACRS; put, took; stay, AWNS; ended by the seventeenth turn.
    assert_eq!(needed(&slowest([5, 6, 7])), Some(17));
}

#[test]
fn the_slowest_start_against_address_order() {
    // Rounds of 2, 1, 0: AWNS, offer; ANRS, stay; ACRS, put; took, stay; AWNS, ended by the fourteenth.
    assert_eq!(needed(&slowest([7, 6, 5])), Some(14));
    // Rounds of 1, 2, 0: as in address order, but party 0 has no turn before the last.
    assert_eq!(needed(&slowest([7, 5, 6])), Some(16));
}

#[test]
fn what_a_start_needs() {
    assert!(Start::of(&bus_after(&OFFER)).is_some());
    assert!(Start::of(&Bus::new()).is_none());
    let lacking: [(&str, Call); 6] = [
        ("ATN false", |bus| bus.clear(0)),
        ("a talker", |bus| bus.talk_only(1, 0)),
        ("a held byte", |bus| bus.drop_byte(1)),
        ("SGNS", |bus| bus.step(1)),
        ("a listener", |bus| bus.listen_only(2, 0)),
        ("a talker with a byte", |bus| bus.reset(1)),
    ];
    for (what, call) in lacking {
        let bus = bus_after(&[&OFFER[..], &[call]].concat());
        assert!(Start::of(&bus).is_none(), "{what}");
    }
}

#[test]
fn a_polled_talker_or_a_full_data_in_is_no_start() {
    let mut bus = bus_after(&OFFER);
    bus.parties[1].poll_mode = true;
    assert!(Start::of(&bus).is_none());
    let mut bus = bus_after(&OFFER);
    bus.give_turns(12);
    bus.write(1, 0x42, 0);
    assert!(Start::of(&bus).is_none());
    bus.read(2);
    assert!(Start::of(&bus).is_some());
}

#[test]
fn a_byte_that_is_not_put_as_it_was_held_does_not_count() {
    let bus = bus_after(&OFFER);
    let start = Start::of(&bus).expect("a start");
    let order: Vec<u8> = bus.order_of(start.turns()).collect();
    let mut other = bus;
    other.drop_byte(1);
    other.write(1, 0x42, 1);
    let answers: Vec<Answer> = order.iter().map(|&party| other.step(party)).collect();
    assert_eq!(start.ended_after(&order, &answers), None);
    assert_eq!(start.ended_after(&order, &[]), None);
}
