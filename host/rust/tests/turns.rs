//! Runs; what is expected is worked out from document 01 and from document 02's.

use meskvorn::{Bus, Event, Line, Name, Refusal, Turns, MOST_PARTIES};

/// What a run answers: the counts of the first parties, 0 for all others.
fn turns(refusal: Refusal, counts: &[u16]) -> Turns {
    let mut all = [0; MOST_PARTIES];
    all[..counts.len()].copy_from_slice(counts);
    Turns {
        refusal,
        counts: all,
    }
}

fn given(counts: &[u16]) -> Turns {
    turns(Refusal::Accepted, counts)
}

/// Parties at addresses 5, 6, ..; party 0 has the byte 41 with END for party 1.
fn offered(parties: u8) -> Bus {
    let addresses: Vec<u8> = (5..5 + parties).collect();
    let (mut bus, _) = Bus::build(&addresses, 0);
    bus.talk_only(0, true);
    bus.listen_only(1, true);
    assert_eq!(bus.write(0, 0x41, true).refusal, Refusal::Accepted);
    bus
}

#[test]
fn p1_by_a_run() {
    let mut bus = offered(2);
    let mut by_steps = bus.clone();
    for party in [0, 1, 0, 1, 0, 1, 0] {
        by_steps.step(party);
    }
    assert_eq!(bus.give_turns(7), given(&[4, 3]));
    assert_eq!(bus, by_steps);
    let answer = bus.read(1);
    assert_eq!(
        (answer.event, answer.byte, answer.end),
        (Event::Read, 0x41, true)
    );
    assert_ne!(bus, by_steps);
}

#[test]
fn six_turns_leave_the_byte_standing() {
    let mut bus = offered(2);
    assert_eq!(bus.give_turns(6), given(&[3, 3]));
    // DAV, EOI, and NRFD of the listener in AWNS.
    assert_eq!(bus.lines().byte, 0x58);
    assert_eq!(bus.step(0).event, Event::Ended);
}

#[test]
fn each_run_begins_with_the_lowest_address() {
    let mut bus = offered(3);
    assert_eq!(bus.give_turns(1), given(&[1]));
    assert_eq!(bus.give_turns(2), given(&[1, 1]));
    assert_eq!(bus.step(0).event, Event::Data);
    assert_eq!(bus.give_turns(5), given(&[2, 2, 1]));
    assert_eq!(bus.step(0).event, Event::Ended);
    // Party 1 is at the lowest one, whoever had the last turn of the run before.
    let (mut bus, _) = Bus::build(&[9, 3, 6], 0);
    for number in [1, 1, 2, 1] {
        let counts = [0, 1, u16::from(number > 1)];
        assert_eq!(bus.give_turns(number), given(&counts));
    }
    // A new build has a new order.
    bus.rebuild(&[6, 9, 3], 0);
    assert_eq!(bus.give_turns(1), given(&[0, 0, 1]));
}

#[test]
fn no_turns_change_nothing() {
    let mut bus = offered(2);
    let before = bus.clone();
    assert_eq!(bus.give_turns(0), given(&[]));
    assert_eq!(bus, before);
}

#[test]
fn the_most_turns() {
    let mut bus = offered(2);
    assert_eq!(bus.give_turns(65_535), given(&[32_768, 32_767]));
    assert_eq!(bus.read(1).byte, 0x41);
    let mut alone = Bus::build(&[30], 0).0;
    assert_eq!(alone.give_turns(65_535), given(&[65_535]));
    // 65,535 is 15 times 4,369.
    let mut full = offered(15);
    assert_eq!(full.give_turns(65_535), given(&[4_369; 15]));
}

/// The talker has a byte for all others, which listen. The last party is the system party.
fn offered_to_all(names: &[Name], talker: u8) -> Bus {
    let parties = names.len() as u8;
    let (mut bus, answer) = Bus::build_extended(names, parties - 1);
    assert_eq!(answer.refusal, Refusal::Accepted);
    bus.talk_only(talker, true);
    bus.write(talker, 0x41, true);
    for party in (0..parties).filter(|party| *party != talker) {
        assert_eq!(bus.listen_only(party, true).refusal, Refusal::Accepted);
    }
    bus
}

/// Runs of up to three rounds and a turn have the counts of this order, and leave the bus of its single
/// steps. In the first round a listener drives NRFD until its turn.
#[track_caller]
fn expect_runs(start: &Bus, order: &[u8], talker: u8) {
    let mut counts = [0; MOST_PARTIES];
    let mut by_steps = start.clone();
    for turns in 0..=3 * order.len() + 1 {
        let mut bus = start.clone();
        assert_eq!(bus.give_turns(turns as u16), given(&counts), "{order:?}");
        assert_eq!(bus, by_steps, "{turns} turns in the order {order:?}");
        if turns <= order.len() {
            let waiting = order[turns..].iter().filter(|party| **party != talker);
            let mask = waiting.map(|party| 1 << party).sum::<u16>();
            assert_eq!(bus.drivers().of(Line::Nrfd).mask, mask, "{order:?}");
        }
        let party = order[turns % order.len()];
        counts[usize::from(party)] += 1;
        by_steps.step(party);
    }
}

/// Whoever talks, the turns go in this order; and seven rounds bring the byte to all others.
#[track_caller]
fn expect_order(names: &[Name], order: &[u8]) {
    assert_eq!(names.len(), order.len());
    for talker in 0..names.len() as u8 {
        let mut bus = offered_to_all(names, talker);
        expect_runs(&bus, order, talker);
        bus.give_turns(7 * names.len() as u16);
        for party in order.iter().filter(|party| **party != talker) {
            assert_eq!(bus.read(*party).byte, 0x41, "{order:?}");
        }
    }
}

#[test]
fn primaries_decide() {
    for (addresses, order) in [
        (&[9, 6, 3][..], &[2, 1, 0][..]),
        (&[9, 3, 6], &[1, 2, 0]),
        (&[3, 9, 6], &[0, 2, 1]),
        (&[30, 0], &[1, 0]),
        (&[0, 15, 16, 30], &[0, 1, 2, 3]),
    ] {
        let names: Vec<Name> = addresses.iter().copied().map(Name::plain).collect();
        expect_order(&names, order);
    }
    let (mut bus, _) = Bus::build(&[9, 3, 6], 1);
    assert_eq!(bus.give_turns(4), given(&[1, 2, 1]));
    assert_eq!(bus.give_turns(65_534), given(&[21_844, 21_845, 21_845]));
}

/// At one primary the secondaries decide, and else they do not count.
#[test]
fn then_secondaries() {
    let (plain, extended) = (Name::plain, Name::extended);
    let at_one_primary = [30, 16, 15, 0].map(|own| extended(2, own));
    expect_order(&at_one_primary, &[3, 2, 1, 0]);
    let against_primaries = [extended(9, 0), extended(6, 15), extended(3, 30)];
    expect_order(&against_primaries, &[2, 1, 0]);
    let both = [
        extended(7, 3),
        plain(5),
        extended(7, 1),
        extended(2, 30),
        extended(7, 0),
        extended(2, 4),
    ];
    expect_order(&both, &[5, 3, 1, 4, 2, 0]);
    let plain_ones = [plain(4), extended(2, 12), extended(2, 13), plain(1)];
    expect_order(&plain_ones, &[3, 1, 2, 0]);
    let in_order = [plain(1), extended(2, 12), extended(2, 13), plain(3)];
    expect_order(&in_order, &[0, 1, 2, 3]);
}

/// 3, 5/1, 5/4 and 9, numbered in all 24 ways.
#[test]
fn numbered_at_will() {
    let sorted = [
        Name::plain(3),
        Name::extended(5, 1),
        Name::extended(5, 4),
        Name::plain(9),
    ];
    let mut ways = 0;
    for code in 0..=255u8 {
        let order = [code & 3, code >> 2 & 3, code >> 4 & 3, code >> 6];
        if (0..4).all(|party| order.contains(&party)) {
            let mut names = sorted;
            for (name, party) in sorted.into_iter().zip(order) {
                names[usize::from(party)] = name;
            }
            expect_order(&names, &order);
            ways += 1;
        }
    }
    assert_eq!(ways, 24);
}

#[test]
fn fifteen_parties() {
    let order: Vec<u8> = (0..15).rev().collect();
    let apart: Vec<Name> = (16..=30).rev().map(Name::plain).collect();
    expect_order(&apart, &order);
    let together: Vec<Name> = order.iter().map(|own| Name::extended(9, *own)).collect();
    expect_order(&together, &order);
    // Party 13 k mod 15 is at 14 times 13 k mod 30, which is 2 k.
    let mixed: Vec<Name> = (0..15u16)
        .map(|party| Name::plain((14 * party % 30) as u8))
        .collect();
    let by_address: Vec<u8> = (0..15).map(|k| 13 * k % 15).collect();
    expect_order(&mixed, &by_address);
    let mut counts = [7; 15];
    counts[11..].fill(8);
    let mut bus = offered_to_all(&together, 3);
    assert_eq!(bus.give_turns(7 * 15 + 4), given(&counts));
}

/// The lines after runs of 0 to 8 turns: party 0 talks and party 1 listens. If the talker has the lower
/// address, the byte stands with the third turn and ends with the seventh, else with the fourth and the
/// eighth.
#[test]
fn the_course_of_a_byte() {
    let talker_first = [0x30, 0x30, 0x20, 0x68, 0x78, 0x78, 0x58, 0x10, 0x30];
    let listener_first = [0x30, 0x20, 0x20, 0x20, 0x68, 0x78, 0x78, 0x58, 0x10];
    for (addresses, lines) in [([5, 6], talker_first), ([6, 5], listener_first)] {
        for (turns, lines) in (0..).zip(lines) {
            let mut bus = offered_to_all(&addresses.map(Name::plain), 0);
            bus.give_turns(turns);
            assert_eq!(bus.lines().byte, lines, "{turns} turns at {addresses:?}");
        }
    }
}

/// The active party 0, at the highest address, comes last in each round.
#[test]
fn the_course_of_a_command() {
    for (round, lines) in (0..).zip([0xb0, 0xa0, 0xe0, 0xf0, 0x90]) {
        let (mut bus, _) = Bus::build(&[7, 5, 6], 0);
        bus.interface_clear(0);
        bus.write(0, 0x3f, false);
        assert_eq!(bus.give_turns(3 * round), given(&[round; 3]));
        assert_eq!(bus.lines().byte, lines, "{round} rounds");
    }
}

#[test]
fn a_bus_of_no_parties_is_refused() {
    for number in [0, 1, 65_535] {
        let mut bus = Bus::default();
        assert_eq!(bus.give_turns(number), turns(Refusal::NoParty, &[]));
        assert_eq!(bus, Bus::default());
    }
}
