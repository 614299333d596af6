//! Runs on the model, worked out from document 01's text and document 02's Q-1, with ties by address.

use meskvorn_tests::model::{
    Acceptor, Bus, Data, Lists, Name, Refusal, Source, Turns, Waiting, MOST_PARTIES,
};

fn built(parties: u8) -> Bus {
    let mut bus = Bus::new();
    bus.build(&(5..5 + parties).collect::<Vec<u8>>(), 0);
    bus
}

/// Party 0 has the byte 41 with END for party 1.
fn offered(parties: u8) -> Bus {
    let mut bus = built(parties);
    bus.talk_only(0, 1);
    bus.listen_only(1, 1);
    bus.write(0, 0x41, 1);
    bus
}

fn given(counts: &[u16]) -> Turns {
    let mut all = [0; MOST_PARTIES];
    all[..counts.len()].copy_from_slice(counts);
    Turns {
        refusal: Refusal::Accepted,
        counts: all,
    }
}

fn order(names: &[Name], turns: usize) -> Vec<usize> {
    Waiting::new(names).take(turns).collect()
}

#[test]
fn the_longest_waiting_has_its_turn() {
    let first = order(&[5, 6, 7].map(Name::plain), 8);
    assert_eq!(first, [0, 1, 2, 0, 1, 2, 0, 1]);
    assert_eq!(Waiting::new(&[]).next(), None);
}

#[test]
fn ties_go_to_the_lowest_primary() {
    assert_eq!(order(&[9, 3, 6].map(Name::plain), 4), [1, 2, 0, 1]);
    let falls: Vec<Name> = (0..15).map(|place| Name::plain(30 - place)).collect();
    let backward: Vec<usize> = (0..15).rev().collect();
    assert_eq!(order(&falls, 15), backward);
    assert_eq!(order(&falls, 30)[15..], backward);
}

#[test]
fn then_to_the_lowest_secondary() {
    let (plain, extended) = (Name::plain, Name::extended);
    let rack = [extended(5, 9), extended(5, 2), plain(4)];
    assert_eq!(order(&rack, 5), [2, 1, 0, 2, 1]);
    // A low secondary is of no account at a high primary.
    let rack = [extended(7, 0), plain(6), extended(5, 30), extended(5, 12)];
    assert_eq!(order(&rack, 4), [3, 2, 1, 0]);
    let rack = [
        extended(20, 13),
        plain(21),
        extended(20, 12),
        plain(19),
        extended(20, 0),
        extended(2, 13),
    ];
    assert_eq!(order(&rack, 6), [5, 3, 4, 2, 0, 1]);
}

/// A rack that is numbered in address order has the turns that ties to the lowest party number gave.
#[test]
fn in_address_order_the_turns_go_by_place() {
    for count in 1..=15 {
        let by_place: Vec<usize> = (0..count).cycle().take(7 * count + 3).collect();
        let racks: [fn(u8) -> Name; 3] = [
            Name::plain,
            |place| Name::extended(9, place),
            |place| match place % 3 {
                0 => Name::plain(place),
                second => Name::extended(place - second + 1, 2 * second),
            },
        ];
        for name in racks {
            let names: Vec<Name> = (0..count as u8).map(name).collect();
            let mut bus = Bus::new();
            assert!(bus.build_extended(&Lists::of(&names), 0).accepted());
            assert_eq!(order(&names, 7 * count + 3), by_place);
        }
    }
}

/// No build gives such names.
#[test]
fn then_to_none_and_to_the_lowest_place() {
    let (plain, extended) = (Name::plain, Name::extended);
    let rack = [extended(5, 0), plain(5), extended(5, 0), plain(5)];
    assert_eq!(order(&rack, 5), [1, 3, 0, 2, 1]);
    assert_eq!(order(&[plain(255), plain(32), plain(31)], 3), [2, 1, 0]);
}

#[test]
fn counts_are_by_place() {
    let mut bus = Bus::new();
    bus.build(&[9, 3, 6], 0);
    assert_eq!(bus.clone().give_turns(1), given(&[0, 1]));
    assert_eq!(bus.clone().give_turns(2), given(&[0, 1, 1]));
    assert_eq!(bus.clone().give_turns(4), given(&[1, 2, 1]));
    assert_eq!(
        bus.clone().give_turns(65_534),
        given(&[21_844, 21_845, 21_845])
    );
    let (plain, extended) = (Name::plain, Name::extended);
    let names = [extended(5, 9), extended(5, 2), plain(4)];
    bus.build_extended(&Lists::of(&names), 0);
    assert_eq!(bus.give_turns(5), given(&[1, 2, 2]));
}

/// Party 0 at 9 talks, 1 at 3 and 2 at 6 listen: in two turns both are ready, and nothing is offered.
#[test]
fn the_parties_with_low_addresses_move_first() {
    let mut bus = Bus::new();
    bus.build(&[9, 3, 6], 0);
    bus.talk_only(0, 1);
    bus.listen_only(1, 1);
    bus.listen_only(2, 1);
    bus.write(0, 0x41, 0);
    bus.give_turns(2);
    let states = bus.parties.map(|party| (party.source, party.acceptor));
    assert_eq!(states[0], (Source::Sgns, Acceptor::Aids));
    assert_eq!(states[1], (Source::Sids, Acceptor::Acrs));
    assert_eq!(states[2], (Source::Sids, Acceptor::Acrs));
    // Each run begins anew: party 1 and then 2 again, then the talker.
    assert_eq!(bus.give_turns(3), given(&[1, 1, 1]));
    assert_eq!(bus.parties[0].source, Source::Sdys);
}

#[test]
fn counts_of_a_run() {
    assert_eq!(built(3).give_turns(0), given(&[]));
    assert_eq!(built(3).give_turns(1), given(&[1]));
    assert_eq!(built(3).give_turns(8), given(&[3, 3, 2]));
    assert_eq!(built(2).give_turns(65_535), given(&[32_768, 32_767]));
    assert_eq!(built(15).give_turns(65_535), given(&[4_369; 15]));
    assert_eq!(built(1).give_turns(65_535), given(&[65_535]));
}

#[test]
fn p1_by_a_run() {
    let mut bus = offered(2);
    let mut by_steps = bus;
    for party in [0, 1, 0, 1, 0, 1, 0] {
        by_steps.step(party);
    }
    assert_eq!(bus.give_turns(7), given(&[4, 3]));
    assert_eq!(bus, by_steps);
    let taken = Data {
        value: 0x41,
        end: true,
    };
    assert_eq!(bus.parties[1].data_in, Some(taken));
    assert_eq!(bus.standing, None);
}

#[test]
fn each_run_begins_with_all_waiting_alike() {
    let mut bus = offered(3);
    assert_eq!(bus.give_turns(1), given(&[1]));
    assert_eq!(bus.give_turns(2), given(&[1, 1]));
}

#[test]
fn a_bus_of_no_parties_is_refused() {
    let refused = Turns {
        refusal: Refusal::NoParty,
        ..given(&[])
    };
    for turns in [0, 1, 65_535] {
        let mut bus = Bus::new();
        assert_eq!(bus.give_turns(turns), refused);
        assert_eq!(bus, Bus::new());
    }
}
