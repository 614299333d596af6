//! Orders of a round with one mistake each. The turns go through the places of an order, over and over.

use std::cmp::Reverse;

use crate::model::Name;

/// The places, first to last, of parties with these names. There is one at least.
pub type OrderFault = fn(&[Name]) -> Vec<usize>;

pub const ORDER_FAULTS: &[(&str, OrderFault)] = &[
    ("ties to the lowest place", lowest_place),
    ("ties to the highest place", highest_place),
    ("ties to the highest address", highest_address),
    ("ties to the highest secondary", highest_secondary),
    ("the secondary before the primary", secondary_first),
    ("the secondary is not read", primary_alone),
    ("four bits of the primary are read", four_bits),
    ("those with secondaries last", extended_last),
    ("the first place stays first", first_stays),
    ("the last place stays last", last_stays),
    ("neighbours change places once", one_pass),
    ("the place is taken for its turn", places_for_turns),
    ("the highest address is forgotten", last_forgotten),
    ("the lowest address is forgotten", first_forgotten),
    ("the lowest address comes twice", first_twice),
    ("the lowest address comes for the next", first_for_second),
];

/// What no build can show: it gives no two parties one name, and none a primary that another has with
/// a secondary, nor addresses over 30.
pub const UNBUILT_ORDER_FAULTS: &[(&str, OrderFault)] = &[
    ("without a secondary after those with one", none_last),
    ("of equal names the highest place", highest_of_equals),
    ("five bits of the primary are read", five_bits),
];

/// The places by such a key, of equals the lowest place first.
fn by<K: Ord>(names: &[Name], key: impl Fn(Name) -> K) -> Vec<usize> {
    let mut places = lowest_place(names);
    places.sort_by_key(|&place| key(names[place]));
    places
}

fn right(names: &[Name]) -> Vec<usize> {
    by(names, Name::by_address)
}

fn lowest_place(names: &[Name]) -> Vec<usize> {
    (0..names.len()).collect()
}

fn highest_place(names: &[Name]) -> Vec<usize> {
    (0..names.len()).rev().collect()
}

fn highest_address(names: &[Name]) -> Vec<usize> {
    by(names, |name| Reverse(name.by_address()))
}

fn highest_secondary(names: &[Name]) -> Vec<usize> {
    by(names, |name| (name.primary, Reverse(name.secondary)))
}

fn secondary_first(names: &[Name]) -> Vec<usize> {
    by(names, |name| (name.secondary, name.primary))
}

fn primary_alone(names: &[Name]) -> Vec<usize> {
    by(names, |name| name.primary)
}

fn four_bits(names: &[Name]) -> Vec<usize> {
    by(names, |name| (name.primary % 16, name.secondary))
}

fn five_bits(names: &[Name]) -> Vec<usize> {
    by(names, |name| (name.primary % 32, name.secondary))
}

fn extended_last(names: &[Name]) -> Vec<usize> {
    by(names, |name| (name.secondary.is_some(), name.by_address()))
}

fn none_last(names: &[Name]) -> Vec<usize> {
    by(names, |name| {
        (name.primary, name.secondary.is_none(), name.secondary)
    })
}

fn highest_of_equals(names: &[Name]) -> Vec<usize> {
    let mut places = highest_place(names);
    places.sort_by_key(|&place| names[place].by_address());
    places
}

fn first_stays(names: &[Name]) -> Vec<usize> {
    let rest = right(&names[1..]);
    let rest = rest.into_iter().map(|place| place + 1);
    [0].into_iter().chain(rest).collect()
}

fn last_stays(names: &[Name]) -> Vec<usize> {
    let last = names.len() - 1;
    let mut places = right(&names[..last]);
    places.push(last);
    places
}

fn one_pass(names: &[Name]) -> Vec<usize> {
    let mut places = lowest_place(names);
    for turn in 1..places.len() {
        let [one, two] = [turn - 1, turn].map(|turn| names[places[turn]].by_address());
        if one > two {
            places.swap(turn - 1, turn);
        }
    }
    places
}

/// Each party has the turn whose party should have its own.
fn places_for_turns(names: &[Name]) -> Vec<usize> {
    let right = right(names);
    let mut places = lowest_place(names);
    for (turn, place) in right.into_iter().enumerate() {
        places[place] = turn;
    }
    places
}

fn last_forgotten(names: &[Name]) -> Vec<usize> {
    let mut places = right(names);
    places.truncate(places.len().max(2) - 1);
    places
}

fn first_forgotten(names: &[Name]) -> Vec<usize> {
    let places = right(names);
    places[usize::from(places.len() > 1)..].to_vec()
}

fn first_twice(names: &[Name]) -> Vec<usize> {
    let places = right(names);
    [&places[..1], &places].concat()
}

fn first_for_second(names: &[Name]) -> Vec<usize> {
    let mut places = right(names);
    let first = places[0];
    places
        .iter_mut()
        .skip(1)
        .take(1)
        .for_each(|second| *second = first);
    places
}

#[cfg(test)]
mod tests {
    use super::*;

    /// By address 2, 3, 1, 0.
    const RACK: [Name; 4] = [
        Name::plain(20),
        Name::extended(5, 9),
        Name::plain(4),
        Name::extended(5, 2),
    ];

    #[test]
    fn what_is_wrong_with_each_order() {
        assert_eq!(right(&RACK), [2, 3, 1, 0]);
        let wrong: [(OrderFault, &[usize]); 10] = [
            (highest_address, &[0, 1, 3, 2]),
            (highest_secondary, &[2, 1, 3, 0]),
            (secondary_first, &[2, 0, 3, 1]),
            (primary_alone, &[2, 1, 3, 0]),
            (extended_last, &[2, 0, 3, 1]),
            (first_stays, &[0, 2, 3, 1]),
            (last_stays, &[2, 1, 0, 3]),
            (one_pass, &[1, 2, 3, 0]),
            (places_for_turns, &[3, 2, 0, 1]),
            (first_for_second, &[2, 2, 1, 0]),
        ];
        for (place, (order, expected)) in wrong.into_iter().enumerate() {
            assert_eq!(order(&RACK), expected, "order {place}");
        }
        assert_eq!(last_forgotten(&RACK), [2, 3, 1]);
        assert_eq!(first_forgotten(&RACK), [3, 1, 0]);
        assert_eq!(first_twice(&RACK), [2, 2, 3, 1, 0]);
    }

    #[test]
    fn a_party_alone_has_a_turn_in_every_order() {
        for (name, order) in ORDER_FAULTS.iter().chain(UNBUILT_ORDER_FAULTS) {
            assert_eq!(order(&RACK[..1])[0], 0, "{name}");
        }
    }
}
