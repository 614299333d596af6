//! Names for builds: racks of parties with and without secondaries, numbered in address order and against
//! it, and the lists that give them.

use super::random_numbers::Random;
use crate::model::{Lists, Name, MOST_ADDRESS};

/// In address order, in the reverse of it, or as they come.
fn number<T, K: Ord>(rack: &mut [T], by_address: fn(&T) -> K, random: &mut Random) {
    let order = random.below(4);
    if order < 2 {
        rack.sort_by_key(by_address);
    }
    if order == 1 {
        rack.reverse();
    }
}

/// So many distinct addresses, 31 at the most; half the time in an order of chance.
pub fn addresses(count: usize, random: &mut Random) -> Vec<u8> {
    let mut addresses: Vec<u8> = (0..=MOST_ADDRESS).collect();
    random.shuffle(&mut addresses);
    addresses.truncate(count);
    number(&mut addresses, |address| *address, random);
    addresses
}

/// Few secondaries, so that parties at different primaries often have the same.
fn secondary(random: &mut Random) -> u8 {
    let any = random.below(31) as u8;
    random.pick(&[0, 12, 13, 30, any])
}

/// So many names that go beside each other; parties with secondaries mostly share a primary.
pub fn mixed(count: usize, random: &mut Random) -> Vec<Name> {
    let shared = [random.below(31) as u8, random.below(31) as u8];
    let mut names: Vec<Name> = Vec::new();
    while names.len() < count {
        let any = random.below(31) as u8;
        let name = if random.per_mille(300) {
            Name::plain(any)
        } else {
            let primary = random.pick(&[shared[0], shared[0], shared[1], any]);
            Name::extended(primary, secondary(random))
        };
        if names.iter().all(|other| name.goes_beside(*other)) {
            names.push(name);
        }
    }
    number(&mut names, |name| name.by_address(), random);
    names
}

/// One of the names changed, so that it is mostly out of range or beside one that it can't be with.
fn spoil(names: &mut [Name], random: &mut Random) {
    let (place, other) = (random.below(names.len()), random.below(names.len()));
    let other = names[other];
    let name = &mut names[place];
    match random.below(8) {
        0 => name.primary = 31,
        1 => name.primary = random.byte(),
        2 => name.secondary = Some(31),
        3 => name.secondary = Some(random.pick(&[254, 255])),
        4 => name.secondary = Some(random.byte()),
        5 => *name = other,
        6 => *name = Name::plain(other.primary),
        _ => *name = Name::extended(other.primary, secondary(random)),
    }
}

/// Lists for a rack of both sorts, at times of addresses alone.
pub fn lists(count: usize, random: &mut Random) -> Lists {
    if random.per_mille(350) {
        Lists::plain(&addresses(count, random))
    } else {
        Lists::of(&mixed(count, random))
    }
}

/// Lists of which mostly no bus can be built, for a name in them or for the length of the second.
pub fn spoiled(count: usize, random: &mut Random) -> Lists {
    if count == 0 || random.per_mille(600) {
        return of_two_lengths(count, random);
    }
    let mut names = mixed(count, random);
    spoil(&mut names, random);
    Lists::of(&names)
}

/// The second list shorter or longer than the first. Mostly no primary is shared, so that nothing else
/// is wrong with them.
fn of_two_lengths(count: usize, random: &mut Random) -> Lists {
    let mut lists = lists(count, random);
    if random.per_mille(700) {
        lists.addresses = addresses(count, random);
    }
    let given = match random.below(8) {
        0 => 0,
        1..=2 => random.below(count.max(1)),
        3..=4 => count.saturating_sub(1),
        _ => count + 1 + random.below(3),
    };
    let more = random.pick(&[None, Some(12), Some(31)]);
    lists.secondaries.resize(given, more);
    lists
}
