//! Builds with secondaries that have one mistake each.

use crate::model::{Answer, Bus, Lists, Name, Refusal};

pub type NameFault = fn(&mut Bus, &[Name], u8) -> Answer;
pub type LengthFault = fn(&mut Bus, &Lists, u8) -> Answer;

/// A build that is wrong about the names that its lists give, or about the lists.
#[derive(Clone, Copy)]
pub enum BuildFault {
    OfNames(NameFault),
    OfLengths(LengthFault),
}

impl BuildFault {
    pub(super) fn build(self, bus: &mut Bus, lists: &Lists, system: u8) -> Answer {
        match (self, lists.names()) {
            (BuildFault::OfLengths(build), _) => build(bus, lists, system),
            (BuildFault::OfNames(build), Some(names)) => build(bus, &names, system),
            (BuildFault::OfNames(_), None) => bus.build_extended(lists, system),
        }
    }
}

pub const NAME_FAULTS: &[(&str, NameFault)] = &[
    ("two equal pairs built", equal_pairs),
    ("a plain party built at a shared primary", plain_beside),
    ("no primary may be shared", none_shared),
    ("secondary 31 built", secondary_31),
    ("secondary 30 refused", secondary_30_refused),
    ("secondary 255 taken for none", none_by_255),
    ("secondary 0 taken for none", none_by_0),
    ("secondaries in the reverse order", reversed),
];

pub const LENGTH_FAULTS: &[(&str, LengthFault)] = &[
    ("missing secondaries taken for none", missing_for_none),
    ("secondaries past the addresses ignored", past_ignored),
    ("one secondary too few taken", one_too_few),
    ("one secondary too many taken", one_too_many),
    ("no secondaries refused", none_refused),
    ("the bus left where the lengths differ", bus_left),
];

fn by_names(bus: &mut Bus, names: &[Name], system: u8) -> Answer {
    bus.build_extended(&Lists::of(names), system)
}

/// Builds the names if a bus could be built of the others.
fn built_if(bus: &mut Bus, names: &[Name], system: u8, others: &[Name]) -> Answer {
    if !others.is_empty() && by_names(bus, others, 0).accepted() {
        let places: Vec<u8> = (0..names.len() as u8).collect();
        if bus.build(&places, system).accepted() {
            for (party, name) in bus.parties.iter_mut().zip(names) {
                party.name = *name;
            }
            return Answer::NOTHING;
        }
    }
    by_names(bus, names, system)
}

fn refused(bus: &mut Bus) -> Answer {
    *bus = Bus::new();
    Answer::refused(Refusal::BadBuild)
}

fn changed(names: &[Name], change: impl Fn(u8) -> Option<u8>) -> Vec<Name> {
    let secondary = |name: &Name| name.secondary.and_then(&change);
    let changed = names.iter().map(|name| Name {
        secondary: secondary(name),
        ..*name
    });
    changed.collect()
}

fn equal_pairs(bus: &mut Bus, names: &[Name], system: u8) -> Answer {
    let mut others: Vec<Name> = Vec::new();
    for name in names {
        if name.secondary.is_none() || !others.contains(name) {
            others.push(*name);
        }
    }
    built_if(bus, names, system, &others)
}

fn plain_beside(bus: &mut Bus, names: &[Name], system: u8) -> Answer {
    let shares = |name: &Name| {
        let mut extended = names.iter().filter(|other| other.secondary.is_some());
        name.secondary.is_none() && extended.any(|other| other.primary == name.primary)
    };
    let others: Vec<Name> = names.iter().copied().filter(|name| !shares(name)).collect();
    built_if(bus, names, system, &others)
}

fn none_shared(bus: &mut Bus, names: &[Name], system: u8) -> Answer {
    let primaries: Vec<u8> = names.iter().map(|name| name.primary).collect();
    let answer = bus.build(&primaries, system);
    if answer.accepted() {
        return by_names(bus, names, system);
    }
    answer
}

fn secondary_31(bus: &mut Bus, names: &[Name], system: u8) -> Answer {
    let lower = changed(names, |own| Some(if own == 31 { 29 } else { own }));
    built_if(bus, names, system, &lower)
}

fn secondary_30_refused(bus: &mut Bus, names: &[Name], system: u8) -> Answer {
    if names.iter().any(|name| name.secondary == Some(30)) {
        return refused(bus);
    }
    by_names(bus, names, system)
}

fn none_by_255(bus: &mut Bus, names: &[Name], system: u8) -> Answer {
    let taken = changed(names, |own| (own != 255).then_some(own));
    by_names(bus, &taken, system)
}

fn none_by_0(bus: &mut Bus, names: &[Name], system: u8) -> Answer {
    let taken = changed(names, |own| (own != 0).then_some(own));
    by_names(bus, &taken, system)
}

fn reversed(bus: &mut Bus, names: &[Name], system: u8) -> Answer {
    let mut taken = names.to_vec();
    for (party, last) in taken.iter_mut().zip(names.iter().rev()) {
        party.secondary = last.secondary;
    }
    by_names(bus, &taken, system)
}

/// The second list cut or filled if it is as much too long as this.
fn fitted_if(bus: &mut Bus, lists: &Lists, system: u8, fits: fn(isize) -> bool) -> Answer {
    let over = lists.secondaries.len() as isize - lists.addresses.len() as isize;
    if fits(over) {
        return bus.build_extended(&lists.fitted(), system);
    }
    bus.build_extended(lists, system)
}

fn missing_for_none(bus: &mut Bus, lists: &Lists, system: u8) -> Answer {
    fitted_if(bus, lists, system, |over| over < 0)
}

fn past_ignored(bus: &mut Bus, lists: &Lists, system: u8) -> Answer {
    fitted_if(bus, lists, system, |over| over > 0)
}

fn one_too_few(bus: &mut Bus, lists: &Lists, system: u8) -> Answer {
    fitted_if(bus, lists, system, |over| over == -1)
}

fn one_too_many(bus: &mut Bus, lists: &Lists, system: u8) -> Answer {
    fitted_if(bus, lists, system, |over| over == 1)
}

fn none_refused(bus: &mut Bus, lists: &Lists, system: u8) -> Answer {
    if lists.secondaries.is_empty() {
        return refused(bus);
    }
    bus.build_extended(lists, system)
}

fn bus_left(bus: &mut Bus, lists: &Lists, system: u8) -> Answer {
    if lists.names().is_none() {
        return Answer::refused(Refusal::BadBuild);
    }
    bus.build_extended(lists, system)
}
