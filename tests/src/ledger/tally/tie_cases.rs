//! Runs by how the parties are numbered, which settles the ties of the first round, and by their turns.

use crate::ledger::bound::TURNS_A_PARTY;
use crate::model::{Bus, Name, MOST_PARTIES};

const NUMBERINGS: usize = 7;

/// Fewer than a round, one round, as many as the bound has, more.
const LENGTHS: usize = 4;

/// Fewer would say little.
const LEAST: u64 = 100;

#[derive(Clone, Default, Debug)]
pub struct Ties {
    pub counts: [[u64; LENGTHS]; NUMBERINGS],
}

/// How these parties are numbered, in the order of the words.
fn numberings(names: &[Name]) -> [bool; NUMBERINGS] {
    let rises = names.is_sorted_by_key(|name| name.by_address());
    let falls = names
        .iter()
        .rev()
        .is_sorted_by_key(|name| name.by_address());
    let by_secondary = names.iter().enumerate().any(|(place, one)| {
        let mut later = names[place..].iter();
        later.any(|two| one.primary == two.primary && one.secondary > two.secondary)
    });
    let plain = names.iter().filter(|name| name.secondary.is_none()).count();
    let both_sorts = plain > 0 && plain < names.len();
    let fifteen = names.len() == MOST_PARTIES;
    [
        rises,
        !rises,
        falls && names.len() > 2,
        by_secondary,
        both_sorts && !rises,
        fifteen && rises,
        fifteen && !rises,
    ]
}

impl Ties {
    pub const WORDS: [&'static str; NUMBERINGS] = [
        "runs in address order",
        "runs against address order",
        "runs at falling addresses",
        "runs with ties by secondary",
        "runs of both sorts against order",
        "runs of fifteen in order",
        "runs of fifteen against order",
    ];

    /// One run. No party and a party alone have no ties, nor do no turns.
    pub fn enter(&mut self, bus: &Bus, turns: u16) {
        let round = bus.count as u16;
        if round < 2 || turns == 0 {
            return;
        }
        let length = match turns {
            _ if turns < round => 0,
            _ if turns == round => 1,
            _ if turns <= TURNS_A_PARTY * round => 2,
            _ => 3,
        };
        for (counts, holds) in self.counts.iter_mut().zip(numberings(&bus.names())) {
            counts[length] += u64::from(holds);
        }
    }

    /// What did not come often enough, with some number of turns.
    pub fn missing(&self) -> impl Iterator<Item = &'static str> + '_ {
        let counts = self.counts.iter().zip(Ties::WORDS);
        let few = counts.filter(|(counts, _)| counts.iter().any(|count| *count < LEAST));
        few.map(|(_, word)| word)
    }

    pub fn print(&self) {
        println!("runs by their turns: fewer than a round, one, up to seven, more");
        for (word, [few, round, bound, more]) in Ties::WORDS.iter().zip(self.counts) {
            println!("    {word:<32} {few:>10} {round:>10} {bound:>10} {more:>10}");
        }
    }
}
