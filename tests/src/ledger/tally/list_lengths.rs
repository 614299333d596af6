//! How many secondaries builds had beside their addresses, and what came of it.

use std::cmp::Ordering;

use crate::model::{Bus, Lists};

/// What is counted, in the order of the words.
#[derive(Clone, Copy)]
enum Case {
    NoneBuilt,
    NoneRefused,
    EqualBuilt,
    EqualRefused,
    TooFew,
    TooMany,
}

const CASES: usize = 6;

/// Fewer would say little.
const LEAST: u64 = 500;

#[derive(Clone, Default, Debug)]
pub struct Lengths {
    pub counts: [u64; CASES],
}

impl Lengths {
    pub const WORDS: [&'static str; CASES] = [
        "no secondaries, built",
        "no secondaries, refused",
        "as many as addresses, built",
        "as many as addresses, refused",
        "too few, refused for that alone",
        "too many, refused for that alone",
    ];

    /// One build, as the model answers it.
    pub fn enter(&mut self, lists: &Lists, system: u8) {
        let is_built = |lists: &Lists| Bus::new().build_extended(lists, system).accepted();
        let (given, parties) = (lists.secondaries.len(), lists.addresses.len());
        let case = match (given, given.cmp(&parties)) {
            (0, _) if is_built(lists) => Case::NoneBuilt,
            (0, _) => Case::NoneRefused,
            (_, Ordering::Equal) if is_built(lists) => Case::EqualBuilt,
            (_, Ordering::Equal) => Case::EqualRefused,
            _ if !is_built(&lists.fitted()) => return,
            (_, Ordering::Less) => Case::TooFew,
            (_, Ordering::Greater) => Case::TooMany,
        };
        self.counts[case as usize] += 1;
    }

    /// What did not come often enough.
    pub fn missing(&self) -> impl Iterator<Item = &'static str> + '_ {
        let counts = self.counts.iter().zip(Lengths::WORDS);
        let few = counts.filter(|(count, _)| **count < LEAST);
        few.map(|(_, word)| word)
    }

    pub fn print(&self) {
        println!("builds from lists of addresses and of secondaries");
        for (word, count) in Lengths::WORDS.iter().zip(&self.counts) {
            println!("    {word:<32} {count:>10}");
        }
    }
}
