//! Runs on memory of any content, with names such as no build gives too: a run is its steps, in the order
//! of the names that the bus itself tells.

use super::any_memory::LEAST;
use super::memory::{Rows, ROW};
use super::{product, words};
use crate::lists::random_numbers::Random;
use crate::model::{Name, Refusal, Turns, Waiting, MOST_ADDRESS, MOST_PARTIES};

const CONTENTS: usize = 100_000;

/// Rounds of the longest run.
const ROUNDS: usize = 3;

/// A bus in memory, as far as a run needs it.
pub trait Rounds: Clone + PartialEq {
    fn name(&self, party: u8) -> Option<Name>;
    fn step(&mut self, party: u8);
    fn give_turns(&mut self, turns: u16) -> Turns;
}

impl Rounds for meskvorn::Bus {
    fn name(&self, party: u8) -> Option<Name> {
        product::name(self, party)
    }

    fn step(&mut self, party: u8) {
        meskvorn::Bus::step(self, party);
    }

    fn give_turns(&mut self, turns: u16) -> Turns {
        product::give_turns(self, turns)
    }
}

fn names_of(bus: &impl Rounds) -> Vec<Name> {
    let parties = 0..MOST_PARTIES as u8;
    parties.map_while(|party| bus.name(party)).collect()
}

const CASES: usize = 4;

/// How many runs were compared, by the names of their parties.
#[derive(Default, Debug)]
pub struct Orders {
    pub counts: [u64; CASES],
}

impl Orders {
    pub const WORDS: [&'static str; CASES] = [
        "names that a build gives",
        "two equal names",
        "one primary alone and with a secondary",
        "an address over 30",
    ];

    fn enter(&mut self, names: &[Name]) {
        let pairs = || {
            let firsts = names.iter().enumerate();
            firsts.flat_map(|(place, one)| names[..place].iter().map(move |two| (one, two)))
        };
        let beside = |(one, two): (&Name, &Name)| {
            one.primary == two.primary && one.secondary.is_none() != two.secondary.is_none()
        };
        let over = |name: &Name| name.primary.max(name.secondary.unwrap_or(0)) > MOST_ADDRESS;
        let equal = pairs().any(|(one, two)| one == two);
        let (beside, over) = (pairs().any(beside), names.iter().any(over));
        let cases = [!(equal || beside || over), equal, beside, over];
        for (count, holds) in self.counts.iter_mut().zip(cases) {
            *count += u64::from(holds);
        }
    }

    /// What did not come often enough.
    pub fn missing(&self) -> Vec<String> {
        let counts = self.counts.iter().zip(Orders::WORDS);
        let few = counts.filter(|(count, _)| **count < LEAST);
        few.map(|(_, word)| format!("runs with {word} on any memory"))
            .collect()
    }

    pub fn print(&self) {
        println!("runs on memory of any content, beside their steps");
        for (word, count) in Orders::WORDS.iter().zip(self.counts) {
            println!("    {word:<40} {count:>10}");
        }
    }
}

/// Never 255, by which the library tells that a party has no secondary.
fn number(random: &mut Random) -> u8 {
    let small = random.below(4) as u8;
    let any = random.below(255) as u8;
    random.pick(&[small, any])
}

/// A bus that calls led to, with parties' bytes put in place of others', or changed. The row after the
/// parties', which has their number, stays.
fn content(samples: &[Rows], random: &mut Random) -> Rows {
    let mut rows = random.pick(samples);
    let any_row = |random: &mut Random| random.below(MOST_PARTIES);
    for _ in 0..random.below(12) {
        let (to, from, byte) = (any_row(random), any_row(random), random.below(ROW));
        match random.below(5) {
            0 => rows[to] = rows[from],
            1..=2 => rows[to][byte] = number(random),
            _ => rows[to][byte] = rows[from][byte],
        }
    }
    if random.per_mille(200) {
        for byte in rows[..MOST_PARTIES].iter_mut().flatten() {
            *byte = random.below(4) as u8;
        }
    }
    rows
}

/// What is wrong with the run, if anything is.
fn try_run<B: Rounds>(before: &B, names: &[Name], turns: u16) -> Result<(), &'static str> {
    let (mut whole, mut single) = (before.clone(), before.clone());
    let told = whole.give_turns(turns);
    let mut counts = [0; MOST_PARTIES];
    for place in Waiting::new(names).take(usize::from(turns)) {
        single.step(place as u8);
        counts[place] += 1;
    }
    let refusal = Refusal::Accepted;
    if told != (Turns { refusal, counts }) {
        return Err("has other counts");
    }
    if names_of(&whole) != names {
        return Err("changes a name");
    }
    if whole != single {
        return Err("leaves another bus than its steps");
    }
    Ok(())
}

/// The error tells the memory, and the run that is not its steps.
pub fn run<B: Rounds>(
    samples: &[Rows],
    seed: u64,
    bus_in: impl Fn(Rows) -> B,
) -> Result<Orders, String> {
    let mut random = Random::new(seed);
    let mut orders = Orders::default();
    for _ in 0..CONTENTS {
        let rows = content(samples, &mut random);
        let bus = bus_in(rows);
        let names = names_of(&bus);
        if names.is_empty() {
            continue;
        }
        // A run of no turns writes what it has read, and no steps write nothing.
        let turns = 1 + random.below(ROUNDS * names.len()) as u16;
        orders.enter(&names);
        try_run(&bus, &names, turns).map_err(|wrong| {
            let memory = words::hex(&rows.concat());
            format!("a run of {turns} turns on {memory} {wrong}; names {names:?}")
        })?;
    }
    Ok(orders)
}
