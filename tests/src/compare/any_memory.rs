//! Calls, runs, accesses, own statuses and parallel polls on memory of any content, be it such as no build
//! gives: what is refused leaves every byte as it was. And the order of runs and the lines of polls there, by
//! modules of their own.

use meskvorn::Bus;

use super::memory::{bus_in, Rows, ROW};
use super::product::{self, Product};
use super::{any_order, polls_in_memory, subject, words};
use crate::lists::guided::Guided;
use crate::lists::likely_accesses::any_access;
use crate::lists::likely_poll_calls::any_poll_call;
use crate::lists::random_numbers::Random;
use crate::model::script::{Call, LAST_OPERATION};
use crate::model::{Access, PollCall, Refusal};

const SAMPLES: usize = 3000;
const CONTENTS: usize = 200_000;
const CALLS_EACH: usize = 8;
const ACCESSES_EACH: usize = 8;
const POLL_CALLS_EACH: usize = 3;

/// Fewer of a refusal, or of a sort of names, would say little.
pub(super) const LEAST: u64 = 100;

/// The refusals that a call can meet, and that it is accepted.
const OF_CALLS: [Refusal; 9] = [
    Refusal::Accepted,
    Refusal::NoParty,
    Refusal::BadValue,
    Refusal::Role,
    Refusal::Attention,
    Refusal::Talker,
    Refusal::Standing,
    Refusal::Full,
    Refusal::Empty,
];

/// The same of an access.
const OF_ACCESSES: [Refusal; 9] = [
    Refusal::Accepted,
    Refusal::NoParty,
    Refusal::Role,
    Refusal::Attention,
    Refusal::Talker,
    Refusal::Standing,
    Refusal::Full,
    Refusal::Empty,
    Refusal::NoReg,
];

/// Of an own status.
const OF_STATUSES: [Refusal; 3] = [Refusal::Accepted, Refusal::NoParty, Refusal::BadValue];

/// Of a parallel poll.
const OF_POLLS: [Refusal; 4] = [
    Refusal::Accepted,
    Refusal::NoParty,
    Refusal::Role,
    Refusal::Standing,
];

/// And of a run.
const OF_RUNS: [Refusal; 2] = [Refusal::Accepted, Refusal::NoParty];

/// A bus in memory, whatever that holds.
pub trait InMemory: Clone + PartialEq {
    fn of(rows: Rows) -> Self;
    fn call(&mut self, call: Call) -> Refusal;
    fn give_turns(&mut self, turns: u16) -> Refusal;
    fn access(&mut self, access: Access) -> Refusal;
    fn poll_call(&mut self, call: PollCall) -> Refusal;
}

impl InMemory for Bus {
    fn of(rows: Rows) -> Bus {
        bus_in(rows)
    }

    fn call(&mut self, call: Call) -> Refusal {
        Refusal::ALL[product::call(self, call).refusal as usize]
    }

    fn give_turns(&mut self, turns: u16) -> Refusal {
        Refusal::ALL[Bus::give_turns(self, turns).refusal as usize]
    }

    fn access(&mut self, access: Access) -> Refusal {
        Refusal::ALL[product::access(self, access).refusal as usize]
    }

    fn poll_call(&mut self, call: PollCall) -> Refusal {
        product::poll_call(self, call).refusal
    }
}

/// How often each refusal came.
type Counts = [u64; 12];

#[derive(Default, Debug)]
pub struct Met {
    pub calls: Counts,
    pub runs: Counts,
    pub accesses: Counts,
    pub statuses: Counts,
    pub polls: Counts,
}

impl Met {
    /// What did not come often enough.
    pub fn missing(&self) -> Vec<String> {
        let met: [(&str, &Counts, &[Refusal]); 5] = [
            ("calls", &self.calls, &OF_CALLS),
            ("runs", &self.runs, &OF_RUNS),
            ("accesses", &self.accesses, &OF_ACCESSES),
            ("own statuses", &self.statuses, &OF_STATUSES),
            ("parallel polls", &self.polls, &OF_POLLS),
        ];
        let few = met.iter().flat_map(|(what, counts, refusals)| {
            let few = refusals.iter().filter(|own| counts[**own as usize] < LEAST);
            few.map(move |own| format!("{what} {} on any memory", own.word()))
        });
        few.collect()
    }

    pub fn print(&self) {
        println!(
            "on memory of any content, calls, runs, accesses, own statuses and parallel polls"
        );
        let counts = [
            &self.calls,
            &self.runs,
            &self.accesses,
            &self.statuses,
            &self.polls,
        ];
        for (refusal, word) in Refusal::WORDS.iter().enumerate() {
            let counts = counts.map(|counts| format!("{:>10}", counts[refusal]));
            println!("{refusal:>3} {word:<10} {}", counts.join(""));
        }
    }
}

fn bytes_below(bound: usize, random: &mut Random) -> Rows {
    [[0; ROW]; 16].map(|row| row.map(|_: u8| random.below(bound) as u8))
}

/// Any bytes, small ones, zeros or a bus that calls led to; then often some bytes changed.
fn content(samples: &[Rows], random: &mut Random) -> Rows {
    let small = 2 + random.below(30);
    let mut rows = match random.below(6) {
        0 => bytes_below(256, random),
        1 => bytes_below(small, random),
        2 => [[0; ROW]; 16],
        _ => random.pick(samples),
    };
    for _ in 0..random.below(6) {
        rows[random.below(16)][random.below(ROW)] = random.byte();
    }
    rows
}

/// Mostly an operation with arguments that it takes, so that the bus decides.
fn any_call(random: &mut Random) -> Call {
    let known = 1 + random.below(usize::from(LAST_OPERATION)) as u8;
    let (party, switch) = (random.below(4) as u8, random.below(2) as u8);
    if random.per_mille(750) {
        return [known, party, switch, switch];
    }
    let any = random.byte();
    let operation = random.pick(&[known, known, known, any]);
    [
        operation,
        random.field(16),
        random.field(2),
        random.field(2),
    ]
}

/// An error if the call is refused, and has changed the memory.
fn try_on<B: InMemory>(
    before: &B,
    counts: &mut Counts,
    call: impl FnOnce(&mut B) -> Refusal,
) -> Result<(), Refusal> {
    let mut bus = before.clone();
    let refusal = call(&mut bus);
    counts[refusal as usize] += 1;
    if refusal != Refusal::Accepted && bus != *before {
        return Err(refusal);
    }
    Ok(())
}

/// The error tells the memory, and the call that was refused and has changed it.
pub fn run<B: InMemory>(samples: &[Rows], seed: u64) -> Result<Met, String> {
    let mut random = Random::new(seed);
    let mut met = Met::default();
    for _ in 0..CONTENTS {
        let rows = content(samples, &mut random);
        let bus = B::of(rows);
        let story = |what: String, refusal: Refusal| {
            let memory = words::hex(&rows.concat());
            format!(
                "{what} is refused with {}, and changes {memory}",
                refusal.word()
            )
        };
        for _ in 0..CALLS_EACH {
            let call = any_call(&mut random);
            let tried = try_on(&bus, &mut met.calls, |bus| bus.call(call));
            tried.map_err(|refusal| story(words::call(call), refusal))?;
        }
        for _ in 0..ACCESSES_EACH {
            let access = any_access(&mut random);
            let tried = try_on(&bus, &mut met.accesses, |bus| bus.access(access));
            tried.map_err(|refusal| story(words::access(access), refusal))?;
        }
        for _ in 0..POLL_CALLS_EACH {
            let call = any_poll_call(&mut random);
            let counts = match call {
                PollCall::OwnStatus { .. } => &mut met.statuses,
                PollCall::Poll { .. } => &mut met.polls,
            };
            let tried = try_on(&bus, counts, |bus| bus.poll_call(call));
            tried.map_err(|refusal| story(words::poll_call(call), refusal))?;
        }
        let turns = random.below(40) as u16;
        let tried = try_on(&bus, &mut met.runs, |bus| bus.give_turns(turns));
        tried.map_err(|refusal| story(format!("a run of {turns} turns"), refusal))?;
    }
    Ok(met)
}

/// The memory of buses that guided lists lead to.
fn samples(seed: u64) -> Vec<Rows> {
    let mut guided = Guided::new(seed);
    let mut product = Product::default();
    let rows = (0..SAMPLES).map(|_| {
        subject::enter_list(&mut product, guided.list());
        product.rows()
    });
    rows.collect()
}

fn compare_library(seed: u64) -> Result<Vec<String>, String> {
    let samples = samples(seed);
    let met = run::<Bus>(&samples, seed)?;
    met.print();
    let orders = any_order::run(&samples, seed, bus_in)?;
    orders.print();
    let polls = polls_in_memory::run(&samples, seed, bus_in)?;
    polls.print();
    Ok([met.missing(), orders.missing(), polls.missing()].concat())
}

/// The library. True if what it refused left every byte, its runs were their steps, its polls told the
/// lines, and all came.
pub fn run_library(seed: u64) -> bool {
    match compare_library(seed) {
        Err(story) => {
            println!("DIFFERENCE {story}");
            false
        }
        Ok(missing) => {
            if !missing.is_empty() {
                println!("NEVER CAME {}", missing.join(", "));
            }
            missing.is_empty()
        }
    }
}
