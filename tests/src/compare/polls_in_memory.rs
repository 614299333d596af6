//! Parallel polls on memory that says itself which responses and statuses there are: the lines are those
//! of the rows, and a poll leaves what lines leave, so that it settles.

use super::any_memory::LEAST;
use super::memory::{Rows, ROW};
use super::{product, words};
use crate::lists::random_numbers::Random;
use crate::model::{Answer, Event, PollCall, MOST_PARTIES, POLL_LINES};

const CONTENTS: usize = 100_000;

/// Where a party's row has its response, the line of that, and its own status.
const RESPONSE: usize = 21;
const LINE: usize = 22;
const STATUS: usize = 23;

/// A bus in memory, as far as a poll needs it.
pub trait Polled: Clone + PartialEq {
    fn has_party(&self, party: u8) -> bool;
    fn lines(&mut self) -> Answer;
    fn poll(&mut self, party: u8) -> Answer;
}

impl Polled for meskvorn::Bus {
    fn has_party(&self, party: u8) -> bool {
        self.name(party).is_some()
    }

    fn lines(&mut self) -> Answer {
        product::in_the_models_terms(meskvorn::Bus::lines(self))
    }

    fn poll(&mut self, party: u8) -> Answer {
        product::poll_call(self, PollCall::Poll { party })
    }
}

const CASES: usize = 5;

/// How many polls were compared, by what they told and left.
#[derive(Default, Debug)]
pub struct Told {
    pub counts: [u64; CASES],
}

impl Told {
    pub const WORDS: [&'static str; CASES] = [
        "no line on",
        "one line on",
        "several lines on",
        "over four lines on",
        "a bus that had not settled",
    ];

    fn enter(&mut self, lines: u8, settles: bool) {
        let number = lines.count_ones();
        let cases = [number == 0, number == 1, number > 1, number > 4, settles];
        for (count, holds) in self.counts.iter_mut().zip(cases) {
            *count += u64::from(holds);
        }
    }

    /// What did not come often enough.
    pub fn missing(&self) -> Vec<String> {
        let counts = self.counts.iter().zip(Told::WORDS);
        let few = counts.filter(|(count, _)| **count < LEAST);
        few.map(|(_, word)| format!("parallel polls on any memory with {word}"))
            .collect()
    }

    pub fn print(&self) {
        println!("parallel polls on responses and statuses of any memory");
        for (word, count) in Told::WORDS.iter().zip(self.counts) {
            println!("    {word:<40} {count:>10}");
        }
    }
}

/// A bus that calls led to, with responses and statuses of chance, which are written otherwise than they
/// are read if `odd`; at times with another byte changed, so that it may not have settled.
fn content(samples: &[Rows], odd: bool, random: &mut Random) -> Rows {
    let mut rows = random.pick(samples);
    for row in &mut rows[..MOST_PARTIES] {
        let any = if odd { random.byte() } else { 0 };
        row[RESPONSE] = random.pick(&[0, 1, 2, any]);
        row[LINE] = random.below(POLL_LINES.into()) as u8;
        row[STATUS] = random.pick(&[0, 1, 1, any]);
        if !odd && row[RESPONSE] == 0 {
            row[LINE] = 0;
        }
    }
    if random.per_mille(300) {
        rows[random.below(MOST_PARTIES)][random.below(RESPONSE)] = random.below(4) as u8;
    }
    rows
}

/// The lines of so many rows.
fn lines_of(rows: &[[u8; ROW]]) -> u8 {
    let on = rows.iter().filter(|row| match row[RESPONSE] {
        1 => row[STATUS] != 1,
        2 => row[STATUS] == 1,
        _ => false,
    });
    on.fold(0, |lines, row| lines | 1 << row[LINE])
}

/// Whether the poll by this party is right, if it is accepted; `settled` is what lines left, and answered.
fn try_poll<B: Polled>(bus: &B, party: u8, lines: u8, settled: &(B, Answer)) -> Option<bool> {
    let mut polled = bus.clone();
    let answer = polled.poll(party);
    let right = Answer {
        broken: settled.1.broken,
        ..Answer::with_byte(Event::Lines, lines, false)
    };
    answer
        .accepted()
        .then(|| answer == right && polled == settled.0)
}

/// The error tells the memory, and the poll that is wrong there.
pub fn run<B: Polled>(
    samples: &[Rows],
    seed: u64,
    bus_in: impl Fn(Rows) -> B,
) -> Result<Told, String> {
    let mut random = Random::new(seed);
    let mut told = Told::default();
    for _ in 0..CONTENTS {
        let odd = random.per_mille(500);
        let rows = content(samples, odd, &mut random);
        let bus = bus_in(rows);
        let parties = (0..MOST_PARTIES as u8).take_while(|party| bus.has_party(*party));
        let (mut settled, count) = (bus.clone(), parties.count());
        let answer = settled.lines();
        let (lines, settled) = (lines_of(&rows[..count]), (settled, answer));
        for party in 0..count as u8 {
            let Some(right) = try_poll(&bus, party, lines, &settled) else {
                continue;
            };
            told.enter(lines, !odd && settled.0 != bus);
            if !right {
                let memory = words::hex(&rows.concat());
                return Err(format!(
                    "a parallel poll by party {party} is wrong on {memory}"
                ));
            }
        }
    }
    Ok(told)
}
