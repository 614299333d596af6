//! How often everything came that a comparison has to meet: refusals, events, losses, runs and starts
//! of the bound here; numberings of the parties in runs, effects of secondaries, lengths of their lists,
//! numbers of drivers, cases of requests, accesses, feoi's marks, parallel polls and steps in two orders in
//! modules.

mod access_counts;
mod driver_counts;
mod end_mark_cases;
mod list_lengths;
mod mark_counts;
mod order_cases;
mod poll_cases;
mod request_cases;
mod tie_cases;

pub use access_counts::Accesses;
pub use driver_counts::Driven;
pub use end_mark_cases::{EndMarkCase, EndMarkCases};
pub use list_lengths::Lengths;
pub use mark_counts::Marks;
pub use order_cases::{same_steps, OrderCases, Step};
pub use poll_cases::{PollCase, PollCases};
pub use request_cases::{Asked, Case};
pub use tie_cases::Ties;

use super::bound::Tried;
use crate::model::{Answer, Event, Refusal, Turns};

#[derive(Clone, Default, Debug)]
pub struct Tally {
    pub lists: u64,
    pub records: u64,
    pub refusals: [u64; 12],
    pub events: [u64; 14],
    /// Answers with dropped 1, with dropped 2, with broken 1.
    pub losses: [u64; 3],
    /// Runs accepted, runs refused.
    pub runs: [u64; 2],
    pub turns: u64,
    pub ties: Ties,
    pub bound: Tried,
    pub marks: Marks,
    pub lengths: Lengths,
    pub driven: Driven,
    pub asked: Asked,
    pub accesses: Accesses,
    pub end_marks: EndMarkCases,
    pub polls: PollCases,
    pub orders: OrderCases,
    /// Steps are not tried in two orders.
    pub calls_alone: bool,
}

/// Fewer starts would say little of the bound, on racks of any sort.
const LEAST_STARTS: u64 = 10_000;

const LOSSES: [&str; 3] = ["dropped 1", "dropped 2", "broken 1"];

impl Tally {
    pub fn count(&mut self, answer: &Answer) {
        self.records += 1;
        self.refusals[answer.refusal as usize] += 1;
        self.events[answer.event as usize] += 1;
        self.losses[0] += u64::from(answer.dropped == 1);
        self.losses[1] += u64::from(answer.dropped == 2);
        self.losses[2] += u64::from(answer.broken == 1);
    }

    pub fn count_run(&mut self, run: &Turns) {
        self.runs[usize::from(run.refusal != Refusal::Accepted)] += 1;
        self.turns += run
            .counts
            .iter()
            .map(|&count| u64::from(count))
            .sum::<u64>();
    }

    /// Records that asked for a build or a call.
    pub fn calls(&self) -> u64 {
        self.records - self.refusals[Refusal::Record as usize]
    }

    /// What never came.
    pub fn missing(&self) -> Vec<&'static str> {
        let refusals = self.refusals.iter().zip(Refusal::WORDS);
        let events = self.events.iter().zip(Event::WORDS);
        let losses = self.losses.iter().zip(LOSSES);
        let runs = self.runs.iter().zip(["runs", "refused runs"]);
        let marks = self.marks.counts.iter().zip(Marks::WORDS);
        let all = refusals
            .chain(events)
            .chain(losses)
            .chain(runs)
            .chain(marks);
        let never = all.filter(|(count, _)| **count == 0).map(|(_, word)| word);
        let starts = self.bound.starts.iter().zip(Tried::WORDS);
        let few = starts.filter(|(count, _)| **count < LEAST_STARTS);
        let few = few.map(|(_, word)| word);
        let few = few.chain(self.ties.missing());
        let few = few.chain(self.lengths.missing());
        let few = few.chain(self.driven.missing());
        let few = few.chain(self.asked.missing());
        let few = few.chain(self.accesses.missing());
        let few = few.chain(self.end_marks.missing());
        let few = few.chain(self.polls.missing());
        never.chain(few).chain(self.orders.missing()).collect()
    }

    pub fn print(&self) {
        println!("{} lists, {} records", self.lists, self.records);
        println!("{:>3} {:<10} {:>12}", "No.", "refusal", "count");
        for (number, count) in self.refusals.iter().enumerate() {
            println!("{number:>3} {:<10} {count:>12}", Refusal::WORDS[number]);
        }
        println!("    {:<10} {:>12}", "event", "count");
        let losses = LOSSES.iter().zip(&self.losses);
        for (word, count) in Event::WORDS.iter().zip(&self.events).chain(losses) {
            println!("    {word:<10} {count:>12}");
        }
        let [accepted, refused] = self.runs;
        println!(
            "{accepted} runs with {} turns, {refused} refused",
            self.turns
        );
        self.ties.print();
        println!("{}", self.bound.words());
        for (word, count) in Marks::WORDS.iter().zip(&self.marks.counts) {
            println!("    {word:<30} {count:>12}");
        }
        self.lengths.print();
        self.driven.print();
        self.asked.print();
        self.accesses.print();
        self.end_marks.print();
        self.polls.print();
        self.orders.print();
    }
}
