//! How often the cases of the user's condition on second requests came, and the calls that switch.

use crate::model::script::{Record, CLEAR, REQUEST, STEP};
use crate::model::{Answer, Bus, Event, Kind, Refusal, Service, RSV};

/// What is counted, in the order of the words.
#[derive(Clone, Copy)]
pub enum Case {
    /// A request of which the condition speaks.
    Request,
    FirstPollOne,
    FirstPollSeveral,
    LaterPoll,
    PollWithout,
    LostBySwitch,
    LostByReset,
    LostByRegister,
    SwitchedOn,
    SwitchedOff,
    Refused,
    InPoll,
    StatusInNprs,
    BrokenOff,
    Cleared,
}

const CASES: usize = 15;

/// Fewer would say little.
const LEAST: u64 = 1000;

#[derive(Clone, Default, Debug)]
pub struct Asked {
    pub counts: [u64; CASES],
}

impl Asked {
    pub const WORDS: [&'static str; CASES] = [
        "requests in NPRS outside a poll",
        "first polls with one status byte",
        "first polls with several",
        "later polls with a status byte",
        "polls without one before",
        "requests lost by a switch",
        "requests lost by reset",
        "requests lost by bit 64",
        "second requests switched on",
        "second requests switched off",
        "second requests refused",
        "second requests on in a poll",
        "status bytes in NPRS under one",
        "status bytes of one broken off",
        "interface clears under one",
    ];

    pub fn count(&mut self, what: Case) {
        self.counts[what as usize] += 1;
    }

    /// One call, accepted or not, that model and subject answered alike.
    pub fn enter(&mut self, before: &Bus, call: Record, answer: &Answer) {
        match (call[2], answer.refusal) {
            (REQUEST, Refusal::Accepted) => self.enter_switch(before, call),
            (REQUEST, Refusal::NoParty | Refusal::BadValue) => self.count(Case::Refused),
            (STEP, Refusal::Accepted) if answer.event == Event::Stat => {
                let party = &before.parties[usize::from(call[3])];
                if party.rsv2 && party.service == Service::Nprs {
                    self.count(Case::StatusInNprs);
                }
            }
            (CLEAR, Refusal::Accepted) if before.present().iter().any(|party| party.rsv2) => {
                self.count(Case::Cleared);
            }
            _ => {}
        }
        if answer.broken == 1 && told_of_a_request(before) {
            self.count(Case::BrokenOff);
        }
    }

    fn enter_switch(&mut self, before: &Bus, call: Record) {
        if call[4] == 0 {
            return self.count(Case::SwitchedOff);
        }
        self.count(Case::SwitchedOn);
        if before.parties[usize::from(call[3])].is_polled(before.atn()) {
            self.count(Case::InPoll);
        }
    }

    /// What did not come often enough.
    pub fn missing(&self) -> impl Iterator<Item = &'static str> + '_ {
        let counts = self.counts.iter().zip(Asked::WORDS);
        let few = counts.filter(|(count, _)| **count < LEAST);
        few.map(|(_, word)| word)
    }

    pub fn print(&self) {
        for (word, count) in Asked::WORDS.iter().zip(&self.counts) {
            println!("    {word:<32} {count:>10}");
        }
    }
}

/// A status byte stands whose bit 64 is not the poll register's.
fn told_of_a_request(bus: &Bus) -> bool {
    bus.standing.is_some_and(|byte| {
        let live = bus.parties[byte.sender].live;
        byte.kind == Kind::Status && byte.value & !live & RSV != 0
    })
}
