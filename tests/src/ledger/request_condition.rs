//! The user's condition of document 02's Q-5, with books of its own. A request that is switched on in
//! NPRS outside a poll sets bit 64 in every status byte of the first poll that puts one, and of no
//! later poll. Nothing here reads the second request bit.

use super::tally::{Asked, Case};
use super::{demand, Check};
use crate::model::script::{Record, BUILD, REQUEST, RESET, STEP};
use crate::model::{Answer, Bus, Event, Party, Refusal, Service, MOST_PARTIES, RSV};

/// How far a request has come.
#[derive(Clone, Copy, PartialEq, Eq, Debug)]
enum Stage {
    /// No status byte was put since.
    Waiting,
    /// So many were put in the poll that goes on.
    First(u32),
    /// That poll is over; whether one that goes on has put any.
    Later(bool),
}

/// The request of each party, from its switching on until it is switched or reset, or until bit 64
/// comes into the poll register.
#[derive(Clone, Debug, Default)]
pub struct Requests {
    open: [Option<Stage>; MOST_PARTIES],
}

fn has_rsv(party: &Party) -> bool {
    (party.live | party.saved) & RSV != 0
}

impl Requests {
    pub fn new() -> Requests {
        Requests::default()
    }

    /// Enters one call. The error says how the machine breaks the condition.
    pub fn enter(
        &mut self,
        before: &Bus,
        call: Record,
        answer: &Answer,
        after: &Bus,
        asked: &mut Asked,
    ) -> Check {
        if call[2] == BUILD && answer.refusal != Refusal::Record {
            *self = Requests::new();
            return Ok(());
        }
        if !answer.accepted() {
            return Ok(());
        }
        let place = usize::from(call[3]);
        match call[2] {
            REQUEST => self.enter_switch(before, place, call[4], after, asked),
            RESET => self.close(place, Case::LostByReset, asked),
            STEP if answer.event == Event::Stat => self.enter_status(place, answer.byte, asked)?,
            _ => {}
        }
        self.enter_registers(after, asked);
        self.enter_polls(before, after, asked);
        Ok(())
    }

    fn enter_switch(
        &mut self,
        before: &Bus,
        place: usize,
        value: u8,
        after: &Bus,
        asked: &mut Asked,
    ) {
        self.close(place, Case::LostBySwitch, asked);
        let party = &before.parties[place];
        let free = party.service == Service::Nprs && !party.is_polled(before.atn());
        if value == 1 && free && !has_rsv(party) && !has_rsv(&after.parties[place]) {
            asked.count(Case::Request);
            self.open[place] = Some(Stage::Waiting);
        }
    }

    /// Counts what became of a request that no status byte has told of.
    fn close(&mut self, place: usize, why: Case, asked: &mut Asked) {
        if self.open[place].take() == Some(Stage::Waiting) {
            asked.count(why);
        }
    }

    fn enter_status(&mut self, place: usize, byte: u8, asked: &mut Asked) -> Check {
        let set = byte & RSV != 0;
        let Some(stage) = &mut self.open[place] else {
            return Ok(());
        };
        match stage {
            Stage::Waiting => *stage = Stage::First(1),
            Stage::First(bytes) => *bytes += 1,
            Stage::Later(put) => {
                if !*put {
                    asked.count(Case::LaterPoll);
                }
                *put = true;
                return demand(
                    !set,
                    "a request sets bit 64 in a status byte of a later poll",
                );
            }
        }
        demand(
            set,
            "a request leaves bit 64 off in a status byte of its first poll",
        )
    }

    fn enter_registers(&mut self, after: &Bus, asked: &mut Asked) {
        for place in 0..after.count {
            if self.open[place].is_some() && has_rsv(&after.parties[place]) {
                self.close(place, Case::LostByRegister, asked);
            }
        }
    }

    /// A poll is over where the party was polled before the call and is not after it.
    fn enter_polls(&mut self, before: &Bus, after: &Bus, asked: &mut Asked) {
        let (was_atn, atn) = (before.atn(), after.atn());
        for place in 0..after.count {
            let Some(stage) = &mut self.open[place] else {
                continue;
            };
            let was_polled = before.parties[place].is_polled(was_atn);
            if !was_polled || after.parties[place].is_polled(atn) {
                continue;
            }
            match *stage {
                Stage::Waiting => asked.count(Case::PollWithout),
                Stage::First(1) => asked.count(Case::FirstPollOne),
                Stage::First(_) => asked.count(Case::FirstPollSeveral),
                Stage::Later(_) => {}
            }
            if *stage != Stage::Waiting {
                *stage = Stage::Later(false);
            }
        }
    }
}
