//! Parallel polls: how a party's response is set, and the calls for its own status and for the poll.

use super::host_calls::{refuse_if, switch};
use super::{Answer, Bus, Event, Mark, Party, Refusal};

/// Parallel poll configure and unconfigure.
pub const PPC: u8 = 0x05;
pub const PPU: u8 = 0x15;

pub const POLL_LINES: u8 = 8;

/// The bit of a code from 60 to 6F that is the sense, and those that are the line.
const SENSE: u8 = 0b1000;
const LINE: u8 = 0b0111;

/// From this code on the response is removed.
const DISABLE: u8 = 0x70;

/// What a party does in a parallel poll.
#[derive(Clone, Copy, PartialEq, Eq, Hash, Debug)]
pub struct Response {
    /// The status for which the line is on.
    pub sense: bool,
    /// From 1 to 8.
    pub line: u8,
}

impl Response {
    /// The line's bit in the answer.
    pub fn bit(self) -> u8 {
        1 << (self.line - 1)
    }
}

/// The host's calls that have to do with parallel polls. No operation of a script stands for them.
#[derive(Clone, Copy, PartialEq, Eq, Debug)]
pub enum PollCall {
    OwnStatus { party: u8, value: u8 },
    Poll { party: u8 },
}

impl PollCall {
    pub const fn party(self) -> u8 {
        match self {
            PollCall::OwnStatus { party, .. } | PollCall::Poll { party } => party,
        }
    }
}

impl Party {
    /// Who listens is configured by what follows. To others it is a primary command that leaves
    /// configuring.
    pub(super) fn hear_ppc(&mut self) {
        self.forget_primary();
        if self.listen {
            self.mark = Some(Mark::Configuring);
        }
    }

    /// A code from 60 on, heard while configuring.
    pub(super) fn configure(&mut self, code: u8) {
        self.response = (code < DISABLE).then_some(Response {
            sense: code & SENSE != 0,
            line: (code & LINE) + 1,
        });
    }

    /// The response, if its line is on by this party.
    pub fn asserts(&self) -> Option<Response> {
        self.response
            .filter(|response| response.sense == self.own_status)
    }
}

impl Bus {
    pub fn poll_call(&mut self, call: PollCall) -> Answer {
        match call {
            PollCall::OwnStatus { party, value } => self.own_status(party, value),
            PollCall::Poll { party } => self.parallel_poll(party),
        }
    }

    pub fn own_status(&mut self, party: u8, value: u8) -> Answer {
        self.settled(|bus| {
            let place = bus.place(party)?;
            bus.parties[place].own_status = switch(value)?;
            Ok(Answer::NOTHING)
        })
    }

    /// A parallel poll by this party.
    pub fn parallel_poll(&mut self, party: u8) -> Answer {
        self.settled(|bus| {
            let place = bus.place(party)?;
            refuse_if(!bus.parties[place].is_active(), Refusal::Role)?;
            refuse_if(bus.sends_command(place), Refusal::Standing)?;
            let responses = bus.present().iter().filter_map(Party::asserts);
            let lines = responses.fold(0, |lines, response| lines | response.bit());
            Ok(Answer::with_byte(Event::Lines, lines, false))
        })
    }
}
