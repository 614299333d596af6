//! Parallel polls, with books of their own: a line is on exactly where some configured party on it has a
//! status equal to its sense, and a poll changes nothing. They read calls and answers, who is active and
//! who listens, and never a party's mark, its response or its own status.

mod of_party;

use super::tally::{PollCase as Case, PollCases};
use super::{demand, Check};
use crate::lists::pieces::Piece;
use crate::lists::stands_for;
use crate::model::script::{Record, BUILD, CLEAR, LISTEN, RESET, STANDBY, STEP, TAKE, TALK};
use crate::model::{Answer, Bus, Event, PollCall, Refusal, MOST_PARTIES};
use of_party::{OfParty, Response};

#[derive(Clone, Debug, Default)]
pub struct ParallelPolls {
    parties: [OfParty; MOST_PARTIES],
    /// The byte that was put up last is a command.
    command: bool,
}

impl ParallelPolls {
    pub fn new() -> ParallelPolls {
        let mut polls = ParallelPolls::default();
        for own in &mut polls.parties {
            own.status_over = Case::StatusAtBuild.bit();
        }
        polls
    }

    /// Enters one call or access. The error says how the machine breaks the rule.
    pub fn enter(
        &mut self,
        before: &Bus,
        piece: Record,
        answer: &Answer,
        after: &Bus,
        cases: &mut PollCases,
    ) -> Check {
        match Piece::of(&piece) {
            Piece::PollCall(PollCall::Poll { party }) => {
                self.enter_poll(before, party, answer, after, cases)?;
            }
            Piece::PollCall(PollCall::OwnStatus { party, value }) => {
                self.enter_status(before, party, value, answer, cases)?;
            }
            Piece::Access(access) => {
                let call = stands_for::as_record(access, before);
                self.enter_call(before, call, true, answer);
            }
            _ => self.enter_call(before, piece, false, answer),
        }
        Ok(())
    }

    /// `through` is true for an access that stands for the call.
    fn enter_call(&mut self, before: &Bus, call: Record, through: bool, answer: &Answer) {
        let place = usize::from(call[3]);
        match (call[2], answer.refusal) {
            (BUILD, Refusal::Accepted | Refusal::BadBuild) => self.enter_build(),
            (STEP, Refusal::Accepted) => self.enter_step(before, place, answer),
            (RESET, Refusal::Accepted) => {
                self.parties[place].reset(through);
                for other in (0..MOST_PARTIES).filter(|&other| other != place) {
                    self.parties[other].keep_response(Case::KeptOverAnothersReset);
                }
            }
            (RESET, Refusal::Standing) => {
                self.parties[place].keep(Case::MarkOverRefusedReset, Case::KeptOverRefusedReset);
            }
            (CLEAR, Refusal::Accepted) => {
                self.keep_all(Case::MarkOverClear, Case::KeptOverClear);
                for own in &mut self.parties {
                    own.status_over |= u64::from(own.status) * Case::StatusOverClear.bit();
                }
            }
            (TAKE | STANDBY, Refusal::Accepted) => {
                self.keep_all(Case::MarkOverAttention, Case::KeptOverAttention);
            }
            (LISTEN | TALK, Refusal::Accepted) => {
                self.parties[place].keep_mark(Case::MarkOverSwitch);
            }
            _ => {}
        }
    }

    /// Nobody is configured any more.
    fn enter_build(&mut self) {
        let old = std::mem::replace(self, ParallelPolls::new());
        for (own, old) in self.parties.iter_mut().zip(old.parties) {
            let response = old.response.map(|(response, _)| response);
            own.gone = response.map(|response| (response, Case::RemovedByBuild));
        }
    }

    /// All parties but the sender hear by taking, and the sender when its command ends.
    fn enter_step(&mut self, before: &Bus, place: usize, answer: &Answer) {
        let own = &mut self.parties[place];
        match answer.event {
            Event::Cmd => self.command = true,
            Event::Data | Event::Stat => self.command = false,
            Event::Heard | Event::Clear | Event::Trigger => {
                own.hear(answer.byte, &before.parties[place]);
            }
            Event::Ended | Event::Passed if self.command => {
                own.hear(answer.byte, &before.parties[place]);
            }
            _ => {}
        }
        if answer.event == Event::Passed {
            // TCT is a primary command, so nobody is configuring.
            for own in &mut self.parties {
                own.keep_response(Case::KeptOverPassed);
            }
        }
    }

    fn keep_all(&mut self, mark: Case, response: Case) {
        for own in &mut self.parties {
            own.keep(mark, response);
        }
    }

    fn enter_status(
        &mut self,
        before: &Bus,
        party: u8,
        value: u8,
        answer: &Answer,
        cases: &mut PollCases,
    ) -> Check {
        let there = usize::from(party) < before.count;
        let (refusal, case) = match (there, value) {
            (false, 0 | 1) => (Refusal::NoParty, Case::StatusNoParty),
            (false, _) => (Refusal::NoParty, Case::StatusNeither),
            (true, 0) => (Refusal::Accepted, Case::StatusOff),
            (true, 1) => (Refusal::Accepted, Case::StatusOn),
            (true, _) => (Refusal::BadValue, Case::StatusBadValue),
        };
        let right = *answer == Answer::refused(refusal);
        demand(right, "an own status is not answered as its arguments ask")?;
        cases.count(case);
        if answer.accepted() {
            let own = &mut self.parties[usize::from(party)];
            (own.status, own.status_over) = (value, 0);
            own.keep_response(Case::KeptOverStatus);
        }
        Ok(())
    }

    fn enter_poll(
        &mut self,
        before: &Bus,
        party: u8,
        answer: &Answer,
        after: &Bus,
        cases: &mut PollCases,
    ) -> Check {
        let place = usize::from(party);
        let (refusal, case) = judged(before, place);
        let right = answer.refusal == refusal;
        demand(
            right,
            "a parallel poll is refused, or is not, against its rule",
        )?;
        if let Some(case) = case {
            cases.count(case);
            return Ok(());
        }
        let lines = self.lines();
        let sentence = "a poll's lines are not those of the parties whose status is their sense";
        demand(answer.byte == lines, sentence)?;
        let bare = *answer == Answer::with_byte(Event::Lines, lines, false);
        demand(bare, "a parallel poll tells more than its lines")?;
        demand(before == after, "a parallel poll changed the bus")?;
        self.count_poll(before, place, lines, cases);
        self.count_absent(lines, cases);
        self.keep_all(Case::MarkOverPoll, Case::KeptOverPoll);
        Ok(())
    }

    /// The parties with a response on this line, and how many of them turn it on.
    fn on_line(&self, line: u8) -> (usize, usize) {
        let own = self.parties.iter();
        let own = own.filter(|own| own.response.is_some_and(|(set, _)| set.line == line));
        let on = own.clone().filter(|own| own.asserts().is_some());
        (own.count(), on.count())
    }

    fn lines(&self) -> u8 {
        let on = (1..=8).filter(|&line| self.on_line(line).1 > 0);
        on.map(|line| 1 << (line - 1)).sum()
    }

    fn count_poll(&self, bus: &Bus, poller: usize, lines: u8, cases: &mut PollCases) {
        cases.count(match lines.count_ones() {
            0 => Case::NoLine,
            1 => Case::OneLine,
            _ => Case::SeveralLines,
        });
        if lines != 0 && poller != bus.system {
            cases.count(Case::ByAnother);
        }
        for line in 1..=8 {
            match self.on_line(line) {
                (1, 0) => cases.count(Case::OffByStatus),
                (2, 0) => cases.count(Case::SharedByNone),
                (2, 1) => cases.count(Case::SharedByOne),
                (2, 2) => cases.count(Case::SharedByBoth),
                _ => {}
            }
        }
        for (place, own) in self.parties.iter().enumerate() {
            let (Some(on), Some((_, over))) = (own.asserts(), own.response) else {
                continue;
            };
            if self.on_line(on.line).1 == 1 {
                let poller = u64::from(place == poller) * Case::OfPoller.bit();
                let secondary = bus.parties[place].name.secondary;
                let extended = u64::from(secondary.is_some()) * Case::OfExtended.bit();
                let over = over | own.status_over | poller | extended;
                cases.count_shown(on.sense, on.line, over);
            }
        }
    }

    /// Responses that would turn a line on which is off.
    fn count_absent(&mut self, lines: u8, cases: &mut PollCases) {
        for own in &mut self.parties {
            let status = own.status;
            for absent in [&mut own.gone, &mut own.missed] {
                let shows = |(response, _): &mut (Response, Case)| {
                    response.sense == status && lines >> (response.line - 1) & 1 == 0
                };
                if let Some((_, case)) = absent.take_if(shows) {
                    cases.count(case);
                }
            }
        }
    }
}

/// The refusal that a poll by this party has to meet, with its case if there is one.
fn judged(bus: &Bus, place: usize) -> (Refusal, Option<Case>) {
    let Some(party) = bus.present().get(place) else {
        return (Refusal::NoParty, Some(Case::NoParty));
    };
    match (party.is_active(), bus.standing.is_some()) {
        (false, false) => (Refusal::Role, Some(Case::Role)),
        (false, true) => (Refusal::Role, Some(Case::RoleWhileStanding)),
        (true, true) => (Refusal::Standing, Some(Case::Standing)),
        (true, false) => (Refusal::Accepted, None),
    }
}
