//! What the books of parallel polls have of one party.

use crate::ledger::tally::PollCase as Case;
use crate::model::Party;

/// What something was kept over, a bit for each case.
type Over = u64;

#[derive(Clone, Copy, PartialEq, Eq, Debug)]
pub struct Response {
    /// From 1 to 8.
    pub line: u8,
    pub sense: u8,
}

/// What a code from 96 to 127 sets.
fn response_of(code: u8) -> Option<Response> {
    match code {
        96..=103 => Some(Response {
            line: code - 95,
            sense: 0,
        }),
        104..=111 => Some(Response {
            line: code - 103,
            sense: 1,
        }),
        _ => None,
    }
}

#[derive(Clone, Copy, Default, Debug)]
pub struct OfParty {
    configuring: Option<Over>,
    /// Why it is not configuring.
    unmarked: Option<Case>,
    pub response: Option<(Response, Over)>,
    /// One that it had, and how it went.
    pub gone: Option<(Response, Case)>,
    /// One that it would have if it were configuring, and why it is not.
    pub missed: Option<(Response, Case)>,
    pub status: u8,
    pub status_over: Over,
    /// The code of the primary command that it heard last.
    primary: u8,
}

impl OfParty {
    pub fn asserts(&self) -> Option<Response> {
        let (response, _) = self.response?;
        (response.sense == self.status).then_some(response)
    }

    pub fn keep_mark(&mut self, over: Case) {
        if let Some(kept) = &mut self.configuring {
            *kept |= over.bit();
        }
    }

    pub fn keep_response(&mut self, over: Case) {
        if let Some((_, kept)) = &mut self.response {
            *kept |= over.bit();
        }
    }

    pub fn keep(&mut self, mark: Case, response: Case) {
        self.keep_mark(mark);
        self.keep_response(response);
    }

    fn unmark(&mut self, way: Case) {
        self.unmarked = self.configuring.take().map(|_| way);
    }

    fn remove(&mut self, way: Case) {
        if let Some((response, _)) = self.response.take() {
            self.gone = Some((response, way));
            self.missed = None;
        }
    }

    pub fn hear(&mut self, byte: u8, party: &Party) {
        let code = byte % 128;
        match code {
            5 => self.hear_ppc(party),
            0..=95 => {
                self.unmark(unmarked_by(code));
                if code == 21 {
                    let [listening, not] =
                        [Case::RemovedByPpuListening, Case::RemovedByPpuNotListening];
                    self.remove(if party.listen { listening } else { not });
                }
                self.keep_response(Case::KeptOverPrimary);
            }
            _ if self.configuring.is_some() => self.configure(code, party),
            _ => self.hear_unmarked(code),
        }
        if code < 96 {
            self.primary = code;
        }
    }

    fn hear_ppc(&mut self, party: &Party) {
        self.keep_response(Case::KeptOverPpc);
        match (self.configuring, party.listen) {
            (Some(_), true) => self.keep_mark(Case::MarkOverPpc),
            (Some(_), false) => self.keep_mark(Case::MarkOverPpcUnlistened),
            (None, false) => self.unmarked = Some(Case::NotMarked),
            (None, true) => {
                let own_talk_address = self.primary == 64 + party.name.primary;
                let talk_primary = party.name.secondary.is_some() && own_talk_address;
                let over = u64::from(talk_primary) * Case::MarkAfterTalkPrimary.bit();
                self.configuring = Some(over);
            }
        }
    }

    fn configure(&mut self, code: u8, party: &Party) {
        let (Some(response), Some(mut over)) = (response_of(code), self.configuring) else {
            let (way, mark) = match code {
                127 => (Case::RemovedBy7F, Case::MarkOver7F),
                _ => (Case::RemovedByDisable, Case::MarkOverDisable),
            };
            self.remove(way);
            return self.keep_mark(mark);
        };
        let old = self.response.map(|(old, _)| old);
        if old != Some(response) {
            let own_secondary = party.name.secondary == Some(code - 96);
            over |= u64::from(own_secondary) * Case::OwnSecondary.bit();
            self.gone = old.map(|old| (old, Case::Replaced));
            self.missed = None;
            self.response = Some((response, over));
        }
        self.keep_mark(Case::MarkOverSet);
    }

    fn hear_unmarked(&mut self, code: u8) {
        if let (Some(response), Some(why)) = (response_of(code), self.unmarked) {
            self.missed = Some((response, why));
        }
        let [set, removal] = [Case::KeptOverSecondary, Case::KeptOverDisable];
        self.keep_response(if code < 112 { set } else { removal });
    }

    pub fn reset(&mut self, through_register: bool) {
        let (unmarked, removed) = if through_register {
            (Case::UnmarkedBySwrst, Case::RemovedBySwrst)
        } else {
            (Case::UnmarkedByReset, Case::RemovedByReset)
        };
        self.unmark(unmarked);
        self.remove(removed);
        self.status_over |= u64::from(self.status) * Case::StatusOverReset.bit();
    }
}

/// By a primary command other than PPC.
fn unmarked_by(code: u8) -> Case {
    match code {
        21 => Case::UnmarkedByPpu,
        63 | 95 => Case::UnmarkedByUnaddress,
        32..=62 => Case::UnmarkedByListenAddress,
        64..=94 => Case::UnmarkedByTalkAddress,
        20 | 24 | 25 => Case::UnmarkedByUniversal,
        4 | 8 | 9 => Case::UnmarkedByAddressed,
        _ => Case::UnmarkedByNoMeaning,
    }
}
