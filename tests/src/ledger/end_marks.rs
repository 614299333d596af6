//! What becomes of the marks that feoi sets, with books of its own. A byte through offset 7 has END if
//! its party was marked since its last byte through offset 7 and since its last reset, and else not.
//! Nothing here reads a party's mark.

use super::tally::{EndMarkCase as Case, EndMarkCases};
use super::{demand, Check};
use crate::lists::pieces::Piece;
use crate::lists::stands_for::{stands_for, StandsFor};
use crate::model::script::{Call, Record, BUILD, CLEAR, DROP, RESET, STANDBY, STEP, TAKE, WRITE};
use crate::model::{Access, Answer, Event, Refusal, MOST_PARTIES};

/// What a mark was kept over, a bit for each case.
type Kept = u32;

/// The byte that a party's host wrote last.
#[derive(Clone, Copy, Default, Debug)]
struct Written {
    through_7: bool,
    end: bool,
    /// The mark that it used up.
    mark: Option<Kept>,
    removed: Option<Case>,
}

#[derive(Clone, Copy, Default, Debug)]
struct OfParty {
    mark: Option<Kept>,
    /// How its last mark was removed, until the next byte through offset 7.
    removed: Option<Case>,
    written: Written,
}

#[derive(Clone, Debug, Default)]
pub struct EndMarks {
    parties: [OfParty; MOST_PARTIES],
}

/// The first of the two for an access, the second for a call of the host.
fn by(through: bool, access: Case, call: Case) -> Case {
    if through {
        access
    } else {
        call
    }
}

impl EndMarks {
    pub fn new() -> EndMarks {
        EndMarks::default()
    }

    /// Enters one call or access. The error says how the machine breaks the rule.
    pub fn enter(&mut self, piece: Record, answer: &Answer, cases: &mut EndMarkCases) -> Check {
        match Piece::of(&piece) {
            Piece::Build(..) | Piece::Record([_, _, BUILD, ..]) => *self = EndMarks::new(),
            Piece::Record([_, _, call @ ..]) => self.enter_call(call, false, answer, cases)?,
            Piece::Access(access) => self.enter_access(access, answer, cases)?,
            _ => {}
        }
        Ok(())
    }

    fn enter_access(&mut self, access: Access, answer: &Answer, cases: &mut EndMarkCases) -> Check {
        let place = usize::from(access.party());
        match stands_for(access, false) {
            StandsFor::Call(call) => return self.enter_call(call, true, answer, cases),
            StandsFor::Mark if answer.accepted() => {
                self.keep(place, Case::SetAgain);
                let mark = &mut self.parties[place].mark;
                if mark.is_none() {
                    cases.count(Case::Set);
                    *mark = Some(0);
                }
            }
            StandsFor::Nothing if answer.accepted() => self.keep(place, Case::Nothing),
            _ => {}
        }
        Ok(())
    }

    /// `through` is true for an access that stands for the call.
    fn enter_call(
        &mut self,
        [operation, party, _, extra]: Call,
        through: bool,
        answer: &Answer,
        cases: &mut EndMarkCases,
    ) -> Check {
        let place = usize::from(party);
        match (operation, answer.refusal) {
            (STEP, Refusal::Accepted) => return self.enter_step(place, answer, cases),
            (WRITE, Refusal::Accepted) if through => self.enter_data_out(place),
            (WRITE, Refusal::Full) if through => self.keep(place, Case::RefusedDataOut),
            (WRITE, Refusal::Accepted) => {
                self.keep(place, Case::HostWrite);
                self.parties[place].written = Written {
                    end: extra == 1,
                    ..Written::default()
                };
            }
            (RESET, Refusal::Accepted) => self.remove(place, by(through, Case::Swrst, Case::Reset)),
            (RESET, Refusal::Standing) => {
                self.keep(place, by(through, Case::RefusedSwrst, Case::RefusedReset));
            }
            (DROP, Refusal::Accepted) if answer.dropped == 1 => {
                self.keep(place, by(through, Case::Nbaf, Case::Drop));
            }
            (CLEAR, Refusal::Accepted) => self.keep_all(by(through, Case::Sic, Case::Clear)),
            (TAKE | STANDBY, Refusal::Accepted) => self.keep_all(Case::Attention),
            _ => {}
        }
        Ok(())
    }

    fn enter_data_out(&mut self, place: usize) {
        let own = &mut self.parties[place];
        let (mark, removed) = (own.mark.take(), own.removed.take());
        own.written = Written {
            through_7: true,
            end: mark.is_some(),
            mark,
            removed,
        };
    }

    fn enter_step(&mut self, place: usize, answer: &Answer, cases: &mut EndMarkCases) -> Check {
        let written = self.parties[place].written;
        match answer.event {
            Event::Data => {
                let end = answer.end == written.end;
                demand(
                    end,
                    "the END of a data byte is not what its write asked for",
                )?;
                self.count_data(written, cases);
            }
            Event::Cmd => {
                demand(!answer.end, "a command has END")?;
                if written.mark.is_some() {
                    cases.count(Case::Command);
                }
            }
            Event::Stat => self.keep(place, Case::Status),
            Event::Passed => self.keep_all(Case::Passed),
            _ => {}
        }
        Ok(())
    }

    /// A mark is shown by END, and what it was kept over with it; a removed one by the lack of END.
    fn count_data(&self, written: Written, cases: &mut EndMarkCases) {
        if !written.through_7 {
            return;
        }
        match written.mark {
            Some(kept) => cases.count_shown(kept),
            None => {
                cases.count(Case::Unmarked);
                if self.parties.iter().any(|party| party.mark.is_some()) {
                    cases.count(Case::Beside);
                }
            }
        }
        if let Some(removed) = written.removed {
            cases.count(removed);
        }
    }

    fn remove(&mut self, place: usize, way: Case) {
        let own = &mut self.parties[place];
        if own.mark.take().is_some() {
            own.removed = Some(way);
        }
    }

    fn keep(&mut self, place: usize, over: Case) {
        if let Some(kept) = &mut self.parties[place].mark {
            *kept |= over.bit();
        }
    }

    fn keep_all(&mut self, over: Case) {
        for place in 0..MOST_PARTIES {
            self.keep(place, over);
        }
    }
}
