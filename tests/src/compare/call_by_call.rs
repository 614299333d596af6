//! One list on kept buses, call by call: model, ledger and subject side by side.

use super::alike::{alike, Alike};
use super::subject::{self, Subject, Told};
use super::{either_order, Difference};
use crate::ledger::bound::Start;
use crate::ledger::tally::Tally;
use crate::ledger::{EndMarks, Ledger, ParallelPolls, Requests};
use crate::lists::pieces::{self, Piece};
use crate::lists::random_numbers::Random;
use crate::lists::stands_for;
use crate::model::script::{self, Record, BUILD, STEP};
use crate::model::{Access, Answer, Bus, Lists, PollCall, Refusal};

type Done = Result<(), Difference>;

/// In a thousand, the pieces after which steps are tried in two orders, and such trials with a source too.
const ORDERS: usize = 30;
const ORDERS_WITH_SOURCE: usize = 150;

struct Walk<'a> {
    bus: Bus,
    ledger: Ledger,
    requests: Requests,
    end_marks: EndMarks,
    polls: ParallelPolls,
    subject: &'a mut dyn Subject,
    tally: &'a mut Tally,
    /// The piece of the list that is compared, from 1.
    number: usize,
    /// What the subject has answered.
    told: Vec<Told>,
    /// Draws orders of steps.
    random: Random,
}

impl Walk<'_> {
    /// Enters a record or an access, which most books read as the host call that it stands for.
    fn enter(&mut self, before: &Bus, piece: Record, answer: &Answer) -> Done {
        let number = self.number;
        let call = match Piece::of(&piece) {
            Piece::Access(access) => stands_for::as_record(access, before),
            _ => piece,
        };
        let marks = &mut self.tally.marks;
        marks.enter(before, call, answer, &self.bus);
        let entered = self.ledger.enter(before, call, answer, &self.bus);
        entered.map_err(|rule| Difference::Ledger { number, rule })?;
        let asked = &mut self.tally.asked;
        asked.enter(before, call, answer);
        let requests = &mut self.requests;
        let entered = requests.enter(before, call, answer, &self.bus, asked);
        entered.map_err(|rule| Difference::Request { number, rule })?;
        let cases = &mut self.tally.end_marks;
        let entered = self.end_marks.enter(piece, answer, cases);
        entered.map_err(|rule| Difference::EndMark { number, rule })?;
        let cases = &mut self.tally.polls;
        let polls = &mut self.polls;
        let entered = polls.enter(before, piece, answer, &self.bus, cases);
        entered.map_err(|rule| Difference::Poll { number, rule })
    }

    /// One call, whose answer by the subject is known; the books read it as a record or an access.
    fn agree(
        &mut self,
        piece: Record,
        subject: Answer,
        call: impl FnOnce(&mut Bus) -> Answer,
    ) -> Done {
        let before = self.bus;
        let model = call(&mut self.bus);
        if subject != model {
            let number = self.number;
            return Err(Difference::Answer {
                number,
                model,
                subject,
            });
        }
        self.tally.count(&model);
        self.enter(&before, piece, &model)
    }

    fn record(&mut self, record: Record) -> Done {
        let subject = self.subject.record(record);
        self.told.push(Told::Answer(subject));
        self.agree(record, subject, |bus| script::run_record(bus, record))?;
        if record[2] == BUILD {
            self.agree_on_names()?;
        }
        Ok(())
    }

    fn build(&mut self, lists: &Lists, system: u8) -> Done {
        let as_record = pieces::build_of_lists(system);
        let subject = self.subject.build_extended(lists, system);
        self.told.push(Told::Answer(subject));
        self.agree(as_record, subject, |bus| bus.build_extended(lists, system))?;
        self.tally.lengths.enter(lists, system);
        self.agree_on_names()
    }

    fn agree_on_names(&self) -> Done {
        let number = self.number;
        match subject::other_name(&self.bus, self.subject) {
            None => Ok(()),
            Some((party, model, subject)) => Err(Difference::Name {
                number,
                party,
                model,
                subject,
            }),
        }
    }

    /// In the list a run stands for its steps, so each is compared and entered as a call.
    fn run(&mut self, turns: u16) -> Done {
        let number = self.number;
        let before = self.bus;
        let model = before.clone().give_turns(turns);
        let order: Vec<u8> = before.order_of(turns).collect();
        let (answers, same) = self.subject.try_run(turns, &order);
        for (party, answer) in order.into_iter().zip(answers) {
            let record = script::record(STEP, party, 0, 0);
            self.agree(record, answer, |bus| bus.step(party))?;
        }
        if model.refusal != Refusal::Accepted {
            self.enter(&before, pieces::run(turns), &Answer::refused(model.refusal))?;
        }
        let subject = self.subject.give_turns(turns);
        self.told.push(Told::Turns(subject));
        self.tally.count_run(&model);
        self.tally.ties.enter(&before, turns);
        self.tally.marks.enter_run(&before);
        match (model == subject, same) {
            (true, true) => Ok(()),
            (true, false) => Err(Difference::Bus { number }),
            _ => Err(Difference::Turns {
                number,
                model,
                subject,
            }),
        }
    }

    /// The drivers, beside the lines of the same bus.
    fn drivers(&mut self) -> Done {
        let number = self.number;
        let before = self.bus;
        let (model, lines) = (before.clone().drivers(), before.clone().lines());
        let like_lines = self.subject.drivers_like_lines();
        let subject = self.subject.drivers();
        self.told.push(Told::Drivers(Box::new(subject)));
        self.agree(pieces::DRIVERS, subject.answer, |bus| bus.drivers().answer)?;
        if model != subject {
            return Err(Difference::Drivers {
                number,
                model,
                subject,
            });
        }
        if !like_lines {
            return Err(Difference::LikeLines { number });
        }
        self.tally.driven.enter(&model);
        let ledger = &self.ledger;
        let checked = ledger.check_drivers(&before, &model, lines.byte, &self.bus);
        checked.map_err(|rule| Difference::Ledger { number, rule })
    }

    /// An access, beside the host call that it stands for.
    fn access(&mut self, access: Access) -> Done {
        let number = self.number;
        let Alike { accesses, calls } = alike(access, &self.bus);
        let (_, same) = self.subject.try_accesses(&accesses, &calls);
        let subject = self.subject.access(access);
        self.told.push(Told::Answer(subject));
        self.tally.accesses.enter(access, subject.refusal);
        self.agree(pieces::access(access), subject, |bus| bus.access(access))?;
        if same {
            return Ok(());
        }
        Err(Difference::LikeCall { number })
    }

    /// An own status or a parallel poll. Only an accepted own status may change the bus.
    fn poll_call(&mut self, asked: PollCall) -> Done {
        let number = self.number;
        self.subject.lay_aside();
        let subject = self.subject.poll_call(asked);
        self.told.push(Told::Answer(subject));
        let may_change = subject.accepted() && matches!(asked, PollCall::OwnStatus { .. });
        let left = may_change || self.subject.is_as_laid_aside();
        self.agree(pieces::poll_call(asked), subject, |bus| {
            bus.poll_call(asked)
        })?;
        if left {
            return Ok(());
        }
        Err(Difference::Changes { number })
    }

    /// Tries the bound on copies, if it holds from here.
    fn try_bound(&mut self) -> Done {
        let Some(start) = Start::of(&self.bus) else {
            return Ok(());
        };
        let order: Vec<u8> = self.bus.order_of(start.turns()).collect();
        let mut copy = self.bus;
        let steps = order.iter().map(|&party| copy.step(party));
        let model = start.ended_after(&order, &steps.collect::<Vec<Answer>>());
        let (answers, same) = self.subject.try_run(start.turns(), &order);
        let subject = start.ended_after(&order, &answers).filter(|_| same);
        if let (Some(needed), true) = (model, model == subject) {
            self.tally.bound.enter(&start, needed);
            return Ok(());
        }
        let number = self.number;
        Err(Difference::Bound {
            number,
            model,
            subject,
        })
    }

    /// Tries steps of parties that are no source in two orders, on copies.
    fn try_orders(&mut self) -> Done {
        if self.tally.calls_alone {
            return Ok(());
        }
        let Some(orders) = either_order::draw(&self.bus, &mut self.random) else {
            return Ok(());
        };
        let (number, subject) = (self.number, &*self.subject);
        let cases = &mut self.tally.orders;
        let differ = |unlike| Difference::Orders { number, unlike };
        if self.random.per_mille(ORDERS_WITH_SOURCE) {
            let tried = either_order::try_source(subject, &self.bus, &orders[0], cases);
            tried.map_err(differ)?;
        }
        let tried = either_order::try_acceptors(subject, &self.bus, orders, cases);
        tried.map_err(differ)
    }

    /// True if the list goes on after this piece.
    fn piece(&mut self, piece: &Piece) -> Result<bool, Difference> {
        match piece {
            Piece::Run(turns) => self.run(*turns)?,
            Piece::Drivers => self.drivers()?,
            Piece::Access(access) => self.access(*access)?,
            Piece::PollCall(asked) => self.poll_call(*asked)?,
            Piece::Address(_) | Piece::Secondary(_) => {
                self.told.push(Told::Nothing);
                return Ok(true);
            }
            Piece::Build(lists, system) => self.build(lists, *system)?,
            Piece::Record(record) => {
                self.record(*record)?;
                if !script::has_mark(record) {
                    return Ok(false);
                }
            }
            Piece::Tail => {
                self.tally.count(&Answer::refused(Refusal::Record));
                return Ok(false);
            }
        }
        self.try_bound()?;
        if self.random.per_mille(ORDERS) {
            self.try_orders()?;
        }
        Ok(true)
    }
}

/// A whole list, up to the first bad record; what the subject answered to each piece so far.
pub fn compare_calls(
    subject: &mut dyn Subject,
    list: &[u8],
    tally: &mut Tally,
) -> Result<Vec<Told>, Difference> {
    subject.start();
    let mut walk = Walk {
        bus: Bus::new(),
        ledger: Ledger::new(),
        requests: Requests::new(),
        end_marks: EndMarks::new(),
        polls: ParallelPolls::new(),
        subject,
        tally,
        number: 0,
        told: Vec::new(),
        random: either_order::chance_of(list),
    };
    for piece in pieces::of_list(list) {
        walk.number += 1;
        if !walk.piece(&piece)? {
            return Ok(walk.told);
        }
    }
    // No call gives a party another name.
    walk.agree_on_names()?;
    walk.try_orders()?;
    Ok(walk.told)
}
