//! Accesses on every kind of state: reads and writes at offsets that are carried and at others, of every
//! party and of one that is not there. Each is tried on copies, beside the host call that it stands for.

use super::pieces;
use crate::compare::alike::{alike, Alike};
use crate::compare::subject::enter_list;
use crate::compare::{Comparison, Difference, Finding};
use crate::model::registers::{AUXILIARY, DATA_OUT, FEOI};
use crate::model::script::Record;
use crate::model::{Access, Bus};

type Done = Result<(), Finding>;

/// Those of the chip, and some that equal one of these mod 8 or mod 128.
const OFFSETS: [u8; 13] = [0, 1, 2, 3, 4, 5, 6, 7, 11, 13, 15, 131, 255];

/// The values that are written on one kind of state.
#[derive(Clone, Copy)]
pub enum Values {
    All,
    /// All of auxiliary commands, and one in eight of the others. Which these are goes round with the
    /// kinds of state, so that each comes on some hundreds of them.
    OneInEight,
}

/// A state that a list leads to.
struct State<'a, 'b> {
    comparison: &'a mut Comparison<'b>,
    list: Vec<u8>,
    bus: Bus,
    values: Values,
    /// The number of its kind.
    number: usize,
}

impl State<'_, '_> {
    /// The list shows the difference if these accesses come after it.
    fn differ(&mut self, accesses: &[Access]) -> Done {
        let pieces = accesses.iter().flat_map(|own| pieces::access(*own));
        let list: Vec<u8> = self.list.iter().copied().chain(pieces).collect();
        self.comparison.list(&list)?;
        let number = list.len();
        Err(Finding {
            list,
            difference: Difference::LikeCall { number },
        })
    }

    /// Refused accesses change nothing, so they are tried on one copy; each accepted one has its own.
    fn try_all(&mut self, accesses: impl Iterator<Item = Access>) -> Done {
        let (mut refused, mut refusals) = (Vec::new(), Vec::new());
        let mut copy = self.bus;
        for access in accesses {
            self.comparison.tally.accesses.tried += 1;
            let model = copy.access(access);
            if !model.accepted() {
                refused.push(access);
                refusals.push(model);
                continue;
            }
            copy = self.bus;
            let Alike { accesses, calls } = alike(access, &self.bus);
            let (answers, same) = self.comparison.subject.try_accesses(&accesses, &calls);
            if !same || answers.first() != Some(&model) {
                self.differ(&[access])?;
            }
        }
        if self.comparison.subject.try_accesses(&refused, &[]) != (refusals, true) {
            self.differ(&refused)?;
        }
        Ok(())
    }

    fn every_access(&mut self, party: u8) -> Done {
        self.try_all(
            OFFSETS
                .into_iter()
                .map(|offset| Access::Read { party, offset }),
        )?;
        for offset in OFFSETS {
            self.every_value(party, offset)?;
        }
        Ok(())
    }

    fn every_value(&mut self, party: u8, offset: u8) -> Done {
        let (first, step) = match self.values {
            Values::OneInEight if offset != AUXILIARY => {
                ((self.number + usize::from(party)) % 8, 8)
            }
            _ => (0, 1),
        };
        let values = (0..=u8::MAX).skip(first).step_by(step);
        self.try_all(values.map(|value| Access::Write {
            party,
            offset,
            value,
        }))
    }
}

impl<'a, 'b> State<'a, 'b> {
    fn after(
        comparison: &'a mut Comparison<'b>,
        list: Vec<u8>,
        values: Values,
        number: usize,
    ) -> State<'a, 'b> {
        enter_list(comparison.subject, &list);
        let bus = pieces::bus_after(&list);
        State {
            comparison,
            list,
            bus,
            values,
            number,
        }
    }
}

/// Each kind of state with no party marked, and then with all of them.
pub fn run(comparison: &mut Comparison, prefixes: &[Vec<Record>], values: Values) -> Done {
    for (number, prefix) in prefixes.iter().enumerate() {
        let mut list = prefix.concat();
        let mut state = State::after(comparison, list.clone(), values, number);
        let parties = state.bus.count as u8;
        for party in 0..=parties {
            state.every_access(party)?;
        }
        let marks = (0..parties).map(|party| Access::auxiliary(party, FEOI));
        list.extend(marks.flat_map(pieces::access));
        let mut marked = State::after(comparison, list, values, number);
        for party in 0..=parties {
            marked.every_value(party, AUXILIARY)?;
            marked.every_value(party, DATA_OUT)?;
        }
    }
    Ok(())
}
