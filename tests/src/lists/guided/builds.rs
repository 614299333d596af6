//! The builds of guided lists.

use super::Guided;
use crate::lists::{pieces, random_racks};
use crate::model::script::{self, BUILD};
use crate::model::Lists;

impl Guided {
    pub(super) fn good_build(&mut self) {
        let random = &mut self.random;
        let count = match random.below(20) {
            0 => 1,
            1..=7 => 2,
            8..=13 => 3,
            14..=16 => 4,
            17..=18 => 1 + random.below(15),
            _ => random.pick(&[14, 15]),
        };
        let system = random.below(count) as u8;
        if random.per_mille(self.habits.from_lists) {
            let lists = random_racks::lists(count, random);
            return self.build(&lists, system);
        }
        let first = match random.below(4) {
            0 => 0,
            1 => 31 - count,
            _ => random.below(32 - count),
        };
        self.call(script::record(BUILD, system, count as u8, first as u8));
    }

    pub(super) fn bad_build(&mut self) {
        let random = &mut self.random;
        let count = 1 + random.below(15) as u8;
        if random.per_mille(self.habits.from_lists) {
            let lists = random_racks::spoiled(count.into(), random);
            return self.build(&lists, 0);
        }
        let record = match random.below(5) {
            0 => script::record(BUILD, random.below(2) as u8, 0, random.below(31) as u8),
            1 => script::record(BUILD, 0, 16 + random.below(240) as u8, 0),
            2 => script::record(BUILD, 0, count, 32 - count),
            3 => script::record(BUILD, 0, count, 31 + random.below(225) as u8),
            _ => script::record(BUILD, count + random.below(240) as u8, count, 0),
        };
        self.call(record);
    }

    /// The plan was for the bus that goes.
    pub(super) fn build_anew(&mut self) {
        self.plan.clear();
        if self.random.per_mille(300) {
            self.bad_build();
        }
        self.good_build();
    }

    fn build(&mut self, lists: &Lists, system: u8) {
        self.bus.build_extended(lists, system);
        self.list.extend(pieces::build(lists, system).concat());
    }
}
