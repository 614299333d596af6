//! Scenarios of feoi's marks.

use super::{pass_control, poll_of, Goal};
use crate::lists::likely_accesses;
use crate::lists::likely_arguments::{any_party, controller, other_party};
use crate::lists::random_numbers::Random;
use crate::model::registers::{NBAF, SET, SIC, SWRST};
use crate::model::script::{CLEAR, DROP, LISTEN, RESET, TALK, WRITE};
use crate::model::{Access, Bus};

/// A mark, what may or may not keep it, and then the party's next byte through offset 7 as data.
pub fn marked_bytes(bus: &Bus, random: &mut Random, goals: &mut Vec<Goal>) {
    let any = any_party(bus, random);
    let party = random.pick(&[any, any, controller(bus)]);
    goals.push(Goal::Access(likely_accesses::mark(party, random)));
    for _ in 0..random.below(4) {
        before_its_byte(bus, random, goals, party);
    }
    if random.per_mille(700) {
        goals.push(Goal::Call(CLEAR, bus.system as u8, 0, 0));
    }
    goals.push(Goal::Release);
    goals.push(Goal::Call(TALK, party, 1, 0));
    goals.push(Goal::Call(LISTEN, other_party(bus, party, random), 1, 0));
    for _ in 0..1 + random.below(3) {
        goals.push(Goal::Access(Access::data_out(party, random.byte())));
        goals.push(Goal::Finish(8 * bus.count));
    }
}

/// Resets remove the mark, a byte through offset 7 uses it up, and all else keeps it.
fn before_its_byte(bus: &Bus, random: &mut Random, goals: &mut Vec<Goal>, party: u8) {
    let write = Goal::Call(WRITE, party, random.byte(), random.below(2) as u8);
    let auxiliary = |value| Goal::Access(Access::auxiliary(party, value));
    match random.below(13) {
        0 => goals.push(write),
        1 => goals.extend([write, Goal::Call(DROP, party, 0, 0)]),
        2 => goals.extend([write, auxiliary(NBAF)]),
        3 => goals.push(Goal::Call(RESET, party, 0, 0)),
        4 => goals.push(Goal::Call(CLEAR, bus.system as u8, 0, 0)),
        5 => goals.push(Goal::Access(likely_accesses::mark(party, random))),
        6 => goals.push(Goal::Access(likely_accesses::mark(
            any_party(bus, random),
            random,
        ))),
        7 => goals.push(Goal::Access(Access::data_out(party, random.byte()))),
        8 => pass_control(bus, random, goals),
        9 => poll_of(bus, random, goals, party),
        10 => goals.push(random.pick(&[Goal::Gain, Goal::Release, Goal::Data])),
        11 => {
            // While its command stands a reset is refused.
            goals.extend([Goal::Gain, write, Goal::Walk(3 * bus.count)]);
            goals.push(random.pick(&[Goal::Call(RESET, party, 0, 0), auxiliary(SWRST | SET)]));
        }
        _ => goals.push(auxiliary(random.pick(&[
            SWRST,
            SWRST | SET,
            SIC,
            SIC | SET,
        ]))),
    }
    goals.push(Goal::Walk(random.below(6)));
}
