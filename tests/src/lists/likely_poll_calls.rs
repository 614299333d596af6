//! Own statuses and parallel polls of chance.

use super::likely_arguments::{any_party, controller};
use super::random_numbers::Random;
use crate::model::{Bus, PollCall};

/// Mostly 0 or 1.
fn status(random: &mut Random) -> u8 {
    let any = random.byte();
    match random.below(12) {
        0 => random.pick(&[2, 3, 255, any]),
        _ => random.below(2) as u8,
    }
}

/// Mostly of a party that is there, and a poll mostly by the one that may.
pub fn likely_poll_call(bus: &Bus, random: &mut Random) -> PollCall {
    let (any, there) = (random.byte(), any_party(bus, random));
    let other = random.pick(&[bus.count as u8, any]);
    if random.per_mille(500) {
        let party = random.pick(&[there, there, there, there, there, other]);
        let value = status(random);
        return PollCall::OwnStatus { party, value };
    }
    let controller = controller(bus);
    let party = random.pick(&[controller, controller, controller, controller, there, other]);
    PollCall::Poll { party }
}

/// The same without looking at a bus: mostly of one of the first parties.
pub fn any_poll_call(random: &mut Random) -> PollCall {
    let (first, any) = (random.below(4) as u8, random.field(16));
    let party = random.pick(&[first, first, first, any]);
    if random.per_mille(400) {
        let value = status(random);
        return PollCall::OwnStatus { party, value };
    }
    PollCall::Poll { party }
}
