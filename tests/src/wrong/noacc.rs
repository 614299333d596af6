//! What a machine can get wrong about a byte that nobody is there to take.

use super::{actor, is, was};
use crate::model::script::{Record, STEP};
use crate::model::{Answer, Bus, Event, Source, NRFD};

pub fn with_a_listener(bus: &mut Bus, before: &Bus, call: Record, answer: &mut Answer) {
    let waits = is(call, answer, STEP) && was(before, call).source == Source::Sdys;
    if waits && before.line_bits() & NRFD != 0 {
        if let Some(held) = actor(bus, call).held {
            *answer = Answer::with_byte(Event::Noacc, held.value, held.end);
        }
    }
}

pub fn drops_behind_status(bus: &mut Bus, before: &Bus, call: Record, answer: &mut Answer) {
    if answer.event == Event::Noacc && was(before, call).is_polled(before.atn()) {
        answer.dropped = u8::from(actor(bus, call).held.take().is_some());
    }
}

pub fn drops(bus: &mut Bus, before: &Bus, call: Record, answer: &mut Answer) {
    if answer.event == Event::Noacc && !was(before, call).is_polled(before.atn()) {
        answer.dropped = u8::from(actor(bus, call).held.take().is_some());
    }
}

pub fn goes_back(bus: &mut Bus, _: &Bus, call: Record, answer: &mut Answer) {
    if answer.event == Event::Noacc {
        actor(bus, call).source = Source::Sgns;
    }
}

pub fn status_goes_back(bus: &mut Bus, before: &Bus, call: Record, answer: &mut Answer) {
    if answer.event == Event::Noacc && was(before, call).is_polled(before.atn()) {
        goes_back(bus, before, call, answer);
    }
}

pub fn command_goes_back(bus: &mut Bus, before: &Bus, call: Record, answer: &mut Answer) {
    if before.atn() {
        goes_back(bus, before, call, answer);
    }
}

/// Its memory of the first noacc is bit 128 of the poll register.
pub fn silent_again(bus: &mut Bus, before: &Bus, call: Record, answer: &mut Answer) {
    if answer.event == Event::Noacc {
        actor(bus, call).saved |= 0x80;
        if was(before, call).saved & 0x80 != 0 {
            *answer = Answer::NOTHING;
        }
    }
}
