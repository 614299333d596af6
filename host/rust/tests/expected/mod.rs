//! The answers that the tests expect.

use meskvorn::{Answer, Event, Refusal};

pub const NONE: Answer = accepted(Event::None, 0, false);

pub const fn accepted(event: Event, byte: u8, end: bool) -> Answer {
    Answer {
        refusal: Refusal::Accepted,
        event,
        byte,
        end,
        dropped: 0,
        broken: 0,
    }
}

pub fn refused(refusal: Refusal) -> Answer {
    Answer { refusal, ..NONE }
}
