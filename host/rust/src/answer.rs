//! What a call answers, and what a run does.

/// The most parties that a bus has.
pub const MOST_PARTIES: usize = 15;

/// Document 01's table of refusals, by number, and those that document 02 adds.
#[derive(Clone, Copy, PartialEq, Eq, Debug)]
#[repr(u8)]
pub enum Refusal {
    Accepted,
    NoParty,
    BadBuild,
    BadValue,
    Role,
    Attention,
    Talker,
    Standing,
    Full,
    Empty,
    Record,
    NoReg,
}

impl Refusal {
    /// By number.
    pub const ALL: [Refusal; 12] = [
        Refusal::Accepted,
        Refusal::NoParty,
        Refusal::BadBuild,
        Refusal::BadValue,
        Refusal::Role,
        Refusal::Attention,
        Refusal::Talker,
        Refusal::Standing,
        Refusal::Full,
        Refusal::Empty,
        Refusal::Record,
        Refusal::NoReg,
    ];
}

/// Document 01's events, in its order.
#[derive(Clone, Copy, PartialEq, Eq, Debug)]
#[repr(u8)]
pub enum Event {
    None,
    Moved,
    Cmd,
    Data,
    Stat,
    Took,
    Heard,
    Clear,
    Trigger,
    Ended,
    Passed,
    Noacc,
    Read,
    Lines,
}

impl Event {
    pub const ALL: [Event; 14] = [
        Event::None,
        Event::Moved,
        Event::Cmd,
        Event::Data,
        Event::Stat,
        Event::Took,
        Event::Heard,
        Event::Clear,
        Event::Trigger,
        Event::Ended,
        Event::Passed,
        Event::Noacc,
        Event::Read,
        Event::Lines,
    ];

    /// The event as busrun prints it.
    pub fn word(self) -> &'static str {
        const WORDS: [&str; 14] = [
            "none", "moved", "cmd", "data", "stat", "took", "heard", "clear", "trigger", "ended",
            "passed", "noacc", "read", "lines",
        ];
        WORDS[self as usize]
    }

    pub fn has_byte(self) -> bool {
        !matches!(self, Event::None | Event::Moved)
    }
}

/// A refusal has the event none, and nothing in all that follows.
#[derive(Clone, Copy, PartialEq, Eq, Debug)]
pub struct Answer {
    pub refusal: Refusal,
    pub event: Event,
    /// 0 if the event has none.
    pub byte: u8,
    pub end: bool,
    /// Held bytes dropped, at most 2.
    pub dropped: u8,
    /// Standing bytes broken off, at most 1.
    pub broken: u8,
}

impl Answer {
    /// From the number that the library gives.
    pub(crate) fn of(packed: u64) -> Answer {
        let [refusal, event, byte, end, dropped, broken, ..] = packed.to_le_bytes();
        Answer {
            refusal: Refusal::ALL[usize::from(refusal)],
            event: Event::ALL[usize::from(event)],
            byte,
            end: end != 0,
            dropped,
            broken,
        }
    }
}

/// What a run answers.
#[derive(Clone, Copy, PartialEq, Eq, Debug)]
pub struct Turns {
    pub refusal: Refusal,
    /// How many turns each party had, by its number; 0 where there is no party.
    pub counts: [u16; MOST_PARTIES],
}
