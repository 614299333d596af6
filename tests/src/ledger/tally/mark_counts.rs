//! What secondaries did to parties that have one, and how marks came and went.

use crate::model::script::{Record, BUILD, RESET, STEP};
use crate::model::{Answer, Bus, Event, Mark, Party};

/// What is counted, in the order of the words.
#[derive(Clone, Copy)]
enum Count {
    TalkOn,
    ListenOn,
    TalkOff,
    LostByCommand,
    LostByAttention,
    LostByReset,
    OwnMark,
    Data,
    Status,
    Passed,
    Run,
}

const COUNTS: usize = 11;

#[derive(Clone, Default, Debug)]
pub struct Marks {
    pub counts: [u64; COUNTS],
}

impl Marks {
    pub const WORDS: [&'static str; COUNTS] = [
        "talk on by a secondary",
        "listen on by a secondary",
        "talk off by a secondary",
        "mark lost by a command",
        "mark lost by attention",
        "mark lost by reset",
        "mark of a sender's own",
        "data from an extended talker",
        "status from an extended talker",
        "control to an extended talker",
        "run with secondaries",
    ];

    fn count(&mut self, what: Count, holds: bool) {
        self.counts[what as usize] += u64::from(holds);
    }

    /// One call, accepted or not.
    pub fn enter(&mut self, before: &Bus, call: Record, answer: &Answer, after: &Bus) {
        if call[2] == BUILD || !answer.accepted() || !before.has_secondaries() {
            return;
        }
        let actor = usize::from(call[3]);
        for place in 0..before.count {
            let (was, is) = (&before.parties[place], &after.parties[place]);
            if was.primary_mark().is_some() && is.primary_mark().is_none() {
                self.count(lost_by(call, answer, place == actor), true);
            }
        }
        if call[2] == STEP {
            self.enter_step(&before.parties[actor], answer, after, actor);
        }
    }

    fn enter_step(&mut self, was: &Party, answer: &Answer, after: &Bus, actor: usize) {
        let is = &after.parties[actor];
        let hears = answer.event == Event::Heard || was.is_active();
        if hears && matches!(answer.byte & 0x7F, 0x60..=0x7E) {
            self.count(Count::TalkOn, is.talk && !was.talk);
            self.count(Count::ListenOn, is.listen && !was.listen);
            let to_talk = was.mark == Some(Mark::TalkPrimary);
            self.count(Count::TalkOff, to_talk && was.talk && !is.talk);
        }
        let extended = is.name.secondary.is_some();
        let marked = was.primary_mark().is_none() && is.primary_mark().is_some();
        self.count(Count::OwnMark, marked && was.is_active());
        self.count(Count::Data, extended && answer.event == Event::Data);
        self.count(Count::Status, extended && answer.event == Event::Stat);
        if answer.event == Event::Passed {
            let mut active = after.present().iter().filter(|party| party.is_active());
            let to = active.any(|party| party.name.secondary.is_some());
            self.count(Count::Passed, to);
        }
    }

    /// An accepted run.
    pub fn enter_run(&mut self, bus: &Bus) {
        self.count(Count::Run, bus.has_secondaries());
    }
}

/// A step clears marks by what is heard, unless control passes.
fn lost_by(call: Record, answer: &Answer, own: bool) -> Count {
    match call[2] {
        STEP if answer.event != Event::Passed => Count::LostByCommand,
        RESET if own => Count::LostByReset,
        _ => Count::LostByAttention,
    }
}
