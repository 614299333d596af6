//! What tells that model and subject are not alike, or that the model breaks a rule.

use std::fmt::Debug;

use super::either_order::Unlike;
use super::words;
use crate::model::{Answer, Drivers, Name, Turns};

/// Where a list shows a fault. Its pieces are numbered from 1; a run's steps have its number.
#[derive(Clone, PartialEq, Debug)]
pub enum Difference {
    Answer {
        number: usize,
        model: Answer,
        subject: Answer,
    },
    Turns {
        number: usize,
        model: Turns,
        subject: Turns,
    },
    Drivers {
        number: usize,
        model: Drivers,
        subject: Drivers,
    },
    /// The drivers, asked for, leave another bus than the lines do.
    LikeLines {
        number: usize,
    },
    /// An access leaves another bus than the host call that it stands for.
    LikeCall {
        number: usize,
    },
    /// What the party is called by, if there is one.
    Name {
        number: usize,
        party: u8,
        model: Option<Name>,
        subject: Option<Name>,
    },
    /// A run does not leave the bus that its steps leave.
    Bus {
        number: usize,
    },
    /// After how many turns the byte ended, if it did so within the bound.
    Bound {
        number: usize,
        model: Option<usize>,
        subject: Option<usize>,
    },
    Text {
        line: usize,
        model: String,
        subject: String,
    },
    Ledger {
        number: usize,
        rule: &'static str,
    },
    Request {
        number: usize,
        rule: &'static str,
    },
    EndMark {
        number: usize,
        rule: &'static str,
    },
    Poll {
        number: usize,
        rule: &'static str,
    },
    /// A parallel poll, or a refused own status, leaves another bus than it found.
    Changes {
        number: usize,
    },
    /// Without its parallel polls the list is answered otherwise, or leads to another bus.
    WithoutPolls {
        number: usize,
    },
    /// Steps on copies in two orders.
    Orders {
        number: usize,
        unlike: Unlike,
    },
    Stopped,
}

fn both(model: impl Debug, subject: impl Debug) -> String {
    format!("model {model:?}, subject {subject:?}")
}

fn broken(whose: &str, rule: &str) -> String {
    format!("the model breaks {whose}: {rule}")
}

impl Difference {
    pub fn words(&self) -> String {
        match self.last_piece() {
            Some(number) => format!("piece {number}: {}", self.story()),
            None => self.story(),
        }
    }

    fn story(&self) -> String {
        match self {
            Difference::Answer { model, subject, .. } => {
                let (model, subject) = (words::answer(model), words::answer(subject));
                format!("model {model}, subject {subject}")
            }
            Difference::Turns { model, subject, .. } => both(model, subject),
            Difference::Drivers { model, subject, .. } => {
                let (model, subject) = (words::drivers(model), words::drivers(subject));
                format!("model {model}; subject {subject}")
            }
            Difference::LikeLines { .. } => "drivers leave another bus than lines".to_string(),
            Difference::LikeCall { .. } => "an access leaves another bus than its call".to_string(),
            Difference::Name {
                party,
                model,
                subject,
                ..
            } => {
                format!("name of party {party}: {}", both(model, subject))
            }
            Difference::Bus { .. } => "the run leaves another bus than its steps".to_string(),
            Difference::Bound { model, subject, .. } => {
                format!("turns until the byte ends: {}", both(model, subject))
            }
            Difference::Text {
                line,
                model,
                subject,
            } => {
                format!("text line {line}: {}", both(model, subject))
            }
            Difference::Ledger { rule, .. } => broken("demand 3", rule),
            Difference::Request { rule, .. } => broken("Q-5's condition", rule),
            Difference::EndMark { rule, .. } => broken("the rule of feoi", rule),
            Difference::Poll { rule, .. } => broken("the rule of parallel polls", rule),
            Difference::Changes { .. } => "the call changes the subject's bus".to_string(),
            Difference::WithoutPolls { .. } => "the subject differs without polls".to_string(),
            Difference::Orders { unlike, .. } => unlike.words(),
            Difference::Stopped => "a panic".to_string(),
        }
    }

    /// The number of the last piece that matters, if it is known.
    pub fn last_piece(&self) -> Option<usize> {
        match self {
            Difference::Answer { number, .. }
            | Difference::Turns { number, .. }
            | Difference::Drivers { number, .. }
            | Difference::LikeLines { number }
            | Difference::LikeCall { number }
            | Difference::Name { number, .. }
            | Difference::Bus { number }
            | Difference::Bound { number, .. }
            | Difference::Ledger { number, .. }
            | Difference::Request { number, .. }
            | Difference::EndMark { number, .. }
            | Difference::Poll { number, .. }
            | Difference::Changes { number }
            | Difference::WithoutPolls { number }
            | Difference::Orders { number, .. } => Some(*number),
            Difference::Text { .. } | Difference::Stopped => None,
        }
    }
}
