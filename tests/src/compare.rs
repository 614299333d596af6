//! Model and subject side by side: a list is compared call by call, and by the text of the script that
//! it stands for.

pub mod alike;
pub mod any_memory;
pub mod any_order;
pub mod builds;
mod call_by_call;
mod difference;
pub mod either_order;
pub mod memory;
pub mod polls_in_memory;
pub mod product;
mod shrink;
pub mod subject;
pub mod vectors;
pub mod whole_run;
pub mod without_polls;
mod words;

pub use difference::Difference;

use std::panic::{catch_unwind, AssertUnwindSafe};

use crate::ledger::tally::Tally;
use crate::lists::pieces;
use crate::model::script::{self, LONGEST, RECORD};
use subject::Subject;

/// The text of the whole script that the list stands for, if there is one.
fn compare_text(subject: &mut dyn Subject, list: &[u8]) -> Result<(), Difference> {
    let Some(script) = &pieces::as_script(list) else {
        return Ok(());
    };
    let (mut model, mut other) = (Vec::new(), Vec::new());
    script::run(script, &mut model);
    subject.run_script(script, &mut other);
    if model == other {
        return Ok(());
    }
    let (model, other) = (
        String::from_utf8_lossy(&model),
        String::from_utf8_lossy(&other),
    );
    let mut ours = model.split_inclusive('\n');
    let mut theirs = other.split_inclusive('\n');
    for line in 1.. {
        let (one, two) = (ours.next().unwrap_or(""), theirs.next().unwrap_or(""));
        if one != two {
            return Err(Difference::Text {
                line,
                model: one.into(),
                subject: two.into(),
            });
        }
    }
    Ok(())
}

/// Compares one list in both ways, and without its polls; counts what came.
pub fn compare(
    subject: &mut dyn Subject,
    list: &[u8],
    tally: &mut Tally,
) -> Result<(), Difference> {
    let both = || {
        if list.len() <= LONGEST {
            let told = call_by_call::compare_calls(subject, list, tally)?;
            without_polls::compare_without_polls(subject, list, &told)?;
        }
        compare_text(subject, list)
    };
    let found = catch_unwind(AssertUnwindSafe(both)).unwrap_or(Err(Difference::Stopped));
    tally.lists += 1;
    found
}

/// A difference with the shortest list found for it.
#[derive(Debug)]
pub struct Finding {
    pub list: Vec<u8>,
    pub difference: Difference,
}

impl Finding {
    pub fn print(&self) {
        println!("DIFFERENCE {}", self.difference.words());
        if self.list.len() > LONGEST {
            println!("a list of {} bytes", self.list.len());
            return;
        }
        println!("list {}", words::hex(&self.list));
        for (place, piece) in self.list.chunks(RECORD).enumerate() {
            println!(
                "{:>5} {:<12} {}",
                place + 1,
                words::hex(piece),
                words::piece(piece)
            );
        }
    }
}

/// Many lists against one subject.
pub struct Comparison<'a> {
    pub subject: &'a mut dyn Subject,
    pub tally: Tally,
}

impl<'a> Comparison<'a> {
    pub fn new(subject: &'a mut dyn Subject) -> Comparison<'a> {
        Comparison {
            subject,
            tally: Tally::default(),
        }
    }

    /// Without steps that are tried in two orders on copies.
    pub fn of_calls_alone(subject: &'a mut dyn Subject) -> Comparison<'a> {
        let mut comparison = Comparison::new(subject);
        comparison.tally.calls_alone = true;
        comparison
    }

    /// Compares one list, and shortens it if it shows a difference.
    pub fn list(&mut self, list: &[u8]) -> Result<(), Finding> {
        match compare(self.subject, list, &mut self.tally) {
            Ok(()) => Ok(()),
            Err(first) => {
                let calls_alone = self.tally.calls_alone;
                Err(shrink::shorten(self.subject, list, first, calls_alone))
            }
        }
    }
}
