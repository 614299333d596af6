//! The whole comparison with one subject: builds, kinds of state, accesses and orders of steps on all of
//! these, tables, then guided lists.

use std::time::Instant;

use super::subject::Subject;
use super::{builds, Comparison, Finding};
use crate::lists::every_access::{self, Values};
use crate::lists::guided::Guided;
use crate::lists::tables::{self, bound_starts};
use crate::lists::{every_order, kinds_of_state};

/// How many further lists, and how many differences among them, may give a shorter finding.
const MORE_LISTS: usize = 2000;
const MORE_FINDINGS: usize = 8;

fn all_parts(
    comparison: &mut Comparison,
    seed: u64,
    records: u64,
    values: Values,
) -> Result<usize, Finding> {
    let prefixes = kinds_of_state::prefixes();
    kinds_of_state::run(comparison, &prefixes, seed)?;
    every_access::run(comparison, &prefixes, values)?;
    every_order::run(comparison, &prefixes)?;
    tables::run(comparison, seed)?;
    bound_starts::run(comparison)?;
    let mut guided = Guided::new(seed);
    while comparison.tally.records < records {
        comparison.list(guided.list())?;
    }
    Ok(prefixes.len())
}

/// Shortening may stop at a long list; other lists may show a fault by a short one.
pub fn shortest(comparison: &mut Comparison, seed: u64, first: Finding) -> Finding {
    let mut guided = Guided::new(seed);
    let mut best = first;
    let mut findings = 0;
    for _ in 0..MORE_LISTS {
        if let Err(other) = comparison.list(guided.list()) {
            findings += 1;
            if other.list.len() < best.list.len() {
                best = other;
            }
        }
        if findings == MORE_FINDINGS {
            break;
        }
    }
    best
}

/// Builds and tables, then guided lists until so many records were compared; on every kind of state
/// these values are written to registers. True if all agreed, and all came that has to come.
pub fn run(subject: &mut dyn Subject, seed: u64, records: u64, values: Values) -> bool {
    let start = Instant::now();
    let lists = match builds::run(subject, seed) {
        Ok(lists) => lists,
        Err(story) => {
            println!("DIFFERENCE {story}");
            return false;
        }
    };
    lists.print();
    let mut comparison = Comparison::new(subject);
    let kinds = match all_parts(&mut comparison, seed, records, values) {
        Ok(kinds) => kinds,
        Err(finding) => {
            shortest(&mut comparison, seed, finding).print();
            return false;
        }
    };
    let tally = &comparison.tally;
    tally.print();
    let seconds = start.elapsed().as_secs_f64();
    println!("{kinds} kinds of state; {seconds:.1} s, seed {seed}");
    println!("{:.0} records per second", tally.records as f64 / seconds);
    let calls = lists.calls + tally.calls() + tally.accesses.tried;
    println!("{calls} calls compared one by one");
    let mut missing = tally.missing();
    missing.extend(lists.lengths.missing());
    if !missing.is_empty() {
        println!("NEVER CAME {}", missing.join(", "));
    }
    missing.is_empty()
}
