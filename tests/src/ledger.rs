//! Books that are kept beside a machine, call by call: demand 3, the condition on second requests,
//! feoi's marks, parallel polls, the bound, and how often everything came.

pub mod bound;
mod delivery;
mod driver_rules;
mod end_marks;
mod parallel_polls;
mod request_condition;
pub mod tally;

pub use delivery::Ledger;
pub use end_marks::EndMarks;
pub use parallel_polls::ParallelPolls;
pub use request_condition::Requests;

/// The error is the rule that is broken.
type Check = Result<(), &'static str>;

fn demand(holds: bool, broken_rule: &'static str) -> Check {
    if holds {
        Ok(())
    } else {
        Err(broken_rule)
    }
}
