//! What a machine can get wrong about parallel polls: the polls, the own statuses, and what other calls do
//! to marks and responses.

mod codes;
mod commands;
mod keeping;
mod polls;
mod statuses;

use super::Fault;
use crate::model::{Answer, Bus, Mark, Party, PollCall};
use codes::CODE_FAULTS;
use commands::COMMAND_FAULTS;
use keeping::KEEPING_FAULTS;
use polls::POLL_CALL_FAULTS;
use statuses::STATUS_FAULTS;

/// In the place of an own status or a parallel poll.
pub type PollCallFault = fn(&mut Bus, PollCall) -> Answer;

/// A wrong call, or a fault of what other calls do.
#[derive(Clone, Copy)]
pub enum PollFault {
    OfPollCall(PollCallFault),
    OfCall(Fault),
}

/// Every fault, by name.
pub fn poll_faults() -> impl Iterator<Item = (&'static str, PollFault)> {
    let of_calls = POLL_CALL_FAULTS.iter().chain(STATUS_FAULTS);
    let of_calls = of_calls.map(|(name, fault)| (*name, PollFault::OfPollCall(*fault)));
    let others = CODE_FAULTS.iter().chain(COMMAND_FAULTS);
    let others = others.chain(KEEPING_FAULTS);
    of_calls.chain(others.map(|(name, fault)| (*name, PollFault::OfCall(*fault))))
}

fn is_configuring(party: &Party) -> bool {
    party.mark == Some(Mark::Configuring)
}
