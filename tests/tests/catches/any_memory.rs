//! A refused call that changes a byte of any memory must be found, and what never came is told.

use meskvorn_tests::compare::any_memory::{self, InMemory};
use meskvorn_tests::compare::memory::Rows;
use meskvorn_tests::model::script::Call;
use meskvorn_tests::model::{Access, PollCall, Refusal};

const CALL: u8 = 1;
const RUN: u8 = 2;
const ACCESS: u8 = 3;
const POLL_CALL: u8 = 4;

/// Has as many parties as the last row's first byte says, and refuses calls of others. A wrong one
/// clears the last byte where it refuses one sort of call.
#[derive(Clone, PartialEq)]
struct Counted<const WRONG: u8>(Rows);

impl<const WRONG: u8> Counted<WRONG> {
    fn refused_if(&mut self, refused: bool, sort: u8) -> Refusal {
        if !refused {
            self.0 = [[0; 24]; 16];
            return Refusal::Accepted;
        }
        if sort == WRONG {
            self.0[15][23] = 0;
        }
        Refusal::NoParty
    }
}

impl<const WRONG: u8> InMemory for Counted<WRONG> {
    fn of(rows: Rows) -> Self {
        Counted(rows)
    }

    fn call(&mut self, [_, party, ..]: Call) -> Refusal {
        self.refused_if(party >= self.0[15][0], CALL)
    }

    fn give_turns(&mut self, _: u16) -> Refusal {
        self.refused_if(self.0[15][0] == 0, RUN)
    }

    fn access(&mut self, access: Access) -> Refusal {
        self.refused_if(access.party() >= self.0[15][0], ACCESS)
    }

    fn poll_call(&mut self, call: PollCall) -> Refusal {
        self.refused_if(call.party() >= self.0[15][0], POLL_CALL)
    }
}

const SAMPLES: [Rows; 1] = [[[1; 24]; 16]];

#[test]
fn refused_calls_that_change_the_memory_are_found() {
    let found = any_memory::run::<Counted<CALL>>(&SAMPLES, 1);
    let story = found.expect_err("a refused call changed the memory");
    assert!(story.contains("is refused with NOPARTY, and changes"));
    assert!(!story.starts_with("a run") && !story.contains("register "));
}

#[test]
fn refused_runs_that_change_the_memory_are_found() {
    let found = any_memory::run::<Counted<RUN>>(&SAMPLES, 1);
    let story = found.expect_err("a refused run changed the memory");
    assert!(story.starts_with("a run of"));
}

#[test]
fn refused_accesses_that_change_the_memory_are_found() {
    let found = any_memory::run::<Counted<ACCESS>>(&SAMPLES, 1);
    let story = found.expect_err("a refused access changed the memory");
    assert!(story.starts_with("read register") || story.starts_with("write register"));
}

#[test]
fn refused_statuses_and_polls_that_change_the_memory_are_found() {
    let found = any_memory::run::<Counted<POLL_CALL>>(&SAMPLES, 1);
    let story = found.expect_err("a refused call changed the memory");
    assert!(story.starts_with("own status party") || story.starts_with("parallel poll by"));
}

#[test]
fn what_never_came_is_told() {
    let met = any_memory::run::<Counted<0>>(&SAMPLES, 1).expect("no difference");
    let missing = met.missing();
    assert_eq!(missing.len(), 17);
    assert!(missing.contains(&"parallel polls STANDING on any memory".to_string()));
    assert!(missing.contains(&"own statuses BADVALUE on any memory".to_string()));
    assert!(missing.contains(&"calls TALKER on any memory".to_string()));
    assert!(missing.contains(&"accesses NOREG on any memory".to_string()));
    assert!(!missing.iter().any(|word| word.starts_with("runs")));
}
