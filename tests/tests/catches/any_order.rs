//! A run that is not its steps, in the order of the names that the bus tells, must be found on any memory.

use meskvorn_tests::compare::any_order::{self, Orders, Rounds};
use meskvorn_tests::compare::memory::Rows;
use meskvorn_tests::model::{Name, Refusal, Turns, Waiting, MOST_PARTIES};
use meskvorn_tests::wrong::{OrderFault, ORDER_FAULTS, UNBUILT_ORDER_FAULTS};

/// Row 15 has the number of parties and of steps; a row its primary, whether it has a secondary, that, and
/// when it was stepped last.
#[derive(Clone)]
struct Stepped {
    rows: Rows,
    run: Run,
}

#[derive(Clone, Copy)]
enum Run {
    Right,
    Ordered(OrderFault),
    /// Counts with no steps.
    NoSteps,
    /// The parties change their names with the first turn.
    Renames,
}

impl PartialEq for Stepped {
    fn eq(&self, other: &Stepped) -> bool {
        self.rows == other.rows
    }
}

impl Stepped {
    fn round(&self) -> Vec<usize> {
        let parties = 0..self.rows[15][0];
        let names: Vec<Name> = parties.map_while(|party| self.name(party)).collect();
        match self.run {
            Run::Ordered(order) => order(&names),
            _ => Waiting::new(&names).take(names.len()).collect(),
        }
    }
}

impl Rounds for Stepped {
    fn name(&self, party: u8) -> Option<Name> {
        let [primary, has, own, ..] = self.rows[usize::from(party)];
        let secondary = (has == 1).then_some(own);
        (party < self.rows[15][0]).then_some(Name { primary, secondary })
    }

    fn step(&mut self, party: u8) {
        self.rows[15][1] += 1;
        self.rows[usize::from(party)][3] = self.rows[15][1];
    }

    fn give_turns(&mut self, turns: u16) -> Turns {
        let mut counts = [0; MOST_PARTIES];
        for place in self.round().into_iter().cycle().take(turns.into()) {
            counts[place] += 1;
            match self.run {
                Run::NoSteps => {}
                Run::Renames => self.rows[place][0] ^= 1,
                _ => self.step(place as u8),
            }
        }
        let refusal = Refusal::Accepted;
        Turns { refusal, counts }
    }
}

/// Racks of every number of parties, in both orders, every second party with a secondary.
fn samples() -> Vec<Rows> {
    let rack = |count: u8, falls: bool| {
        let mut rows = [[0; 24]; 16];
        rows[15][0] = count;
        for place in 0..count {
            let address = if falls { 30 - place } else { place };
            let (primary, has) = (address - address % 2, place % 2);
            rows[usize::from(place)][..3].copy_from_slice(&[primary, has, address]);
        }
        rows
    };
    let counts = 0..=MOST_PARTIES as u8;
    counts
        .flat_map(|count| [rack(count, false), rack(count, true)])
        .collect()
}

fn compared(run: Run) -> Result<Orders, String> {
    any_order::run(&samples(), 1, |rows| Stepped { rows, run })
}

#[test]
fn the_right_order_agrees_and_every_sort_of_names_came() {
    let orders = compared(Run::Right).expect("no difference");
    assert!(orders.missing().is_empty(), "{orders:?}");
}

#[test]
fn every_wrong_order_is_found() {
    for (name, order) in ORDER_FAULTS.iter().chain(UNBUILT_ORDER_FAULTS) {
        let found = compared(Run::Ordered(*order));
        let story = found.expect_err(name);
        assert!(story.starts_with("a run of"), "{name}: {story}");
    }
}

#[test]
fn counts_without_steps_and_new_names_are_found() {
    let story = compared(Run::NoSteps).expect_err("no steps");
    assert!(story.contains("leaves another bus than its steps"));
    let story = compared(Run::Renames).expect_err("new names");
    assert!(story.contains("changes a name"));
}

#[test]
fn what_never_came_is_told() {
    let missing = Orders::default().missing();
    assert_eq!(missing.len(), Orders::WORDS.len());
    assert!(missing.contains(&"runs with two equal names on any memory".to_string()));
}
