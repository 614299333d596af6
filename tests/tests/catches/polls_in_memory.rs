//! A poll whose lines are not those of the memory, or that leaves another bus than lines leave, must be
//! found on any memory.

use meskvorn_tests::compare::memory::Rows;
use meskvorn_tests::compare::polls_in_memory::{self, Polled, Told};
use meskvorn_tests::model::{Answer, Event, Refusal};

/// Row 15 has the number of parties, the active one, and a byte that settling clears.
#[derive(Clone)]
struct Settling {
    rows: Rows,
    poll: fn(&mut Settling) -> u8,
}

impl PartialEq for Settling {
    fn eq(&self, other: &Settling) -> bool {
        self.rows == other.rows
    }
}

impl Polled for Settling {
    fn has_party(&self, party: u8) -> bool {
        party < self.rows[15][0]
    }

    fn lines(&mut self) -> Answer {
        self.rows[15][2] = 0;
        Answer::with_byte(Event::Lines, 0x80, false)
    }

    fn poll(&mut self, party: u8) -> Answer {
        if party != self.rows[15][1] {
            return Answer::refused(Refusal::Role);
        }
        Answer::with_byte(Event::Lines, (self.poll)(self), false)
    }
}

fn told(settling: &Settling) -> u8 {
    let parties = settling.rows[..usize::from(settling.rows[15][0])].iter();
    let lines = parties.map(|row| match (row[21], row[23] == 1) {
        (1, false) | (2, true) => 1 << row[22],
        _ => 0,
    });
    lines.fold(0, |all, line| all | line)
}

fn right(settling: &mut Settling) -> u8 {
    settling.lines();
    told(settling)
}

/// Racks of every number of parties, with the first one and with the last one active.
fn samples() -> Vec<Rows> {
    let rack = |count: u8, active: u8| {
        let mut rows = [[0; 24]; 16];
        rows[15][..3].copy_from_slice(&[count, active, count % 2]);
        rows
    };
    let counts = 1..=15;
    counts
        .flat_map(|count| [rack(count, 0), rack(count, count - 1)])
        .collect()
}

fn compared(poll: fn(&mut Settling) -> u8) -> Result<Told, String> {
    polls_in_memory::run(&samples(), 1, |rows| Settling { rows, poll })
}

#[test]
fn the_right_polls_agree_and_all_came() {
    let told = compared(right).expect("no difference");
    assert!(told.missing().is_empty(), "{told:?}");
}

#[test]
fn wrong_polls_are_found() {
    let wrong: [fn(&mut Settling) -> u8; 4] = [
        |settling| right(settling).reverse_bits(),
        |settling| right(settling) & 0x7F,
        |settling| told(settling),
        |settling| {
            settling.rows[0][23] = 0;
            right(settling)
        },
    ];
    for (place, poll) in wrong.into_iter().enumerate() {
        let story = compared(poll).expect_err("a wrong poll");
        assert!(story.starts_with("a parallel poll by party"), "{place}");
    }
}

#[test]
fn what_never_came_is_told() {
    let missing = Told::default().missing();
    assert_eq!(missing.len(), Told::WORDS.len());
    assert!(missing.contains(&"parallel polls on any memory with one line on".to_string()));
}
