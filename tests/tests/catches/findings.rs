//! What a comparison finds first, and what the ledgers say of a wrong machine by itself.

use meskvorn_tests::compare::either_order::{self, What};
use meskvorn_tests::compare::subject::Subject;
use meskvorn_tests::compare::{Comparison, Finding};
use meskvorn_tests::ledger::tally::{Asked, EndMarkCases, PollCases};
use meskvorn_tests::ledger::{EndMarks, Ledger, ParallelPolls, Requests};
use meskvorn_tests::lists::guided::Guided;
use meskvorn_tests::lists::pieces::{self, Piece};
use meskvorn_tests::lists::{stands_for, tables};
use meskvorn_tests::model::script::Record;
use meskvorn_tests::model::Answer;
use meskvorn_tests::wrong::Wrong;

/// Guided lists until so many records were compared, then the tables.
pub fn first_finding(subject: &mut dyn Subject, records: u64) -> Option<Finding> {
    first_by(&mut Comparison::new(subject), records)
}

/// The same by this comparison.
pub fn first_by(comparison: &mut Comparison, records: u64) -> Option<Finding> {
    let mut guided = Guided::new(3);
    while comparison.tally.records < records {
        if let Err(finding) = comparison.list(guided.list()) {
            return Some(finding);
        }
    }
    tables::run(comparison, 2).err()
}

/// What the ledger says of the machine with the fault of that name.
pub fn ledger_says(fault: &str, list: &[u8]) -> Option<&'static str> {
    ledger_of(&mut Wrong::named(fault), list)
}

/// A call, a build, an access, an own status or a poll by a wrong machine, with the answer; None for any
/// other piece. An access is the host call that it stands for.
fn call_of(machine: &mut Wrong, piece: &Piece) -> Option<(Record, Answer)> {
    match piece {
        Piece::Record(record) => Some((*record, machine.record(*record))),
        Piece::Build(lists, system) => {
            let answer = machine.build_extended(lists, *system);
            Some((pieces::build_of_lists(*system), answer))
        }
        Piece::Access(access) => {
            let record = stands_for::as_record(*access, &machine.bus);
            Some((record, machine.access(*access)))
        }
        Piece::PollCall(call) => Some((pieces::poll_call(*call), machine.poll_call(*call))),
        _ => None,
    }
}

/// Runs a wrong machine alone, runs left out; the rule that it breaks, if the ledger sees one.
pub fn ledger_of(machine: &mut Wrong, list: &[u8]) -> Option<&'static str> {
    let mut ledger = Ledger::new();
    machine.start();
    pieces::of_list(list).find_map(|piece| {
        let before = machine.bus;
        if piece == Piece::Drivers {
            let (told, lines) = (machine.drivers(), before.clone().lines());
            let checked = ledger.check_drivers(&before, &told, lines.byte, &machine.bus);
            return checked.err();
        }
        let (record, answer) = call_of(machine, &piece)?;
        ledger.enter(&before, record, &answer, &machine.bus).err()
    })
}

/// The same by the books of the condition on requests alone.
pub fn condition_of(machine: &mut Wrong, list: &[u8]) -> Option<&'static str> {
    let (mut requests, mut asked) = (Requests::new(), Asked::default());
    machine.start();
    pieces::of_list(list).find_map(|piece| {
        let before = machine.bus;
        let (record, answer) = call_of(machine, &piece)?;
        let entered = requests.enter(&before, record, &answer, &machine.bus, &mut asked);
        entered.err()
    })
}

/// The record that books read which tell accesses from host calls.
fn as_piece(piece: &Piece, record: Record) -> Record {
    match piece {
        Piece::Access(access) => pieces::access(*access),
        _ => record,
    }
}

/// The same by the books of feoi's marks alone.
pub fn end_marks_of(machine: &mut Wrong, list: &[u8]) -> Option<&'static str> {
    let (mut marks, mut cases) = (EndMarks::new(), EndMarkCases::default());
    machine.start();
    pieces::of_list(list).find_map(|piece| {
        let (record, answer) = call_of(machine, &piece)?;
        let entered = as_piece(&piece, record);
        marks.enter(entered, &answer, &mut cases).err()
    })
}

/// The same by the books of parallel polls alone.
pub fn polls_of(machine: &mut Wrong, list: &[u8]) -> Option<&'static str> {
    let (mut polls, mut cases) = (ParallelPolls::new(), PollCases::default());
    machine.start();
    pieces::of_list(list).find_map(|piece| {
        let before = machine.bus;
        let (record, answer) = call_of(machine, &piece)?;
        let entered = as_piece(&piece, record);
        let entered = polls.enter(&before, entered, &answer, &machine.bus, &mut cases);
        entered.err()
    })
}

/// The same by steps in two orders, on copies of its buses.
pub fn orders_of(machine: &mut Wrong, list: &[u8]) -> Option<What> {
    let mut random = either_order::chance_of(list);
    machine.start();
    pieces::of_list(list).find_map(|piece| {
        call_of(machine, &piece)?;
        let orders = either_order::draw(&machine.bus, &mut random)?;
        either_order::check("machine", &orders, &machine.try_orders(&orders)).err()
    })
}
