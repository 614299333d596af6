//! Tables run whole: builds, operations, places, poll registers and damaged scripts here; heard bytes,
//! second requests, drivers, registers, feoi's marks, parallel polls, runs, orders of steps and starts of
//! the bound in modules of their own.

pub mod bound_starts;
pub mod drivers;
pub mod end_marks;
pub mod heard_bytes;
pub mod parallel_polls;
mod racks;
pub mod registers;
pub mod runs;
pub mod second_requests;
pub mod step_orders;

use super::command_codes::SPE;
use super::composer::Composer;
use super::random_numbers::Random;
use crate::compare::{Comparison, Finding};
use crate::model::script::{
    self, Record, BUILD, CLEAR, LAST_OPERATION, LINES, LISTEN, LONGEST, POLL, READ, RECORD,
    STANDBY, STEP, TAKE, TALK, WRITE,
};
use crate::model::Event;

type Done = Result<(), Finding>;

fn run_records(comparison: &mut Comparison, records: &[Record]) -> Done {
    comparison.list(&records.concat())
}

/// The worked script of document 01.
fn worked_script() -> Vec<u8> {
    let mut composer = Composer::new();
    composer.call(BUILD, 0, 2, 5);
    composer.call(TALK, 0, 1, 0);
    composer.call(LISTEN, 1, 1, 0);
    composer.call(WRITE, 0, 0x41, 1);
    for party in [0, 1, 0, 1, 0, 1, 0] {
        composer.step(party);
    }
    composer.call(READ, 1, 0, 0);
    composer.records.concat()
}

/// System party, count and first address around all their bounds.
fn builds(comparison: &mut Comparison) -> Done {
    for system in (0..17).chain([255]) {
        for count in (0..18).chain([31, 32, 128, 255]) {
            for first in (0..33).chain([127, 200, 254, 255]) {
                let last = u8::saturating_sub(count, 1);
                let records = [
                    script::record(BUILD, system, count, first),
                    script::record(STEP, last, 0, 0),
                    script::record(STEP, count, 0, 0),
                    script::record(CLEAR, system, 0, 0),
                    script::record(LINES, 0, 0, 0),
                ];
                run_records(comparison, &records)?;
            }
        }
    }
    Ok(())
}

/// Every operation number, and every party number with every operation, on three buses.
fn operations_and_places(comparison: &mut Comparison) -> Done {
    for count in [0, 2, 15] {
        for number in 0..=255 {
            let mut records = vec![script::record(BUILD, 0, count, 3)];
            for value in 0..3 {
                records.push(script::record(number, 0, value, value));
                records.push(script::record(number, 1, value, value));
            }
            for operation in 1..=LAST_OPERATION + 1 {
                records.push(script::record(operation, number, 0, 0));
                records.push(script::record(operation, 0, number, 0));
                records.push(script::record(operation, 0, 0, number));
            }
            records.push(script::record(LINES, 0, 0, 0));
            run_records(comparison, &records)?;
        }
    }
    Ok(())
}

/// Each poll register polled, with another written during the poll.
fn poll_registers(comparison: &mut Comparison) -> Done {
    for register in 0..=255 {
        for second in [register ^ 0x40, register ^ 1] {
            let mut composer = Composer::new();
            composer.call(BUILD, 0, 2, 10);
            composer.call(CLEAR, 0, 0, 0);
            composer.call(POLL, 1, register, 0);
            for command in [0x2A, SPE, 0x4B] {
                composer.command(command);
            }
            composer.call(LINES, 0, 0, 0);
            composer.call(STANDBY, 0, 0, 0);
            composer.walk_until(Event::is_put);
            composer.call(POLL, 1, second, 0);
            composer.walk_until(Event::is_end);
            composer.call(READ, 0, 0, 0);
            composer.walk_until(Event::is_end);
            composer.call(TAKE, 0, 0, 0);
            composer.call(LINES, 0, 0, 0);
            composer.call(STANDBY, 0, 0, 0);
            composer.call(READ, 0, 0, 0);
            composer.walk_until(Event::is_end);
            run_records(comparison, &composer.records)?;
        }
    }
    Ok(())
}

/// Tails of every length, wrong marks in every place, and scripts about the longest length.
fn damaged_scripts(comparison: &mut Comparison, random: &mut Random) -> Done {
    let whole = worked_script();
    for length in 0..=whole.len() {
        comparison.list(&whole[..length])?;
    }
    for place in 0..whole.len() {
        for wrong in [0, whole[place] ^ 1, 0x42, 0x47, 255] {
            let mut damaged = whole.clone();
            damaged[place] = wrong;
            comparison.list(&damaged)?;
        }
    }
    for _ in 0..2000 {
        let bytes: Vec<u8> = (0..random.below(40)).map(|_| random.byte()).collect();
        comparison.list(&bytes)?;
    }
    for extra in (0..=2 * RECORD).chain([1000, LONGEST]) {
        let mut long = whole.repeat(LONGEST / whole.len() + 2);
        long.resize(LONGEST - RECORD + extra, 0x47);
        comparison.list(&long)?;
    }
    Ok(())
}

/// All tables but the starts of the bound, which run by themselves.
pub fn run(comparison: &mut Comparison, seed: u64) -> Done {
    builds(comparison)?;
    operations_and_places(comparison)?;
    parallel_polls::run(comparison)?;
    heard_bytes::run(comparison, seed)?;
    poll_registers(comparison)?;
    second_requests::run(comparison)?;
    drivers::run(comparison)?;
    registers::run(comparison, seed)?;
    end_marks::run(comparison)?;
    runs::run(comparison, seed)?;
    step_orders::run(comparison)?;
    damaged_scripts(comparison, &mut Random::new(seed))
}
