//! Tables of drivers: each party alone, beside others and with all of them as a driver of each line.

use crate::compare::{Comparison, Finding};
use crate::lists::command_codes::{SPE, TALK_ADDRESS, TCT};
use crate::lists::composer::Composer;
use crate::model::script::{BUILD, CLEAR, LISTEN, POLL, READ, STANDBY, STEP, TAKE, TALK, WRITE};
use crate::model::{Event, MOST_PARTIES, RSV};

type Done = Result<(), Finding>;

const FIRST_ADDRESS: u8 = 3;

/// Rounds of turns within which a byte ends, and its listeners wait with their data-in full.
const ROUNDS: usize = 6;

/// All parties but this one, those after it first.
fn others(count: u8, own: u8) -> impl Iterator<Item = u8> {
    (own + 1..count).chain(0..own)
}

/// A call, then one for the drivers.
fn ask_after(composer: &mut Composer, operation: u8, party: u8, value: u8, extra: u8) {
    composer.call(operation, party, value, extra);
    composer.drivers();
}

fn built(count: u8, system: u8) -> Composer {
    let mut composer = Composer::new();
    composer.drivers();
    ask_after(&mut composer, BUILD, system, count, FIRST_ADDRESS);
    composer
}

/// A byte from one party to all others, step by step, until they wait with it.
fn handshake(comparison: &mut Comparison, count: u8, talker: u8, end: u8) -> Done {
    let mut composer = built(count, 0);
    ask_after(&mut composer, TALK, talker, 1, 0);
    for party in others(count, talker) {
        ask_after(&mut composer, LISTEN, party, 1, 0);
    }
    composer.call(WRITE, talker, 0x41, end);
    for _ in 0..ROUNDS {
        for party in others(count, talker).chain([talker]) {
            ask_after(&mut composer, STEP, party, 0, 0);
        }
    }
    for party in others(count, talker) {
        composer.call(READ, party, 0, 0);
        ask_after(&mut composer, STEP, party, 0, 0);
    }
    comparison.list(&composer.records.concat())
}

/// All parties listen and ask for service, one after the other; then this one takes control, and
/// they stop asking.
fn requests(comparison: &mut Comparison, count: u8, system: u8) -> Done {
    let mut composer = built(count, system);
    for party in [system].into_iter().chain(others(count, system)) {
        ask_after(&mut composer, LISTEN, party, 1, 0);
        ask_after(&mut composer, POLL, party, RSV, 0);
    }
    ask_after(&mut composer, CLEAR, system, 0, 0);
    for party in others(count, system) {
        ask_after(&mut composer, STEP, party, 0, 0);
    }
    ask_after(&mut composer, STANDBY, system, 0, 0);
    for party in [system].into_iter().chain(others(count, system)) {
        ask_after(&mut composer, POLL, party, 0, 0);
    }
    comparison.list(&composer.records.concat())
}

/// One party of those that ask is polled by the one before it, and then given control.
fn poll(comparison: &mut Comparison, count: u8, polled: u8) -> Done {
    let system = (polled + count - 1) % count;
    let mut composer = built(count, system);
    for party in 0..count {
        composer.call(POLL, party, RSV, 0);
    }
    composer.call(CLEAR, system, 0, 0);
    composer.call(LISTEN, system, 1, 0);
    for command in [SPE, TALK_ADDRESS + FIRST_ADDRESS + polled] {
        composer.command(command);
        composer.drivers();
    }
    ask_after(&mut composer, STANDBY, system, 0, 0);
    composer.walk_until(Event::is_put);
    composer.drivers();
    composer.walk_until(Event::is_end);
    composer.drivers();
    ask_after(&mut composer, TAKE, system, 0, 0);
    composer.command(TCT);
    composer.drivers();
    comparison.list(&composer.records.concat())
}

pub fn run(comparison: &mut Comparison) -> Done {
    for count in 1..=MOST_PARTIES as u8 {
        for party in 0..count {
            handshake(comparison, count, party, 0)?;
            handshake(comparison, count, party, 1)?;
            requests(comparison, count, party)?;
            poll(comparison, count, party)?;
        }
    }
    Ok(())
}
