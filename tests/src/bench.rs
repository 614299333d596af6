//! Records per second of the proved library and of the model, and calls per second of the library's
//! single calls and runs, in one run and on the same scripts. And the time of a step by itself, and of a
//! turn in short runs.

use std::hint::black_box;
use std::time::{Duration, Instant};

use meskvorn::Bus;

use crate::compare::product::Product;
use crate::compare::subject::Subject;
use crate::ledger::bound::TURNS_A_PARTY;
use crate::model::script::{
    self, record, Call, Record, BUILD, CLEAR, LISTEN, LONGEST, READ, RECORD, STEP, TALK, WRITE,
};
use crate::model::Bus as Model;

/// What a real bus carries.
const REAL_BYTES_PER_SECOND: f64 = 1_000_000.0;

const FIRST_ADDRESS: u8 = 1;
const ROUNDS_A_BYTE: u8 = 4;
const LEAST: Duration = Duration::from_millis(300);
const ROUNDS: usize = 5;

/// So many that looking at the clock costs nothing beside them.
const SHORT_RUNS: u16 = 100;

/// A script of data bytes from one talker to all others, with how many bytes it carries.
struct Traffic {
    parties: u8,
    script: Vec<u8>,
    bytes: usize,
}

/// One byte: written, four rounds of turns from its offer to its end, and read by each listener.
fn byte_of(parties: u8, value: u8) -> Vec<Record> {
    let turns =
        (0..ROUNDS_A_BYTE).flat_map(|_| (0..parties).map(|party| record(STEP, party, 0, 0)));
    let reads = (1..parties).map(|party| record(READ, party, 0, 0));
    std::iter::once(record(WRITE, 0, value, 0))
        .chain(turns)
        .chain(reads)
        .collect()
}

fn traffic(parties: u8) -> Traffic {
    let mut script = record(BUILD, 0, parties, FIRST_ADDRESS).to_vec();
    script.extend(record(TALK, 0, 1, 0));
    script.extend((1..parties).flat_map(|party| record(LISTEN, party, 1, 0)));
    let mut bytes = 0;
    loop {
        let next = byte_of(parties, bytes as u8).concat();
        if script.len() + next.len() > LONGEST {
            return Traffic {
                parties,
                script,
                bytes,
            };
        }
        script.extend(next);
        bytes += 1;
    }
}

/// The script's records after its build, each as a call.
fn calls_of(script: &[u8]) -> Vec<Call> {
    let records = script.chunks_exact(RECORD).skip(1);
    records
        .map(|record| [record[2], record[3], record[4], record[5]])
        .collect()
}

fn built(parties: u8) -> Bus {
    let addresses: Vec<u8> = (FIRST_ADDRESS..).take(parties.into()).collect();
    Bus::build(&addresses, 0).0
}

/// The build and the calls of the traffic, one by one.
fn call_by_call(parties: u8, calls: &[Call]) -> Bus {
    let mut bus = built(parties);
    for &[operation, party, value, extra] in calls {
        black_box(bus.call(operation, party, value, extra));
    }
    bus
}

/// The same with the turns of each byte as one run.
fn run_by_run(traffic: &Traffic) -> Bus {
    let mut bus = built(traffic.parties);
    bus.talk_only(0, true);
    for party in 1..traffic.parties {
        bus.listen_only(party, true);
    }
    for byte in 0..traffic.bytes {
        bus.write(0, byte as u8, false);
        black_box(bus.give_turns(u16::from(ROUNDS_A_BYTE * traffic.parties)));
        for party in 1..traffic.parties {
            black_box(bus.read(party));
        }
    }
    bus
}

/// The shortest time of one run of the script, of several rounds.
fn fastest(mut run: impl FnMut(&mut Vec<u8>)) -> f64 {
    let mut out = Vec::new();
    let mut best = f64::MAX;
    for _ in 0..ROUNDS {
        let start = Instant::now();
        let mut runs = 0.0;
        while start.elapsed() < LEAST {
            out.clear();
            run(&mut out);
            black_box(&out);
            runs += 1.0;
        }
        best = best.min(start.elapsed().as_secs_f64() / runs);
    }
    best
}

fn row(traffic: &Traffic) {
    let records = (traffic.script.len() / RECORD) as f64;
    let mut product = Product::default();
    let proved = fastest(|out| product.run_script(&traffic.script, out));
    let model = fastest(|out| script::run(&traffic.script, out));
    let calls = calls_of(&traffic.script);
    let single = fastest(|_| _ = call_by_call(traffic.parties, &calls));
    let by_runs = fastest(|_| _ = run_by_run(traffic));
    let bytes = traffic.bytes as f64;
    println!(
        "| {} | {:.0} | {:.1} | {:.1} | {:.2} | {:.0} | {:.0} % | {:.1} | {:.1} |",
        traffic.parties,
        records / bytes,
        records / proved / 1e6,
        records / model / 1e6,
        proved / model,
        bytes / proved,
        100.0 * bytes / proved / REAL_BYTES_PER_SECOND,
        records / single / 1e6,
        records / by_runs / 1e6,
    );
}

/// Nanoseconds a step takes in a run of the library, and in the model, which changes its bus in place.
fn step_row(parties: u8) {
    let mut bus = built(parties);
    bus.interface_clear(0);
    let mut model = Model::new();
    script::run_record(&mut model, record(BUILD, 0, parties, FIRST_ADDRESS));
    script::run_record(&mut model, record(CLEAR, 0, 0, 0));
    let library = fastest(|_| _ = black_box(bus.give_turns(u16::MAX)));
    let in_place = fastest(|_| {
        for party in (0..parties).cycle().take(u16::MAX.into()) {
            black_box(model.step(party));
        }
    });
    let nanoseconds = 1e9 / f64::from(u16::MAX);
    println!(
        "| {parties} | {:.0} | {:.0} | {:.1} |",
        library * nanoseconds,
        in_place * nanoseconds,
        library / in_place,
    );
}

/// Nanoseconds a turn takes in runs of seven rounds, on a rack with these addresses.
fn short_runs(addresses: &[u8]) -> f64 {
    let (mut bus, _) = Bus::build(addresses, 0);
    bus.interface_clear(0);
    let turns = TURNS_A_PARTY * addresses.len() as u16;
    let seconds = fastest(|_| {
        for _ in 0..SHORT_RUNS {
            black_box(bus.give_turns(turns));
        }
    });
    1e9 * seconds / f64::from(SHORT_RUNS) / f64::from(turns)
}

/// Runs of few turns show what a run costs besides: the memory read and written, and the order found.
fn order_row(parties: u8) {
    let mut addresses: Vec<u8> = (FIRST_ADDRESS..).take(parties.into()).collect();
    let rising = short_runs(&addresses);
    addresses.reverse();
    let falling = short_runs(&addresses);
    let turns = TURNS_A_PARTY * u16::from(parties);
    println!("| {parties} | {turns} | {rising:.1} | {falling:.1} |");
}

/// Prints the tables.
pub fn run() {
    println!(
        "| parties | calls a byte | library, million records a second | model, the same \
        | time against the model | bytes a second | of a real bus | single calls, million a second \
        | the same with runs |"
    );
    println!("|---|---|---|---|---|---|---|---|---|");
    for parties in [2, 5, 15] {
        row(&traffic(parties));
    }
    println!();
    println!("| parties | a step in a run, ns | a step of the model, ns | against the model |");
    println!("|---|---|---|---|");
    for parties in [2, 5, 15] {
        step_row(parties);
    }
    println!();
    println!("| parties | turns of a run | a turn, rising addresses, ns | falling addresses, ns |");
    println!("|---|---|---|---|");
    for parties in [2, 5, 15] {
        order_row(parties);
    }
}

#[cfg(test)]
mod tests {
    use super::*;
    use crate::model::Event;

    #[test]
    fn runs_carry_the_same_traffic() {
        for parties in [2, 5, 15] {
            let traffic = traffic(parties);
            let calls = calls_of(&traffic.script);
            assert_eq!(run_by_run(&traffic), call_by_call(parties, &calls));
        }
    }

    #[test]
    fn every_byte_of_the_traffic_is_read_by_every_listener() {
        for parties in [2, 5, 15] {
            let traffic = traffic(parties);
            let mut bus = Model::new();
            let records = traffic.script.chunks_exact(RECORD);
            let answers = records.map(|r| script::run_record(&mut bus, r.try_into().unwrap()));
            let answers: Vec<_> = answers.collect();
            assert!(answers.iter().all(|answer| answer.accepted()));
            let reads = answers.iter().filter(|answer| answer.event == Event::Read);
            assert_eq!(reads.count(), traffic.bytes * usize::from(parties - 1));
        }
    }
}
