//! Compares the model with a subject.
//!
//! No argument: the gate run. `long N [SEED]`: N million records, and every value to every register on
//! every kind of state. `vectors DIR`: all scripts of a folder against their texts. `text`: what the
//! model prints for the script on standard input. `bench`: the subject's speed beside the model's.

use std::io::{self, Read, Write};
use std::panic;
use std::path::Path;
use std::process::ExitCode;
use std::sync::atomic::{AtomicBool, Ordering};

use meskvorn_tests::bench;
use meskvorn_tests::compare::product::Product;
use meskvorn_tests::compare::subject::Subject;
use meskvorn_tests::compare::{any_memory, vectors, whole_run};
use meskvorn_tests::lists::every_access::Values;
use meskvorn_tests::model::script;

const SEED: u64 = 488;
const GATE_RECORDS: u64 = 27_000_000;

/// The thing under test.
fn subject() -> Box<dyn Subject> {
    Box::new(Product::default())
}

/// Shortening a script runs a failing subject many times; only its first panic is shown.
fn show_first_panic_only() {
    static SHOWN: AtomicBool = AtomicBool::new(false);
    let usual = panic::take_hook();
    panic::set_hook(Box::new(move |info| {
        if !SHOWN.swap(true, Ordering::Relaxed) {
            usual(info);
        }
    }));
}

fn usage() -> bool {
    eprintln!("usage: meskvorn-tests [long MILLIONS [SEED] | vectors DIR | text | bench]");
    false
}

fn gate() -> bool {
    let values = Values::OneInEight;
    any_memory::run_library(SEED) && whole_run::run(subject().as_mut(), SEED, GATE_RECORDS, values)
}

fn long(millions: &str, seed: Option<&str>) -> bool {
    let seed = seed.map_or(Ok(SEED), str::parse);
    match (millions.parse::<u64>(), seed) {
        (Ok(millions), Ok(seed)) => {
            let records = millions.saturating_mul(1_000_000);
            whole_run::run(subject().as_mut(), seed, records, Values::All)
        }
        _ => usage(),
    }
}

fn vectors_of(folder: &str) -> bool {
    vectors::run(subject().as_mut(), Path::new(folder)).unwrap_or_else(|error| {
        eprintln!("{folder}: {error}");
        false
    })
}

fn print_text() -> io::Result<()> {
    let (mut script, mut text) = (Vec::new(), Vec::new());
    io::stdin().read_to_end(&mut script)?;
    script::run(&script, &mut text);
    io::stdout().write_all(&text)
}

fn text() -> bool {
    let printed = print_text();
    printed.inspect_err(|error| eprintln!("{error}")).is_ok()
}

fn main() -> ExitCode {
    show_first_panic_only();
    let arguments: Vec<String> = std::env::args().skip(1).collect();
    let arguments: Vec<&str> = arguments.iter().map(String::as_str).collect();
    let good = match arguments[..] {
        [] => gate(),
        ["long", millions] => long(millions, None),
        ["long", millions, seed] => long(millions, Some(seed)),
        ["vectors", folder] => vectors_of(folder),
        ["text"] => text(),
        ["bench"] => {
            bench::run();
            true
        }
        _ => usage(),
    };
    if good {
        ExitCode::SUCCESS
    } else {
        ExitCode::FAILURE
    }
}
