//! Tables of heard bytes, on racks without secondaries and with some.

use crate::compare::{Comparison, Finding};
use crate::lists::command_codes::{DCL, NEITHER, NO_MEANING, SPD, SPE, UNL, UNT};
use crate::lists::composer::Composer;
use crate::lists::guided::Guided;
use crate::lists::kinds_of_state::single_calls;
use crate::model::script::{BUILD, CLEAR, LISTEN, STANDBY, TAKE, TALK, WRITE};
use crate::model::{Event, Name};

type Done = Result<(), Finding>;

const PARTIES: u8 = 3;

/// What the parties at addresses 5, 6 and 7 may have heard before.
const BEFORE: [&[u8]; 7] = [
    &[],
    &[0x26],
    &[0x25, 0x26, 0x27],
    &[0x46],
    &[0x45, 0x27],
    &[0x26, 0x47, SPE],
    &[0x46, SPE, SPD],
];

/// Parties that share a primary, and a sender without a secondary or with one.
const RACKS: [[Name; PARTIES as usize]; 2] = [
    [Name::plain(5), Name::extended(6, 12), Name::extended(6, 13)],
    [
        Name::extended(6, 12),
        Name::extended(6, 13),
        Name::extended(7, 12),
    ],
];

const FIRST: u8 = 0x6C;
const SECOND: u8 = 0x6D;
const NOBODYS: u8 = 0x6E;

/// What they may have heard on such a rack.
const BEFORE_SECONDARY: [&[u8]; 8] = [
    &[],
    &[0x46],
    &[0x26],
    &[0x46, FIRST],
    &[0x46, SECOND],
    &[0x26, FIRST],
    &[0x46, FIRST, 0x26],
    &[0x26, FIRST, SECOND, 0x46],
];

fn plain_rack() -> Composer {
    let mut composer = Composer::new();
    composer.call(BUILD, 0, PARTIES, 5);
    composer.call(CLEAR, 0, 0, 0);
    composer
}

fn rack_of(names: &[Name]) -> Composer {
    let mut composer = Composer::new();
    composer.build(names, 0);
    composer.call(CLEAR, 0, 0, 0);
    composer
}

fn send(composer: &mut Composer, commands: &[u8]) {
    for command in commands {
        composer.command(*command);
    }
}

/// Switches that tell by their refusals who talks and who listens, and a byte from whoever talks.
fn tell_flags(composer: &mut Composer) {
    for party in 0..PARTIES {
        composer.call(WRITE, party, 0x60 + party, 1);
        composer.call(STANDBY, party, 0, 0);
    }
    for party in 0..PARTIES {
        composer.call(TALK, party, 1, 0);
        composer.call(LISTEN, party, 1, 0);
    }
    composer.walk_until(Event::is_end);
}

/// Each of the 256 bytes as a command, then what the flags have become.
fn every_byte(comparison: &mut Comparison, guided: &mut Guided) -> Done {
    for before in BEFORE {
        for byte in 0..=255 {
            let mut composer = plain_rack();
            send(&mut composer, before);
            send(&mut composer, &[byte]);
            tell_flags(&mut composer);
            comparison.list(guided.go_on(&composer.records, 12))?;
        }
    }
    Ok(())
}

/// Each of the 256 bytes where a secondary may follow, and the secondaries that do.
fn every_byte_before_secondaries(comparison: &mut Comparison) -> Done {
    for names in RACKS {
        for before in BEFORE_SECONDARY {
            for byte in 0..=255 {
                let mut composer = rack_of(&names);
                send(&mut composer, before);
                send(&mut composer, &[byte]);
                for after in [FIRST, SECOND] {
                    let mut composer = composer.clone();
                    send(&mut composer, &[after]);
                    tell_flags(&mut composer);
                    comparison.list(&composer.records.concat())?;
                }
            }
        }
    }
    Ok(())
}

/// Primaries, secondaries and what may come between them, three in every order.
fn every_three(comparison: &mut Comparison) -> Done {
    let codes = [
        0x45, 0x26, 0x46, FIRST, SECOND, NOBODYS, NEITHER, NO_MEANING, DCL, UNL, UNT,
    ];
    for names in RACKS {
        for first in codes {
            for second in codes {
                for third in codes {
                    let mut composer = rack_of(&names);
                    send(&mut composer, &[first, second, third]);
                    tell_flags(&mut composer);
                    comparison.list(&composer.records.concat())?;
                }
            }
        }
    }
    Ok(())
}

/// A call between a primary and a secondary.
fn calls_before_secondaries(comparison: &mut Comparison) -> Done {
    for names in RACKS {
        for before in BEFORE_SECONDARY {
            for [_, _, operation, party, value, extra] in single_calls() {
                for after in [FIRST, SECOND] {
                    let mut composer = rack_of(&names);
                    send(&mut composer, before);
                    composer.call(operation, party, value, extra);
                    if !composer.bus.atn() && !composer.call(TAKE, 0, 0, 0).accepted() {
                        composer.call(CLEAR, 0, 0, 0);
                    }
                    send(&mut composer, &[after]);
                    tell_flags(&mut composer);
                    comparison.list(&composer.records.concat())?;
                }
            }
        }
    }
    Ok(())
}

pub fn run(comparison: &mut Comparison, seed: u64) -> Done {
    every_byte(comparison, &mut Guided::new(seed))?;
    every_byte_before_secondaries(comparison)?;
    every_three(comparison)?;
    calls_before_secondaries(comparison)
}
