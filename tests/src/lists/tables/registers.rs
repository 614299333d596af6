//! Tables of registers: every offset and every command, on buses of no party, of some and of all
//! fifteen, and poll registers that are written and read back through registers alone.

use crate::compare::{Comparison, Finding};
use crate::lists::command_codes::SPE;
use crate::lists::composer::Composer;
use crate::lists::guided::Guided;
use crate::model::registers::{BUS_STATUS, DATA_IN, GTS, LON, RSV2, SERIAL_POLL, SET, SIC, TCA};
use crate::model::script::{BUILD, LINES};
use crate::model::{Access, Event};

type Done = Result<(), Finding>;

const FIRST_ADDRESS: u8 = 3;

fn read(composer: &mut Composer, party: u8, offset: u8) {
    composer.access(Access::Read { party, offset });
}

fn write(composer: &mut Composer, party: u8, offset: u8, value: u8) {
    composer.access(Access::Write {
        party,
        offset,
        value,
    });
}

/// Every offset, with the first party, the last and the one after it.
fn every_offset(comparison: &mut Comparison) -> Done {
    for count in [0, 1, 2, 15] {
        for offset in 0..=u8::MAX {
            let mut composer = Composer::new();
            composer.call(BUILD, 0, count, FIRST_ADDRESS);
            for party in [0, count.saturating_sub(1), count, u8::MAX] {
                for value in [0x00, 0x88, 0x09, 0x8F, 0xFF] {
                    write(&mut composer, party, offset, value);
                    read(&mut composer, party, offset);
                }
            }
            composer.call(LINES, 0, 0, 0);
            comparison.list(&composer.records.concat())?;
        }
    }
    Ok(())
}

/// Every party number with every register.
fn every_party(comparison: &mut Comparison) -> Done {
    for count in [0, 2, 15] {
        for party in 0..=u8::MAX {
            let mut composer = Composer::new();
            composer.call(BUILD, 0, count, FIRST_ADDRESS);
            for offset in 0..10 {
                read(&mut composer, party, offset);
                write(&mut composer, party, offset, 0x08);
                write(&mut composer, party, offset, 0x07);
            }
            composer.drivers();
            comparison.list(&composer.records.concat())?;
        }
    }
    Ok(())
}

/// Every command after every other, without bits 32 and 64, then calls of all sorts.
fn every_two_commands(comparison: &mut Comparison, guided: &mut Guided) -> Done {
    let commands = || (0..32).chain(SET..SET + 32);
    for first in commands() {
        for second in commands() {
            let mut composer = Composer::new();
            composer.call(BUILD, 0, 2, FIRST_ADDRESS);
            composer.auxiliary(0, first);
            composer.auxiliary(1, second);
            composer.auxiliary(0, second);
            comparison.list(guided.go_on(&composer.records, 8))?;
        }
    }
    Ok(())
}

/// Each poll register, polled with no call but accesses.
fn poll_registers(comparison: &mut Comparison) -> Done {
    for register in 0..=u8::MAX {
        let mut composer = Composer::new();
        composer.call(BUILD, 0, 2, FIRST_ADDRESS);
        composer.auxiliary(0, SIC | SET);
        composer.auxiliary(0, LON | SET);
        write(&mut composer, 1, SERIAL_POLL, register);
        composer.auxiliary(1, RSV2 | SET);
        for command in [SPE, 0x40 + FIRST_ADDRESS + 1] {
            composer.data_out(0, command);
            composer.walk_until(Event::is_end);
        }
        for _ in 0..2 {
            read(&mut composer, 0, BUS_STATUS);
            composer.auxiliary(0, GTS);
            composer.walk_until(Event::is_end);
            read(&mut composer, 0, DATA_IN);
            composer.auxiliary(0, TCA);
        }
        comparison.list(&composer.records.concat())?;
    }
    Ok(())
}

pub fn run(comparison: &mut Comparison, seed: u64) -> Done {
    every_offset(comparison)?;
    every_party(comparison)?;
    every_two_commands(comparison, &mut Guided::new(seed))?;
    poll_registers(comparison)
}
