//! The library's bus as the memory that C programs have of it, with any content, its build from two lists
//! of any lengths, and an own status of any value. The wrapper for Rust programs hands out none of these.

use std::mem::transmute;

use meskvorn::Bus;

use crate::model::{Answer, Event, Lists, Refusal};

pub const ROW: usize = 24;

pub type Rows = [[u8; ROW]; 16];

/// Stands in a list of secondaries where there is none.
const NO_SECONDARY: u8 = 255;

/// What the memory holds before a build.
const FILL: u8 = 0xa5;

extern "C" {
    fn meskvorn_build_extended(
        rows: *mut [u8; ROW],
        addresses: *const u8,
        count: usize,
        secondaries: *const u8,
        given: usize,
        system: u8,
    ) -> u64;
    fn meskvorn_own_status(rows: *mut [u8; ROW], party: u8, value: u8) -> u64;
}

/// The bus in these rows.
pub fn bus_in(rows: Rows) -> Bus {
    // SAFETY: a bus is its rows and nothing else, and has no condition on their content.
    unsafe { transmute::<Rows, Bus>(rows) }
}

/// The rows of a bus.
pub fn rows_of(bus: &Bus) -> Rows {
    // SAFETY: a bus is its rows and nothing else.
    unsafe { transmute::<Bus, Rows>(bus.clone()) }
}

/// 255 is no address, and must not be taken for none.
fn entry(secondary: Option<u8>) -> u8 {
    secondary.map_or(NO_SECONDARY, |own| own.min(NO_SECONDARY - 1))
}

fn answer_of(packed: u64) -> Answer {
    let [refusal, event, byte, end, dropped, broken, ..] = packed.to_le_bytes();
    Answer {
        refusal: Refusal::ALL[usize::from(refusal)],
        event: Event::ALL[usize::from(event)],
        byte,
        end: end != 0,
        dropped,
        broken,
    }
}

/// A build over memory that held something else.
pub fn build_extended(lists: &Lists, system: u8) -> (Bus, Answer) {
    let mut rows = [[FILL; ROW]; 16];
    let secondaries: Vec<u8> = lists.secondaries.iter().map(|own| entry(*own)).collect();
    // SAFETY: rows and lists are lent for the call, with the lengths that they have.
    let packed = unsafe {
        meskvorn_build_extended(
            rows.as_mut_ptr(),
            lists.addresses.as_ptr(),
            lists.addresses.len(),
            secondaries.as_ptr(),
            secondaries.len(),
            system,
        )
    };
    (bus_in(rows), answer_of(packed))
}

/// An own status on such a bus.
pub fn own_status(bus: &mut Bus, party: u8, value: u8) -> Answer {
    let mut rows = rows_of(bus);
    // SAFETY: the rows are lent for the call.
    let packed = unsafe { meskvorn_own_status(rows.as_mut_ptr(), party, value) };
    *bus = bus_in(rows);
    answer_of(packed)
}
