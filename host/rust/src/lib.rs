//! The GPIB bus of document 01 for Rust programs. The calls run in the proved library, which
//! `host/build` writes.

mod answer;
mod drivers;
mod name;
pub mod parallel_poll;
pub mod registers;

pub use answer::{Answer, Event, Refusal, Turns, MOST_PARTIES};
pub use drivers::{Drivers, Line, LineDrivers};
pub use name::Name;

use drivers::LINES;

const ROW: usize = 24;

/// What is kept of one party.
type Row = [u8; ROW];

extern "C" {
    fn meskvorn_call(rows: *mut Row, operation: u8, party: u8, value: u8, extra: u8) -> u64;
    fn meskvorn_build(rows: *mut Row, addresses: *const u8, count: usize, system: u8) -> u64;
    fn meskvorn_build_extended(
        rows: *mut Row,
        addresses: *const u8,
        count: usize,
        secondaries: *const u8,
        given: usize,
        system: u8,
    ) -> u64;
    fn meskvorn_name(rows: *const Row, party: u8) -> u16;
    fn meskvorn_read_register(rows: *mut Row, party: u8, offset: u8) -> u64;
    fn meskvorn_write_register(rows: *mut Row, party: u8, offset: u8, value: u8) -> u64;
    fn meskvorn_own_status(rows: *mut Row, party: u8, value: u8) -> u64;
    fn meskvorn_parallel_poll(rows: *mut Row, party: u8) -> u64;
    fn meskvorn_turns(rows: *mut Row, turns: u16, counts: *mut u16) -> u8;
    fn meskvorn_drivers(rows: *mut Row, masks: *mut u16, counts: *mut u32) -> u64;
    fn meskvorn_run(script: *const u8, length: usize, out: *mut u8, room: usize) -> usize;
}

/// The operations of [`Bus::call`], by their numbers in a script.
#[derive(Clone, Copy, PartialEq, Eq, Debug)]
#[repr(u8)]
pub enum Operation {
    Step = 1,
    Write = 2,
    Read = 3,
    PollRegister = 4,
    ListenOnly = 5,
    TalkOnly = 6,
    TakeControl = 7,
    GoToStandby = 8,
    InterfaceClear = 9,
    Reset = 10,
    Drop = 11,
    Lines = 12,
    SecondRequest = 13,
}

/// A bus. Parties are numbered from 0. Equal buses answer alike, whatever is called.
#[derive(Clone, PartialEq, Eq, Debug)]
pub struct Bus {
    rows: [Row; 16],
}

impl Default for Bus {
    /// The bus of no parties.
    fn default() -> Bus {
        Bus::NO_PARTIES
    }
}

impl Bus {
    const NO_PARTIES: Bus = Bus {
        rows: [[0; ROW]; 16],
    };

    /// Party i gets `addresses[i]`; `system` is the system party. A refused build gives the bus of no
    /// parties.
    pub fn build(addresses: &[u8], system: u8) -> (Bus, Answer) {
        let mut bus = Bus::NO_PARTIES;
        let answer = bus.rebuild(addresses, system);
        (bus, answer)
    }

    /// Party i gets `names[i]`, so that it may have a secondary address. Since a name has both, the lists
    /// of addresses and of secondaries that the library takes are always equally long.
    pub fn build_extended(names: &[Name], system: u8) -> (Bus, Answer) {
        let mut bus = Bus::NO_PARTIES;
        let answer = bus.rebuild_extended(names, system);
        (bus, answer)
    }

    /// The same over a bus that is there.
    pub fn rebuild(&mut self, addresses: &[u8], system: u8) -> Answer {
        // SAFETY: the rows are this bus's own, and the addresses are lent for the call, with the length
        // that they have.
        let packed = unsafe {
            meskvorn_build(
                self.rows.as_mut_ptr(),
                addresses.as_ptr(),
                addresses.len(),
                system,
            )
        };
        Answer::of(packed)
    }

    /// The same over a bus that is there.
    pub fn rebuild_extended(&mut self, names: &[Name], system: u8) -> Answer {
        let addresses: Vec<u8> = names.iter().map(|name| name.primary).collect();
        let secondaries: Vec<u8> = names.iter().map(Name::secondary_byte).collect();
        // SAFETY: the rows are this bus's own, and both lists are lent for the call, with the lengths
        // that they have.
        let packed = unsafe {
            meskvorn_build_extended(
                self.rows.as_mut_ptr(),
                addresses.as_ptr(),
                addresses.len(),
                secondaries.as_ptr(),
                secondaries.len(),
                system,
            )
        };
        Answer::of(packed)
    }

    /// What a build named the party; None if there is no such party.
    pub fn name(&self, party: u8) -> Option<Name> {
        // SAFETY: the rows are this bus's own, and are only read.
        Name::of(unsafe { meskvorn_name(self.rows.as_ptr(), party) })
    }

    /// An operation by its number, with any arguments. A number that is no [`Operation`] is refused.
    pub fn call(&mut self, operation: u8, party: u8, value: u8, extra: u8) -> Answer {
        // SAFETY: the rows are this bus's own.
        Answer::of(unsafe { meskvorn_call(self.rows.as_mut_ptr(), operation, party, value, extra) })
    }

    fn of_party(&mut self, operation: Operation, party: u8) -> Answer {
        self.call(operation as u8, party, 0, 0)
    }

    /// The party has its turn.
    pub fn step(&mut self, party: u8) -> Answer {
        self.of_party(Operation::Step, party)
    }

    /// Gives so many turns, each to the party that has waited longest for one since this call began, of
    /// equals to the one with the lowest primary address, then the lowest secondary. The bus of no parties
    /// is refused with 1.
    pub fn give_turns(&mut self, turns: u16) -> Turns {
        let mut counts = [0; MOST_PARTIES];
        // SAFETY: the rows are this bus's own, and the counts are lent for the call.
        let refusal = unsafe { meskvorn_turns(self.rows.as_mut_ptr(), turns, counts.as_mut_ptr()) };
        Turns {
            refusal: Refusal::ALL[usize::from(refusal)],
            counts,
        }
    }

    /// A byte for the party to send.
    pub fn write(&mut self, party: u8, byte: u8, end: bool) -> Answer {
        self.call(Operation::Write as u8, party, byte, end.into())
    }

    /// The byte that the party took.
    pub fn read(&mut self, party: u8) -> Answer {
        self.of_party(Operation::Read, party)
    }

    /// Bit 64 of the register asks for service.
    pub fn poll_register(&mut self, party: u8, value: u8) -> Answer {
        self.call(Operation::PollRegister as u8, party, value, 0)
    }

    /// The second request bit asks for service too, until a status byte tells of it.
    pub fn second_request(&mut self, party: u8, on: bool) -> Answer {
        self.call(Operation::SecondRequest as u8, party, on.into(), 0)
    }

    pub fn listen_only(&mut self, party: u8, on: bool) -> Answer {
        self.call(Operation::ListenOnly as u8, party, on.into(), 0)
    }

    pub fn talk_only(&mut self, party: u8, on: bool) -> Answer {
        self.call(Operation::TalkOnly as u8, party, on.into(), 0)
    }

    pub fn take_control(&mut self, party: u8) -> Answer {
        self.of_party(Operation::TakeControl, party)
    }

    pub fn go_to_standby(&mut self, party: u8) -> Answer {
        self.of_party(Operation::GoToStandby, party)
    }

    /// For the system party alone.
    pub fn interface_clear(&mut self, party: u8) -> Answer {
        self.of_party(Operation::InterfaceClear, party)
    }

    pub fn reset(&mut self, party: u8) -> Answer {
        self.of_party(Operation::Reset, party)
    }

    /// The byte that the party holds goes.
    pub fn drop_byte(&mut self, party: u8) -> Answer {
        self.of_party(Operation::Drop, party)
    }

    /// The lines, as the answer's byte: ATN 128, DAV 64, NDAC 32, NRFD 16, EOI 8, SRQ 4.
    pub fn lines(&mut self) -> Answer {
        self.of_party(Operation::Lines, 0)
    }

    /// A read of one of the chip's registers, by its offset: what the call answers that it stands for. An
    /// offset that is not in [`registers::read`] is refused with [`Refusal::NoReg`].
    pub fn read_register(&mut self, party: u8, offset: u8) -> Answer {
        // SAFETY: the rows are this bus's own.
        Answer::of(unsafe { meskvorn_read_register(self.rows.as_mut_ptr(), party, offset) })
    }

    /// A write to one of them, likewise. [`Refusal::NoReg`] is for an offset that is not in
    /// [`registers::write`], and for a command that is not in [`registers::auxiliary`].
    pub fn write_register(&mut self, party: u8, offset: u8, value: u8) -> Answer {
        // SAFETY: the rows are this bus's own.
        Answer::of(unsafe { meskvorn_write_register(self.rows.as_mut_ptr(), party, offset, value) })
    }

    /// What the party tells in parallel polls: its line is on while this is the sense of its response, which
    /// the commands in [`parallel_poll`] set.
    pub fn own_status(&mut self, party: u8, on: bool) -> Answer {
        // SAFETY: the rows are this bus's own.
        Answer::of(unsafe { meskvorn_own_status(self.rows.as_mut_ptr(), party, on.into()) })
    }

    /// For the active party alone, with no command of its own standing. The answer's byte has a bit for each
    /// of the eight lines, line 1 lowest.
    pub fn parallel_poll(&mut self, party: u8) -> Answer {
        // SAFETY: the rows are this bus's own.
        Answer::of(unsafe { meskvorn_parallel_poll(self.rows.as_mut_ptr(), party) })
    }

    /// Which parties drive each line, and how many they are. Never refused.
    pub fn drivers(&mut self) -> Drivers {
        let (mut masks, mut counts) = ([0; LINES], [0; LINES]);
        // SAFETY: the rows are this bus's own, and there is an entry for each line.
        let packed = unsafe {
            meskvorn_drivers(
                self.rows.as_mut_ptr(),
                masks.as_mut_ptr(),
                counts.as_mut_ptr(),
            )
        };
        Drivers {
            answer: Answer::of(packed),
            masks,
            counts,
        }
    }
}

/// Runs a script, writes its text at the start of `out`, and gives the number of bytes written. The room
/// has to be 34 bytes for each record and part of one, or 34 bytes in all for a script of over 65,532
/// bytes, whose text is one line. None if there is less, and then nothing is written.
pub fn run(script: &[u8], out: &mut [u8]) -> Option<usize> {
    // SAFETY: both slices are lent for the call alone, with the lengths that they have.
    let written =
        unsafe { meskvorn_run(script.as_ptr(), script.len(), out.as_mut_ptr(), out.len()) };
    (written != usize::MAX).then_some(written)
}
