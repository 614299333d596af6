//! Who drives each line.

use crate::answer::{Answer, MOST_PARTIES};

/// A line of the bus.
#[derive(Clone, Copy, PartialEq, Eq, Debug)]
pub enum Line {
    Atn,
    Dav,
    Nrfd,
    Ndac,
    Eoi,
    Srq,
}

pub(crate) const LINES: usize = 6;

impl Line {
    /// In the order in which the library tells of them.
    pub const ALL: [Line; LINES] = [
        Line::Atn,
        Line::Dav,
        Line::Nrfd,
        Line::Ndac,
        Line::Eoi,
        Line::Srq,
    ];

    /// Its bit in the byte that [`Bus::lines`](crate::Bus::lines) answers.
    pub fn bit(self) -> u8 {
        const BITS: [u8; LINES] = [128, 64, 16, 32, 8, 4];
        BITS[self as usize]
    }
}

/// The parties that drive one line.
#[derive(Clone, Copy, PartialEq, Eq, Debug)]
pub struct LineDrivers {
    /// A bit for each party that drives it, party 0 lowest.
    pub mask: u16,
    /// How many they are. The line is on unless this is 0.
    pub count: u32,
}

impl LineDrivers {
    /// False if there is no such party.
    pub fn is_driven_by(self, party: u8) -> bool {
        usize::from(party) < MOST_PARTIES && self.mask >> party & 1 == 1
    }

    /// The parties that drive the line, by their numbers.
    pub fn parties(self) -> impl Iterator<Item = u8> {
        (0..MOST_PARTIES as u8).filter(move |&party| self.is_driven_by(party))
    }
}

/// What [`Bus::drivers`](crate::Bus::drivers) answers.
#[derive(Clone, Copy, PartialEq, Eq, Debug)]
pub struct Drivers {
    /// Accepted, with the event none.
    pub answer: Answer,
    pub(crate) masks: [u16; LINES],
    pub(crate) counts: [u32; LINES],
}

impl Drivers {
    pub fn of(&self, line: Line) -> LineDrivers {
        LineDrivers {
            mask: self.masks[line as usize],
            count: self.counts[line as usize],
        }
    }
}
