//! How many drivers the lines had where a list asked for them, and which parties drove them.

use crate::model::{Drivers, Line, MOST_PARTIES};

#[derive(Clone, Default, Debug)]
pub struct Driven {
    pub calls: u64,
    /// How often each line had no driver, one, more.
    pub counts: [[u64; 3]; 6],
    /// The parties that ever drove each line.
    pub parties: [u16; 6],
}

const EVERY_PARTY: u16 = (1 << MOST_PARTIES) - 1;

/// What has to come of each line: no driver, one, more.
const NUMBERS: [(Line, usize, &str); 15] = [
    (Line::Atn, 0, "ATN without a driver"),
    (Line::Atn, 1, "ATN with a driver"),
    (Line::Dav, 0, "DAV without a driver"),
    (Line::Dav, 1, "DAV with a driver"),
    (Line::Nrfd, 0, "NRFD without a driver"),
    (Line::Nrfd, 1, "NRFD with one driver"),
    (Line::Nrfd, 2, "NRFD with several drivers"),
    (Line::Ndac, 0, "NDAC without a driver"),
    (Line::Ndac, 1, "NDAC with one driver"),
    (Line::Ndac, 2, "NDAC with several drivers"),
    (Line::Eoi, 0, "EOI without a driver"),
    (Line::Eoi, 1, "EOI with a driver"),
    (Line::Srq, 0, "SRQ without a driver"),
    (Line::Srq, 1, "SRQ with one driver"),
    (Line::Srq, 2, "SRQ with several drivers"),
];

/// What has to come of each line besides.
const PARTIES: [&str; 6] = [
    "each of fifteen parties driving ATN",
    "each of fifteen parties driving DAV",
    "each of fifteen parties driving NRFD",
    "each of fifteen parties driving NDAC",
    "each of fifteen parties driving EOI",
    "each of fifteen parties driving SRQ",
];

impl Driven {
    pub fn enter(&mut self, drivers: &Drivers) {
        self.calls += 1;
        for line in 0..6 {
            let number = drivers.counts[line].min(2) as usize;
            self.counts[line][number] += 1;
            self.parties[line] |= drivers.masks[line];
        }
    }

    /// What never came.
    pub fn missing(&self) -> impl Iterator<Item = &'static str> + '_ {
        let came = |(line, number, _): (Line, usize, _)| self.counts[line as usize][number] > 0;
        let numbers = NUMBERS.into_iter().filter(move |number| !came(*number));
        let parties = PARTIES.into_iter().zip(self.parties);
        let some = parties.filter(|(_, seen)| *seen != EVERY_PARTY);
        let numbers = numbers.map(|(_, _, word)| word);
        numbers.chain(some.map(|(word, _)| word))
    }

    pub fn print(&self) {
        println!("drivers asked for {} times", self.calls);
        println!("    {:<10} {:>12} {:>12} {:>12}", "line", 0, 1, "more");
        for (word, [none, one, more]) in Line::WORDS.iter().zip(self.counts) {
            println!("    {word:<10} {none:>12} {one:>12} {more:>12}");
        }
    }
}
