//! How accesses were answered: each register, and each auxiliary command that is cleared or set.

use crate::model::{Access, Refusal};

#[derive(Clone, Copy, PartialEq, Eq, Debug)]
enum Register {
    BusStatus,
    DataIn,
    SerialPoll,
    DataOut,
    Swrst,
    SwrstCleared,
    Nbaf,
    Feoi,
    Lon,
    LonCleared,
    Ton,
    TonCleared,
    Gts,
    Tca,
    Sic,
    SicCleared,
    Rsv2,
    Rsv2Cleared,
    NoRead,
    NoWrite,
    NoCommand,
}

const REGISTERS: usize = 21;

const WORDS: [&str; REGISTERS] = [
    "bus status",
    "data in",
    "serial poll",
    "data out",
    "swrst",
    "swrst cleared",
    "nbaf",
    "feoi",
    "lon",
    "lon cleared",
    "ton",
    "ton cleared",
    "gts",
    "tca",
    "sic",
    "sic cleared",
    "rsv2",
    "rsv2 cleared",
    "another offset read",
    "another offset written",
    "another command",
];

/// The refusals that accesses meet beside NOPARTY, which all of them do.
const REFUSED: [(Register, Refusal, &str); 14] = [
    (Register::DataIn, Refusal::Empty, "data in EMPTY"),
    (Register::DataOut, Refusal::Full, "data out FULL"),
    (Register::Swrst, Refusal::Standing, "swrst STANDING"),
    (Register::Lon, Refusal::Role, "lon ROLE"),
    (Register::Ton, Refusal::Role, "ton ROLE"),
    (Register::Ton, Refusal::Attention, "ton ATTENTION"),
    (Register::Ton, Refusal::Talker, "ton TALKER"),
    (Register::Gts, Refusal::Role, "gts ROLE"),
    (Register::Gts, Refusal::Standing, "gts STANDING"),
    (Register::Tca, Refusal::Role, "tca ROLE"),
    (Register::Sic, Refusal::Role, "sic ROLE"),
    (Register::NoRead, Refusal::NoReg, "a read NOREG"),
    (Register::NoWrite, Refusal::NoReg, "a write NOREG"),
    (Register::NoCommand, Refusal::NoReg, "a command NOREG"),
];

/// Fewer would say little.
const LEAST: u64 = 500;

impl Register {
    fn of(access: Access) -> Register {
        match access {
            Access::Read { offset: 3, .. } => Register::BusStatus,
            Access::Read { offset: 7, .. } => Register::DataIn,
            Access::Read { .. } => Register::NoRead,
            Access::Write { offset, value, .. } => match offset {
                3 => Register::of_command(value),
                5 => Register::SerialPoll,
                7 => Register::DataOut,
                _ => Register::NoWrite,
            },
        }
    }

    fn of_command(value: u8) -> Register {
        match (value % 32, value >= 128) {
            (0, true) => Register::Swrst,
            (0, false) => Register::SwrstCleared,
            (5, _) => Register::Nbaf,
            (8, _) => Register::Feoi,
            (9, true) => Register::Lon,
            (9, false) => Register::LonCleared,
            (10, true) => Register::Ton,
            (10, false) => Register::TonCleared,
            (11, _) => Register::Gts,
            (12, _) => Register::Tca,
            (15, true) => Register::Sic,
            (15, false) => Register::SicCleared,
            (24, true) => Register::Rsv2,
            (24, false) => Register::Rsv2Cleared,
            _ => Register::NoCommand,
        }
    }
}

#[derive(Clone, Default, Debug)]
pub struct Accesses {
    counts: [[u64; 12]; REGISTERS],
    /// Accesses tried beside the lists, on every kind of state.
    pub tried: u64,
}

impl Accesses {
    pub fn enter(&mut self, access: Access, refusal: Refusal) {
        self.counts[Register::of(access) as usize][refusal as usize] += 1;
    }

    pub fn count(&self) -> u64 {
        self.counts.iter().flatten().sum()
    }

    fn few(&self, register: usize, refusal: Refusal) -> bool {
        self.counts[register][refusal as usize] < LEAST
    }

    /// What did not come often enough. Every register has to be accepted where it is carried, and
    /// every access refused for its party.
    pub fn missing(&self) -> impl Iterator<Item = &'static str> + '_ {
        let words = WORDS.into_iter().enumerate();
        let few = words.filter(|(register, _)| {
            let carried = *register < Register::NoRead as usize;
            self.few(*register, Refusal::NoParty)
                || (carried && self.few(*register, Refusal::Accepted))
        });
        let refused = REFUSED.into_iter();
        let refused = refused.filter(|(own, refusal, _)| self.few(*own as usize, *refusal));
        few.map(|(_, word)| word)
            .chain(refused.map(|(.., word)| word))
    }

    pub fn print(&self) {
        println!("{} accesses, {} tried beside", self.count(), self.tried);
        for (word, counts) in WORDS.iter().zip(&self.counts) {
            let came = Refusal::ALL.iter().zip(counts).filter(|own| *own.1 > 0);
            let came: Vec<String> = came
                .map(|(refusal, count)| format!("{} {count}", refusal.word()))
                .collect();
            println!("    {word:<22} {}", came.join(", "));
        }
    }
}
