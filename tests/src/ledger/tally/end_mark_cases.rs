//! How often feoi's marks came, what they were kept over and how they went. A mark counts as kept or
//! removed where the next byte through offset 7 shows that, put up as data with END or without.

/// What is counted, in the order of the words.
#[derive(Clone, Copy, Debug)]
pub enum EndMarkCase {
    Set,
    Shown,
    Command,
    Unmarked,
    /// The sender has no mark, and another party has one.
    Beside,
    SetAgain,
    RefusedDataOut,
    HostWrite,
    Drop,
    Nbaf,
    Clear,
    Sic,
    Attention,
    Passed,
    Status,
    RefusedReset,
    RefusedSwrst,
    /// swrst or sic, cleared.
    Nothing,
    Reset,
    Swrst,
}

const CASES: usize = 20;

/// Fewer would say little.
const LEAST: u64 = 200;

impl EndMarkCase {
    pub fn bit(self) -> u32 {
        1 << self as u32
    }
}

#[derive(Clone, Default, Debug)]
pub struct EndMarkCases {
    pub counts: [u64; CASES],
}

impl EndMarkCases {
    pub const WORDS: [&'static str; CASES] = [
        "marks of feoi",
        "marks shown by END",
        "marks used up by a command",
        "data through offset 7 unmarked",
        "the same beside another's mark",
        "marks kept over another feoi",
        "marks kept over a refused data out",
        "marks kept over the host's write",
        "marks kept over drop",
        "marks kept over nbaf",
        "marks kept over interface clear",
        "marks kept over sic",
        "marks kept over attention",
        "marks kept over passed control",
        "marks kept over a status byte",
        "marks kept over a refused reset",
        "marks kept over a refused swrst",
        "marks kept over a cleared command",
        "marks removed by reset",
        "marks removed by swrst",
    ];

    pub fn count(&mut self, what: EndMarkCase) {
        self.counts[what as usize] += 1;
    }

    /// A mark that was kept over these, a bit for each case.
    pub fn count_shown(&mut self, kept: u32) {
        self.count(EndMarkCase::Shown);
        for (case, count) in self.counts.iter_mut().enumerate() {
            *count += u64::from(kept >> case & 1);
        }
    }

    /// What did not come often enough.
    pub fn missing(&self) -> impl Iterator<Item = &'static str> + '_ {
        let counts = self.counts.iter().zip(EndMarkCases::WORDS);
        let few = counts.filter(|(count, _)| **count < LEAST);
        few.map(|(_, word)| word)
    }

    pub fn print(&self) {
        for (word, count) in EndMarkCases::WORDS.iter().zip(&self.counts) {
            println!("    {word:<36} {count:>10}");
        }
    }
}
