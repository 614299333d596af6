//! How often parallel polls and own statuses came, each line by each sense, and what configuring, a
//! response and a status were kept over or went by. Such a case counts where a later poll shows it: by a
//! line that one party alone turns on, or by one that is off and would be on.

/// What is counted, in the order of the words.
#[derive(Clone, Copy, Debug)]
pub enum PollCase {
    NoLine,
    OneLine,
    SeveralLines,
    NoParty,
    Role,
    RoleWhileStanding,
    Standing,
    StatusOff,
    StatusOn,
    StatusNoParty,
    StatusBadValue,
    StatusNeither,
    ByAnother,
    OfPoller,
    OfExtended,
    OwnSecondary,
    OffByStatus,
    SharedByNone,
    SharedByOne,
    SharedByBoth,
    MarkOverSet,
    MarkOverDisable,
    MarkOver7F,
    MarkOverPpc,
    MarkOverPpcUnlistened,
    MarkOverAttention,
    MarkOverClear,
    MarkOverSwitch,
    MarkOverRefusedReset,
    MarkOverPoll,
    MarkAfterTalkPrimary,
    UnmarkedByListenAddress,
    UnmarkedByTalkAddress,
    UnmarkedByUnaddress,
    UnmarkedByUniversal,
    UnmarkedByAddressed,
    UnmarkedByNoMeaning,
    UnmarkedByPpu,
    UnmarkedByReset,
    UnmarkedBySwrst,
    NotMarked,
    KeptOverAttention,
    KeptOverClear,
    KeptOverPassed,
    KeptOverPpc,
    KeptOverPrimary,
    KeptOverSecondary,
    KeptOverDisable,
    KeptOverAnothersReset,
    KeptOverRefusedReset,
    KeptOverPoll,
    KeptOverStatus,
    RemovedByDisable,
    RemovedBy7F,
    RemovedByPpuListening,
    RemovedByPpuNotListening,
    RemovedByReset,
    RemovedBySwrst,
    Replaced,
    RemovedByBuild,
    StatusAtBuild,
    StatusOverReset,
    StatusOverClear,
}

const CASES: usize = 63;

/// Fewer would say little.
const LEAST: u64 = 100;

impl PollCase {
    pub fn bit(self) -> u64 {
        1 << self as u32
    }
}

const LINES: [[&str; 8]; 2] = [
    [
        "line 1 on by sense 0",
        "line 2 on by sense 0",
        "line 3 on by sense 0",
        "line 4 on by sense 0",
        "line 5 on by sense 0",
        "line 6 on by sense 0",
        "line 7 on by sense 0",
        "line 8 on by sense 0",
    ],
    [
        "line 1 on by sense 1",
        "line 2 on by sense 1",
        "line 3 on by sense 1",
        "line 4 on by sense 1",
        "line 5 on by sense 1",
        "line 6 on by sense 1",
        "line 7 on by sense 1",
        "line 8 on by sense 1",
    ],
];

#[derive(Clone, Debug)]
pub struct PollCases {
    pub counts: [u64; CASES],
    /// By sense, then by line.
    pub lines: [[u64; 8]; 2],
}

impl Default for PollCases {
    fn default() -> PollCases {
        PollCases {
            counts: [0; CASES],
            lines: [[0; 8]; 2],
        }
    }
}

impl PollCases {
    pub const WORDS: [&'static str; CASES] = [
        "polls with no line on",
        "polls with one line on",
        "polls with several lines on",
        "polls NOPARTY",
        "polls ROLE",
        "polls ROLE while a byte stands",
        "polls STANDING",
        "own statuses 0",
        "own statuses 1",
        "own statuses NOPARTY",
        "own statuses BADVALUE",
        "own statuses NOPARTY with a bad value",
        "polls by another than the system party",
        "lines on by the party that polls",
        "lines on by a party with a secondary",
        "lines on by the own secondary's code",
        "lines off by the status",
        "two on a line, off by both",
        "two on a line, on by one",
        "two on a line, on by both",
        "configuring kept over 60 to 6F",
        "configuring kept over 70 to 7E",
        "configuring kept over 7F",
        "configuring kept over PPC",
        "configuring kept over PPC not listening",
        "configuring kept over attention",
        "configuring kept over interface clear",
        "configuring kept over a switch",
        "configuring kept over a refused reset",
        "configuring kept over a poll",
        "configuring after talk primary",
        "configuring lost by a listen address",
        "configuring lost by a talk address",
        "configuring lost by UNL or UNT",
        "configuring lost by DCL, SPE or SPD",
        "configuring lost by SDC, GET or TCT",
        "configuring lost by no meaning",
        "configuring lost by PPU",
        "configuring lost by reset",
        "configuring lost by swrst",
        "not marked by PPC, not listening",
        "responses kept over attention",
        "responses kept over interface clear",
        "responses kept over passed control",
        "responses kept over PPC",
        "responses kept over a primary command",
        "responses kept over 60 to 6F unmarked",
        "responses kept over 70 to 7F unmarked",
        "responses kept over another's reset",
        "responses kept over a refused reset",
        "responses kept over a poll",
        "responses kept over an own status",
        "responses removed by 70 to 7E",
        "responses removed by 7F",
        "responses removed by PPU, listening",
        "responses removed by PPU, not listening",
        "responses removed by reset",
        "responses removed by swrst",
        "responses replaced",
        "responses removed by a build",
        "own statuses 0 from build on",
        "own statuses kept over reset",
        "own statuses kept over interface clear",
    ];

    pub fn count(&mut self, what: PollCase) {
        self.counts[what as usize] += 1;
    }

    /// A line that one party turned on, with what led there, a bit for each case.
    pub fn count_shown(&mut self, sense: u8, line: u8, over: u64) {
        self.lines[usize::from(sense)][usize::from(line - 1)] += 1;
        for (case, count) in self.counts.iter_mut().enumerate() {
            *count += over >> case & 1;
        }
    }

    /// What did not come often enough.
    pub fn missing(&self) -> impl Iterator<Item = &'static str> + '_ {
        let lines = self.lines.iter().flatten();
        let lines = lines.zip(LINES.into_iter().flatten());
        let counts = self.counts.iter().zip(PollCases::WORDS);
        let few = counts.chain(lines).filter(|(count, _)| **count < LEAST);
        few.map(|(_, word)| word)
    }

    pub fn print(&self) {
        println!(
            "parallel polls: lines 1 to 8 that one party turned on, by sense 0 and by sense 1"
        );
        for counts in self.lines {
            let counts: Vec<String> = counts.iter().map(|count| format!("{count:>8}")).collect();
            println!("    {}", counts.join(""));
        }
        for (word, count) in PollCases::WORDS.iter().zip(&self.counts) {
            println!("    {word:<40} {count:>10}");
        }
    }
}
