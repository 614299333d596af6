//! The numbers and words behind the names: those of documents 01 and 02, and of document 001's tables 2-1
//! to 2-3.

use meskvorn::registers::{auxiliary, read, write};
use meskvorn::{Bus, Event, Line, Operation, Refusal, MOST_PARTIES};

const REFUSALS: [(Refusal, u8); 12] = [
    (Refusal::Accepted, 0),
    (Refusal::NoParty, 1),
    (Refusal::BadBuild, 2),
    (Refusal::BadValue, 3),
    (Refusal::Role, 4),
    (Refusal::Attention, 5),
    (Refusal::Talker, 6),
    (Refusal::Standing, 7),
    (Refusal::Full, 8),
    (Refusal::Empty, 9),
    (Refusal::Record, 10),
    (Refusal::NoReg, 11),
];

const EVENTS: [(Event, u8, &str); 14] = [
    (Event::None, 0, "none"),
    (Event::Moved, 1, "moved"),
    (Event::Cmd, 2, "cmd"),
    (Event::Data, 3, "data"),
    (Event::Stat, 4, "stat"),
    (Event::Took, 5, "took"),
    (Event::Heard, 6, "heard"),
    (Event::Clear, 7, "clear"),
    (Event::Trigger, 8, "trigger"),
    (Event::Ended, 9, "ended"),
    (Event::Passed, 10, "passed"),
    (Event::Noacc, 11, "noacc"),
    (Event::Read, 12, "read"),
    (Event::Lines, 13, "lines"),
];

const OPERATIONS: [(Operation, u8); 13] = [
    (Operation::Step, 1),
    (Operation::Write, 2),
    (Operation::Read, 3),
    (Operation::PollRegister, 4),
    (Operation::ListenOnly, 5),
    (Operation::TalkOnly, 6),
    (Operation::TakeControl, 7),
    (Operation::GoToStandby, 8),
    (Operation::InterfaceClear, 9),
    (Operation::Reset, 10),
    (Operation::Drop, 11),
    (Operation::Lines, 12),
    (Operation::SecondRequest, 13),
];

/// In the order in which the drivers are told.
const LINES: [(Line, u8); 6] = [
    (Line::Atn, 128),
    (Line::Dav, 64),
    (Line::Nrfd, 16),
    (Line::Ndac, 32),
    (Line::Eoi, 8),
    (Line::Srq, 4),
];

#[test]
fn refusals() {
    assert_eq!(Refusal::ALL, REFUSALS.map(|(refusal, _)| refusal));
    for (refusal, number) in REFUSALS {
        assert_eq!(refusal as u8, number, "{refusal:?}");
    }
}

#[test]
fn events() {
    assert_eq!(Event::ALL, EVENTS.map(|(event, ..)| event));
    for (event, number, word) in EVENTS {
        assert_eq!(event as u8, number, "{event:?}");
        assert_eq!(event.word(), word, "{event:?}");
    }
}

/// "The first two have no byte."
#[test]
fn events_with_a_byte() {
    for (event, number, _) in EVENTS {
        assert_eq!(event.has_byte(), number >= 2, "{event:?}");
    }
}

#[test]
fn operations() {
    for (operation, number) in OPERATIONS {
        assert_eq!(operation as u8, number, "{operation:?}");
    }
}

#[test]
fn lines() {
    assert_eq!(Line::ALL, LINES.map(|(line, _)| line));
    for (line, bit) in LINES {
        assert_eq!(line.bit(), bit, "{line:?}");
    }
}

#[test]
fn registers() {
    assert_eq!([read::BUS_STATUS, read::DATA_IN], [3, 7]);
    let written = [write::AUXILIARY, write::SERIAL_POLL, write::DATA_OUT];
    assert_eq!(written, [3, 5, 7]);
    use auxiliary::*;
    let commands = [SWRST, NBAF, FEOI, LON, TON, GTS, TCA, SIC, RSV2];
    assert_eq!(commands, [0, 5, 8, 9, 10, 11, 12, 15, 24]);
    assert_eq!(SET, 128);
}

#[test]
fn the_most_parties() {
    assert_eq!(MOST_PARTIES, 15);
    let addresses: Vec<u8> = (0..16).collect();
    let built = |count: usize| Bus::build(&addresses[..count], 0).1.refusal;
    assert_eq!(built(MOST_PARTIES), Refusal::Accepted);
    assert_eq!(built(MOST_PARTIES + 1), Refusal::BadBuild);
}
