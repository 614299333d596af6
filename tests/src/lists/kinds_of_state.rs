//! Every operation on every kind of state that short prefixes lead to.

use std::collections::{HashSet, VecDeque};

use super::composer::Composer;
use super::guided::Guided;
use super::pieces::{self, Piece};
use crate::compare::{Comparison, Finding};
use crate::ledger::bound::TURNS_A_PARTY;
use crate::model::registers::{FEOI, SERIAL_POLL};
use crate::model::script::{
    self, Record, BUILD, CLEAR, DROP, LAST_OPERATION, LINES, LISTEN, POLL, READ, REQUEST, RESET,
    STANDBY, STEP, TAKE, TALK, WRITE,
};
use crate::model::{
    Acceptor, Access, Bus, Control, Kind, Lists, Mark, Name, Party, PollCall, Service, Source, ATN,
    DAV,
};

const PARTIES: u8 = 3;
const FIRST_ADDRESS: u8 = 5;
const LONGEST_PREFIX: usize = 90;
const TAIL: usize = 10;

/// UNL, UNT, SPE, SPD, TCT, PPC, and the addresses of the rack without secondaries.
const COMMANDS: &[u8] = &[
    0x3F, 0x5F, 0x18, 0x19, 0x09, 0x05, 0x25, 0x45, 0x26, 0x46, 0x27, 0x47,
];

/// The same for the rack with secondaries.
const EXTENDED_COMMANDS: &[u8] = &[
    0x3F, 0x5F, 0x18, 0x19, 0x09, 0x05, 0x25, 0x45, 0x26, 0x46, 0x61, 0x62,
];

/// Two are numbered against their secondaries.
const EXTENDED_RACK: [Name; PARTIES as usize] =
    [Name::plain(5), Name::extended(6, 2), Name::extended(6, 1)];

/// What tells one party's state from another's, with the bus around it.
#[derive(Clone, Copy, PartialEq, Eq, Hash)]
struct PartyKind {
    flags: [bool; 3],
    mark: Option<Mark>,
    control: Control,
    source: Source,
    acceptor: Acceptor,
    held: bool,
    data_in: bool,
    service: Service,
    rsv2: bool,
    register_waits: bool,
    system: bool,
    lines: u8,
    standing: Option<(Kind, bool)>,
}

/// `lines` says which lines count for telling states apart. While configuring, a request for service and
/// data-in do not.
fn kind(bus: &Bus, place: usize, lines: u8) -> PartyKind {
    let mut party = bus.parties[place];
    if party.mark == Some(Mark::Configuring) {
        party = Party {
            data_in: None,
            service: Service::Nprs,
            rsv2: false,
            live: party.saved,
            ..party
        };
    }
    PartyKind {
        flags: [party.talk, party.listen, party.poll_mode],
        mark: party.mark,
        control: party.control,
        source: party.source,
        acceptor: party.acceptor,
        held: party.held.is_some(),
        data_in: party.data_in.is_some(),
        service: party.service,
        rsv2: party.rsv2,
        register_waits: party.live != party.saved,
        system: place == bus.system,
        lines: bus.line_bits() & lines,
        standing: bus
            .standing
            .map(|standing| (standing.kind, standing.sender == place)),
    }
}

/// Calls that lead from one kind of state to another, on three parties.
pub fn single_calls() -> Vec<Record> {
    let mut calls = Vec::new();
    for party in 0..PARTIES {
        for operation in [STEP, READ, TAKE, STANDBY, CLEAR, RESET, DROP] {
            calls.push(script::record(operation, party, 0, 0));
        }
        for switch in 0..2 {
            calls.push(script::record(LISTEN, party, switch, 0));
            calls.push(script::record(TALK, party, switch, 0));
            calls.push(script::record(POLL, party, 0x41 * switch, 0));
            calls.push(script::record(REQUEST, party, switch, 0));
            calls.push(script::record(WRITE, party, 0x09, switch));
        }
    }
    calls
}

/// Enters the kinds of all parties; true if one was new.
fn enter(known: &mut HashSet<PartyKind>, bus: &Bus, lines: u8) -> bool {
    let already = known.len();
    known.extend((0..bus.count).map(|place| kind(bus, place, lines)));
    known.len() > already
}

/// All that one call or one whole command leads to.
fn reached(state: &Composer, calls: &[Record], commands: &[u8]) -> Vec<Composer> {
    let mut reached = Vec::new();
    for call in calls {
        let mut next = state.clone();
        if next.call(call[2], call[3], call[4], call[5]).accepted() {
            reached.push(next);
        }
    }
    for command in commands {
        let mut next = state.clone();
        if next.command(*command) {
            reached.push(next);
        }
    }
    reached
}

/// One prefix for every new kind of party state that the search from this bus comes upon, fewest
/// moves first. It goes on from kinds told apart by all lines; those tested, by ATN and DAV.
fn search(start: Composer, commands: &[u8], tested: &mut HashSet<PartyKind>) -> Vec<Vec<Record>> {
    let calls = single_calls();
    let mut searched = HashSet::new();
    let mut queue = VecDeque::from([start]);
    let mut found = Vec::new();
    while let Some(state) = queue.pop_front() {
        if enter(tested, &state.bus, ATN | DAV) {
            found.push(state.records.clone());
        }
        for next in reached(&state, &calls, commands) {
            let short = next.records.len() <= LONGEST_PREFIX;
            if short && enter(&mut searched, &next.bus, u8::MAX) {
                queue.push_back(next);
            }
        }
    }
    found
}

/// From a rack without secondaries, then what is new on one with some.
pub fn prefixes() -> Vec<Vec<Record>> {
    let mut plain = Composer::new();
    plain.call(BUILD, 0, PARTIES, FIRST_ADDRESS);
    let mut extended = Composer::new();
    extended.build(&EXTENDED_RACK, 0);
    let mut tested = HashSet::new();
    let mut found = search(plain, COMMANDS, &mut tested);
    found.extend(search(extended, EXTENDED_COMMANDS, &mut tested));
    found
}

/// Those that have to do with marks, and some that are refused.
fn some_accesses(party: u8) -> [Access; 4] {
    let offset = SERIAL_POLL;
    [
        Access::auxiliary(party, FEOI),
        Access::data_out(party, 0xA5),
        Access::auxiliary(party, 0xFF),
        Access::Read { party, offset },
    ]
}

fn some_poll_calls(party: u8) -> [PollCall; 3] {
    [
        PollCall::Poll { party },
        PollCall::OwnStatus { party, value: 1 },
        PollCall::OwnStatus { party, value: 2 },
    ]
}

/// All operations, some runs, the drivers, some accesses, own statuses and parallel polls, with own, other
/// and no such party, and values in and out of range.
fn all_calls() -> Vec<Record> {
    let mut calls = vec![
        script::record(LINES, 0, 0, 0),
        script::record(LINES, 255, 255, 255),
        script::record(LAST_OPERATION + 1, 0, 0, 0),
        script::record(LAST_OPERATION + 1, 255, 2, 2),
        script::record(255, 0, 0, 0),
    ];
    let round = u16::from(PARTIES);
    for turns in [round - 1, round, TURNS_A_PARTY * round] {
        calls.push(pieces::run(turns));
    }
    calls.push(pieces::DRIVERS);
    for party in [0, 1, 2, PARTIES, 255] {
        calls.extend(some_accesses(party).map(pieces::access));
        calls.extend(some_poll_calls(party).map(pieces::poll_call));
        for operation in [STEP, READ, TAKE, STANDBY, CLEAR, RESET, DROP] {
            calls.push(script::record(operation, party, 2, 2));
        }
        for value in 0..3 {
            calls.push(script::record(LISTEN, party, value, 0));
            calls.push(script::record(TALK, party, value, 2));
            calls.push(script::record(REQUEST, party, value, 2));
            calls.push(script::record(WRITE, party, 0xA5, value));
            calls.push(script::record(
                POLL,
                party,
                [0, 0x40, 0xFF][usize::from(value)],
                2,
            ));
        }
    }
    calls
}

fn builds() -> Vec<Vec<Record>> {
    let equal = Lists::of(&[Name::extended(6, 1), Name::extended(6, 1)]);
    let beside = Lists::of(&EXTENDED_RACK[1..]);
    let mut too_few = Lists::of(&[Name::extended(6, 1), Name::plain(5)]);
    too_few.secondaries.pop();
    let mut too_many = beside.clone();
    too_many.secondaries.push(None);
    vec![
        vec![script::record(BUILD, 1, 2, 29)],
        vec![script::record(BUILD, 0, 0, 5)],
        vec![script::record(BUILD, 0, 2, 30)],
        vec![script::record(BUILD, 2, 2, 5)],
        pieces::build(&beside, 1),
        pieces::build(&equal, 0),
        pieces::build(&Lists::plain(&beside.addresses), 1),
        pieces::build(&too_few, 0),
        pieces::build(&too_many, 0),
    ]
}

/// Refused calls change nothing, so they go into one list; each accepted one has its own.
fn one_kind(
    comparison: &mut Comparison,
    guided: &mut Guided,
    prefix: &[Record],
    calls: &[Record],
) -> Result<(), Finding> {
    let bus = pieces::bus_after(&prefix.concat());
    let accepted = |call: &Record| pieces::enter(&mut bus.clone(), &Piece::of(call)).accepted();
    let (good, refused): (Vec<Record>, Vec<Record>) = calls.iter().partition(|c| accepted(c));
    comparison.list(guided.go_on(&[prefix, &refused].concat(), TAIL))?;
    let alone = good.iter().map(|call| vec![*call]);
    for calls in alone.chain(builds()) {
        comparison.list(guided.go_on(&[prefix, &calls].concat(), TAIL))?;
    }
    Ok(())
}

/// The whole systematic part, from the prefixes given.
pub fn run(
    comparison: &mut Comparison,
    prefixes: &[Vec<Record>],
    seed: u64,
) -> Result<(), Finding> {
    let mut guided = Guided::new(seed);
    let calls = all_calls();
    for prefix in prefixes {
        one_kind(comparison, &mut guided, prefix, &calls)?;
    }
    Ok(())
}
