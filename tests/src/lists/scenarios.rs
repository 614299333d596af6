//! What a guided list sets out to do: scenarios of chance, each a short list of goals. Those of feoi's
//! marks and of parallel polls are in modules.

mod end_marks;
mod parallel_polls;

use super::command_codes::{
    self, DCL, GET, LISTEN_ADDRESS, NEITHER, NO_MEANING, SDC, SECONDARY, SPD, SPE, TALK_ADDRESS,
    TCT, UNL, UNT,
};
use super::likely_arguments::{
    any_party, controller, likely_command, likely_register, likely_secondary, other_party,
};
use super::random_numbers::Random;
use crate::model::script::{CLEAR, DROP, LISTEN, POLL, REQUEST, RESET, STANDBY, TAKE, TALK, WRITE};
use crate::model::{Access, Bus, PollCall, RSV};

#[derive(Clone, Copy, Debug)]
pub enum Goal {
    /// Operation, party, value, extra.
    Call(u8, u8, u8, u8),
    /// A read or a write of a register.
    Access(Access),
    PollCall(PollCall),
    /// The active party polls.
    ParallelPoll,
    /// Some party becomes active: out of standby, else by interface clear.
    Gain,
    /// The active party goes to standby.
    Release,
    /// The active party's host writes this byte, and it is walked to its end.
    Command(u8),
    /// The talker's host writes a byte.
    Data,
    /// Steps until nothing stands and no source holds a byte, at most so many.
    Finish(usize),
    /// So many steps.
    Walk(usize),
}

/// The active party addresses this one, to talk or to listen.
fn address(goals: &mut Vec<Goal>, primary: u8, bus: &Bus, party: u8) {
    let name = bus.parties[usize::from(party)].name;
    goals.extend(command_codes::addressing(primary, name).map(Goal::Command));
}

type Scenario = fn(&Bus, &mut Random, &mut Vec<Goal>);

const SCENARIOS: [Scenario; 15] = [
    talk_to_listeners,
    talk_to_listeners,
    talk_to_listeners,
    talk_to_listeners,
    address_and_send,
    address_and_send,
    serial_poll,
    serial_poll,
    second_requests,
    pass_control,
    pass_control,
    signals,
    mid_byte,
    mid_byte,
    nobody_listens,
];

/// How often a scenario is of one sort, in times per thousand; each of those that the sorts before it have
/// left.
#[derive(Clone, Copy, Default)]
pub struct Leanings {
    /// Requests and serial polls.
    pub polls: usize,
    /// feoi's marks.
    pub end_marks: usize,
    pub parallel_polls: usize,
}

/// Goals for one scenario of chance, never none.
pub fn scenario(bus: &Bus, random: &mut Random, leanings: Leanings) -> Vec<Goal> {
    let mut goals = Vec::new();
    let by_two_bytes = bus.has_secondaries() && random.per_mille(300);
    let any = random.pick(&SCENARIOS);
    let chosen = if random.per_mille(leanings.polls) {
        second_requests
    } else if random.per_mille(leanings.end_marks) {
        end_marks::marked_bytes
    } else if random.per_mille(leanings.parallel_polls) {
        parallel_polls::parallel_polls
    } else if by_two_bytes {
        secondaries
    } else {
        any
    };
    chosen(bus, random, &mut goals);
    goals.push(Goal::Walk(1 + random.below(4)));
    goals
}

/// Listen-only and talk-only, with parties that leave and join while a byte stands.
fn talk_to_listeners(bus: &Bus, random: &mut Random, goals: &mut Vec<Goal>) {
    let talker = any_party(bus, random);
    if bus.atn() {
        goals.push(Goal::Release);
    }
    goals.push(Goal::Call(LISTEN, talker, 0, 0));
    goals.push(Goal::Call(TALK, talker, 1, 0));
    for _ in 0..1 + random.below(bus.count) {
        goals.push(Goal::Call(LISTEN, other_party(bus, talker, random), 1, 0));
    }
    for _ in 0..1 + random.below(8) {
        goals.push(Goal::Data);
        if random.per_mille(400) {
            goals.push(Goal::Walk(random.below(5 * bus.count + 1)));
            let party = any_party(bus, random);
            goals.push(Goal::Call(LISTEN, party, random.below(2) as u8, 0));
            goals.push(Goal::Call(LISTEN, party, random.below(2) as u8, 0));
        }
        goals.push(Goal::Finish(8 * bus.count));
    }
}

/// A controller addresses a talker and listeners, lets them send, and may cut in.
fn address_and_send(bus: &Bus, random: &mut Random, goals: &mut Vec<Goal>) {
    goals.push(Goal::Gain);
    if random.per_mille(700) {
        goals.push(Goal::Command(UNL));
    }
    let talker = any_party(bus, random);
    for _ in 0..1 + random.below(3) {
        let listener = other_party(bus, talker, random);
        address(goals, LISTEN_ADDRESS, bus, listener);
    }
    address(goals, TALK_ADDRESS, bus, talker);
    goals.push(Goal::Release);
    for _ in 0..1 + random.below(8) {
        goals.push(Goal::Data);
        goals.push(Goal::Finish(8 * bus.count));
    }
    if random.per_mille(500) {
        goals.push(Goal::Data);
        goals.push(Goal::Walk(random.below(5 * bus.count + 1)));
        goals.push(Goal::Gain);
    }
}

fn serial_poll(bus: &Bus, random: &mut Random, goals: &mut Vec<Goal>) {
    let polled = any_party(bus, random);
    poll_of(bus, random, goals, polled);
}

fn poll_of(bus: &Bus, random: &mut Random, goals: &mut Vec<Goal>, polled: u8) {
    goals.push(Goal::Call(POLL, polled, likely_register(random), 0));
    goals.push(Goal::Gain);
    if random.per_mille(800) {
        address(goals, LISTEN_ADDRESS, bus, controller(bus));
    }
    if random.per_mille(300) {
        goals.push(Goal::Call(WRITE, polled, random.byte(), 1));
    }
    goals.push(Goal::Command(SPE));
    address(goals, TALK_ADDRESS, bus, polled);
    goals.push(Goal::Release);
    goals.push(Goal::Walk(8 + random.below(20)));
    if random.per_mille(500) {
        goals.push(Goal::Call(POLL, polled, likely_register(random), 0));
        goals.push(Goal::Walk(8 + random.below(20)));
    }
    goals.push(Goal::Gain);
    if random.per_mille(700) {
        goals.push(Goal::Command(SPD));
        goals.push(Goal::Command(UNT));
    }
}

/// A request before, in or between polls of one party, whose register mostly has bit 64 off.
fn second_requests(bus: &Bus, random: &mut Random, goals: &mut Vec<Goal>) {
    let party = any_party(bus, random);
    if random.per_mille(850) {
        goals.push(Goal::Call(POLL, party, random.byte() & !RSV, 0));
    }
    address_for_poll(bus, random, goals, party);
    goals.push(Goal::Call(REQUEST, party, 1, 0));
    for _ in 0..1 + random.below(4) {
        if random.per_mille(250) {
            between_polls(bus, random, goals, party);
            address_for_poll(bus, random, goals, party);
        }
        goals.push(Goal::Release);
        goals.push(Goal::Walk(random.pick(&[0, 1, 3, 4, 8, 20, 30])));
        if random.per_mille(150) {
            goals.push(Goal::Call(REQUEST, party, random.below(3) as u8, 0));
            goals.push(Goal::Walk(random.below(12)));
        }
        goals.push(Goal::Gain);
    }
}

fn address_for_poll(bus: &Bus, random: &mut Random, goals: &mut Vec<Goal>, party: u8) {
    goals.push(Goal::Gain);
    if random.per_mille(850) {
        address(goals, LISTEN_ADDRESS, bus, other_party(bus, party, random));
    }
    goals.push(Goal::Command(SPE));
    address(goals, TALK_ADDRESS, bus, party);
}

/// What may or may not take a request back.
fn between_polls(bus: &Bus, random: &mut Random, goals: &mut Vec<Goal>, party: u8) {
    let call = match random.below(7) {
        0 => Goal::Call(REQUEST, party, 0, 0),
        1 => Goal::Call(RESET, party, 0, 0),
        2 => Goal::Call(POLL, party, likely_register(random), 0),
        3 => Goal::Call(CLEAR, bus.system as u8, 0, 0),
        4 => Goal::Data,
        5 => Goal::Command(DCL),
        _ => Goal::Call(REQUEST, party, 1, 0),
    };
    goals.push(call);
    goals.push(Goal::Walk(random.below(3)));
}

fn pass_control(bus: &Bus, random: &mut Random, goals: &mut Vec<Goal>) {
    let next = any_party(bus, random);
    goals.push(Goal::Gain);
    address(goals, TALK_ADDRESS, bus, next);
    if random.per_mille(400) {
        goals.push(Goal::Call(WRITE, next, random.byte(), 0));
    }
    if random.per_mille(700) {
        goals.push(Goal::Command(random.pick(&[TCT, TCT, TCT | 0x80])));
        return;
    }
    // The sender writes again while its TCT stands, so that two held bytes are dropped.
    goals.push(Goal::Call(WRITE, controller(bus), TCT, 0));
    goals.push(Goal::Walk(3 * bus.count));
    goals.push(Goal::Call(WRITE, controller(bus), random.byte(), 0));
    goals.push(Goal::Finish(6 * bus.count));
}

fn signals(bus: &Bus, random: &mut Random, goals: &mut Vec<Goal>) {
    goals.push(Goal::Gain);
    address(goals, LISTEN_ADDRESS, bus, any_party(bus, random));
    for _ in 0..1 + random.below(4) {
        goals.push(Goal::Command(random.pick(&[SDC, GET, DCL, GET | 0x80])));
    }
}

/// A call in the middle of whatever goes on.
fn mid_byte(bus: &Bus, random: &mut Random, goals: &mut Vec<Goal>) {
    goals.push(Goal::Data);
    goals.push(Goal::Walk(random.below(5 * bus.count + 1)));
    let party = if random.per_mille(500) {
        controller(bus)
    } else {
        any_party(bus, random)
    };
    let operation = random.pick(&[RESET, LISTEN, TALK, TAKE, STANDBY, CLEAR, DROP, REQUEST]);
    goals.push(Goal::Call(operation, party, random.below(2) as u8, 0));
}

/// Data or a status byte with no acceptor on the bus.
fn nobody_listens(bus: &Bus, random: &mut Random, goals: &mut Vec<Goal>) {
    let talker = any_party(bus, random);
    goals.push(Goal::Gain);
    goals.push(Goal::Command(UNL));
    goals.push(Goal::Command(random.pick(&[SPE, SPD])));
    address(goals, TALK_ADDRESS, bus, talker);
    goals.push(Goal::Release);
    goals.push(Goal::Call(
        WRITE,
        talker,
        random.byte(),
        random.below(2) as u8,
    ));
    goals.push(Goal::Walk(4));
}

/// Primaries and secondaries in all orders, often with something between them.
fn secondaries(bus: &Bus, random: &mut Random, goals: &mut Vec<Goal>) {
    goals.push(Goal::Gain);
    for _ in 0..1 + random.below(3) {
        let name = bus.parties[usize::from(any_party(bus, random))].name;
        let primary = random.pick(&[LISTEN_ADDRESS, TALK_ADDRESS, TALK_ADDRESS]);
        goals.push(Goal::Command(primary + name.primary));
        for _ in 0..1 + random.below(3) {
            if random.per_mille(250) {
                between(bus, random, goals);
            }
            let any = likely_secondary(bus, random);
            let own = name.secondary.map_or(any, |own| SECONDARY + own);
            goals.push(Goal::Command(random.pick(&[own, any])));
        }
    }
    match random.below(4) {
        0 => goals.push(Goal::Command(TCT)),
        1 => goals.extend([Goal::Release, Goal::Data, Goal::Finish(8 * bus.count)]),
        2 => goals.extend([Goal::Command(SPE), Goal::Release, Goal::Walk(12)]),
        _ => tell_roles(bus, random, goals),
    }
}

/// Under ATN talk-only is refused with 4 to who listens, and listen-only to who talks.
fn tell_roles(bus: &Bus, random: &mut Random, goals: &mut Vec<Goal>) {
    for party in 0..bus.count as u8 {
        goals.push(Goal::Call(TALK, party, 1, 0));
    }
    goals.push(Goal::Call(LISTEN, any_party(bus, random), 1, 0));
}

/// What may or may not cost a party its mark: a command, a host's call, or other attention.
fn between(bus: &Bus, random: &mut Random, goals: &mut Vec<Goal>) {
    let party = any_party(bus, random);
    match random.below(8) {
        0 => goals.push(Goal::Command(NEITHER)),
        1 => goals.push(Goal::Command(random.pick(&[DCL, SDC, GET, SPE, SPD]))),
        2 => goals.push(Goal::Command(random.pick(&[NO_MEANING, UNL, UNT]))),
        3 => goals.push(Goal::Command(likely_command(bus, random))),
        4 => goals.push(Goal::Call(RESET, party, 0, 0)),
        5 => goals.push(Goal::Call(LISTEN, party, random.below(2) as u8, 0)),
        6 => goals.push(Goal::Call(TALK, party, 0, 0)),
        _ => goals.extend([Goal::Release, Goal::Gain]),
    }
}
