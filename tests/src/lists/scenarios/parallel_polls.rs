//! Scenarios of parallel polls.

use super::{address, pass_control, Goal};
use crate::lists::command_codes::{
    enable, DCL, GET, LISTEN_ADDRESS, NEITHER, NO_MEANING, PPC, PPD, PPE, PPU, SDC, SPD, SPE,
    TALK_ADDRESS, TCT, UNL, UNT,
};
use crate::lists::likely_arguments::{any_party, controller, likely_command};
use crate::lists::random_numbers::Random;
use crate::model::registers::{SET, SWRST};
use crate::model::script::{CLEAR, LISTEN, RESET, TALK, WRITE};
use crate::model::{Access, Bus, PollCall, POLL_LINES};

type Act = fn(&Bus, &mut Random, &mut Vec<Goal>, u8);

/// Parties get responses and statuses, and the active party polls; then what may or may not remove a
/// response, and polls again.
pub fn parallel_polls(bus: &Bus, random: &mut Random, goals: &mut Vec<Goal>) {
    goals.push(Goal::Gain);
    if random.per_mille(150) {
        all_at_once(bus, random, goals);
    }
    let mut party = any_party(bus, random);
    for _ in 0..random.below(4) {
        party = any_party(bus, random);
        party = random.pick(&[party, party, controller(bus)]);
        give_response(bus, random, goals, party);
    }
    for _ in 0..random.below(4) {
        poll(bus, random, goals, party);
        let act = random.pick(&BETWEEN_POLLS);
        act(bus, random, goals, party);
        let other = any_party(bus, random);
        party = random.pick(&[party, party, other]);
    }
    poll(bus, random, goals, party);
}

/// A poll by whoever is active, after a status or two.
fn poll(bus: &Bus, random: &mut Random, goals: &mut Vec<Goal>, party: u8) {
    goals.push(Goal::Gain);
    for _ in 0..random.below(3) {
        let other = any_party(bus, random);
        let party = random.pick(&[party, other]);
        let value = random.below(2) as u8;
        goals.push(Goal::PollCall(PollCall::OwnStatus { party, value }));
    }
    goals.push(Goal::ParallelPoll);
}

/// Few lines, so that parties share them.
fn line(random: &mut Random) -> u8 {
    let any = 1 + random.below(POLL_LINES.into()) as u8;
    random.pick(&[any, any, 3])
}

/// A code that sets a response, at times that of the party's own secondary.
fn enabling(bus: &Bus, random: &mut Random, party: u8) -> u8 {
    let code = enable(line(random), random.per_mille(500));
    let own = bus.parties[usize::from(party)].name.secondary;
    let own = own.map(|own| PPE + own).filter(|own| *own < PPD);
    let code = random.pick(&[code, code, own.unwrap_or(code)]);
    code | if random.per_mille(100) { 0x80 } else { 0 }
}

fn disabling(random: &mut Random) -> u8 {
    PPD + random.below(2) as u8 * random.below(15) as u8
}

fn all_at_once(bus: &Bus, random: &mut Random, goals: &mut Vec<Goal>) {
    for party in 0..bus.count as u8 {
        address(goals, LISTEN_ADDRESS, bus, party);
    }
    let code = enabling(bus, random, 0);
    goals.extend([PPC, code].map(Goal::Command));
}

fn listen(bus: &Bus, random: &mut Random, goals: &mut Vec<Goal>, party: u8) {
    goals.push(Goal::Gain);
    if random.per_mille(800) {
        goals.push(Goal::Command(UNL));
    }
    address(goals, LISTEN_ADDRESS, bus, party);
}

/// The party is made to listen and configured, often with something between PPC and its code.
fn give_response(bus: &Bus, random: &mut Random, goals: &mut Vec<Goal>, party: u8) {
    listen(bus, random, goals, party);
    if random.per_mille(200) {
        let name = bus.parties[usize::from(party)].name;
        goals.push(Goal::Command(TALK_ADDRESS + name.primary));
    }
    goals.push(Goal::Command(PPC));
    if random.per_mille(500) {
        let act = random.pick(&WHILE_CONFIGURING);
        act(bus, random, goals, party);
        goals.push(Goal::Gain);
    }
    goals.push(Goal::Command(enabling(bus, random, party)));
}

/// What may or may not end configuring.
const WHILE_CONFIGURING: [Act; 14] = [
    |bus, random, goals, party| goals.push(Goal::Command(enabling(bus, random, party))),
    |_, random, goals, _| goals.push(Goal::Command(disabling(random))),
    |_, _, goals, _| goals.push(Goal::Command(NEITHER)),
    |_, _, goals, _| goals.push(Goal::Command(PPC)),
    |_, _, goals, party| {
        goals.extend([Goal::Call(LISTEN, party, 0, 0), Goal::Command(PPC)]);
    },
    |_, _, goals, _| goals.extend([Goal::Release, Goal::Gain]),
    |bus, _, goals, _| goals.push(Goal::Call(CLEAR, bus.system as u8, 0, 0)),
    |_, random, goals, _| {
        let codes = [DCL, SPE, SPD, SDC, GET, TCT, UNL, UNT, PPU, NO_MEANING];
        goals.push(Goal::Command(random.pick(&codes)));
    },
    |bus, random, goals, _| goals.push(Goal::Command(likely_command(bus, random))),
    |bus, random, goals, party| {
        let name = bus.parties[usize::from(party)].name;
        let primary = random.pick(&[LISTEN_ADDRESS, TALK_ADDRESS]);
        goals.push(Goal::Command(primary + name.primary));
    },
    reset,
    |_, random, goals, party| {
        let operation = random.pick(&[LISTEN, TALK]);
        goals.push(Goal::Call(operation, party, random.below(2) as u8, 0));
    },
    poll,
    while_a_command_stands,
];

/// What may or may not remove a response.
const BETWEEN_POLLS: [Act; 16] = [
    |_, _, goals, _| goals.push(Goal::Command(PPU)),
    |bus, random, goals, party| {
        listen(bus, random, goals, party);
        goals.push(Goal::Command(PPU));
    },
    |bus, random, goals, party| {
        listen(bus, random, goals, party);
        let code = disabling(random);
        goals.extend([PPC, code].map(Goal::Command));
    },
    |bus, random, goals, party| {
        listen(bus, random, goals, party);
        goals.extend([PPC, NEITHER].map(Goal::Command));
    },
    reset,
    |bus, random, goals, _| {
        let other = any_party(bus, random);
        reset(bus, random, goals, other);
    },
    |bus, _, goals, _| goals.push(Goal::Call(CLEAR, bus.system as u8, 0, 0)),
    |_, _, goals, _| goals.extend([Goal::Release, Goal::Gain]),
    |bus, random, goals, _| pass_control(bus, random, goals),
    |_, _, goals, _| goals.extend([Goal::Release, Goal::Data, Goal::Walk(20)]),
    |bus, random, goals, party| {
        // Nobody listens.
        let codes = [enabling(bus, random, party), disabling(random)];
        goals.extend([UNL, PPC, random.pick(&codes)].map(Goal::Command));
    },
    |bus, random, goals, party| {
        let codes = [enabling(bus, random, party), disabling(random), NEITHER];
        goals.push(Goal::Command(random.pick(&codes)));
    },
    |bus, random, goals, _| goals.push(Goal::Command(likely_command(bus, random))),
    give_response,
    poll,
    while_a_command_stands,
];

fn reset(_: &Bus, random: &mut Random, goals: &mut Vec<Goal>, party: u8) {
    let by_register = Access::auxiliary(party, SWRST | SET);
    let ways = [Goal::Call(RESET, party, 0, 0), Goal::Access(by_register)];
    goals.push(random.pick(&ways));
}

/// A command on its way: its sender is not reset, and does not poll.
fn while_a_command_stands(bus: &Bus, random: &mut Random, goals: &mut Vec<Goal>, party: u8) {
    let sender = controller(bus);
    let codes = [enabling(bus, random, party), UNL, NO_MEANING];
    goals.push(Goal::Call(WRITE, sender, random.pick(&codes), 0));
    goals.push(Goal::Walk(2 + random.below(2 * bus.count)));
    goals.push(Goal::PollCall(PollCall::Poll { party: sender }));
    reset(bus, random, goals, sender);
    goals.push(Goal::PollCall(PollCall::Poll { party }));
    goals.push(Goal::Finish(8 * bus.count));
}
