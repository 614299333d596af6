//! Tables of parallel polls: what may or may not set, keep and remove responses, two and three acts in
//! every order and each around every code, every byte while configuring and not, every place, and every
//! argument.

use super::Done;
use crate::compare::Comparison;
use crate::lists::command_codes::{
    self, enable, DCL, GET, LISTEN_ADDRESS, NEITHER, NO_MEANING, PPC, PPD, PPE, PPE_SENSE, PPU,
    SDC, SPD, SPE, TALK_ADDRESS, TCT, UNL,
};
use crate::lists::composer::Composer;
use crate::model::registers::{SET, SWRST};
use crate::model::script::{BUILD, CLEAR, LINES, LISTEN, RESET, STANDBY, TAKE, TALK, WRITE};
use crate::model::{Event, Name, MOST_PARTIES, POLL_LINES};

/// The system party, and two parties that share a line at times.
const CONTROLLER: u8 = 0;
const DEVICE: u8 = 1;
const OTHER: u8 = 2;

const FIRST_ADDRESS: u8 = 5;

/// The device of the second rack has the code of its own secondary as a response.
const EXTENDED: [Name; 3] = [Name::plain(5), Name::extended(6, 1), Name::extended(6, 2)];

const ACTS: [fn(&mut Composer); 23] = [
    |bus| give_response(bus, DEVICE, enable(2, false)),
    |bus| give_response(bus, DEVICE, enable(1, true)),
    |bus| give_response(bus, OTHER, enable(1, true)),
    |bus| give_response(bus, CONTROLLER, enable(4, false)),
    all_at_once,
    |bus| _ = bus.own_status(DEVICE, 1),
    |bus| statuses(bus, 1),
    |bus| _ = bus.command(enable(3, true)),
    |bus| _ = bus.command(PPD),
    |bus| _ = bus.command(NEITHER),
    |bus| _ = bus.command(PPU),
    |bus| _ = bus.command(PPC),
    |bus| _ = bus.command(UNL),
    |bus| _ = bus.command(DCL),
    |bus| _ = bus.command(NO_MEANING),
    |bus| _ = bus.call(RESET, DEVICE, 0, 0),
    |bus| _ = bus.call(CLEAR, CONTROLLER, 0, 0),
    standby_and_back,
    control_to_the_device,
    |bus| _ = bus.call(LISTEN, DEVICE, 0, 0),
    configured_after_talk_primary,
    |bus| standing(bus, enable(5, true)),
    |bus| standing(bus, NO_MEANING),
];

fn plain_rack() -> Composer {
    let mut bus = Composer::new();
    bus.call(BUILD, CONTROLLER, 3, FIRST_ADDRESS);
    bus
}

fn extended_rack() -> Composer {
    let mut bus = Composer::new();
    bus.build(&EXTENDED, CONTROLLER);
    bus
}

/// The controller is active.
fn gain(bus: &mut Composer) {
    if !bus.bus.parties[usize::from(CONTROLLER)].is_active()
        && !bus.call(TAKE, CONTROLLER, 0, 0).accepted()
    {
        bus.call(CLEAR, CONTROLLER, 0, 0);
    }
}

fn address(bus: &mut Composer, primary: u8, party: u8) {
    let name = bus.bus.parties[usize::from(party)].name;
    for command in command_codes::addressing(primary, name) {
        bus.command(command);
    }
}

fn send(bus: &mut Composer, commands: &[u8]) {
    for command in commands {
        bus.command(*command);
    }
}

fn give_response(bus: &mut Composer, party: u8, code: u8) {
    bus.command(UNL);
    address(bus, LISTEN_ADDRESS, party);
    send(bus, &[PPC, code]);
}

fn all_at_once(bus: &mut Composer) {
    for party in [CONTROLLER, DEVICE, OTHER] {
        address(bus, LISTEN_ADDRESS, party);
    }
    send(bus, &[PPC, enable(POLL_LINES, true)]);
}

fn statuses(bus: &mut Composer, value: u8) {
    for party in 0..bus.bus.count as u8 {
        bus.own_status(party, value);
    }
}

/// Whoever listens does so no more, and the device talks meanwhile.
fn standby_and_back(bus: &mut Composer) {
    bus.call(STANDBY, CONTROLLER, 0, 0);
    bus.parallel_poll(CONTROLLER);
    bus.call(LISTEN, DEVICE, 0, 0);
    bus.call(TALK, DEVICE, 1, 0);
    bus.call(TAKE, CONTROLLER, 0, 0);
}

fn control_to_the_device(bus: &mut Composer) {
    address(bus, TALK_ADDRESS, DEVICE);
    bus.command(TCT);
    bus.parallel_poll(CONTROLLER);
    bus.parallel_poll(DEVICE);
    bus.call(CLEAR, CONTROLLER, 0, 0);
}

/// The device listens by a switch, so that its own talk address does not end that if it has a secondary.
fn configured_after_talk_primary(bus: &mut Composer) {
    bus.call(LISTEN, DEVICE, 1, 0);
    let name = bus.bus.parties[usize::from(DEVICE)].name;
    send(bus, &[TALK_ADDRESS + name.primary, PPC, enable(2, false)]);
}

/// While it stands nobody polls, and its sender is not reset.
fn standing(bus: &mut Composer, code: u8) {
    bus.call(WRITE, CONTROLLER, code, 0);
    bus.parallel_poll(CONTROLLER);
    bus.walk_until(Event::is_put);
    for party in [CONTROLLER, DEVICE] {
        bus.parallel_poll(party);
        bus.own_status(party, 1);
    }
    bus.call(RESET, CONTROLLER, 0, 0);
    bus.walk_until(Event::is_end);
}

/// What each status of all shows.
fn shown(bus: &mut Composer) {
    gain(bus);
    for value in 0..2 {
        statuses(bus, value);
        bus.parallel_poll(CONTROLLER);
    }
    // Who is still configuring.
    bus.command(enable(6, true));
    bus.parallel_poll(CONTROLLER);
    for party in 0..bus.bus.count as u8 {
        bus.call(TALK, party, 1, 0);
        bus.call(LISTEN, party, 1, 0);
    }
}

/// These acts after each other, with a poll after each.
fn in_order(comparison: &mut Comparison, start: &Composer, acts: &[fn(&mut Composer)]) -> Done {
    let mut bus = start.clone();
    for act in acts {
        gain(&mut bus);
        act(&mut bus);
        bus.parallel_poll(CONTROLLER);
    }
    shown(&mut bus);
    comparison.list(&bus.records.concat())
}

fn every_two(comparison: &mut Comparison, start: &Composer) -> Done {
    for first in ACTS {
        for second in ACTS {
            in_order(comparison, start, &[first, second])?;
        }
    }
    Ok(())
}

fn every_three(comparison: &mut Comparison, start: &Composer) -> Done {
    for first in ACTS {
        for second in ACTS {
            for third in ACTS {
                in_order(comparison, start, &[first, second, third])?;
            }
        }
    }
    Ok(())
}

/// Each byte as a command, to a device that is configured and still configuring, configured, listening,
/// or none of these.
fn every_byte(comparison: &mut Comparison, start: &Composer) -> Done {
    const BEFORE: [fn(&mut Composer); 4] = [
        |bus| give_response(bus, DEVICE, enable(7, false)),
        |bus| {
            give_response(bus, DEVICE, enable(7, false));
            bus.command(UNL);
        },
        |bus| address(bus, LISTEN_ADDRESS, DEVICE),
        |_| {},
    ];
    for before in BEFORE {
        for byte in 0..=u8::MAX {
            let mut bus = start.clone();
            gain(&mut bus);
            before(&mut bus);
            bus.command(byte);
            bus.parallel_poll(CONTROLLER);
            shown(&mut bus);
            comparison.list(&bus.records.concat())?;
        }
    }
    Ok(())
}

/// So many parties, each on a line of its own as far as there are lines, configured by this one; then
/// their statuses one after the other, and the bus is built anew.
fn every_place(comparison: &mut Comparison, count: u8, system: u8) -> Done {
    let mut bus = Composer::new();
    bus.call(BUILD, system, count, FIRST_ADDRESS);
    bus.call(CLEAR, system, 0, 0);
    for party in 0..count {
        let line = 1 + (party + system) % POLL_LINES;
        give_response(&mut bus, party, enable(line, (party ^ system) & 1 == 1));
        bus.parallel_poll(system);
    }
    for value in [1, 0, 1] {
        for party in 0..count {
            bus.own_status(party, value);
            bus.parallel_poll(system);
        }
    }
    bus.call(BUILD, system, count, FIRST_ADDRESS);
    bus.call(CLEAR, system, 0, 0);
    bus.command(enable(1, false));
    bus.parallel_poll(system);
    give_response(&mut bus, count - 1, enable(1, true));
    bus.parallel_poll(system);
    comparison.list(&bus.records.concat())
}

/// What may come between PPC and the code that sets a response, or between that and a poll, for a party.
const AROUND: [fn(&mut Composer, u8); 19] = [
    |_, _| {},
    |bus, _| send(bus, &[SDC]),
    |bus, _| send(bus, &[GET]),
    |bus, _| send(bus, &[TCT]),
    |bus, _| send(bus, &[SPE, SPD]),
    |bus, _| send(bus, &[PPU]),
    |bus, _| send(bus, &[PPD]),
    |bus, _| send(bus, &[PPD + 14]),
    |bus, _| send(bus, &[NEITHER]),
    |bus, party| address(bus, LISTEN_ADDRESS, party),
    |bus, party| _ = bus.call(RESET, party, 0, 0),
    |bus, party| _ = bus.auxiliary(party, SWRST | SET),
    |bus, _| _ = bus.call(CLEAR, CONTROLLER, 0, 0),
    |bus, _| standby_and_back(bus),
    |bus, party| {
        bus.call(LISTEN, party, 0, 0);
        bus.command(PPC);
    },
    |bus, _| send(bus, &[UNL, PPU]),
    |bus, _| control_to_the_device(bus),
    |bus, _| standing(bus, enable(5, true)),
    |bus, _| standing(bus, NO_MEANING),
];

/// A party is configured, with this act before its code or after it. The status has to outlast the act
/// too, and a second response after it.
fn with_act(bus: &mut Composer, party: u8, code: u8, act: fn(&mut Composer, u8), before: bool) {
    gain(bus);
    let sense = u8::from(code & PPE_SENSE != 0);
    bus.own_status(party, sense);
    give_response(bus, party, if before { PPC } else { code });
    act(bus, party);
    gain(bus);
    if before {
        bus.command(code);
    }
    bus.parallel_poll(CONTROLLER);
    give_response(bus, party, code ^ 1);
    bus.parallel_poll(CONTROLLER);
}

/// Every code from 60 to 6F for every party, with every act around it.
fn every_code(comparison: &mut Comparison, start: &Composer) -> Done {
    for code in PPE..PPD {
        for party in [CONTROLLER, DEVICE, OTHER] {
            for act in AROUND {
                for before in [false, true] {
                    let mut bus = start.clone();
                    with_act(&mut bus, party, code, act, before);
                    shown(&mut bus);
                    comparison.list(&bus.records.concat())?;
                }
            }
        }
    }
    Ok(())
}

/// Every party number and every value, on three buses.
fn every_argument(comparison: &mut Comparison) -> Done {
    for count in [0, 2, 15] {
        for number in 0..=u8::MAX {
            let mut bus = Composer::new();
            bus.parallel_poll(number);
            bus.call(BUILD, 0, count, FIRST_ADDRESS);
            bus.own_status(0, number);
            bus.own_status(count, number);
            for value in [0, 1, 2, number] {
                bus.own_status(number, value);
            }
            bus.parallel_poll(number);
            bus.call(CLEAR, 0, 0, 0);
            bus.parallel_poll(number);
            bus.call(LINES, 0, 0, 0);
            comparison.list(&bus.records.concat())?;
        }
    }
    Ok(())
}

pub fn run(comparison: &mut Comparison) -> Done {
    every_argument(comparison)?;
    for start in [plain_rack(), extended_rack()] {
        every_code(comparison, &start)?;
        every_byte(comparison, &start)?;
        every_two(comparison, &start)?;
    }
    for count in 1..=MOST_PARTIES as u8 {
        for system in 0..count {
            every_place(comparison, count, system)?;
        }
    }
    every_three(comparison, &extended_rack())
}
