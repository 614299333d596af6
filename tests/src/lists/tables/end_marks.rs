//! Tables of feoi's marks: what may or may not keep one, three acts in every order, and the marks of
//! every party beside those of the others.

use crate::compare::{Comparison, Finding};
use crate::lists::command_codes::{self, NO_MEANING, SPD, SPE, TALK_ADDRESS, TCT};
use crate::lists::composer::Composer;
use crate::model::registers::{DATA_IN, FEOI, GTS, LON, NBAF, SET, SIC, SWRST, TCA, TON};
use crate::model::script::{BUILD, CLEAR, DROP, READ, RESET, STANDBY, TAKE, WRITE};
use crate::model::{Access, Event, Name, MOST_PARTIES};

type Done = Result<(), Finding>;

/// The system party, and the party that talks to it.
const CONTROLLER: u8 = 0;
const DEVICE: u8 = 1;

const FIRST_ADDRESS: u8 = 5;

const ACTS: [fn(&mut Composer); 20] = [
    |bus| _ = bus.auxiliary(DEVICE, FEOI),
    |bus| _ = bus.auxiliary(DEVICE, FEOI | SET),
    |bus| _ = bus.auxiliary(CONTROLLER, FEOI),
    data,
    |bus| host_data(bus, 0),
    |bus| host_data(bus, 1),
    refused_data_out,
    |bus| nothing_held(bus, |bus| _ = bus.call(DROP, DEVICE, 0, 0)),
    |bus| nothing_held(bus, |bus| _ = bus.auxiliary(DEVICE, NBAF)),
    command,
    standing_command,
    |bus| _ = bus.call(RESET, DEVICE, 0, 0),
    |bus| _ = bus.auxiliary(DEVICE, SWRST | SET),
    |bus| _ = bus.auxiliary(DEVICE, SWRST),
    |bus| _ = bus.call(CLEAR, CONTROLLER, 0, 0),
    |bus| _ = bus.auxiliary(CONTROLLER, SIC | SET),
    cleared_sic,
    status_byte,
    control_there_and_back,
    |bus| _ = bus.auxiliary(CONTROLLER, SWRST | SET),
];

fn plain_rack() -> Composer {
    let mut bus = Composer::new();
    bus.call(BUILD, CONTROLLER, 2, FIRST_ADDRESS);
    bus
}

fn extended_rack() -> Composer {
    let mut bus = Composer::new();
    let names = [Name::plain(5), Name::extended(6, 1)];
    bus.build(&names, CONTROLLER);
    bus
}

/// The controller is active and listens, and the device is addressed to talk.
fn make_ready(bus: &mut Composer) {
    let controller = usize::from(CONTROLLER);
    let active = bus.bus.parties[controller].is_active();
    if !active && !bus.auxiliary(CONTROLLER, TCA).accepted() {
        bus.auxiliary(CONTROLLER, SIC | SET);
    }
    if !bus.bus.parties[controller].listen {
        bus.auxiliary(CONTROLLER, LON | SET);
    }
    let device = bus.bus.parties[usize::from(DEVICE)];
    if !device.talk {
        for command in command_codes::addressing(TALK_ADDRESS, device.name) {
            bus.command(command);
        }
    }
}

/// Without attention, and then with it again.
fn at_standby(bus: &mut Composer, act: impl FnOnce(&mut Composer)) {
    bus.auxiliary(CONTROLLER, GTS);
    act(bus);
    bus.auxiliary(CONTROLLER, TCA | SET);
}

/// What the device holds goes to the controller.
fn sent(bus: &mut Composer) {
    bus.walk_until(Event::is_end);
    let (party, offset) = (CONTROLLER, DATA_IN);
    bus.access(Access::Read { party, offset });
}

fn data(bus: &mut Composer) {
    at_standby(bus, |bus| {
        bus.data_out(DEVICE, 0x41);
        sent(bus);
    });
}

fn host_data(bus: &mut Composer, end: u8) {
    at_standby(bus, |bus| {
        bus.call(WRITE, DEVICE, 0x42, end);
        sent(bus);
    });
}

/// The host's own byte is held, and goes first.
fn refused_data_out(bus: &mut Composer) {
    at_standby(bus, |bus| {
        bus.call(WRITE, DEVICE, 0x43, 0);
        bus.data_out(DEVICE, 0x44);
        sent(bus);
    });
}

/// The host's own byte is held, and does not go.
fn nothing_held(bus: &mut Composer, drop: fn(&mut Composer)) {
    bus.call(WRITE, DEVICE, 0x45, 1);
    drop(bus);
    drop(bus);
}

/// The controller's byte through offset 7 is a command, with END off.
fn command(bus: &mut Composer) {
    bus.data_out(CONTROLLER, NO_MEANING);
    bus.walk_until(Event::is_end);
}

/// While it stands its sender is not reset, and does not go to standby.
fn standing_command(bus: &mut Composer) {
    bus.call(WRITE, CONTROLLER, NO_MEANING, 1);
    bus.walk_until(Event::is_put);
    bus.auxiliary(CONTROLLER, FEOI);
    bus.call(RESET, CONTROLLER, 0, 0);
    bus.auxiliary(CONTROLLER, SWRST | SET);
    bus.auxiliary(CONTROLLER, SWRST);
    bus.auxiliary(CONTROLLER, GTS);
    bus.walk_until(Event::is_end);
}

fn cleared_sic(bus: &mut Composer) {
    bus.auxiliary(DEVICE, SIC);
    bus.auxiliary(CONTROLLER, SIC);
}

fn status_byte(bus: &mut Composer) {
    bus.command(SPE);
    at_standby(bus, sent);
    bus.command(SPD);
}

/// The device is given control, and the controller takes it back.
fn control_there_and_back(bus: &mut Composer) {
    bus.command(TCT);
    bus.data_out(DEVICE, NO_MEANING);
    bus.auxiliary(CONTROLLER, SIC | SET);
}

/// What either party's next byte through offset 7 shows, and the one after it.
fn shown(bus: &mut Composer) {
    make_ready(bus);
    data(bus);
    data(bus);
    bus.auxiliary(CONTROLLER, GTS);
    bus.auxiliary(CONTROLLER, LON);
    bus.auxiliary(DEVICE, TON);
    bus.auxiliary(DEVICE, LON | SET);
    bus.auxiliary(CONTROLLER, TON | SET);
    for byte in [0x51, 0x52] {
        bus.data_out(CONTROLLER, byte);
        bus.walk_until(Event::is_end);
        bus.call(READ, DEVICE, 0, 0);
    }
}

fn every_three(comparison: &mut Comparison, start: &Composer) -> Done {
    for first in ACTS {
        for second in ACTS {
            for third in ACTS {
                let mut bus = start.clone();
                for act in [first, second, third] {
                    make_ready(&mut bus);
                    act(&mut bus);
                }
                shown(&mut bus);
                comparison.list(&bus.records.concat())?;
            }
        }
    }
    Ok(())
}

/// One party of so many is marked, and each of them sends a byte to the one after it; then all are
/// marked, and the bus is built anew.
fn every_place(comparison: &mut Comparison, count: u8, marked: u8) -> Done {
    let mut bus = Composer::new();
    bus.call(BUILD, 0, count, FIRST_ADDRESS);
    bus.auxiliary(marked, FEOI);
    for party in 0..count {
        one_byte(&mut bus, count, party);
    }
    for party in 0..=count {
        bus.auxiliary(party, FEOI | SET);
    }
    bus.call(BUILD, 0, count, FIRST_ADDRESS);
    one_byte(&mut bus, count, marked);
    comparison.list(&bus.records.concat())
}

fn one_byte(bus: &mut Composer, count: u8, party: u8) {
    let listener = (party + 1) % count;
    bus.auxiliary(party, TON | SET);
    bus.auxiliary(listener, LON | SET);
    bus.data_out(party, 0x60 + party);
    bus.walk_until(Event::is_end);
    bus.call(READ, listener, 0, 0);
    bus.auxiliary(listener, LON);
    bus.auxiliary(party, TON);
}

/// Each byte as data and as a command, marked and not.
fn every_byte(comparison: &mut Comparison) -> Done {
    for byte in 0..=u8::MAX {
        for mark in [false, true] {
            let mut bus = plain_rack();
            bus.call(CLEAR, CONTROLLER, 0, 0);
            make_ready(&mut bus);
            for sender in [DEVICE, CONTROLLER] {
                if mark {
                    bus.auxiliary(sender, FEOI);
                }
            }
            bus.call(STANDBY, CONTROLLER, 0, 0);
            bus.data_out(DEVICE, byte);
            sent(&mut bus);
            bus.call(TAKE, CONTROLLER, 0, 0);
            bus.data_out(CONTROLLER, byte);
            bus.walk_until(Event::is_end);
            shown(&mut bus);
            comparison.list(&bus.records.concat())?;
        }
    }
    Ok(())
}

pub fn run(comparison: &mut Comparison) -> Done {
    every_three(comparison, &plain_rack())?;
    every_three(comparison, &extended_rack())?;
    every_byte(comparison)?;
    for count in 1..=MOST_PARTIES as u8 {
        for marked in 0..count {
            every_place(comparison, count, marked)?;
        }
    }
    Ok(())
}
