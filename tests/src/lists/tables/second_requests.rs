//! Tables of second requests: what may come before, in and between polls, three in every order.

use crate::compare::{Comparison, Finding};
use crate::lists::command_codes::{self, DCL, SPD, SPE, TALK_ADDRESS};
use crate::lists::composer::Composer;
use crate::model::script::{
    BUILD, CLEAR, LINES, LISTEN, POLL, READ, REQUEST, RESET, STANDBY, TAKE, WRITE,
};
use crate::model::{Event, Name, MOST_PARTIES, RSV};

type Done = Result<(), Finding>;

/// The party that polls, and the one polled.
const CONTROLLER: u8 = 0;
const DEVICE: u8 = 1;

const FIRST_ADDRESS: u8 = 5;

const ACTS: [fn(&mut Composer); 18] = [
    |bus| switch(bus, 1),
    |bus| switch(bus, 0),
    |bus| register(bus, 0x01),
    |bus| register(bus, 0x41),
    |bus| poll(bus, 0),
    |bus| poll(bus, 1),
    |bus| poll(bus, 2),
    polled_by_a_run,
    broken_off,
    polled_again_at_once,
    unheard,
    |bus| switched_in_a_poll(bus, 1),
    |bus| switched_in_a_poll(bus, 0),
    switched_on_after_its_byte,
    data,
    |bus| _ = bus.command(DCL),
    |bus| _ = bus.call(RESET, DEVICE, 0, 0),
    |bus| _ = bus.call(CLEAR, CONTROLLER, 0, 0),
];

fn plain_rack(count: u8, system: u8) -> Composer {
    let mut bus = Composer::new();
    bus.call(BUILD, system, count, FIRST_ADDRESS);
    bus.call(CLEAR, system, 0, 0);
    bus
}

fn extended_rack() -> Composer {
    let mut bus = Composer::new();
    bus.build(&[Name::plain(5), Name::extended(6, 1)], CONTROLLER);
    bus.call(CLEAR, CONTROLLER, 0, 0);
    bus
}

/// The controller is active and listens, and the device is addressed for a poll.
fn make_ready(bus: &mut Composer) {
    if !bus.bus.atn() && !bus.call(TAKE, CONTROLLER, 0, 0).accepted() {
        bus.call(CLEAR, CONTROLLER, 0, 0);
    }
    if !bus.bus.parties[usize::from(CONTROLLER)].listen {
        bus.call(LISTEN, CONTROLLER, 1, 0);
    }
    let device = bus.bus.parties[usize::from(DEVICE)];
    if !device.poll_mode {
        bus.command(SPE);
    }
    if !device.talk {
        for command in command_codes::addressing(TALK_ADDRESS, device.name) {
            bus.command(command);
        }
    }
}

fn switch(bus: &mut Composer, value: u8) {
    bus.call(REQUEST, DEVICE, value, 0);
}

fn register(bus: &mut Composer, value: u8) {
    bus.call(POLL, DEVICE, value, 0);
}

/// One status byte to its end, if the device is polled.
fn status_byte(bus: &mut Composer) {
    bus.call(READ, CONTROLLER, 0, 0);
    bus.walk_until(Event::is_end);
}

/// A poll of so many status bytes.
fn poll(bus: &mut Composer, bytes: usize) {
    bus.call(STANDBY, CONTROLLER, 0, 0);
    for _ in 0..bytes {
        status_byte(bus);
    }
    bus.call(TAKE, CONTROLLER, 0, 0);
}

/// Two rounds of turns for the put, and two to its end.
fn polled_by_a_run(bus: &mut Composer) {
    bus.call(STANDBY, CONTROLLER, 0, 0);
    bus.call(READ, CONTROLLER, 0, 0);
    bus.run(8);
    bus.call(TAKE, CONTROLLER, 0, 0);
}

/// Control is taken while the status byte stands.
fn broken_off(bus: &mut Composer) {
    bus.call(STANDBY, CONTROLLER, 0, 0);
    bus.call(READ, CONTROLLER, 0, 0);
    bus.walk_until(Event::is_put);
    bus.call(TAKE, CONTROLLER, 0, 0);
}

/// The same, with no call between this poll and the next.
fn polled_again_at_once(bus: &mut Composer) {
    broken_off(bus);
    poll(bus, 1);
}

/// A poll in which nobody listens.
fn unheard(bus: &mut Composer) {
    bus.call(LISTEN, CONTROLLER, 0, 0);
    bus.call(STANDBY, CONTROLLER, 0, 0);
    for _ in 0..3 {
        bus.step(DEVICE);
    }
    bus.call(TAKE, CONTROLLER, 0, 0);
}

fn switched_in_a_poll(bus: &mut Composer, value: u8) {
    bus.call(STANDBY, CONTROLLER, 0, 0);
    switch(bus, value);
    status_byte(bus);
    bus.call(TAKE, CONTROLLER, 0, 0);
}

fn switched_on_after_its_byte(bus: &mut Composer) {
    bus.call(STANDBY, CONTROLLER, 0, 0);
    status_byte(bus);
    switch(bus, 1);
    bus.call(TAKE, CONTROLLER, 0, 0);
}

/// A byte of data between polls.
fn data(bus: &mut Composer) {
    bus.command(SPD);
    bus.call(STANDBY, CONTROLLER, 0, 0);
    bus.call(WRITE, DEVICE, 0xC1, 1);
    status_byte(bus);
    bus.call(TAKE, CONTROLLER, 0, 0);
}

/// From this start three acts, with the lines after each, then two polls.
fn every_three(comparison: &mut Comparison, start: &Composer) -> Done {
    for first in ACTS {
        for second in ACTS {
            for third in ACTS {
                let mut bus = start.clone();
                for act in [first, second, third, |bus| poll(bus, 2), |bus| poll(bus, 1)] {
                    make_ready(&mut bus);
                    act(&mut bus);
                    bus.call(LINES, 0, 0, 0);
                }
                comparison.list(&bus.records.concat())?;
            }
        }
    }
    Ok(())
}

/// Each poll register beside a request, with another written in the poll.
fn every_register(comparison: &mut Comparison) -> Done {
    for value in 0..=u8::MAX {
        let mut bus = plain_rack(2, CONTROLLER);
        register(&mut bus, value);
        switch(&mut bus, 1);
        make_ready(&mut bus);
        bus.call(STANDBY, CONTROLLER, 0, 0);
        status_byte(&mut bus);
        register(&mut bus, value ^ RSV);
        status_byte(&mut bus);
        bus.call(TAKE, CONTROLLER, 0, 0);
        bus.call(LINES, 0, 0, 0);
        poll(&mut bus, 1);
        comparison.list(&bus.records.concat())?;
    }
    Ok(())
}

/// Each of so many parties asks, and the one of this place is polled by the party before it; then
/// the bus is built anew.
fn every_place(comparison: &mut Comparison, count: u8, polled: u8) -> Done {
    let system = (polled + count - 1) % count;
    let mut bus = plain_rack(count, system);
    for party in 0..=count {
        bus.call(REQUEST, party, 2, 0);
        bus.call(REQUEST, party, 1, party);
        bus.drivers();
    }
    bus.call(LISTEN, system, 1, 0);
    for command in [SPE, TALK_ADDRESS + FIRST_ADDRESS + polled] {
        bus.command(command);
    }
    for _ in 0..2 {
        bus.call(STANDBY, system, 0, 0);
        bus.walk_until(Event::is_end);
        bus.call(READ, system, 0, 0);
        bus.call(TAKE, system, 0, 0);
        bus.drivers();
    }
    bus.call(BUILD, system, count, FIRST_ADDRESS);
    for _ in 0..2 {
        bus.call(LINES, 0, 0, 0);
    }
    comparison.list(&bus.records.concat())
}

pub fn run(comparison: &mut Comparison) -> Done {
    let mut asking = plain_rack(2, CONTROLLER);
    switch(&mut asking, 1);
    every_three(comparison, &asking)?;
    every_three(comparison, &extended_rack())?;
    every_register(comparison)?;
    for count in 1..=MOST_PARTIES as u8 {
        for polled in 0..count {
            every_place(comparison, count, polled)?;
        }
    }
    Ok(())
}
