//! Writes lists call by call beside a bus, so that a byte can be walked to its end.

use super::pieces;
use crate::model::script::{self, Record, STEP, WRITE};
use crate::model::{Access, Answer, Bus, Drivers, Event, Lists, Name, PollCall, MOST_PARTIES};

#[derive(Clone, Default)]
pub struct Composer {
    pub bus: Bus,
    pub records: Vec<Record>,
}

impl Composer {
    pub fn new() -> Composer {
        Composer::default()
    }

    pub fn call(&mut self, operation: u8, party: u8, value: u8, extra: u8) -> Answer {
        let record = script::record(operation, party, value, extra);
        self.records.push(record);
        script::run_record(&mut self.bus, record)
    }

    pub fn build(&mut self, names: &[Name], system: u8) -> Answer {
        let lists = Lists::of(names);
        self.records.extend(pieces::build(&lists, system));
        self.bus.build_extended(&lists, system)
    }

    pub fn run(&mut self, turns: u16) {
        self.records.push(pieces::run(turns));
        self.bus.give_turns(turns);
    }

    pub fn drivers(&mut self) -> Drivers {
        self.records.push(pieces::DRIVERS);
        self.bus.drivers()
    }

    pub fn access(&mut self, access: Access) -> Answer {
        self.records.push(pieces::access(access));
        self.bus.access(access)
    }

    /// An auxiliary command.
    pub fn auxiliary(&mut self, party: u8, value: u8) -> Answer {
        self.access(Access::auxiliary(party, value))
    }

    pub fn data_out(&mut self, party: u8, value: u8) -> Answer {
        self.access(Access::data_out(party, value))
    }

    pub fn poll_call(&mut self, call: PollCall) -> Answer {
        self.records.push(pieces::poll_call(call));
        self.bus.poll_call(call)
    }

    pub fn own_status(&mut self, party: u8, value: u8) -> Answer {
        self.poll_call(PollCall::OwnStatus { party, value })
    }

    pub fn parallel_poll(&mut self, party: u8) -> Answer {
        self.poll_call(PollCall::Poll { party })
    }

    pub fn step(&mut self, party: u8) -> Answer {
        self.call(STEP, party, 0, 0)
    }

    /// Steps every party in turn, leaving out steps that do nothing, until one answers `wanted`.
    /// False if no step does anything any more, or after many rounds.
    pub fn walk_until(&mut self, wanted: fn(Event) -> bool) -> bool {
        for _ in 0..4 * MOST_PARTIES {
            let mut idle = true;
            for party in 0..self.bus.count as u8 {
                if self.bus.clone().step(party).event == Event::None {
                    continue;
                }
                idle = false;
                if wanted(self.step(party).event) {
                    return true;
                }
            }
            if idle {
                return false;
            }
        }
        false
    }

    /// The active party sends a command to its end. False if there is none or it holds a byte.
    pub fn command(&mut self, byte: u8) -> bool {
        let active = self
            .bus
            .present()
            .iter()
            .position(|party| party.is_active());
        match active {
            Some(place) if self.bus.parties[place].held.is_none() => {
                self.call(WRITE, place as u8, byte, 0);
                self.walk_until(Event::is_end)
            }
            _ => false,
        }
    }
}
