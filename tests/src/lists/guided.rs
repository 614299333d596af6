//! Random lists that look at the model's state to go where bytes stand.

mod builds;

use std::collections::VecDeque;

use super::likely_accesses::{self, likely_access};
use super::likely_arguments::{
    any_party, controller, likely_command, likely_register, likely_turns,
};
use super::likely_poll_calls::likely_poll_call;
use super::pieces::{self, Piece};
use super::random_numbers::Random;
use super::scenarios::{scenario, Goal, Leanings};
use crate::model::script::{
    self, Record, BUILD, CLEAR, DROP, LAST_OPERATION, LINES, LISTEN, POLL, READ, REQUEST, RESET,
    STANDBY, STEP, TAKE, TALK, WRITE,
};
use crate::model::{Acceptor, Bus, Control, Event, PollCall};

/// How one list behaves, in times per thousand.
#[derive(Clone, Copy, Default)]
struct Habits {
    /// How often a build is from lists, mostly with secondaries; all others are scripts' own.
    from_lists: usize,
    /// How often the bus is built anew, or a build of one is refused.
    builds: usize,
    disturb: usize,
    wild: usize,
    idle_steps: usize,
    reads: usize,
    runs: usize,
    /// How often the drivers are asked for.
    drivers: usize,
    leanings: Leanings,
    /// How often a call goes through a register.
    registers: usize,
    /// How often there is an access that fits no plan.
    accesses: usize,
    /// How often there is such an own status or parallel poll.
    poll_calls: usize,
}

pub struct Guided {
    random: Random,
    bus: Bus,
    list: Vec<u8>,
    plan: VecDeque<Goal>,
    habits: Habits,
}

impl Guided {
    pub fn new(seed: u64) -> Guided {
        Guided {
            random: Random::new(seed),
            bus: Bus::new(),
            list: Vec::new(),
            plan: VecDeque::new(),
            habits: Habits::default(),
        }
    }

    /// The next list; most end well, some with a bad record.
    pub fn list(&mut self) -> &[u8] {
        self.begin(&[]);
        self.draw_habits();
        self.opening();
        for _ in 0..30 + self.random.below(300 + 40 * self.bus.count) {
            self.next_call();
        }
        if self.random.per_mille(120) {
            self.bad_ending();
        }
        &self.list
    }

    /// The records given, then `more` calls of all sorts, then the lines and their drivers.
    pub fn go_on(&mut self, records: &[Record], more: usize) -> &[u8] {
        self.begin(records);
        self.habits = Habits {
            from_lists: 0,
            builds: 0,
            disturb: 450,
            wild: 0,
            idle_steps: 250,
            reads: 500,
            runs: 15,
            drivers: 15,
            leanings: Leanings {
                polls: 0,
                end_marks: 100,
                parallel_polls: 0,
            },
            registers: 150,
            accesses: 80,
            poll_calls: 30,
        };
        for _ in 0..more {
            self.next_call();
        }
        self.call(script::record(LINES, 0, 0, 0));
        self.call(pieces::DRIVERS);
        &self.list
    }

    fn begin(&mut self, records: &[Record]) {
        self.list.clear();
        self.plan.clear();
        self.list.extend(records.concat());
        self.bus = pieces::bus_after(&self.list);
    }

    fn draw_habits(&mut self) {
        let random = &mut self.random;
        self.habits = Habits {
            from_lists: random.pick(&[0, 950, 950]),
            builds: random.pick(&[0, 0, 0, 8]),
            disturb: random.pick(&[0, 20, 60, 150, 400]),
            wild: random.pick(&[0, 0, 0, 5, 30, 300]),
            idle_steps: random.pick(&[0, 20, 100, 400]),
            reads: random.pick(&[50, 300, 900]),
            runs: random.pick(&[0, 0, 5, 20, 100]),
            drivers: random.pick(&[0, 10, 30, 200]),
            leanings: Leanings {
                polls: random.pick(&[0, 0, 800]),
                end_marks: random.pick(&[0, 0, 800]),
                parallel_polls: random.pick(&[0, 0, 900]),
            },
            registers: random.pick(&[0, 0, 300, 950]),
            accesses: random.pick(&[0, 10, 30, 200]),
            poll_calls: random.pick(&[0, 0, 10, 100]),
        };
    }

    fn opening(&mut self) {
        while self.random.per_mille(60) {
            let record = self.wild_record();
            self.call(record);
        }
        while self.random.per_mille(150) {
            self.bad_build();
        }
        while self.random.per_mille(60) {
            let run = self.run();
            self.call(run);
        }
        while self.random.per_mille(60) {
            self.call(pieces::DRIVERS);
        }
        while self.random.per_mille(60) {
            let access = likely_access(&self.bus, &mut self.random);
            self.call(pieces::access(access));
        }
        while self.random.per_mille(60) {
            let call = likely_poll_call(&self.bus, &mut self.random);
            self.call(pieces::poll_call(call));
        }
        self.good_build();
    }

    /// A wrong mark, a short tail, or both.
    fn bad_ending(&mut self) {
        let mut record = self.wild_record();
        if self.random.per_mille(500) {
            record[self.random.below(2)] = self.random.byte();
        }
        let end = 1 + self.random.below(6);
        self.list.extend_from_slice(&record[..end]);
    }

    fn call(&mut self, record: Record) {
        pieces::enter(&mut self.bus, &Piece::of(&record));
        self.list.extend_from_slice(&record);
    }

    fn next_call(&mut self) {
        if self.random.per_mille(self.habits.builds) {
            return self.build_anew();
        }
        let record = if self.random.per_mille(self.habits.runs) {
            self.run()
        } else if self.random.per_mille(self.habits.drivers) {
            pieces::DRIVERS
        } else if self.random.per_mille(self.habits.accesses) {
            pieces::access(likely_access(&self.bus, &mut self.random))
        } else if self.random.per_mille(self.habits.poll_calls) {
            pieces::poll_call(likely_poll_call(&self.bus, &mut self.random))
        } else if self.random.per_mille(self.habits.wild) {
            self.wild_record()
        } else if self.random.per_mille(self.habits.disturb) {
            self.disturbance()
        } else if self.bus.count == 0 {
            return self.good_build();
        } else {
            self.planned()
        };
        if self.random.per_mille(self.habits.registers) {
            return self.through_registers(record);
        }
        self.call(record);
    }

    /// The same call by an access, where there is one; END mostly by a mark before it.
    fn through_registers(&mut self, record: Record) {
        let Piece::Record([_, _, call @ ..]) = Piece::of(&record) else {
            return self.call(record);
        };
        let random = &mut self.random;
        let Some(access) = likely_accesses::in_place_of(call, &self.bus, random) else {
            return self.call(record);
        };
        let with_end = matches!(call, [WRITE, _, _, 1]) && random.per_mille(800);
        let mark = with_end.then(|| likely_accesses::mark(access.party(), random));
        for access in mark.into_iter().chain([access]) {
            self.call(pieces::access(access));
        }
    }

    fn run(&mut self) -> Record {
        pieces::run(likely_turns(&self.bus, &mut self.random))
    }

    /// Any operation with any fields; seldom a build.
    fn wild_record(&mut self) -> Record {
        let random = &mut self.random;
        let mut operation = random.field(16);
        if operation == BUILD && random.per_mille(800) {
            operation = LINES;
        }
        let (party, value, extra) = (random.field(17), random.field(17), random.field(32));
        script::record(operation, party, value, extra)
    }

    /// A call that fits no plan, its arguments mostly in range.
    fn disturbance(&mut self) -> Record {
        let random = &mut self.random;
        let count = self.bus.count as u8;
        let party = match random.below(40) {
            0 => count,
            1 => random.byte(),
            2..=12 => controller(&self.bus),
            _ => any_party(&self.bus, random),
        };
        let switch = match random.below(30) {
            0 => 2,
            1 => random.byte(),
            _ => random.below(2) as u8,
        };
        let operation = 1 + random.below(usize::from(LAST_OPERATION)) as u8;
        let (value, extra) = match operation {
            WRITE => (likely_command(&self.bus, random), switch),
            POLL => (likely_register(random), random.byte()),
            LISTEN | TALK | REQUEST => (switch, random.byte()),
            _ => (random.byte(), random.byte()),
        };
        script::record(operation, party, value, extra)
    }

    fn planned(&mut self) -> Record {
        loop {
            let Some(goal) = self.plan.pop_front() else {
                let goals = scenario(&self.bus, &mut self.random, self.habits.leanings);
                self.plan.extend(goals);
                continue;
            };
            if let Some(record) = self.toward(goal) {
                return record;
            }
        }
    }

    /// The next call toward a goal; None if the goal is reached or out of reach.
    fn toward(&mut self, goal: Goal) -> Option<Record> {
        let active = self
            .bus
            .present()
            .iter()
            .position(|party| party.is_active());
        match goal {
            Goal::Call(operation, party, value, extra) => {
                Some(script::record(operation, party, value, extra))
            }
            Goal::Access(access) => Some(pieces::access(access)),
            Goal::PollCall(call) => Some(pieces::poll_call(call)),
            Goal::ParallelPoll => {
                let party = active? as u8;
                Some(pieces::poll_call(PollCall::Poll { party }))
            }
            Goal::Gain if active.is_some() => None,
            Goal::Gain => Some(self.gain()),
            Goal::Release => active.map(|place| script::record(STANDBY, place as u8, 0, 0)),
            Goal::Command(byte) => self.command(active?, byte),
            Goal::Data => self.data(),
            Goal::Finish(left) | Goal::Walk(left) if left == 0 => None,
            Goal::Finish(left) => {
                if !self.pending() {
                    return None;
                }
                self.plan.push_front(Goal::Finish(left - 1));
                Some(self.walk())
            }
            Goal::Walk(left) => {
                self.plan.push_front(Goal::Walk(left - 1));
                Some(self.walk())
            }
        }
    }

    fn gain(&mut self) -> Record {
        let party = controller(&self.bus);
        let place = usize::from(party);
        let clears = place == self.bus.system && self.random.per_mille(150);
        let standby = self.bus.parties[place].control == Control::Standby;
        let operation = if standby && !clears { TAKE } else { CLEAR };
        script::record(operation, party, 0, 0)
    }

    fn command(&mut self, active: usize, byte: u8) -> Option<Record> {
        let finish = Goal::Finish(8 * self.bus.count + 8);
        if self.pending() {
            self.plan.push_front(Goal::Command(byte));
            self.plan.push_front(finish);
            if self.random.per_mille(50) {
                let operation = self.random.pick(&[RESET, STANDBY]);
                return Some(script::record(operation, active as u8, 0, 0));
            }
            return None;
        }
        self.plan.push_front(finish);
        let end = self.random.below(2) as u8;
        Some(script::record(WRITE, active as u8, byte, end))
    }

    fn data(&mut self) -> Option<Record> {
        let talker = self.bus.present().iter().position(|party| party.talk)?;
        let byte = self.random.byte();
        Some(script::record(
            WRITE,
            talker as u8,
            byte,
            self.random.below(2) as u8,
        ))
    }

    /// A source has a byte to send or one stands.
    fn pending(&self) -> bool {
        let atn = self.bus.atn();
        let mut parties = self.bus.present().iter();
        self.bus.standing.is_some() || parties.any(|p| p.is_source(atn) && p.held.is_some())
    }

    /// A source that nobody answers: mostly somebody joins, else it tries again or its byte goes.
    fn unheard(&mut self, source: u8) -> Record {
        let listener = any_party(&self.bus, &mut self.random);
        match self.random.below(10) {
            0..=4 => script::record(LISTEN, listener, 1, 0),
            5 => script::record(DROP, source, 0, 0),
            _ => script::record(STEP, source, 0, 0),
        }
    }

    /// A step that does something, where there is one; now and then any step, or a read.
    fn walk(&mut self) -> Record {
        let count = self.bus.count;
        let start = self.random.below(count);
        if self.random.per_mille(self.habits.idle_steps) {
            return script::record(STEP, start as u8, 0, 0);
        }
        if self.random.per_mille(20) {
            return script::record(LINES, 0, 0, 0);
        }
        for place in (start..count).chain(0..start) {
            let party = &self.bus.parties[place];
            let waits = party.data_in.is_some() && party.acceptor == Acceptor::Anrs;
            if waits && self.random.per_mille(self.habits.reads) {
                return script::record(READ, place as u8, 0, 0);
            }
            match self.bus.clone().step(place as u8).event {
                Event::None => {}
                Event::Noacc => return self.unheard(place as u8),
                _ => return script::record(STEP, place as u8, 0, 0),
            }
        }
        // Nothing goes on, so the plan has come to a stop.
        self.plan.clear();
        script::record(STEP, start as u8, 0, 0)
    }
}
