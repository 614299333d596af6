//! The proved library under test, through the wrapper that Rust programs use; builds from lists and own
//! statuses that the wrapper does not give, as C programs make them.

use meskvorn::Bus;

use super::memory::{self, Rows};
use super::subject::{
    like_lines_by, try_accesses_by, try_orders_by, try_run_by, Orders, Stepped, Subject,
};
use crate::model::script::{
    Call, CLEAR, DROP, LINES, LISTEN, POLL, READ, RECORD, REQUEST, RESET, STANDBY, STEP, TAKE,
    TALK, WRITE,
};
use crate::model::{Access, Answer, Drivers, Event, Line, Lists, Name, PollCall, Refusal, Turns};

/// The room that there has to be for a line of text.
const LINE: usize = 34;

/// No call writes past its text: the buffer keeps this there.
const UNTOUCHED: u8 = 0xee;

#[derive(Default)]
pub struct Product {
    bus: Bus,
    aside: Bus,
    buffer: Vec<u8>,
}

impl Product {
    pub fn rows(&self) -> Rows {
        memory::rows_of(&self.bus)
    }
}

pub(super) fn in_the_models_terms(answer: meskvorn::Answer) -> Answer {
    Answer {
        refusal: Refusal::ALL[answer.refusal as usize],
        event: Event::ALL[answer.event as usize],
        byte: answer.byte,
        end: answer.end,
        dropped: answer.dropped,
        broken: answer.broken,
    }
}

pub fn name(bus: &Bus, party: u8) -> Option<Name> {
    let told = bus.name(party)?;
    Some(Name {
        primary: told.primary,
        secondary: told.secondary,
    })
}

pub fn give_turns(bus: &mut Bus, turns: u16) -> Turns {
    let told = bus.give_turns(turns);
    Turns {
        refusal: Refusal::ALL[told.refusal as usize],
        counts: told.counts,
    }
}

fn step(bus: &mut Bus, party: u8) -> Answer {
    in_the_models_terms(bus.step(party))
}

fn drivers(bus: &mut Bus) -> Drivers {
    let told = bus.drivers();
    let of = |line: Line| told.of(meskvorn::Line::ALL[line as usize]);
    Drivers {
        answer: in_the_models_terms(told.answer),
        masks: Line::ALL.map(|line| of(line).mask),
        counts: Line::ALL.map(|line| of(line).count),
    }
}

/// By the operation's own method where that says the same call, else by its number.
pub fn call(bus: &mut Bus, [operation, party, value, extra]: Call) -> meskvorn::Answer {
    match (operation, value, extra) {
        (STEP, 0, 0) => bus.step(party),
        (WRITE, _, 0 | 1) => bus.write(party, value, extra == 1),
        (READ, 0, 0) => bus.read(party),
        (POLL, _, 0) => bus.poll_register(party, value),
        (LISTEN, 0 | 1, 0) => bus.listen_only(party, value == 1),
        (TALK, 0 | 1, 0) => bus.talk_only(party, value == 1),
        (TAKE, 0, 0) => bus.take_control(party),
        (STANDBY, 0, 0) => bus.go_to_standby(party),
        (CLEAR, 0, 0) => bus.interface_clear(party),
        (RESET, 0, 0) => bus.reset(party),
        (DROP, 0, 0) => bus.drop_byte(party),
        (LINES, 0, 0) if party == 0 => bus.lines(),
        (REQUEST, 0 | 1, 0) => bus.second_request(party, value == 1),
        _ => bus.call(operation, party, value, extra),
    }
}

pub fn access(bus: &mut Bus, access: Access) -> meskvorn::Answer {
    match access {
        Access::Read { party, offset } => bus.read_register(party, offset),
        Access::Write {
            party,
            offset,
            value,
        } => bus.write_register(party, offset, value),
    }
}

/// By the wrapper where that has the value.
pub fn poll_call(bus: &mut Bus, call: PollCall) -> Answer {
    match call {
        PollCall::Poll { party } => in_the_models_terms(bus.parallel_poll(party)),
        PollCall::OwnStatus { party, value } if value < 2 => {
            in_the_models_terms(bus.own_status(party, value == 1))
        }
        PollCall::OwnStatus { party, value } => memory::own_status(bus, party, value),
    }
}

impl Subject for Product {
    fn run_script(&mut self, script: &[u8], out: &mut Vec<u8>) {
        self.buffer.clear();
        self.buffer
            .resize(LINE * script.len().div_ceil(RECORD).max(1), UNTOUCHED);
        let written = meskvorn::run(script, &mut self.buffer).expect("34 bytes for each record");
        let (text, rest) = self.buffer.split_at(written);
        assert!(
            rest.iter().all(|&byte| byte == UNTOUCHED),
            "text past its end"
        );
        out.extend_from_slice(text);
    }

    fn start(&mut self) {
        self.bus = Bus::default();
    }

    fn build(&mut self, addresses: &[u8], system: u8) -> Answer {
        in_the_models_terms(self.bus.rebuild(addresses, system))
    }

    fn build_extended(&mut self, lists: &Lists, system: u8) -> Answer {
        let names = lists.names().filter(|_| !lists.secondaries.is_empty());
        let Some(names) = names else {
            let (bus, answer) = memory::build_extended(lists, system);
            self.bus = bus;
            return answer;
        };
        let names = names.into_iter().map(|name| meskvorn::Name {
            primary: name.primary,
            secondary: name.secondary,
        });
        let names: Vec<meskvorn::Name> = names.collect();
        in_the_models_terms(self.bus.rebuild_extended(&names, system))
    }

    fn name(&self, party: u8) -> Option<Name> {
        name(&self.bus, party)
    }

    fn call(&mut self, asked: Call) -> Answer {
        in_the_models_terms(call(&mut self.bus, asked))
    }

    fn give_turns(&mut self, turns: u16) -> Turns {
        give_turns(&mut self.bus, turns)
    }

    fn try_run(&self, turns: u16, order: &[u8]) -> (Vec<Answer>, bool) {
        let run = |bus: &mut Bus| give_turns(bus, turns);
        try_run_by(&self.bus, order, run, step)
    }

    fn try_orders(&self, orders: &Orders) -> Stepped {
        try_orders_by(&self.bus, orders, step)
    }

    fn drivers(&mut self) -> Drivers {
        drivers(&mut self.bus)
    }

    fn drivers_like_lines(&self) -> bool {
        let lines = |bus: &mut Bus| in_the_models_terms(bus.lines());
        like_lines_by(&self.bus, drivers, lines)
    }

    fn access(&mut self, asked: Access) -> Answer {
        in_the_models_terms(access(&mut self.bus, asked))
    }

    fn try_accesses(&self, accesses: &[Access], calls: &[Call]) -> (Vec<Answer>, bool) {
        let access = |bus: &mut Bus, asked| in_the_models_terms(access(bus, asked));
        let call = |bus: &mut Bus, asked| in_the_models_terms(call(bus, asked));
        try_accesses_by(&self.bus, accesses, calls, access, call)
    }

    fn poll_call(&mut self, asked: PollCall) -> Answer {
        poll_call(&mut self.bus, asked)
    }

    fn lay_aside(&mut self) {
        self.aside = self.bus.clone();
    }

    fn is_as_laid_aside(&self) -> bool {
        self.bus == self.aside
    }
}
