//! Runs with one mistake each; every single call is right.

use super::OrderFault;
use crate::compare::subject::{
    like_lines_by, try_accesses_by, try_orders_by, try_run_by, Orders, Stepped, Subject,
};
use crate::model::script::{self, Call};
use crate::model::{
    Access, Answer, Bus, Drivers, Event, Lists, Name, PollCall, Refusal, Turns, Waiting,
    MOST_PARTIES,
};

/// What a machine keeps from one run to the next.
#[derive(Clone, Default)]
pub struct Kept {
    turns: usize,
    /// A round of the first run with so many parties.
    order: Vec<usize>,
}

pub type RunFault = fn(&mut Bus, u16, &mut Kept) -> Turns;

pub const RUN_FAULTS: &[(&str, RunFault)] = &[
    ("rounds after the first go by places", first_round_alone),
    ("the order of the rack before", order_before),
    ("counts by the order of turns", counts_by_order),
    ("the waiting of who was stepped goes on", never_set_back),
    ("a run goes on where the last one stopped", goes_on),
    ("counts of the next party", next_partys_counts),
    ("one turn too few", one_too_few),
    ("one turn too many", one_too_many),
    ("turns cut to eight bits", eight_bits),
    ("turns counted and not given", not_given),
    ("the run stops when a byte ends", stops_at_an_end),
    ("only two parties have turns", two_by_turns),
    ("no turns for no parties accepted", nothing_accepted),
];

fn in_order(bus: &mut Bus, order: impl Iterator<Item = usize>) -> Turns {
    let mut counts = [0; MOST_PARTIES];
    for place in order {
        bus.step(place as u8);
        counts[place] += 1;
    }
    let refusal = Refusal::Accepted;
    Turns { refusal, counts }
}

/// One round in the right order.
fn round(bus: &Bus) -> Vec<usize> {
    Waiting::new(&bus.names()).take(bus.count).collect()
}

/// Rounds in this order. No parties have none.
fn rounds(bus: &mut Bus, turns: u16, order: &[usize]) -> Turns {
    if bus.count == 0 {
        return bus.give_turns(turns);
    }
    in_order(bus, order.iter().copied().cycle().take(usize::from(turns)))
}

fn first_round_alone(bus: &mut Bus, turns: u16, _: &mut Kept) -> Turns {
    let (first, count) = (round(bus), bus.count);
    if count == 0 {
        return bus.give_turns(turns);
    }
    let order = first.into_iter().chain((0..count).cycle());
    in_order(bus, order.take(usize::from(turns)))
}

fn order_before(bus: &mut Bus, turns: u16, kept: &mut Kept) -> Turns {
    if kept.order.len() != bus.count {
        kept.order = round(bus);
    }
    rounds(bus, turns, &kept.order)
}

fn counts_by_order(bus: &mut Bus, turns: u16, _: &mut Kept) -> Turns {
    let order = round(bus);
    let mut told = bus.give_turns(turns);
    let counts = told.counts;
    for (turn, place) in order.into_iter().enumerate() {
        told.counts[turn] = counts[place];
    }
    told
}

fn never_set_back(bus: &mut Bus, turns: u16, _: &mut Kept) -> Turns {
    let order = round(bus);
    rounds(bus, turns, &order[..order.len().min(1)])
}

fn goes_on(bus: &mut Bus, turns: u16, kept: &mut Kept) -> Turns {
    let mut order = round(bus);
    order.rotate_left(kept.turns % bus.count.max(1));
    kept.turns += usize::from(turns);
    rounds(bus, turns, &order)
}

fn next_partys_counts(bus: &mut Bus, turns: u16, _: &mut Kept) -> Turns {
    let mut told = bus.give_turns(turns);
    told.counts.rotate_left(1);
    told
}

fn one_too_few(bus: &mut Bus, turns: u16, _: &mut Kept) -> Turns {
    bus.give_turns(turns.saturating_sub(1))
}

fn one_too_many(bus: &mut Bus, turns: u16, _: &mut Kept) -> Turns {
    bus.give_turns(turns.saturating_add(1))
}

fn eight_bits(bus: &mut Bus, turns: u16, _: &mut Kept) -> Turns {
    bus.give_turns(turns % 256)
}

fn not_given(bus: &mut Bus, turns: u16, _: &mut Kept) -> Turns {
    bus.clone().give_turns(turns)
}

fn stops_at_an_end(bus: &mut Bus, turns: u16, _: &mut Kept) -> Turns {
    let mut copy = *bus;
    let order = bus.order_of(turns);
    let end = order
        .map(|party| copy.step(party).event)
        .position(Event::is_end);
    bus.give_turns(end.map_or(turns, |place| place as u16 + 1))
}

/// The first of a round, then the second in place of all others.
fn two_by_turns(bus: &mut Bus, turns: u16, _: &mut Kept) -> Turns {
    let mut order = round(bus);
    if let [_, second, rest @ ..] = &mut order[..] {
        rest.fill(*second);
    }
    rounds(bus, turns, &order)
}

fn nothing_accepted(bus: &mut Bus, turns: u16, _: &mut Kept) -> Turns {
    let mut told = bus.give_turns(turns);
    if turns == 0 {
        told.refusal = Refusal::Accepted;
    }
    told
}

#[derive(Clone, Copy)]
enum Fault {
    OfRun(RunFault),
    OfOrder(OrderFault),
}

impl Fault {
    fn give_turns(self, bus: &mut Bus, turns: u16, kept: &mut Kept) -> Turns {
        match self {
            Fault::OfRun(run) => run(bus, turns, kept),
            Fault::OfOrder(_) if bus.count == 0 => bus.give_turns(turns),
            Fault::OfOrder(order) => {
                let order = order(&bus.names());
                rounds(bus, turns, &order)
            }
        }
    }
}

/// The model, with a fault in place of its run.
pub struct WrongRun {
    bus: Bus,
    aside: Bus,
    kept: Kept,
    fault: Fault,
}

impl WrongRun {
    pub fn new(fault: RunFault) -> WrongRun {
        WrongRun::with(Fault::OfRun(fault))
    }

    /// The turns go round in this order.
    pub fn ordered(fault: OrderFault) -> WrongRun {
        WrongRun::with(Fault::OfOrder(fault))
    }

    fn with(fault: Fault) -> WrongRun {
        WrongRun {
            bus: Bus::new(),
            aside: Bus::new(),
            kept: Kept::default(),
            fault,
        }
    }
}

impl Subject for WrongRun {
    fn run_script(&mut self, script: &[u8], out: &mut Vec<u8>) {
        script::run(script, out);
    }

    fn start(&mut self) {
        let aside = self.aside;
        *self = WrongRun {
            aside,
            ..WrongRun::with(self.fault)
        };
    }

    fn build(&mut self, addresses: &[u8], system: u8) -> Answer {
        self.bus.build(addresses, system)
    }

    fn build_extended(&mut self, lists: &Lists, system: u8) -> Answer {
        self.bus.build_extended(lists, system)
    }

    fn name(&self, party: u8) -> Option<Name> {
        self.bus.name(party)
    }

    fn call(&mut self, call: Call) -> Answer {
        script::call(&mut self.bus, call)
    }

    fn give_turns(&mut self, turns: u16) -> Turns {
        self.fault.give_turns(&mut self.bus, turns, &mut self.kept)
    }

    fn try_run(&self, turns: u16, order: &[u8]) -> (Vec<Answer>, bool) {
        let run = |bus: &mut Bus| self.fault.give_turns(bus, turns, &mut self.kept.clone());
        try_run_by(&self.bus, order, run, Bus::step)
    }

    fn try_orders(&self, orders: &Orders) -> Stepped {
        try_orders_by(&self.bus, orders, Bus::step)
    }

    fn drivers(&mut self) -> Drivers {
        self.bus.drivers()
    }

    fn drivers_like_lines(&self) -> bool {
        like_lines_by(&self.bus, Bus::drivers, Bus::lines)
    }

    fn access(&mut self, access: Access) -> Answer {
        self.bus.access(access)
    }

    fn try_accesses(&self, accesses: &[Access], calls: &[Call]) -> (Vec<Answer>, bool) {
        try_accesses_by(&self.bus, accesses, calls, Bus::access, script::call)
    }

    fn poll_call(&mut self, call: PollCall) -> Answer {
        self.bus.poll_call(call)
    }

    fn lay_aside(&mut self) {
        self.aside = self.bus;
    }

    fn is_as_laid_aside(&self) -> bool {
        self.bus == self.aside
    }
}
