//! Wrong machines, each with one mistake, for testing the tests.

mod builds;
mod drivers;
mod either_order;
mod end_marks;
mod machine;
mod noacc;
mod parallel_polls;
mod registers;
mod runs;
mod second_requests;
mod secondaries;
mod turn_orders;

pub use builds::{BuildFault, LENGTH_FAULTS, NAME_FAULTS};
pub use drivers::{DriversFault, Shows, DRIVERS_FAULTS};
pub use either_order::{HIDDEN_ORDER_FAULTS, STEP_ORDER_FAULTS};
pub use end_marks::{EndMarkFault, END_MARK_FAULTS};
pub use machine::MACHINE_FAULTS;
pub use parallel_polls::{poll_faults, PollCallFault, PollFault};
pub use registers::{AccessFault, ACCESS_FAULTS};
pub use runs::{RunFault, WrongRun, RUN_FAULTS};
pub use second_requests::REQUEST_FAULTS;
pub use secondaries::SECONDARY_FAULTS;
pub use turn_orders::{OrderFault, ORDER_FAULTS, UNBUILT_ORDER_FAULTS};

use crate::compare::subject::{
    like_lines_by, try_accesses_by, try_orders_by, try_run_by, Orders, Stepped, Subject,
};
use crate::lists::{pieces, stands_for};
use crate::model::script::{self, Call, Record, STEP};
use crate::model::{Access, Answer, Bus, Drivers, Lists, Name, Party, PollCall, Turns};

/// Takes the bus to alter, the bus before the call, the call, and the answer to alter.
pub type Fault = fn(&mut Bus, &Bus, Record, &mut Answer);

/// An accepted call of this operation.
fn is(call: Record, answer: &Answer, operation: u8) -> bool {
    call[2] == operation && answer.accepted()
}

/// The party that the call names, for altering.
fn actor(bus: &mut Bus, call: Record) -> &mut Party {
    &mut bus.parties[usize::from(call[3])]
}

/// The same as it was before the call.
fn was(before: &Bus, call: Record) -> &Party {
    &before.parties[usize::from(call[3])]
}

/// The model, whose bus and answer a fault alters after each call, or whose build, call for drivers,
/// access, own status or parallel poll is wrong.
pub struct Wrong {
    pub bus: Bus,
    aside: Bus,
    fault: Fault,
    build: BuildFault,
    drivers: DriversFault,
    access: AccessFault,
    poll_call: PollCallFault,
}

impl Wrong {
    pub fn new(fault: Fault) -> Wrong {
        Wrong {
            bus: Bus::new(),
            aside: Bus::new(),
            fault,
            build: BuildFault::OfLengths(Bus::build_extended),
            drivers: Bus::drivers,
            access: Bus::access,
            poll_call: Bus::poll_call,
        }
    }

    /// Every call is right but a build with secondaries.
    pub fn building(build: BuildFault) -> Wrong {
        Wrong {
            build,
            ..Wrong::new(|_, _, _, _| {})
        }
    }

    /// Every call is right but that for drivers.
    pub fn driven(drivers: DriversFault) -> Wrong {
        Wrong {
            drivers,
            ..Wrong::new(|_, _, _, _| {})
        }
    }

    /// Every call is right but accesses.
    pub fn accessed(access: AccessFault) -> Wrong {
        Wrong {
            access,
            ..Wrong::new(|_, _, _, _| {})
        }
    }

    /// Every call is right but for what it does to feoi's marks.
    pub fn marking(fault: EndMarkFault) -> Wrong {
        match fault {
            EndMarkFault::OfAccess(access) => Wrong::accessed(access),
            EndMarkFault::OfCall(fault) => Wrong::new(fault),
        }
    }

    /// Every call is right but for what it does to parallel polls.
    pub fn polling(fault: PollFault) -> Wrong {
        match fault {
            PollFault::OfPollCall(poll_call) => Wrong {
                poll_call,
                ..Wrong::new(|_, _, _, _| {})
            },
            PollFault::OfCall(fault) => Wrong::new(fault),
        }
    }

    /// The machine with the fault of that name.
    pub fn named(name: &str) -> Wrong {
        let mut faults = MACHINE_FAULTS
            .iter()
            .chain(SECONDARY_FAULTS)
            .chain(REQUEST_FAULTS);
        let found = faults.find(|(known, _)| *known == name);
        Wrong::new(found.expect("a known fault").1)
    }
}

/// A call, then its fault.
fn faulty(
    bus: &mut Bus,
    fault: Fault,
    record: Record,
    run: impl FnOnce(&mut Bus) -> Answer,
) -> Answer {
    let before = *bus;
    let mut answer = run(bus);
    fault(bus, &before, record, &mut answer);
    answer
}

/// An access is as faulty as the host call that it stands for.
fn faulty_access(bus: &mut Bus, fault: Fault, access: Access, run: AccessFault) -> Answer {
    let record = stands_for::as_record(access, bus);
    faulty(bus, fault, record, |bus| run(bus, access))
}

fn faulty_call(bus: &mut Bus, fault: Fault, call: Call) -> Answer {
    let [operation, party, value, extra] = call;
    let record = script::record(operation, party, value, extra);
    faulty(bus, fault, record, |bus| script::call(bus, call))
}

fn faulty_step(bus: &mut Bus, fault: Fault, party: u8) -> Answer {
    let record = script::record(STEP, party, 0, 0);
    faulty(bus, fault, record, |bus| bus.step(party))
}

/// A right run of faulty steps.
fn faulty_steps(bus: &mut Bus, fault: Fault, turns: u16) -> Turns {
    let told = bus.clone().give_turns(turns);
    for party in bus.order_of(turns) {
        faulty_step(bus, fault, party);
    }
    told
}

impl Subject for Wrong {
    fn run_script(&mut self, script: &[u8], out: &mut Vec<u8>) {
        let mut machine = Wrong::new(self.fault);
        script::run_by(script, out, |record| machine.record(record));
    }

    fn start(&mut self) {
        self.bus = Bus::new();
    }

    fn build(&mut self, addresses: &[u8], system: u8) -> Answer {
        self.bus.build(addresses, system)
    }

    fn build_extended(&mut self, lists: &Lists, system: u8) -> Answer {
        let (build, record) = (self.build, pieces::build_of_lists(system));
        faulty(&mut self.bus, self.fault, record, |bus| {
            build.build(bus, lists, system)
        })
    }

    fn name(&self, party: u8) -> Option<Name> {
        self.bus.name(party)
    }

    fn call(&mut self, call: Call) -> Answer {
        faulty_call(&mut self.bus, self.fault, call)
    }

    fn give_turns(&mut self, turns: u16) -> Turns {
        faulty_steps(&mut self.bus, self.fault, turns)
    }

    fn try_run(&self, turns: u16, order: &[u8]) -> (Vec<Answer>, bool) {
        let run = |bus: &mut Bus| faulty_steps(bus, self.fault, turns);
        let step = |bus: &mut Bus, party| faulty_step(bus, self.fault, party);
        try_run_by(&self.bus, order, run, step)
    }

    fn try_orders(&self, orders: &Orders) -> Stepped {
        let step = |bus: &mut Bus, party| faulty_step(bus, self.fault, party);
        try_orders_by(&self.bus, orders, step)
    }

    fn drivers(&mut self) -> Drivers {
        (self.drivers)(&mut self.bus)
    }

    fn drivers_like_lines(&self) -> bool {
        like_lines_by(&self.bus, self.drivers, Bus::lines)
    }

    fn access(&mut self, access: Access) -> Answer {
        faulty_access(&mut self.bus, self.fault, access, self.access)
    }

    fn try_accesses(&self, accesses: &[Access], calls: &[Call]) -> (Vec<Answer>, bool) {
        let access = |bus: &mut Bus, own| faulty_access(bus, self.fault, own, self.access);
        let call = |bus: &mut Bus, own| faulty_call(bus, self.fault, own);
        try_accesses_by(&self.bus, accesses, calls, access, call)
    }

    fn poll_call(&mut self, call: PollCall) -> Answer {
        let (poll_call, record) = (self.poll_call, pieces::poll_call(call));
        faulty(&mut self.bus, self.fault, record, |bus| {
            poll_call(bus, call)
        })
    }

    fn lay_aside(&mut self) {
        self.aside = self.bus;
    }

    fn is_as_laid_aside(&self) -> bool {
        self.bus == self.aside
    }

    fn record(&mut self, record: Record) -> Answer {
        faulty(&mut self.bus, self.fault, record, |bus| {
            script::run_record(bus, record)
        })
    }
}
