//! The thing under test, as the comparison drives it.

use crate::lists::pieces::{self, Piece};
use crate::model::script::{self, Call, Record};
use crate::model::{Access, Answer, Bus, Drivers, Lists, Name, PollCall, Turns, MOST_PARTIES};

pub trait Subject {
    /// Runs a whole script from the bus of no parties and adds the text of busrun to `out`.
    /// The kept bus has no part in it.
    fn run_script(&mut self, script: &[u8], out: &mut Vec<u8>);

    /// Makes the kept bus the bus of no parties.
    fn start(&mut self);

    /// Builds the kept bus from addresses in any order, as no record can.
    fn build(&mut self, addresses: &[u8], system: u8) -> Answer;

    /// The same with a list of secondaries, be they too few or too many.
    fn build_extended(&mut self, lists: &Lists, system: u8) -> Answer;

    /// What a build named the party, if there is one.
    fn name(&self, party: u8) -> Option<Name>;

    /// One call on the kept bus by its operation's number. A build is none.
    fn call(&mut self, call: Call) -> Answer;

    /// A run on the kept bus.
    fn give_turns(&mut self, turns: u16) -> Turns;

    /// A run, and beside it single steps of these parties, on copies of the kept bus: the answers to
    /// the steps, and whether both left the same bus.
    fn try_run(&self, turns: u16, order: &[u8]) -> (Vec<Answer>, bool);

    /// The same steps in two orders, on copies of the kept bus.
    fn try_orders(&self, orders: &Orders) -> Stepped;

    /// The drivers of each line of the kept bus.
    fn drivers(&mut self) -> Drivers;

    /// Whether the drivers and the lines, asked for on copies of the kept bus, leave the same bus.
    fn drivers_like_lines(&self) -> bool;

    /// An access to a register on the kept bus.
    fn access(&mut self, access: Access) -> Answer;

    /// Accesses, and beside them calls, on copies of the kept bus: the answers to the accesses, and
    /// whether both left the same bus.
    fn try_accesses(&self, accesses: &[Access], calls: &[Call]) -> (Vec<Answer>, bool);

    /// An own status or a parallel poll on the kept bus.
    fn poll_call(&mut self, call: PollCall) -> Answer;

    /// Keeps a copy of the kept bus besides, in the place of an earlier one.
    fn lay_aside(&mut self);

    /// Whether the kept bus is the one that was laid aside.
    fn is_as_laid_aside(&self) -> bool;

    /// One record on the kept bus.
    fn record(&mut self, record: Record) -> Answer {
        script::run_record_by(self, record, Self::build, Self::call)
    }
}

/// Two orders of the same steps: each party has as many in the one as in the other.
pub type Orders = [Vec<u8>; 2];

/// What steps in two orders came to.
#[derive(Clone, PartialEq, Debug)]
pub struct Stepped {
    /// The answers in the one order and in the other.
    pub answers: [Vec<Answer>; 2],
    /// Whether both left the same bus.
    pub same: bool,
}

/// What a piece of a list is answered.
#[derive(Clone, PartialEq, Debug)]
pub enum Told {
    Answer(Answer),
    Turns(Turns),
    Drivers(Box<Drivers>),
    /// It is no call.
    Nothing,
}

/// One piece on the kept bus.
pub fn enter_piece(subject: &mut dyn Subject, piece: &Piece) -> Told {
    match piece {
        Piece::Run(turns) => Told::Turns(subject.give_turns(*turns)),
        Piece::Drivers => Told::Drivers(Box::new(subject.drivers())),
        Piece::Access(access) => Told::Answer(subject.access(*access)),
        Piece::PollCall(call) => Told::Answer(subject.poll_call(*call)),
        Piece::Build(lists, system) => Told::Answer(subject.build_extended(lists, *system)),
        Piece::Record(record) => Told::Answer(subject.record(*record)),
        Piece::Address(_) | Piece::Secondary(_) | Piece::Tail => Told::Nothing,
    }
}

/// A whole list on the kept bus, from the bus of no parties, whatever it is answered.
pub fn enter_list(subject: &mut dyn Subject, list: &[u8]) {
    subject.start();
    for piece in pieces::of_list(list) {
        enter_piece(subject, &piece);
    }
}

/// The first party that model and subject call by different names, with both.
pub fn other_name(bus: &Bus, subject: &dyn Subject) -> Option<(u8, Option<Name>, Option<Name>)> {
    let parties = (0..=MOST_PARTIES as u8).chain([u8::MAX]);
    let mut names = parties.map(|party| (party, bus.name(party), subject.name(party)));
    names.find(|(_, model, told)| model != told)
}

/// `try_run` for a subject that keeps such a bus.
pub fn try_run_by<B: Clone + PartialEq>(
    bus: &B,
    order: &[u8],
    run: impl FnOnce(&mut B) -> Turns,
    step: impl Fn(&mut B, u8) -> Answer,
) -> (Vec<Answer>, bool) {
    let (mut whole, mut single) = (bus.clone(), bus.clone());
    run(&mut whole);
    let steps = order.iter().map(|&party| step(&mut single, party));
    let answers = steps.collect();
    (answers, whole == single)
}

/// `try_orders` for a subject that keeps such a bus.
pub fn try_orders_by<B: Clone + PartialEq>(
    bus: &B,
    orders: &Orders,
    mut step: impl FnMut(&mut B, u8) -> Answer,
) -> Stepped {
    let (mut one, mut other) = (bus.clone(), bus.clone());
    let mut steps = |bus: &mut B, order: &[u8]| {
        let answers = order.iter().map(|&party| step(bus, party));
        answers.collect()
    };
    let answers = [steps(&mut one, &orders[0]), steps(&mut other, &orders[1])];
    let same = one == other;
    Stepped { answers, same }
}

/// `drivers_like_lines` for a subject that keeps such a bus.
pub fn like_lines_by<B: Clone + PartialEq>(
    bus: &B,
    drivers: impl Fn(&mut B) -> Drivers,
    lines: impl Fn(&mut B) -> Answer,
) -> bool {
    let (mut one, mut other) = (bus.clone(), bus.clone());
    drivers(&mut one);
    lines(&mut other);
    one == other
}

/// `try_accesses` for a subject that keeps such a bus.
pub fn try_accesses_by<B: Clone + PartialEq>(
    bus: &B,
    accesses: &[Access],
    calls: &[Call],
    access: impl Fn(&mut B, Access) -> Answer,
    call: impl Fn(&mut B, Call) -> Answer,
) -> (Vec<Answer>, bool) {
    let (mut one, mut other) = (bus.clone(), bus.clone());
    let answers = accesses.iter().map(|&own| access(&mut one, own)).collect();
    for &own in calls {
        call(&mut other, own);
    }
    (answers, one == other)
}

/// The model as its own subject.
#[derive(Default)]
pub struct ModelSubject {
    bus: Bus,
    aside: Bus,
}

impl Subject for ModelSubject {
    fn run_script(&mut self, script: &[u8], out: &mut Vec<u8>) {
        script::run(script, out);
    }

    fn start(&mut self) {
        self.bus = Bus::new();
    }

    fn build(&mut self, addresses: &[u8], system: u8) -> Answer {
        self.bus.build(addresses, system)
    }

    fn build_extended(&mut self, lists: &Lists, system: u8) -> Answer {
        self.bus.build_extended(lists, system)
    }

    fn name(&self, party: u8) -> Option<Name> {
        self.bus.name(party)
    }

    fn call(&mut self, call: Call) -> Answer {
        script::call(&mut self.bus, call)
    }

    fn give_turns(&mut self, turns: u16) -> Turns {
        self.bus.give_turns(turns)
    }

    fn try_run(&self, turns: u16, order: &[u8]) -> (Vec<Answer>, bool) {
        try_run_by(&self.bus, order, |bus| bus.give_turns(turns), Bus::step)
    }

    fn try_orders(&self, orders: &Orders) -> Stepped {
        try_orders_by(&self.bus, orders, Bus::step)
    }

    fn drivers(&mut self) -> Drivers {
        self.bus.drivers()
    }

    fn drivers_like_lines(&self) -> bool {
        like_lines_by(&self.bus, Bus::drivers, Bus::lines)
    }

    fn access(&mut self, access: Access) -> Answer {
        self.bus.access(access)
    }

    fn try_accesses(&self, accesses: &[Access], calls: &[Call]) -> (Vec<Answer>, bool) {
        try_accesses_by(&self.bus, accesses, calls, Bus::access, script::call)
    }

    fn poll_call(&mut self, call: PollCall) -> Answer {
        self.bus.poll_call(call)
    }

    fn lay_aside(&mut self) {
        self.aside = self.bus;
    }

    fn is_as_laid_aside(&self) -> bool {
        self.bus == self.aside
    }
}
