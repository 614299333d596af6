//! How often steps of parties that are no source were tried in two orders: which parties, on what buses,
//! and what the steps did. And how often the order counted where a source was among them.

use crate::model::{Acceptor, Answer, Bus, Event, Kind, Party, MOST_PARTIES, NDAC, NRFD};

/// What is counted, in the order of the words.
#[derive(Clone, Copy)]
enum Case {
    Pair,
    Reversed,
    Reordered,
    Some,
    All,
    Fourteen,
    Fifteen,
    Several,
    TwoMoves,
    LetGo,
    UnderAtn,
    WithoutAtn,
    NoneStands,
    CommandStands,
    StatusStands,
    DataStands,
    Secondary,
    Talk,
    Waits,
    TwoStates,
    DataTaken,
    EndTaken,
    StatusTaken,
    Heard,
    Cleared,
    Triggered,
    Addressed,
    TwoChanged,
    TalkPasses,
    Configured,
    OtherNrfd,
    OtherNdac,
    SourceBus,
    SourceAnswer,
    SourceEnds,
    SourcePuts,
}

const CASES: usize = 36;

/// Fewer would say little.
const LEAST: u64 = 100;

/// A step among others.
#[derive(Clone, Debug)]
pub struct Step {
    pub party: u8,
    /// The lines that it finds.
    pub lines: u8,
    pub was: Party,
    pub is: Party,
    pub answer: Answer,
}

impl Step {
    fn moves(&self) -> bool {
        self.was.acceptor != self.is.acceptor
    }

    /// Whether what was heard changed a flag or a mark.
    fn changes(&self) -> bool {
        let heard = |party: &Party| (party.talk, party.listen, party.poll_mode, party.mark);
        heard(&self.was) != heard(&self.is)
    }
}

/// Two parties have such a step.
fn two(steps: &[&Step], which: impl Fn(&Step) -> bool) -> bool {
    let mut such = steps.iter().filter(|step| which(step));
    let first = such.next().map(|step| step.party);
    such.any(|step| Some(step.party) != first)
}

/// The place of each step in the one order, with that of the same step in the other: a party's first with
/// its first, its second with its second.
pub fn same_steps<'a, T>(
    one: &'a [T],
    other: &'a [T],
    party: impl Fn(&T) -> u8 + 'a,
) -> impl Iterator<Item = (usize, usize)> + 'a {
    let mut passed = [0; MOST_PARTIES];
    one.iter().enumerate().map(move |(place, step)| {
        let passed = &mut passed[usize::from(party(step))];
        let mut rest = other[*passed..].iter();
        let same = rest.position(|own| party(own) == party(step));
        *passed += 1 + same.expect("as many steps of the party");
        (place, *passed - 1)
    })
}

/// A step in the one order and in the other.
fn both([one, other]: &[Vec<Step>; 2]) -> impl Iterator<Item = (&Step, &Step)> {
    let places = same_steps(one, other, |step| step.party);
    places.map(|(place, same)| (&one[place], &other[same]))
}

/// The first step of each party.
fn first_steps(steps: &[Step]) -> Vec<&Step> {
    let places = steps.iter().enumerate();
    let first = places.filter(|(place, step)| {
        let mut earlier = steps[..*place].iter();
        earlier.all(|other| other.party != step.party)
    });
    first.map(|(_, step)| step).collect()
}

#[derive(Clone, Debug)]
pub struct OrderCases {
    pub counts: [u64; CASES],
    /// Two orders each.
    pub tried: u64,
}

impl Default for OrderCases {
    fn default() -> OrderCases {
        OrderCases {
            counts: [0; CASES],
            tried: 0,
        }
    }
}

impl OrderCases {
    pub const WORDS: [&'static str; CASES] = [
        "orders of two",
        "orders of three or more reversed",
        "orders of three or more otherwise",
        "orders of some that are no source",
        "orders of all, three or more",
        "orders of fourteen beside a source",
        "orders of fifteen",
        "orders with several steps of a party",
        "orders with two moves of each of two",
        "orders with a byte taken and let go by two",
        "orders under ATN",
        "orders without ATN",
        "orders with no byte standing",
        "orders with a command standing",
        "orders with a status byte standing",
        "orders with data standing",
        "orders with a secondary",
        "orders with a party whose talk is on",
        "orders with data-in full beside a move",
        "orders with moves from two states",
        "orders with data taken twice",
        "orders with END taken twice",
        "orders with a status byte taken twice",
        "orders with a command heard twice",
        "orders with two clears",
        "orders with two triggers",
        "orders with a clear or trigger, and heard",
        "orders with flags or marks of two changed",
        "orders with talk on for one, off for one",
        "orders with responses of two changed",
        "orders with a move under another NRFD",
        "orders with a move under another NDAC",
        "a source first or last, another bus",
        "a source first or last, another answer",
        "a source's byte ends if it is last alone",
        "a source's byte taken if it is first alone",
    ];

    fn count(&mut self, what: Case, holds: bool) {
        self.counts[what as usize] += u64::from(holds);
    }

    /// Steps of parties that are no source, in two orders that came to the same.
    pub fn enter(&mut self, bus: &Bus, steps: &[Vec<Step>; 2]) {
        self.tried += 1;
        let first = first_steps(&steps[0]);
        if first.len() == steps[0].len() {
            self.enter_orders(bus, steps);
        } else {
            self.enter_several(bus, &steps[0]);
        }
        self.enter_bus(bus, &first);
        self.enter_heard(&first);
        let other = |line: u8| {
            let mut moves = both(steps).filter(|(one, _)| one.moves());
            moves.any(|(one, other)| (one.lines ^ other.lines) & line != 0)
        };
        self.count(Case::OtherNrfd, other(NRFD));
        self.count(Case::OtherNdac, other(NDAC));
    }

    /// Orders with one step of each party.
    fn enter_orders(&mut self, bus: &Bus, [one, other]: &[Vec<Step>; 2]) {
        let backward = other.iter().rev().map(|step| step.party);
        let reversed = one.iter().map(|step| step.party).eq(backward);
        let (count, all) = (one.len(), one.len() == bus.no_sources().len());
        self.count(Case::Pair, count == 2);
        self.count(Case::Reversed, count > 2 && reversed);
        self.count(Case::Reordered, !reversed);
        self.count(Case::Some, !all);
        self.count(Case::All, count > 2 && all);
        let beside = count + 1 == bus.count;
        self.count(Case::Fourteen, all && beside && bus.count == MOST_PARTIES);
        self.count(Case::Fifteen, count == MOST_PARTIES);
    }

    fn enter_several(&mut self, bus: &Bus, steps: &[Step]) {
        // A move after another.
        let second = |step: &&Step| {
            let start = bus.parties[usize::from(step.party)].acceptor;
            step.moves() && step.was.acceptor != start
        };
        let second: Vec<&Step> = steps.iter().filter(second).collect();
        self.count(Case::Several, true);
        self.count(Case::TwoMoves, two(&second, |_| true));
        let let_go = |step: &Step| step.was.acceptor == Acceptor::Acds;
        self.count(Case::LetGo, two(&second, let_go));
    }

    /// The bus, and the first step of each party.
    fn enter_bus(&mut self, bus: &Bus, steps: &[&Step]) {
        let any = |which: fn(&Step) -> bool| steps.iter().any(|step| which(step));
        let kind = bus.standing.map(|byte| byte.kind);
        self.count(Case::UnderAtn, bus.atn());
        self.count(Case::WithoutAtn, !bus.atn());
        self.count(Case::NoneStands, kind.is_none());
        self.count(Case::CommandStands, kind == Some(Kind::Command));
        self.count(Case::StatusStands, kind == Some(Kind::Status));
        self.count(Case::DataStands, kind == Some(Kind::Data));
        let secondary = any(|step| step.was.name.secondary.is_some());
        self.count(Case::Secondary, secondary);
        self.count(Case::Talk, any(|step| step.was.talk));
        let waits = any(|step| step.was.acceptor == Acceptor::Anrs && !step.moves());
        self.count(Case::Waits, waits && any(Step::moves));
        let mut moves = steps.iter().filter(|step| step.moves());
        let first = moves.next().map(|step| step.was.acceptor);
        let others = moves.any(|step| Some(step.was.acceptor) != first);
        self.count(Case::TwoStates, others);
        let took = two(steps, |step| step.answer.event == Event::Took);
        self.count(Case::DataTaken, took && kind == Some(Kind::Data));
        self.count(Case::StatusTaken, took && kind == Some(Kind::Status));
        let with_end = bus.standing.is_some_and(|byte| byte.end);
        self.count(Case::EndTaken, took && with_end);
    }

    fn enter_heard(&mut self, steps: &[&Step]) {
        let any = |which: fn(&Step) -> bool| steps.iter().any(|step| which(step));
        let twice = |event| two(steps, |step| step.answer.event == event);
        self.count(Case::Heard, twice(Event::Heard));
        self.count(Case::Cleared, twice(Event::Clear));
        self.count(Case::Triggered, twice(Event::Trigger));
        let acts = any(|step| matches!(step.answer.event, Event::Clear | Event::Trigger));
        let beside = any(|step| step.answer.event == Event::Heard);
        self.count(Case::Addressed, acts && beside);
        self.count(Case::TwoChanged, two(steps, Step::changes));
        let on = any(|step| !step.was.talk && step.is.talk);
        let off = any(|step| step.was.talk && !step.is.talk);
        self.count(Case::TalkPasses, on && off);
        let configured = two(steps, |step| step.was.response != step.is.response);
        self.count(Case::Configured, configured);
    }

    /// Steps in one order, after a source's and before it.
    pub fn enter_source(&mut self, steps: &[Vec<Step>; 2], same: bool) {
        let otherwise = |which: fn(&Answer, &Answer) -> bool| {
            both(steps).any(|(first, last)| which(&first.answer, &last.answer))
        };
        self.count(Case::SourceBus, !same);
        self.count(Case::SourceAnswer, otherwise(|first, last| first != last));
        let ends = otherwise(|first, last| !first.event.is_end() && last.event.is_end());
        self.count(Case::SourceEnds, ends);
        let taken = otherwise(|first, last| first.event.is_taking() && !last.event.is_taking());
        self.count(Case::SourcePuts, taken);
    }

    /// What did not come often enough.
    pub fn missing(&self) -> impl Iterator<Item = &'static str> + '_ {
        let counts = self.counts.iter().zip(OrderCases::WORDS);
        let few = counts.filter(|(count, _)| **count < LEAST);
        few.map(|(_, word)| word)
    }

    pub fn print(&self) {
        println!("steps tried in two orders {} times", self.tried);
        for (word, count) in OrderCases::WORDS.iter().zip(&self.counts) {
            println!("    {word:<42} {count:>10}");
        }
    }
}
