//! The bound of document 02's Q-1: a byte that is held for listeners ends within 7 turns a party.

use crate::model::{Answer, Bus, Data, Event, Source};

pub const TURNS_A_PARTY: u16 = 7;

/// A bus from which the bound holds.
#[derive(Clone, Copy, Debug)]
pub struct Start {
    parties: usize,
    secondaries: bool,
    /// The parties are not numbered in address order.
    against: bool,
    talker: u8,
    held: Data,
}

impl Start {
    /// None if the bus lacks something that Q-1 asks for.
    pub fn of(bus: &Bus) -> Option<Start> {
        let parties = bus.present();
        let mut talkers = (0..bus.count).filter(|&place| parties[place].talk);
        let place = talkers.next()?;
        let talker = &parties[place];
        let held = talker.held?;
        let holds = talkers.next().is_none()
            && talker.source == Source::Sgns
            && !bus.atn()
            && !talker.is_polled(false)
            && parties.iter().any(|party| party.listen)
            && parties.iter().all(|party| party.data_in.is_none());
        holds.then_some(Start {
            parties: bus.count,
            secondaries: bus.has_secondaries(),
            against: !bus.in_address_order(),
            talker: place as u8,
            held,
        })
    }

    /// The turns within which the byte has to end.
    pub fn turns(&self) -> u16 {
        TURNS_A_PARTY * self.parties as u16
    }

    /// After how many of these steps the byte ended, if the talker put it up as it was held.
    pub fn ended_after(&self, order: &[u8], answers: &[Answer]) -> Option<usize> {
        let says = |wanted| {
            let answer = Answer::with_byte(wanted, self.held.value, self.held.end);
            let mut steps = order.iter().zip(answers);
            steps.position(|step| step == (&self.talker, &answer))
        };
        let (put, ended) = (says(Event::Data)?, says(Event::Ended)?);
        (put < ended).then_some(ended + 1)
    }
}

/// How often the bound was tried, and where it came closest.
#[derive(Clone, Copy, Default, Debug)]
pub struct Tried {
    /// On racks without secondaries and with some, in address order; then against it.
    pub starts: [u64; 4],
    /// Turns needed, and parties.
    pub closest: (usize, usize),
}

impl Tried {
    pub const WORDS: [&'static str; 4] = [
        "starts of the bound",
        "starts of the bound with secondaries",
        "starts of the bound against address order",
        "starts of the bound with secondaries against address order",
    ];

    pub fn enter(&mut self, start: &Start, needed: usize) {
        let rack = usize::from(start.secondaries) + 2 * usize::from(start.against);
        self.starts[rack] += 1;
        let (turns, parties) = self.closest;
        if needed * parties.max(1) > turns * start.parties {
            self.closest = (needed, start.parties);
        }
    }

    pub fn words(&self) -> String {
        let (turns, parties) = self.closest;
        let share = turns as f64 / parties.max(1) as f64;
        let [plain, extended, plain_against, extended_against] = self.starts;
        format!(
            "bound tried at {plain} starts, and at {extended} with secondaries; against address \
            order at {plain_against}, and at {extended_against} with secondaries; \
            at most {share:.2} turns a party, {turns} at {parties} parties"
        )
    }
}
