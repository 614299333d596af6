//! Starts of the bound, table by table: listeners in every state that they may begin in.

use super::racks::{Rack, RACKS};
use crate::compare::{Comparison, Finding};
use crate::ledger::bound::{Start, TURNS_A_PARTY};
use crate::lists::composer::Composer;
use crate::model::script::{LISTEN, READ, STEP, TALK, WRITE};
use crate::model::{Acceptor, Event};

type Done = Result<(), Finding>;

/// A party beside the talker is in AIDS, or listens and is in one of the others.
const STATES: [Acceptor; 5] = [
    Acceptor::Aids,
    Acceptor::Anrs,
    Acceptor::Acrs,
    Acceptor::Acds,
    Acceptor::Awns,
];

fn listens(state: Acceptor) -> bool {
    state != Acceptor::Aids
}

/// The talker has a byte for the parties that listen.
fn offered(rack: Rack, states: &[Acceptor], talker: u8) -> Composer {
    let mut composer = Composer::new();
    rack(&mut composer, states.len() as u8);
    composer.call(TALK, talker, 1, 0);
    for (party, state) in (0..).zip(states) {
        if listens(*state) {
            composer.call(LISTEN, party, 1, 0);
        }
    }
    composer.call(WRITE, talker, 0x41, 0);
    composer
}

/// The standing byte is broken off and read by whoever took it; the talker has another.
fn another_byte(composer: &mut Composer, talker: u8) {
    composer.call(TALK, talker, 0, 0);
    for party in 0..composer.bus.count as u8 {
        composer.call(READ, party, 0, 0);
    }
    composer.call(TALK, talker, 1, 0);
    composer.call(WRITE, talker, 0x42, 1);
}

/// A start with each party in the state given; the talker's is AIDS.
fn start_in(rack: Rack, states: &[Acceptor], talker: u8) -> Composer {
    let mut composer = offered(rack, states, talker);
    composer.walk_until(Event::is_put);
    for (party, state) in (0..).zip(states) {
        let steps = match state {
            Acceptor::Acds => 1,
            Acceptor::Awns => 2,
            _ => 0,
        };
        for _ in 0..steps {
            composer.call(STEP, party, 0, 0);
        }
    }
    another_byte(&mut composer, talker);
    for (party, state) in (0..).zip(states) {
        if *state == Acceptor::Anrs {
            composer.call(LISTEN, party, 0, 0);
            composer.call(LISTEN, party, 1, 0);
        }
    }
    let reached = composer.bus.present().iter().map(|party| party.acceptor);
    assert!(reached.eq(states.iter().copied()) && Start::of(&composer.bus).is_some());
    composer
}

/// All states of all parties beside the talker, for few parties.
fn few_parties(comparison: &mut Comparison, rack: Rack) -> Done {
    for count in 2..=4 {
        let others = count - 1;
        for talker in 0..count {
            for number in 1..STATES.len().pow(others as u32) {
                let digit = |place| number / STATES.len().pow(place) % STATES.len();
                let mut states: Vec<Acceptor> = (0..others as u32)
                    .map(|place| STATES[digit(place)])
                    .collect();
                states.insert(talker, Acceptor::Aids);
                let composer = start_in(rack, &states, talker as u8);
                comparison.list(&composer.records.concat())?;
            }
        }
    }
    Ok(())
}

/// Many listeners, in the states that they have after so many turns of the byte before.
fn many_parties(comparison: &mut Comparison, rack: Rack) -> Done {
    for count in [8, 15] {
        for talker in 0..count {
            for turns in 0..5 * count {
                let states = vec![Acceptor::Acrs; count.into()];
                let mut composer = offered(rack, &states, talker as u8);
                composer.run(turns);
                another_byte(&mut composer, talker as u8);
                composer.run(TURNS_A_PARTY * count);
                comparison.list(&composer.records.concat())?;
            }
        }
    }
    Ok(())
}

pub fn run(comparison: &mut Comparison) -> Done {
    for rack in RACKS {
        few_parties(comparison, rack)?;
        many_parties(comparison, rack)?;
    }
    Ok(())
}
