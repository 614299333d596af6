//! Steps of parties that are no source, with one mistake each by which their order counts.

use super::{actor, is, was, Fault};
use crate::model::script::{Record, STEP};
use crate::model::{
    Acceptor, Answer, Bus, Event, Mark, Party, Source, DAV, MOST_PARTIES, NDAC, NRFD,
};

pub const STEP_ORDER_FAULTS: &[(&str, Fault)] = &[
    ("taking waits for NRFD", taking_waits_for_nrfd),
    ("taking goes by places", taking_by_places),
    ("ACDS waits for another's", acds_waits),
    ("ANRS waits for another's ACRS", anrs_waits),
    ("AWNS waits for NDAC", awns_waits),
    ("END for the first taker alone", end_for_first),
    ("END lost for the third taker", end_lost_for_third),
    ("the second taker breaks the byte off", second_breaks_off),
    ("taking changes the standing byte", taking_changes_byte),
    ("taking moves the next party too", taking_moves_next),
    ("the answer tells of another taker", answer_tells),
    ("talk on while no other's is", talk_alone),
    ("talk primary for one party alone", primary_alone),
    ("poll mode for the first that hears it", first_poll_mode),
    ("trigger for the first that hears it", first_trigger),
    ("clear drops the bytes of all", clear_drops_all),
    ("a response on a free line alone", free_line),
];

/// What no answer tells: places without a party do not hold the idle party.
pub const HIDDEN_ORDER_FAULTS: &[(&str, Fault)] = &[
    ("the last step is remembered", last_step),
    ("the last taker is remembered", last_taker),
];

/// The parties but the one that is called, as they were before.
fn others(before: &Bus, call: Record) -> impl Iterator<Item = &Party> {
    let places = before.present().iter().enumerate();
    let others = places.filter(move |(place, _)| *place != usize::from(call[3]));
    others.map(|(_, party)| party)
}

/// Another party was in this state.
fn another_in(before: &Bus, call: Record, state: Acceptor) -> bool {
    others(before, call).any(|party| party.acceptor == state)
}

/// How many others have the standing byte already.
fn takers(before: &Bus, call: Record) -> usize {
    let mut others: Vec<&Party> = others(before, call).collect();
    others.retain(|party| matches!(party.acceptor, Acceptor::Acds | Acceptor::Awns));
    others.len()
}

/// A step that leaves this state of the acceptor.
fn leaves(bus: &mut Bus, before: &Bus, call: Record, answer: &Answer, state: Acceptor) -> bool {
    is(call, answer, STEP)
        && was(before, call).acceptor == state
        && actor(bus, call).acceptor != state
}

/// The step does nothing.
fn stay(bus: &mut Bus, before: &Bus, answer: &mut Answer) {
    *bus = *before;
    *answer = Answer::NOTHING;
}

fn taking_waits_for_nrfd(bus: &mut Bus, before: &Bus, _: Record, answer: &mut Answer) {
    if answer.event.is_taking() && before.line_bits() & NRFD != 0 {
        stay(bus, before, answer);
    }
}

fn taking_by_places(bus: &mut Bus, before: &Bus, call: Record, answer: &mut Answer) {
    let mut lower = before.present().iter().take(usize::from(call[3]));
    if answer.event.is_taking() && lower.any(|party| party.acceptor == Acceptor::Acrs) {
        stay(bus, before, answer);
    }
}

fn acds_waits(bus: &mut Bus, before: &Bus, call: Record, answer: &mut Answer) {
    let state = Acceptor::Acds;
    if leaves(bus, before, call, answer, state) && another_in(before, call, state) {
        stay(bus, before, answer);
    }
}

fn anrs_waits(bus: &mut Bus, before: &Bus, call: Record, answer: &mut Answer) {
    let ready = leaves(bus, before, call, answer, Acceptor::Anrs);
    if ready && another_in(before, call, Acceptor::Acrs) {
        stay(bus, before, answer);
    }
}

fn awns_waits(bus: &mut Bus, before: &Bus, call: Record, answer: &mut Answer) {
    let goes_on = leaves(bus, before, call, answer, Acceptor::Awns);
    if goes_on && before.line_bits() & NDAC != 0 {
        stay(bus, before, answer);
    }
}

fn lose_end(party: &mut Party, answer: &mut Answer) {
    answer.end = false;
    if let Some(data) = &mut party.data_in {
        data.end = false;
    }
}

fn end_for_first(bus: &mut Bus, before: &Bus, call: Record, answer: &mut Answer) {
    if answer.event == Event::Took && takers(before, call) > 0 {
        lose_end(actor(bus, call), answer);
    }
}

fn end_lost_for_third(bus: &mut Bus, before: &Bus, call: Record, answer: &mut Answer) {
    if answer.event == Event::Took && takers(before, call) == 2 {
        lose_end(actor(bus, call), answer);
    }
}

fn second_breaks_off(bus: &mut Bus, before: &Bus, call: Record, answer: &mut Answer) {
    if !answer.event.is_taking() || takers(before, call) == 0 {
        return;
    }
    if let Some(byte) = bus.standing.take() {
        bus.parties[byte.sender].source = Source::Sgns;
        answer.broken = 1;
    }
}

fn taking_changes_byte(bus: &mut Bus, _: &Bus, _: Record, answer: &mut Answer) {
    if let (true, Some(byte)) = (answer.event.is_taking(), &mut bus.standing) {
        byte.value ^= 0x80;
    }
}

fn taking_moves_next(bus: &mut Bus, _: &Bus, call: Record, answer: &mut Answer) {
    if !answer.event.is_taking() {
        return;
    }
    let next = bus.parties.get_mut(usize::from(call[3]) + 1);
    if let Some(next) = next.filter(|party| party.acceptor == Acceptor::Acrs) {
        next.acceptor = Acceptor::Acds;
    }
}

fn answer_tells(_: &mut Bus, before: &Bus, call: Record, answer: &mut Answer) {
    if answer.event.is_taking() {
        answer.end |= takers(before, call) > 0;
    }
}

fn talk_alone(bus: &mut Bus, before: &Bus, call: Record, answer: &mut Answer) {
    if answer.event == Event::Heard && others(before, call).any(|party| party.talk) {
        actor(bus, call).talk &= was(before, call).talk;
    }
}

fn primary_alone(bus: &mut Bus, before: &Bus, call: Record, answer: &mut Answer) {
    let marked = |party: &Party| party.mark == Some(Mark::TalkPrimary);
    let heard = answer.event == Event::Heard && marked(actor(bus, call));
    if heard && others(before, call).any(marked) {
        actor(bus, call).mark = None;
    }
}

fn first_poll_mode(bus: &mut Bus, before: &Bus, call: Record, answer: &mut Answer) {
    if answer.event == Event::Heard && others(before, call).any(|party| party.poll_mode) {
        actor(bus, call).poll_mode &= was(before, call).poll_mode;
    }
}

fn first_trigger(_: &mut Bus, before: &Bus, call: Record, answer: &mut Answer) {
    if answer.event == Event::Trigger && takers(before, call) > 0 {
        answer.event = Event::Heard;
    }
}

fn clear_drops_all(bus: &mut Bus, _: &Bus, _: Record, answer: &mut Answer) {
    if answer.event == Event::Clear {
        let held = bus.parties.iter_mut().filter_map(|party| party.held.take());
        answer.dropped = held.count() as u8;
    }
}

fn free_line(bus: &mut Bus, before: &Bus, call: Record, answer: &mut Answer) {
    if answer.event != Event::Heard {
        return;
    }
    let line = |party: &Party| party.response.map(|response| response.line);
    let (old, new) = (was(before, call).response, actor(bus, call).response);
    let own = line(actor(bus, call));
    if new != old && own.is_some() && others(before, call).any(|party| line(party) == own) {
        actor(bus, call).response = old;
    }
}

fn remember(bus: &mut Bus, call: Record) {
    if bus.count < MOST_PARTIES {
        bus.parties[MOST_PARTIES - 1].live = call[3];
    }
}

fn last_step(bus: &mut Bus, before: &Bus, call: Record, answer: &mut Answer) {
    if is(call, answer, STEP) && before.line_bits() & DAV != 0 {
        remember(bus, call);
    }
}

fn last_taker(bus: &mut Bus, _: &Bus, call: Record, answer: &mut Answer) {
    if answer.event.is_taking() {
        remember(bus, call);
    }
}
