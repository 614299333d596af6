//! What a machine can get wrong about feoi's marks.

use super::registers::{command, is_command, is_data_out, AccessFault};
use super::{actor, is, was, Fault};
use crate::model::registers::{FEOI, SWRST};
use crate::model::script::{Record, BUILD, CLEAR, DROP, RESET, STANDBY, TAKE, WRITE};
use crate::model::{Access, Answer, Bus, Event, Refusal};

/// A wrong access, or a fault of host calls and of the accesses that stand for them.
#[derive(Clone, Copy)]
pub enum EndMarkFault {
    OfAccess(AccessFault),
    OfCall(Fault),
}

use EndMarkFault::{OfAccess, OfCall};

pub const END_MARK_FAULTS: &[(&str, EndMarkFault)] = &[
    (
        "a refused data out uses the mark up",
        OfAccess(used_by_refused),
    ),
    ("the host's write uses the mark up", OfCall(used_by_host)),
    ("the host's write has the mark's END", OfCall(shown_by_host)),
    ("the mark never used up", OfAccess(never_used)),
    (
        "a command does not use the mark up",
        OfAccess(command_keeps),
    ),
    ("the mark gone when its byte is put", OfCall(gone_at_put)),
    ("reset keeps the mark", OfCall(reset_keeps)),
    ("swrst keeps the mark", OfAccess(swrst_keeps)),
    (
        "a refused reset removes the mark",
        OfCall(refused_reset_removes),
    ),
    ("interface clear removes the mark", OfCall(clear_removes)),
    ("attention removes the marks", OfCall(attention_removes)),
    ("drop removes the mark", OfCall(drop_removes)),
    ("a status byte removes the mark", OfCall(status_removes)),
    ("a build keeps the marks", OfCall(build_keeps)),
    ("feoi toggles", OfAccess(toggles)),
    ("feoi by the set bit only", OfAccess(marks_if_set)),
    ("feoi off by the cleared bit", OfAccess(unmarks_if_cleared)),
    ("feoi marks the byte that is held", OfAccess(marks_held)),
    ("feoi refused while a byte is held", OfAccess(feoi_full)),
    ("END of data out always off", OfAccess(no_end)),
    ("END of data out always on", OfAccess(always_end)),
    ("one mark for all parties", OfAccess(shared_mark)),
    ("a mark of party 0", OfAccess(mark_of_party_0)),
];

/// The mark of the party that is accessed, if it is there.
fn mark_of(bus: &Bus, access: Access) -> bool {
    let found = bus.present().get(usize::from(access.party()));
    found.is_some_and(|party| party.feoi)
}

fn set_mark(bus: &mut Bus, access: Access, on: bool) {
    bus.parties[usize::from(access.party())].feoi = on;
}

fn used_by_refused(bus: &mut Bus, access: Access) -> Answer {
    let answer = bus.access(access);
    if is_data_out(access) && answer.refusal == Refusal::Full {
        set_mark(bus, access, false);
    }
    answer
}

/// An access has done with the mark before, so that only the host's own write does this.
fn used_by_host(bus: &mut Bus, before: &Bus, call: Record, answer: &mut Answer) {
    if is(call, answer, WRITE) && actor(bus, call).feoi == was(before, call).feoi {
        actor(bus, call).feoi = false;
    }
}

fn shown_by_host(bus: &mut Bus, before: &Bus, call: Record, answer: &mut Answer) {
    if is(call, answer, WRITE) && was(before, call).feoi {
        if let Some(held) = &mut actor(bus, call).held {
            held.end = true;
        }
    }
}

fn never_used(bus: &mut Bus, access: Access) -> Answer {
    let mark = mark_of(bus, access);
    let answer = bus.access(access);
    if is_data_out(access) && answer.accepted() {
        set_mark(bus, access, mark);
    }
    answer
}

fn command_keeps(bus: &mut Bus, access: Access) -> Answer {
    if bus.name(access.party()).is_some() && bus.parties[usize::from(access.party())].is_active() {
        return never_used(bus, access);
    }
    bus.access(access)
}

fn gone_at_put(bus: &mut Bus, _: &Bus, call: Record, answer: &mut Answer) {
    if answer.event == Event::Data {
        actor(bus, call).feoi = false;
    }
}

fn reset_keeps(bus: &mut Bus, before: &Bus, call: Record, answer: &mut Answer) {
    if is(call, answer, RESET) {
        actor(bus, call).feoi = was(before, call).feoi;
    }
}

fn swrst_keeps(bus: &mut Bus, access: Access) -> Answer {
    let mark = mark_of(bus, access);
    let answer = bus.access(access);
    if is_command(access, SWRST) && answer.accepted() {
        set_mark(bus, access, mark);
    }
    answer
}

fn refused_reset_removes(bus: &mut Bus, _: &Bus, call: Record, answer: &mut Answer) {
    if call[2] == RESET && answer.refusal == Refusal::Standing {
        actor(bus, call).feoi = false;
    }
}

fn remove_all(bus: &mut Bus) {
    for party in &mut bus.parties {
        party.feoi = false;
    }
}

fn clear_removes(bus: &mut Bus, _: &Bus, call: Record, answer: &mut Answer) {
    if is(call, answer, CLEAR) {
        remove_all(bus);
    }
}

fn attention_removes(bus: &mut Bus, _: &Bus, call: Record, answer: &mut Answer) {
    if is(call, answer, TAKE) || is(call, answer, STANDBY) || answer.event == Event::Passed {
        remove_all(bus);
    }
}

fn drop_removes(bus: &mut Bus, _: &Bus, call: Record, answer: &mut Answer) {
    if is(call, answer, DROP) && answer.dropped == 1 {
        actor(bus, call).feoi = false;
    }
}

fn status_removes(bus: &mut Bus, _: &Bus, call: Record, answer: &mut Answer) {
    if answer.event == Event::Stat {
        actor(bus, call).feoi = false;
    }
}

fn build_keeps(bus: &mut Bus, before: &Bus, call: Record, answer: &mut Answer) {
    if is(call, answer, BUILD) {
        for (party, old) in bus.parties.iter_mut().zip(&before.parties) {
            party.feoi = old.feoi;
        }
    }
}

fn toggles(bus: &mut Bus, access: Access) -> Answer {
    let mark = mark_of(bus, access);
    let answer = bus.access(access);
    if is_command(access, FEOI) && answer.accepted() {
        set_mark(bus, access, !mark);
    }
    answer
}

fn marks_if_set(bus: &mut Bus, access: Access) -> Answer {
    let mark = mark_of(bus, access);
    let answer = bus.access(access);
    if command(access) == Some((FEOI, false)) && answer.accepted() {
        set_mark(bus, access, mark);
    }
    answer
}

fn unmarks_if_cleared(bus: &mut Bus, access: Access) -> Answer {
    let answer = bus.access(access);
    if command(access) == Some((FEOI, false)) && answer.accepted() {
        set_mark(bus, access, false);
    }
    answer
}

fn marks_held(bus: &mut Bus, access: Access) -> Answer {
    let answer = bus.access(access);
    if is_command(access, FEOI) && answer.accepted() {
        let party = &mut bus.parties[usize::from(access.party())];
        if let Some(held) = &mut party.held {
            held.end = true;
            party.feoi = false;
        }
    }
    answer
}

fn feoi_full(bus: &mut Bus, access: Access) -> Answer {
    let held = bus.present().get(usize::from(access.party()));
    if is_command(access, FEOI) && held.is_some_and(|party| party.held.is_some()) {
        return Answer::refused(Refusal::Full);
    }
    bus.access(access)
}

/// The byte that is accepted has this END.
fn with_end(bus: &mut Bus, access: Access, end: bool) -> Answer {
    let answer = bus.access(access);
    if is_data_out(access) && answer.accepted() {
        if let Some(held) = &mut bus.parties[usize::from(access.party())].held {
            held.end = end;
        }
    }
    answer
}

fn no_end(bus: &mut Bus, access: Access) -> Answer {
    with_end(bus, access, false)
}

fn always_end(bus: &mut Bus, access: Access) -> Answer {
    with_end(bus, access, true)
}

fn shared_mark(bus: &mut Bus, access: Access) -> Answer {
    let answer = bus.access(access);
    if answer.accepted() && (is_command(access, FEOI) || is_data_out(access)) {
        let mark = is_command(access, FEOI);
        for place in 0..bus.count {
            bus.parties[place].feoi = mark;
        }
    }
    answer
}

fn mark_of_party_0(bus: &mut Bus, access: Access) -> Answer {
    let mark = mark_of(bus, access);
    let answer = bus.access(access);
    if is_command(access, FEOI) && answer.accepted() {
        set_mark(bus, access, mark);
        bus.parties[0].feoi = true;
    }
    answer
}
