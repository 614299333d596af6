//! What attention, interface clear, resets, other calls of the host, commands and builds can do wrong to
//! configuring, to responses and to statuses.

use super::is_configuring;
use crate::lists::command_codes::UNL;
use crate::model::script::{Record, BUILD, CLEAR, LISTEN, RESET, STANDBY, TAKE};
use crate::model::{Answer, Bus, Event, Party, Refusal};
use crate::wrong::secondaries::code_heard;
use crate::wrong::{actor, is, was, Fault};

pub const KEEPING_FAULTS: &[(&str, Fault)] = &[
    ("attention ends configuring", attention_ends),
    ("interface clear ends configuring", clear_ends),
    ("listen-only off ends configuring", unlistened_ends),
    ("reset keeps configuring", reset_keeps_mark),
    ("reset keeps the response", reset_keeps_response),
    ("reset sets the status to 0", reset_clears_status),
    (
        "a refused reset removes the response",
        refused_reset_removes,
    ),
    ("reset removes all responses", reset_removes_all),
    ("attention removes the responses", attention_removes),
    ("passed control removes the responses", passed_removes),
    ("interface clear removes the responses", clear_removes),
    (
        "interface clear sets the statuses to 0",
        clear_clears_statuses,
    ),
    ("DCL removes the response", dcl_removes),
    ("UNL removes the response", unl_removes),
    ("a build keeps the responses", build_keeps_responses),
    ("a build keeps the statuses", build_keeps_statuses),
    ("a build keeps configuring", build_keeps_marks),
];

fn end_configuring(bus: &mut Bus) {
    for party in &mut bus.parties {
        party.mark = party.primary_mark();
    }
}

fn remove_all(bus: &mut Bus) {
    for party in &mut bus.parties {
        party.response = None;
    }
}

/// Control was taken or given back.
fn is_attention(call: Record, answer: &Answer) -> bool {
    is(call, answer, TAKE) || is(call, answer, STANDBY)
}

fn attention_ends(bus: &mut Bus, _: &Bus, call: Record, answer: &mut Answer) {
    if is_attention(call, answer) {
        end_configuring(bus);
    }
}

fn clear_ends(bus: &mut Bus, _: &Bus, call: Record, answer: &mut Answer) {
    if is(call, answer, CLEAR) {
        end_configuring(bus);
    }
}

fn unlistened_ends(bus: &mut Bus, _: &Bus, call: Record, answer: &mut Answer) {
    if is(call, answer, LISTEN) && call[4] == 0 && is_configuring(actor(bus, call)) {
        actor(bus, call).mark = None;
    }
}

fn reset_keeps_mark(bus: &mut Bus, before: &Bus, call: Record, answer: &mut Answer) {
    if is(call, answer, RESET) && is_configuring(was(before, call)) {
        actor(bus, call).mark = was(before, call).mark;
    }
}

fn reset_keeps_response(bus: &mut Bus, before: &Bus, call: Record, answer: &mut Answer) {
    if is(call, answer, RESET) {
        actor(bus, call).response = was(before, call).response;
    }
}

fn reset_clears_status(bus: &mut Bus, _: &Bus, call: Record, answer: &mut Answer) {
    if is(call, answer, RESET) {
        actor(bus, call).own_status = false;
    }
}

fn refused_reset_removes(bus: &mut Bus, _: &Bus, call: Record, answer: &mut Answer) {
    if call[2] == RESET && answer.refusal == Refusal::Standing {
        actor(bus, call).response = None;
    }
}

fn reset_removes_all(bus: &mut Bus, _: &Bus, call: Record, answer: &mut Answer) {
    if is(call, answer, RESET) {
        remove_all(bus);
    }
}

fn attention_removes(bus: &mut Bus, _: &Bus, call: Record, answer: &mut Answer) {
    if is_attention(call, answer) {
        remove_all(bus);
    }
}

fn passed_removes(bus: &mut Bus, _: &Bus, _: Record, answer: &mut Answer) {
    if answer.event == Event::Passed {
        remove_all(bus);
    }
}

fn clear_removes(bus: &mut Bus, _: &Bus, call: Record, answer: &mut Answer) {
    if is(call, answer, CLEAR) {
        remove_all(bus);
    }
}

fn clear_clears_statuses(bus: &mut Bus, _: &Bus, call: Record, answer: &mut Answer) {
    if is(call, answer, CLEAR) {
        for party in &mut bus.parties {
            party.own_status = false;
        }
    }
}

fn dcl_removes(bus: &mut Bus, _: &Bus, call: Record, answer: &mut Answer) {
    if answer.event == Event::Clear {
        actor(bus, call).response = None;
    }
}

fn unl_removes(bus: &mut Bus, before: &Bus, call: Record, answer: &mut Answer) {
    if code_heard(before, answer) == Some(UNL) {
        actor(bus, call).response = None;
    }
}

/// Something of every party is as it was before the build.
fn built_with(
    bus: &mut Bus,
    before: &Bus,
    call: Record,
    answer: &Answer,
    keep: fn(&mut Party, &Party),
) {
    if is(call, answer, BUILD) {
        let count = bus.count;
        let parties = bus.parties[..count].iter_mut();
        parties
            .zip(&before.parties)
            .for_each(|(party, old)| keep(party, old));
    }
}

fn build_keeps_responses(bus: &mut Bus, before: &Bus, call: Record, answer: &mut Answer) {
    built_with(bus, before, call, answer, |party, old| {
        party.response = old.response;
    });
}

fn build_keeps_statuses(bus: &mut Bus, before: &Bus, call: Record, answer: &mut Answer) {
    built_with(bus, before, call, answer, |party, old| {
        party.own_status = old.own_status;
    });
}

fn build_keeps_marks(bus: &mut Bus, before: &Bus, call: Record, answer: &mut Answer) {
    built_with(bus, before, call, answer, |party, old| {
        party.mark = old.mark.filter(|_| is_configuring(old));
    });
}
