//! What a machine can get wrong about secondaries and marks.

use super::{actor, is, was, Fault};
use crate::model::script::{Record, CLEAR, LISTEN, RESET, STANDBY, TAKE, TALK};
use crate::model::{Answer, Bus, Event, Mark};

pub const SECONDARY_FAULTS: &[(&str, Fault)] = &[
    ("a mark survives a universal command", survives_universal),
    (
        "a mark survives a code without meaning",
        survives_no_meaning,
    ),
    ("a mark survives another address", survives_address),
    ("a mark survives attention", survives_attention),
    ("a mark survives interface clear", survives_clear),
    ("a mark survives the reset of its party", survives_reset),
    ("a secondary clears the mark", cleared_by_secondary),
    ("7F clears the mark", cleared_by_neither),
    (
        "listen-only and talk-only clear the mark",
        cleared_by_switch,
    ),
    ("a sender sets no mark of its own", no_own_mark),
    ("the own primary turns talk on", primary_turns_talk_on),
    ("the own primary turns talk off", primary_turns_talk_off),
    ("the own primary turns listen on", primary_turns_listen_on),
    ("a wrong secondary leaves talk on", wrong_leaves_talk),
    ("a wrong secondary turns listen off", wrong_turns_listen_off),
    ("a secondary without a mark counts", unmarked_counts),
    ("a secondary to talk leaves listen on", talker_listens),
    ("a secondary to listen leaves talk on", listener_talks),
    ("UNT leaves an extended talker", unt_leaves_talk),
];

/// The code that the caller heard by this step, be it its own command.
pub(super) fn code_heard(before: &Bus, answer: &Answer) -> Option<u8> {
    let taken = matches!(answer.event, Event::Heard | Event::Clear | Event::Trigger);
    let own = answer.event.is_end() && before.atn();
    (taken || own).then_some(answer.byte & 0x7F)
}

pub(super) fn heard_in(before: &Bus, answer: &Answer, codes: std::ops::RangeInclusive<u8>) -> bool {
    code_heard(before, answer).is_some_and(|code| codes.contains(&code))
}

/// The caller's mark as it was.
pub(super) fn mark_back(bus: &mut Bus, before: &Bus, call: Record) {
    actor(bus, call).mark = was(before, call).mark;
}

fn survives_universal(bus: &mut Bus, before: &Bus, call: Record, answer: &mut Answer) {
    if matches!(code_heard(before, answer), Some(0x14 | 0x18 | 0x19)) {
        mark_back(bus, before, call);
    }
}

fn survives_no_meaning(bus: &mut Bus, before: &Bus, call: Record, answer: &mut Answer) {
    if heard_in(before, answer, 0x1A..=0x1F) {
        mark_back(bus, before, call);
    }
}

fn survives_address(bus: &mut Bus, before: &Bus, call: Record, answer: &mut Answer) {
    let address = heard_in(before, answer, 0x20..=0x5F);
    if address && actor(bus, call).mark.is_none() {
        mark_back(bus, before, call);
    }
}

/// All marks as they were, but for the caller's own.
fn marks_back(bus: &mut Bus, before: &Bus, call: Record) {
    let own = usize::from(call[3]);
    for place in (0..bus.count).filter(|&place| place != own) {
        bus.parties[place].mark = before.parties[place].mark;
    }
}

fn survives_attention(bus: &mut Bus, before: &Bus, call: Record, answer: &mut Answer) {
    if [TAKE, STANDBY, RESET].contains(&call[2]) && answer.accepted() {
        marks_back(bus, before, call);
    }
}

fn survives_clear(bus: &mut Bus, before: &Bus, call: Record, answer: &mut Answer) {
    if is(call, answer, CLEAR) {
        marks_back(bus, before, call);
    }
}

fn survives_reset(bus: &mut Bus, before: &Bus, call: Record, answer: &mut Answer) {
    if is(call, answer, RESET) {
        mark_back(bus, before, call);
    }
}

fn cleared_by_secondary(bus: &mut Bus, before: &Bus, call: Record, answer: &mut Answer) {
    if heard_in(before, answer, 0x60..=0x7E) {
        actor(bus, call).mark = None;
    }
}

fn cleared_by_neither(bus: &mut Bus, before: &Bus, call: Record, answer: &mut Answer) {
    if heard_in(before, answer, 0x7F..=0x7F) {
        actor(bus, call).mark = None;
    }
}

fn cleared_by_switch(bus: &mut Bus, _: &Bus, call: Record, answer: &mut Answer) {
    if is(call, answer, LISTEN) || is(call, answer, TALK) {
        actor(bus, call).mark = None;
    }
}

fn no_own_mark(bus: &mut Bus, before: &Bus, call: Record, answer: &mut Answer) {
    if answer.event == Event::Ended && before.atn() {
        mark_back(bus, before, call);
    }
}

/// The mark that the caller got by this step.
fn new_mark(bus: &mut Bus, before: &Bus, call: Record, answer: &Answer) -> Option<Mark> {
    heard_in(before, answer, 0x20..=0x5F)
        .then(|| actor(bus, call).mark)
        .flatten()
}

fn primary_turns_talk_on(bus: &mut Bus, before: &Bus, call: Record, answer: &mut Answer) {
    if new_mark(bus, before, call, answer) == Some(Mark::TalkPrimary) {
        actor(bus, call).talk = true;
        actor(bus, call).listen = false;
    }
}

fn primary_turns_talk_off(bus: &mut Bus, before: &Bus, call: Record, answer: &mut Answer) {
    if new_mark(bus, before, call, answer) == Some(Mark::TalkPrimary) {
        actor(bus, call).talk = false;
    }
}

fn primary_turns_listen_on(bus: &mut Bus, before: &Bus, call: Record, answer: &mut Answer) {
    if new_mark(bus, before, call, answer) == Some(Mark::ListenPrimary) {
        actor(bus, call).listen = true;
        actor(bus, call).talk = false;
    }
}

/// The mark under which the caller heard a secondary, and whether that was its own.
fn hearing(before: &Bus, call: Record, answer: &Answer) -> Option<(Option<Mark>, bool)> {
    let code = code_heard(before, answer).filter(|code| (0x60..=0x7E).contains(code))?;
    let party = was(before, call);
    Some((party.mark, party.name.secondary == Some(code - 0x60)))
}

fn wrong_leaves_talk(bus: &mut Bus, before: &Bus, call: Record, answer: &mut Answer) {
    if hearing(before, call, answer) == Some((Some(Mark::TalkPrimary), false)) {
        actor(bus, call).talk = was(before, call).talk;
    }
}

fn wrong_turns_listen_off(bus: &mut Bus, before: &Bus, call: Record, answer: &mut Answer) {
    if hearing(before, call, answer) == Some((Some(Mark::ListenPrimary), false)) {
        actor(bus, call).listen = false;
    }
}

fn unmarked_counts(bus: &mut Bus, before: &Bus, call: Record, answer: &mut Answer) {
    if hearing(before, call, answer) == Some((None, true)) {
        actor(bus, call).listen = true;
        actor(bus, call).talk = false;
    }
}

fn talker_listens(bus: &mut Bus, before: &Bus, call: Record, answer: &mut Answer) {
    if hearing(before, call, answer) == Some((Some(Mark::TalkPrimary), true)) {
        actor(bus, call).listen = was(before, call).listen;
    }
}

fn listener_talks(bus: &mut Bus, before: &Bus, call: Record, answer: &mut Answer) {
    if hearing(before, call, answer) == Some((Some(Mark::ListenPrimary), true)) {
        actor(bus, call).talk = was(before, call).talk;
    }
}

fn unt_leaves_talk(bus: &mut Bus, before: &Bus, call: Record, answer: &mut Answer) {
    if heard_in(before, answer, 0x5F..=0x5F) && was(before, call).name.secondary.is_some() {
        actor(bus, call).talk = was(before, call).talk;
    }
}
