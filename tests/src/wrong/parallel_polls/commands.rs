//! What a machine can do wrong when it hears PPC, PPU or another primary command.

use super::codes::configured_by;
use super::is_configuring;
use crate::lists::command_codes::{DCL, GET, PPC, PPU, UNL};
use crate::model::script::Record;
use crate::model::{Answer, Bus, Event, Mark};
use crate::wrong::secondaries::{code_heard, heard_in, mark_back};
use crate::wrong::{actor, was, Fault};

pub const COMMAND_FAULTS: &[(&str, Fault)] = &[
    ("PPU ignored", ppu_ignored),
    ("PPU by listeners alone", ppu_by_listeners),
    ("PPU by all but listeners", ppu_not_by_listeners),
    ("PPU while configuring alone", ppu_while_configuring),
    ("PPU keeps configuring", ppu_keeps_mark),
    ("PPU not by its sender", ppu_not_by_sender),
    ("PPU with the event clear", ppu_clears),
    ("PPU sets the status to 0", ppu_clears_status),
    ("PPC marks who does not listen", ppc_marks_all),
    ("PPC marks who talks", ppc_marks_talkers),
    ("PPC ignored", ppc_ignored),
    ("PPC not listening ends configuring", ppc_ends),
    ("PPC again ends configuring", ppc_toggles),
    ("PPC not listening keeps talk primary", ppc_keeps_primary),
    ("PPC listening keeps talk primary", ppc_prefers_primary),
    ("PPC removes the response", ppc_removes),
    ("a party with a secondary is not marked", plain_alone),
    ("the sender is not marked", own_ppc_ignored),
    ("the sender is not configured", own_set_ignored),
    ("an address keeps configuring", address_keeps),
    (
        "the own listen address keeps configuring",
        own_address_keeps,
    ),
    ("UNL keeps configuring", unl_keeps),
    ("DCL keeps configuring", dcl_keeps),
    ("GET keeps configuring", get_keeps),
    ("no meaning keeps configuring", no_meaning_keeps),
];

fn hears(before: &Bus, answer: &Answer, code: u8) -> bool {
    code_heard(before, answer) == Some(code)
}

/// The caller is the sender, whose own command has ended.
fn by_sender(answer: &Answer) -> bool {
    answer.event.is_end()
}

/// PPU leaves the response of a caller for whom this holds.
fn ppu_left(
    bus: &mut Bus,
    before: &Bus,
    call: Record,
    answer: &Answer,
    holds: impl FnOnce() -> bool,
) {
    if hears(before, answer, PPU) && holds() {
        actor(bus, call).response = was(before, call).response;
    }
}

fn ppu_ignored(bus: &mut Bus, before: &Bus, call: Record, answer: &mut Answer) {
    ppu_left(bus, before, call, answer, || true);
}

fn ppu_by_listeners(bus: &mut Bus, before: &Bus, call: Record, answer: &mut Answer) {
    ppu_left(bus, before, call, answer, || !was(before, call).listen);
}

fn ppu_not_by_listeners(bus: &mut Bus, before: &Bus, call: Record, answer: &mut Answer) {
    ppu_left(bus, before, call, answer, || was(before, call).listen);
}

fn ppu_while_configuring(bus: &mut Bus, before: &Bus, call: Record, answer: &mut Answer) {
    ppu_left(bus, before, call, answer, || {
        !is_configuring(was(before, call))
    });
}

fn ppu_not_by_sender(bus: &mut Bus, before: &Bus, call: Record, answer: &mut Answer) {
    ppu_left(bus, before, call, answer, || by_sender(answer));
}

fn ppu_keeps_mark(bus: &mut Bus, before: &Bus, call: Record, answer: &mut Answer) {
    keeps(bus, before, call, answer, PPU..=PPU);
}

fn ppu_clears(_: &mut Bus, before: &Bus, _: Record, answer: &mut Answer) {
    if answer.event == Event::Heard && hears(before, answer, PPU) {
        answer.event = Event::Clear;
    }
}

fn ppu_clears_status(bus: &mut Bus, before: &Bus, call: Record, answer: &mut Answer) {
    if hears(before, answer, PPU) {
        actor(bus, call).own_status = false;
    }
}

fn ppc_marks_all(bus: &mut Bus, before: &Bus, call: Record, answer: &mut Answer) {
    if hears(before, answer, PPC) {
        actor(bus, call).mark = Some(Mark::Configuring);
    }
}

fn ppc_marks_talkers(bus: &mut Bus, before: &Bus, call: Record, answer: &mut Answer) {
    if hears(before, answer, PPC) && was(before, call).talk {
        ppc_marks_all(bus, before, call, answer);
    }
}

fn ppc_ignored(bus: &mut Bus, before: &Bus, call: Record, answer: &mut Answer) {
    if hears(before, answer, PPC) {
        mark_back(bus, before, call);
    }
}

fn ppc_ends(bus: &mut Bus, before: &Bus, call: Record, answer: &mut Answer) {
    if hears(before, answer, PPC) && !was(before, call).listen {
        actor(bus, call).mark = None;
    }
}

fn ppc_toggles(bus: &mut Bus, before: &Bus, call: Record, answer: &mut Answer) {
    if hears(before, answer, PPC) && is_configuring(was(before, call)) {
        actor(bus, call).mark = None;
    }
}

fn ppc_keeps_primary(bus: &mut Bus, before: &Bus, call: Record, answer: &mut Answer) {
    if hears(before, answer, PPC) && !was(before, call).listen {
        ppc_ignored(bus, before, call, answer);
    }
}

fn ppc_prefers_primary(bus: &mut Bus, before: &Bus, call: Record, answer: &mut Answer) {
    let is_ppc = hears(before, answer, PPC);
    if is_ppc && was(before, call).listen && was(before, call).mark == Some(Mark::TalkPrimary) {
        mark_back(bus, before, call);
    }
}

fn ppc_removes(bus: &mut Bus, before: &Bus, call: Record, answer: &mut Answer) {
    if hears(before, answer, PPC) && was(before, call).listen {
        actor(bus, call).response = None;
    }
}

fn plain_alone(bus: &mut Bus, before: &Bus, call: Record, answer: &mut Answer) {
    if hears(before, answer, PPC) && was(before, call).name.secondary.is_some() {
        actor(bus, call).mark = None;
    }
}

fn own_ppc_ignored(bus: &mut Bus, before: &Bus, call: Record, answer: &mut Answer) {
    if by_sender(answer) {
        ppc_ignored(bus, before, call, answer);
    }
}

fn own_set_ignored(bus: &mut Bus, before: &Bus, call: Record, answer: &mut Answer) {
    if by_sender(answer) && configured_by(before, call, answer).is_some() {
        actor(bus, call).response = was(before, call).response;
    }
}

/// Configuring stays over these codes.
fn keeps(
    bus: &mut Bus,
    before: &Bus,
    call: Record,
    answer: &Answer,
    codes: std::ops::RangeInclusive<u8>,
) {
    if heard_in(before, answer, codes) && is_configuring(was(before, call)) {
        mark_back(bus, before, call);
    }
}

fn address_keeps(bus: &mut Bus, before: &Bus, call: Record, answer: &mut Answer) {
    keeps(bus, before, call, answer, 0x20..=0x3E);
    keeps(bus, before, call, answer, 0x40..=0x5E);
}

fn own_address_keeps(bus: &mut Bus, before: &Bus, call: Record, answer: &mut Answer) {
    if heard_in(before, answer, 0x20..=0x3E) {
        let own = 0x20 + was(before, call).name.primary;
        keeps(bus, before, call, answer, own..=own);
    }
}

fn unl_keeps(bus: &mut Bus, before: &Bus, call: Record, answer: &mut Answer) {
    keeps(bus, before, call, answer, UNL..=UNL);
}

fn dcl_keeps(bus: &mut Bus, before: &Bus, call: Record, answer: &mut Answer) {
    keeps(bus, before, call, answer, DCL..=DCL);
}

fn get_keeps(bus: &mut Bus, before: &Bus, call: Record, answer: &mut Answer) {
    keeps(bus, before, call, answer, GET..=GET);
}

fn no_meaning_keeps(bus: &mut Bus, before: &Bus, call: Record, answer: &mut Answer) {
    keeps(bus, before, call, answer, 0x1A..=0x1F);
}
