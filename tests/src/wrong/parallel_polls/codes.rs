//! What a machine can do wrong when it hears the codes from 60 on, while configuring or not.

use super::is_configuring;
use crate::model::script::Record;
use crate::model::{Answer, Bus, Response};
use crate::wrong::secondaries::code_heard;
use crate::wrong::{actor, was, Fault};

pub const CODE_FAULTS: &[(&str, Fault)] = &[
    ("bit 8 inverted", sense_inverted),
    ("bit 16 for the sense", sense_by_bit_16),
    ("the low two bits as the line", two_bits),
    ("the low three bits as the line itself", one_too_low),
    ("60 to 6F as an address while configuring", also_an_address),
    (
        "another secondary ends talking while configuring",
        ends_talking,
    ),
    ("60 to 6F while not configuring", set_unmarked),
    ("60 to 6F to all who listen", set_listening),
    ("a second 60 to 6F ignored", second_ignored),
    ("configuring ends with 60 to 6F", ends_with_set),
    ("configuring ends with 70 to 7F", ends_with_removal),
    ("70 ignored", ignores_70),
    ("71 to 7E ignored", ignores_71_to_7e),
    ("7F ignored while configuring", ignores_7f),
    ("70 to 7F while not configuring", removed_unmarked),
];

/// The code from 60 on that the caller heard while configuring.
pub(super) fn configured_by(before: &Bus, call: Record, answer: &Answer) -> Option<u8> {
    let code = code_heard(before, answer)?;
    (code >= 0x60 && is_configuring(was(before, call))).then_some(code)
}

/// The same that it heard while not configuring.
fn unmarked_code(before: &Bus, call: Record, answer: &Answer) -> Option<u8> {
    let code = code_heard(before, answer)?;
    (code >= 0x60 && !is_configuring(was(before, call))).then_some(code)
}

/// The response that the caller got by this step, changed.
fn changed(
    bus: &mut Bus,
    before: &Bus,
    call: Record,
    answer: &Answer,
    change: impl Fn(u8, Response) -> Response,
) {
    let Some(code) = configured_by(before, call, answer) else {
        return;
    };
    let response = &mut actor(bus, call).response;
    *response = response.map(|response| change(code, response));
}

fn response_back(bus: &mut Bus, before: &Bus, call: Record) {
    actor(bus, call).response = was(before, call).response;
}

fn sense_inverted(bus: &mut Bus, before: &Bus, call: Record, answer: &mut Answer) {
    changed(bus, before, call, answer, |_, response| Response {
        sense: !response.sense,
        ..response
    });
}

fn sense_by_bit_16(bus: &mut Bus, before: &Bus, call: Record, answer: &mut Answer) {
    changed(bus, before, call, answer, |code, response| Response {
        sense: code & 16 != 0,
        ..response
    });
}

fn two_bits(bus: &mut Bus, before: &Bus, call: Record, answer: &mut Answer) {
    changed(bus, before, call, answer, |code, response| Response {
        line: code % 4 + 1,
        ..response
    });
}

/// Line 0 is taken for line 8.
fn one_too_low(bus: &mut Bus, before: &Bus, call: Record, answer: &mut Answer) {
    changed(bus, before, call, answer, |code, response| Response {
        line: (code + 7) % 8 + 1,
        ..response
    });
}

/// Listening goes on or talking begins, as if the last primary had been the own one.
fn also_an_address(bus: &mut Bus, before: &Bus, call: Record, answer: &mut Answer) {
    let code = configured_by(before, call, answer);
    if code.is_some_and(|code| was(before, call).name.secondary == Some(code - 0x60)) {
        actor(bus, call).talk = true;
        actor(bus, call).listen = false;
        response_back(bus, before, call);
    }
}

fn ends_talking(bus: &mut Bus, before: &Bus, call: Record, answer: &mut Answer) {
    let code = configured_by(before, call, answer);
    if code.is_some_and(|code| was(before, call).name.secondary != Some(code - 0x60)) {
        actor(bus, call).talk = false;
    }
}

/// The response that this code sets.
fn set(bus: &mut Bus, call: Record, code: u8) {
    if code < 0x70 {
        let (sense, line) = (code & 8 != 0, code % 8 + 1);
        actor(bus, call).response = Some(Response { sense, line });
    }
}

fn set_unmarked(bus: &mut Bus, before: &Bus, call: Record, answer: &mut Answer) {
    if let Some(code) = unmarked_code(before, call, answer) {
        set(bus, call, code);
    }
}

fn set_listening(bus: &mut Bus, before: &Bus, call: Record, answer: &mut Answer) {
    if unmarked_code(before, call, answer).is_some() && was(before, call).listen {
        set_unmarked(bus, before, call, answer);
    }
}

fn second_ignored(bus: &mut Bus, before: &Bus, call: Record, answer: &mut Answer) {
    let set = configured_by(before, call, answer).is_some_and(|code| code < 0x70);
    if set && was(before, call).response.is_some() {
        response_back(bus, before, call);
    }
}

fn ends_with_set(bus: &mut Bus, before: &Bus, call: Record, answer: &mut Answer) {
    if configured_by(before, call, answer).is_some_and(|code| code < 0x70) {
        actor(bus, call).mark = None;
    }
}

fn ends_with_removal(bus: &mut Bus, before: &Bus, call: Record, answer: &mut Answer) {
    if configured_by(before, call, answer).is_some_and(|code| code >= 0x70) {
        actor(bus, call).mark = None;
    }
}

fn ignores(
    bus: &mut Bus,
    before: &Bus,
    call: Record,
    answer: &Answer,
    codes: std::ops::RangeInclusive<u8>,
) {
    if configured_by(before, call, answer).is_some_and(|code| codes.contains(&code)) {
        response_back(bus, before, call);
    }
}

fn ignores_70(bus: &mut Bus, before: &Bus, call: Record, answer: &mut Answer) {
    ignores(bus, before, call, answer, 0x70..=0x70);
}

fn ignores_71_to_7e(bus: &mut Bus, before: &Bus, call: Record, answer: &mut Answer) {
    ignores(bus, before, call, answer, 0x71..=0x7E);
}

fn ignores_7f(bus: &mut Bus, before: &Bus, call: Record, answer: &mut Answer) {
    ignores(bus, before, call, answer, 0x7F..=0x7F);
}

fn removed_unmarked(bus: &mut Bus, before: &Bus, call: Record, answer: &mut Answer) {
    if unmarked_code(before, call, answer).is_some_and(|code| code >= 0x70) {
        actor(bus, call).response = None;
    }
}
