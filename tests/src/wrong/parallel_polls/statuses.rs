//! Wrong own statuses.

use super::PollCallFault;
use crate::model::{Answer, Bus, PollCall, Refusal};

pub const STATUS_FAULTS: &[(&str, PollCallFault)] = &[
    ("an own status of 2 accepted", two_accepted),
    ("an own status over 1 accepted", over_1_accepted),
    ("3 before 1", value_first),
    ("an own status says moved", status_moved),
    ("own status 0 ignored", off_ignored),
    ("an own status toggles", toggles),
    ("the own status of party 0", of_party_0),
    ("one own status for all", shared_status),
    ("an own status only while configured", only_configured),
    ("an own status removes the response", status_removes),
    ("an own status refused to the active party", active_refused),
];

/// What an accepted own status leaves and answers, at its place and with its value.
fn altered(
    bus: &mut Bus,
    call: PollCall,
    alter: impl FnOnce(&mut Bus, &Bus, usize, bool) -> Option<Answer>,
) -> Answer {
    let before = *bus;
    let answer = bus.poll_call(call);
    match call {
        PollCall::OwnStatus { party, value } if answer.accepted() => {
            let told = alter(bus, &before, usize::from(party), value == 1);
            told.unwrap_or(answer)
        }
        _ => answer,
    }
}

/// A value that is refused is taken for 1.
fn accepted_if(bus: &mut Bus, call: PollCall, may: fn(u8) -> bool) -> Answer {
    match call {
        PollCall::OwnStatus { party, value } if may(value) => bus.own_status(party, 1),
        _ => bus.poll_call(call),
    }
}

fn two_accepted(bus: &mut Bus, call: PollCall) -> Answer {
    accepted_if(bus, call, |value| value == 2)
}

fn over_1_accepted(bus: &mut Bus, call: PollCall) -> Answer {
    accepted_if(bus, call, |value| value > 1)
}

fn value_first(bus: &mut Bus, call: PollCall) -> Answer {
    match call {
        PollCall::OwnStatus { value: 2.., .. } => Answer::refused(Refusal::BadValue),
        _ => bus.poll_call(call),
    }
}

fn status_moved(bus: &mut Bus, call: PollCall) -> Answer {
    altered(bus, call, |_, _, _, _| Some(Answer::moved()))
}

fn off_ignored(bus: &mut Bus, call: PollCall) -> Answer {
    altered(bus, call, |bus, before, place, on| {
        bus.parties[place].own_status = on || before.parties[place].own_status;
        None
    })
}

fn toggles(bus: &mut Bus, call: PollCall) -> Answer {
    altered(bus, call, |bus, before, place, on| {
        bus.parties[place].own_status = on != before.parties[place].own_status;
        None
    })
}

fn of_party_0(bus: &mut Bus, call: PollCall) -> Answer {
    altered(bus, call, |bus, before, place, on| {
        bus.parties[place].own_status = before.parties[place].own_status;
        bus.parties[0].own_status = on;
        None
    })
}

fn shared_status(bus: &mut Bus, call: PollCall) -> Answer {
    altered(bus, call, |bus, _, _, on| {
        let count = bus.count;
        bus.parties[..count]
            .iter_mut()
            .for_each(|own| own.own_status = on);
        None
    })
}

fn only_configured(bus: &mut Bus, call: PollCall) -> Answer {
    altered(bus, call, |bus, before, place, _| {
        if before.parties[place].response.is_none() {
            *bus = *before;
        }
        None
    })
}

fn status_removes(bus: &mut Bus, call: PollCall) -> Answer {
    altered(bus, call, |bus, _, place, _| {
        bus.parties[place].response = None;
        None
    })
}

fn active_refused(bus: &mut Bus, call: PollCall) -> Answer {
    altered(bus, call, |bus, before, place, _| {
        let active = before.parties[place].is_active();
        active.then(|| {
            *bus = *before;
            Answer::refused(Refusal::Role)
        })
    })
}
