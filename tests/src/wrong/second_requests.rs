//! What a machine can get wrong about the second request bit.

use super::{actor, is, was, Fault};
use crate::model::script::{Record, BUILD, CLEAR, POLL, REQUEST, RESET, STANDBY, TAKE};
use crate::model::{Answer, Bus, Event, Kind, Refusal, Service, RSV};

pub const REQUEST_FAULTS: &[(&str, Fault)] = &[
    ("cleared when the poll begins", cleared_by_poll),
    ("cleared when the status byte ends", cleared_at_ended),
    ("cleared by a status byte in NPRS too", cleared_in_nprs),
    ("never cleared", never_cleared),
    ("cleared one call late", cleared_late),
    ("cleared by noacc", cleared_by_noacc),
    ("cleared by data", cleared_by_data),
    ("cleared by a command put", cleared_by_command),
    ("cleared by a clear that is heard", cleared_by_device_clear),
    ("cleared by interface clear", cleared_by_clear),
    ("cleared by attention", cleared_by_attention),
    ("cleared by a poll register", cleared_by_register),
    ("kept beside bit 64 of live", kept_beside_live),
    ("kept by reset", kept_by_reset),
    ("kept by a build", kept_by_build),
    ("on again when its byte is broken off", back_if_broken),
    ("no service rule reads it", read_by_no_rule),
    ("the rule for NPRS does not read it", not_read_in_nprs),
    ("the rule for SRQS does not read it", not_read_in_srqs),
    ("the rule for APRS does not read it", not_read_in_aprs),
    ("APRS left in the poll once it is off", aprs_left),
    ("APRS to SRQS when it is switched on again", asks_again),
    ("bit 64 by it in place of APRS", bit_by_request),
    ("bit 64 at once when it is switched on", bit_at_once),
    ("a switch of 2 accepted", two_accepted),
    ("refused as unknown", unknown),
    ("the value refused before the party", value_first),
    ("refused in a poll", refused_in_poll),
    ("an extra over 1 refused", extra_refused),
    ("switching off ignored", off_ignored),
    ("switching on ignored in APRS", on_ignored_in_aprs),
    ("the bit of party 0 switched", party_0_switched),
    ("its answer tells that SRQ came on", srq_told),
];

/// The party's service as it would have settled with this bit.
fn settle_anew(bus: &mut Bus, before: &Bus, place: usize, rsv2: bool) {
    let polled = bus.parties[place].is_polled(bus.atn());
    let party = &mut bus.parties[place];
    party.service = before.parties[place].service;
    party.rsv2 = rsv2;
    party.settle_service(polled);
}

/// The same for the caller.
fn as_if(bus: &mut Bus, before: &Bus, call: Record, rsv2: bool) {
    settle_anew(bus, before, usize::from(call[3]), rsv2);
}

fn clear_all(bus: &mut Bus, before: &Bus) {
    for place in 0..bus.count {
        settle_anew(bus, before, place, false);
    }
}

fn cleared_by_poll(bus: &mut Bus, before: &Bus, _: Record, _: &mut Answer) {
    let (was_atn, atn) = (before.atn(), bus.atn());
    for (party, old) in bus.parties.iter_mut().zip(&before.parties) {
        if party.is_polled(atn) && !old.is_polled(was_atn) {
            party.rsv2 = false;
        }
    }
}

/// The caller's bit stays over a status byte.
fn never_cleared(bus: &mut Bus, before: &Bus, call: Record, answer: &mut Answer) {
    if answer.event == Event::Stat {
        actor(bus, call).rsv2 = was(before, call).rsv2;
    }
}

/// The sender of a status byte that stood and told of a request.
fn told_by(before: &Bus) -> Option<usize> {
    let byte = before.standing?;
    (byte.kind == Kind::Status && byte.value & RSV != 0).then_some(byte.sender)
}

fn cleared_at_ended(bus: &mut Bus, before: &Bus, call: Record, answer: &mut Answer) {
    never_cleared(bus, before, call, answer);
    if let (Event::Ended, Some(place)) = (answer.event, told_by(before)) {
        bus.parties[place].rsv2 = false;
    }
}

/// What the put leaves on is off after the next call, whose settling has read it as on.
fn cleared_late(bus: &mut Bus, before: &Bus, call: Record, answer: &mut Answer) {
    never_cleared(bus, before, call, answer);
    if let (true, Some(place)) = (answer.accepted(), told_by(before)) {
        let switched = call[2] == REQUEST && usize::from(call[3]) == place;
        bus.parties[place].rsv2 &= switched || !before.parties[place].rsv2;
    }
}

fn cleared_in_nprs(bus: &mut Bus, _: &Bus, call: Record, answer: &mut Answer) {
    if answer.event == Event::Stat {
        actor(bus, call).rsv2 = false;
    }
}

fn cleared_by(event: Event, bus: &mut Bus, before: &Bus, call: Record, answer: &Answer) {
    if answer.event == event {
        as_if(bus, before, call, false);
    }
}

fn cleared_by_noacc(bus: &mut Bus, before: &Bus, call: Record, answer: &mut Answer) {
    cleared_by(Event::Noacc, bus, before, call, answer);
}

fn cleared_by_data(bus: &mut Bus, before: &Bus, call: Record, answer: &mut Answer) {
    cleared_by(Event::Data, bus, before, call, answer);
}

fn cleared_by_command(bus: &mut Bus, before: &Bus, call: Record, answer: &mut Answer) {
    cleared_by(Event::Cmd, bus, before, call, answer);
}

fn cleared_by_device_clear(bus: &mut Bus, before: &Bus, call: Record, answer: &mut Answer) {
    cleared_by(Event::Clear, bus, before, call, answer);
}

fn cleared_by_clear(bus: &mut Bus, before: &Bus, call: Record, answer: &mut Answer) {
    if is(call, answer, CLEAR) {
        clear_all(bus, before);
    }
}

fn cleared_by_attention(bus: &mut Bus, before: &Bus, call: Record, answer: &mut Answer) {
    if is(call, answer, TAKE) || is(call, answer, STANDBY) {
        clear_all(bus, before);
    }
}

fn cleared_by_register(bus: &mut Bus, before: &Bus, call: Record, answer: &mut Answer) {
    if is(call, answer, POLL) {
        as_if(bus, before, call, false);
    }
}

fn kept_beside_live(bus: &mut Bus, before: &Bus, call: Record, answer: &mut Answer) {
    if answer.event == Event::Stat && was(before, call).live & RSV != 0 {
        never_cleared(bus, before, call, answer);
    }
}

fn kept_by_reset(bus: &mut Bus, before: &Bus, call: Record, answer: &mut Answer) {
    if is(call, answer, RESET) {
        as_if(bus, before, call, was(before, call).rsv2);
    }
}

fn kept_by_build(bus: &mut Bus, before: &Bus, call: Record, answer: &mut Answer) {
    if is(call, answer, BUILD) {
        for (party, old) in bus.parties.iter_mut().zip(&before.parties) {
            party.rsv2 = old.rsv2;
        }
    }
}

fn back_if_broken(bus: &mut Bus, before: &Bus, _: Record, answer: &mut Answer) {
    if let (1, Some(place)) = (answer.broken, told_by(before)) {
        settle_anew(bus, before, place, true);
    }
}

/// The service as a settling leaves it that reads live alone in this state.
fn not_read(state: Service, bus: &mut Bus, before: &Bus, call: Record, answer: &Answer) {
    if call[2] == BUILD || !answer.accepted() {
        return;
    }
    for place in 0..bus.count {
        let rsv2 = bus.parties[place].rsv2;
        if before.parties[place].service == state {
            settle_anew(bus, before, place, false);
            bus.parties[place].rsv2 = rsv2;
        }
    }
}

fn not_read_in_nprs(bus: &mut Bus, before: &Bus, call: Record, answer: &mut Answer) {
    not_read(Service::Nprs, bus, before, call, answer);
}

fn not_read_in_srqs(bus: &mut Bus, before: &Bus, call: Record, answer: &mut Answer) {
    not_read(Service::Srqs, bus, before, call, answer);
}

fn not_read_in_aprs(bus: &mut Bus, before: &Bus, call: Record, answer: &mut Answer) {
    not_read(Service::Aprs, bus, before, call, answer);
}

fn read_by_no_rule(bus: &mut Bus, before: &Bus, call: Record, answer: &mut Answer) {
    for state in [Service::Nprs, Service::Srqs, Service::Aprs] {
        not_read(state, bus, before, call, answer);
    }
}

fn aprs_left(bus: &mut Bus, _: &Bus, _: Record, answer: &mut Answer) {
    if answer.accepted() {
        for party in &mut bus.parties {
            let asks = party.rsv2 || party.live & RSV != 0;
            if party.service == Service::Aprs && !asks {
                party.service = Service::Nprs;
            }
        }
    }
}

fn asks_again(bus: &mut Bus, before: &Bus, call: Record, answer: &mut Answer) {
    let on = is(call, answer, REQUEST) && call[4] == 1;
    if on && was(before, call).service == Service::Aprs {
        actor(bus, call).service = Service::Srqs;
    }
}

fn bit_by_request(bus: &mut Bus, before: &Bus, call: Record, answer: &mut Answer) {
    if answer.event == Event::Stat {
        let bit = if was(before, call).rsv2 { RSV } else { 0 };
        answer.byte = answer.byte & !RSV | bit;
        if let Some(byte) = &mut bus.standing {
            byte.value = answer.byte;
        }
    }
}

fn bit_at_once(bus: &mut Bus, before: &Bus, call: Record, answer: &mut Answer) {
    let on = is(call, answer, REQUEST) && call[4] == 1;
    if on && was(before, call).is_polled(before.atn()) {
        actor(bus, call).service = Service::Aprs;
    }
}

/// Any number but 0 switches it on.
fn two_accepted(bus: &mut Bus, _: &Bus, call: Record, answer: &mut Answer) {
    if call[2] == REQUEST && answer.refusal == Refusal::BadValue {
        *answer = bus.second_request(call[3], 1);
    }
}

fn refuse(bus: &mut Bus, before: &Bus, answer: &mut Answer, refusal: Refusal) {
    *bus = *before;
    *answer = Answer::refused(refusal);
}

fn unknown(bus: &mut Bus, before: &Bus, call: Record, answer: &mut Answer) {
    if call[2] == REQUEST && answer.refusal != Refusal::Record {
        refuse(bus, before, answer, Refusal::BadValue);
    }
}

fn value_first(_: &mut Bus, _: &Bus, call: Record, answer: &mut Answer) {
    if call[2] == REQUEST && call[4] > 1 && answer.refusal == Refusal::NoParty {
        answer.refusal = Refusal::BadValue;
    }
}

fn refused_in_poll(bus: &mut Bus, before: &Bus, call: Record, answer: &mut Answer) {
    if is(call, answer, REQUEST) && was(before, call).is_polled(before.atn()) {
        refuse(bus, before, answer, Refusal::Role);
    }
}

fn extra_refused(bus: &mut Bus, before: &Bus, call: Record, answer: &mut Answer) {
    if is(call, answer, REQUEST) && call[5] > 1 {
        refuse(bus, before, answer, Refusal::BadValue);
    }
}

fn off_ignored(bus: &mut Bus, before: &Bus, call: Record, answer: &mut Answer) {
    if is(call, answer, REQUEST) && call[4] == 0 {
        as_if(bus, before, call, was(before, call).rsv2);
    }
}

fn on_ignored_in_aprs(bus: &mut Bus, before: &Bus, call: Record, answer: &mut Answer) {
    let on = is(call, answer, REQUEST) && call[4] == 1;
    if on && was(before, call).service == Service::Aprs {
        as_if(bus, before, call, was(before, call).rsv2);
    }
}

fn party_0_switched(bus: &mut Bus, before: &Bus, call: Record, answer: &mut Answer) {
    if is(call, answer, REQUEST) {
        as_if(bus, before, call, was(before, call).rsv2);
        settle_anew(bus, before, 0, call[4] == 1);
    }
}

fn srq_told(bus: &mut Bus, before: &Bus, call: Record, answer: &mut Answer) {
    let came = is(call, answer, REQUEST) && was(before, call).service == Service::Nprs;
    if came && actor(bus, call).service == Service::Srqs {
        *answer = Answer::moved();
    }
}
