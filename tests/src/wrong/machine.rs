//! What a machine can get wrong about document 01's calls, and about a build by a record.

use super::{actor, is, noacc, was, Fault};
use crate::model::script::{
    self, Record, BUILD, CLEAR, LISTEN, POLL, RESET, STANDBY, STEP, TAKE, TALK,
};
use crate::model::{
    Acceptor, Answer, Bus, Control, Data, Event, Kind, Party, Refusal, Service, Source, DAV, TCT,
};

/// The first four are the mistakes that document 01 names.
pub const MACHINE_FAULTS: &[(&str, Fault)] = &[
    ("joiner in ANRS under DAV", joiner_not_held_off),
    ("ended when the first listener lets go", ended_early),
    ("broken byte put again", broken_again),
    ("TCT acted on when heard", tct_when_heard),
    ("step always says none", step_says_none),
    ("noacc with a listener present", noacc::with_a_listener),
    ("all writes refused", writes_refused),
    ("took leaves data-in empty", took_unfilled),
    ("dropped counted twice", dropped_twice),
    ("broken made up", broken_made_up),
    ("listen-only on again moves the acceptor", listen_again),
    ("bit 128 of a command counts", high_bit_counts),
    ("SDC clears without listening", sdc_always),
    ("poll register live at once", live_at_once),
    ("pass keeps the new controller's byte", pass_keeps_byte),
    ("clear keeps poll mode", clear_keeps_poll),
    ("reset keeps data-in", reset_keeps_data_in),
    (
        "noacc of a status byte drops the held byte",
        noacc::drops_behind_status,
    ),
    ("noacc drops its byte", noacc::drops),
    ("noacc goes back to SGNS", noacc::goes_back),
    (
        "noacc of a status byte goes back to SGNS",
        noacc::status_goes_back,
    ),
    (
        "noacc of a command goes back to SGNS",
        noacc::command_goes_back,
    ),
    ("a second noacc says none", noacc::silent_again),
    ("listen-only off under ATN to AIDS", off_under_atn),
    ("listen-only on under ATN moves the acceptor", on_under_atn),
    ("value refused before party", value_first),
    ("talk-only refuses the talker itself", talk_again_refused),
    ("reset under DAV to ANRS", reset_to_anrs),
    ("END stays on a command", command_end),
    ("standby under a standing command", standby_breaks),
    ("own hearing left out", no_own_hearing),
    ("SRQ stays in a poll", srq_stays),
    ("reset empties the poll register", reset_loses_register),
    ("clear drops the standby party's byte", clear_drops_standby),
    ("refused build keeps the bus", build_keeps_bus),
    ("address 30 refused", address_30_refused),
    ("15 parties refused", parties_15_refused),
    ("unknown talk address leaves talk on", nobody_talks_kept),
    ("take control keeps the held byte", take_keeps_byte),
    ("ANRS waits for data-in under ATN", full_waits_under_atn),
    ("TCT with bit 128 not passed", long_tct_ends),
    ("a listener takes twice", takes_twice),
    ("END lost in taking", end_lost),
];

fn flags_back(party: &mut Party, before: &Party) {
    party.talk = before.talk;
    party.listen = before.listen;
    party.poll_mode = before.poll_mode;
}

fn joiner_not_held_off(bus: &mut Bus, before: &Bus, call: Record, answer: &mut Answer) {
    if is(call, answer, LISTEN) && call[4] == 1 && !was(before, call).listen && !before.atn() {
        actor(bus, call).acceptor = Acceptor::Anrs;
    }
}

fn ended_early(bus: &mut Bus, before: &Bus, call: Record, answer: &mut Answer) {
    let let_go = before
        .present()
        .iter()
        .any(|party| party.acceptor == Acceptor::Awns);
    let waits = is(call, answer, STEP) && was(before, call).source == Source::Strs;
    if let (true, true, Some(byte)) = (waits, let_go, bus.standing) {
        *answer = Answer::with_byte(Event::Ended, byte.value, byte.end);
        actor(bus, call).source = Source::Sgns;
        bus.standing = None;
    }
}

fn broken_again(bus: &mut Bus, before: &Bus, _: Record, answer: &mut Answer) {
    if let (1, Some(byte)) = (answer.broken, before.standing) {
        let held = &mut bus.parties[byte.sender].held;
        *held = held.or(Some(Data {
            value: byte.value,
            end: byte.end,
        }));
    }
}

fn tct_when_heard(bus: &mut Bus, _: &Bus, call: Record, answer: &mut Answer) {
    if answer.event == Event::Heard && answer.byte & 0x7F == TCT && actor(bus, call).talk {
        actor(bus, call).control = Control::Active;
    }
}

fn step_says_none(_: &mut Bus, _: &Bus, call: Record, answer: &mut Answer) {
    if is(call, answer, STEP) {
        *answer = Answer::NOTHING;
    }
}

fn writes_refused(bus: &mut Bus, before: &Bus, call: Record, answer: &mut Answer) {
    if is(call, answer, script::WRITE) {
        *bus = *before;
        *answer = Answer::refused(Refusal::Full);
    }
}

fn took_unfilled(bus: &mut Bus, before: &Bus, call: Record, answer: &mut Answer) {
    if answer.event == Event::Took && was(before, call).saved != 0 {
        actor(bus, call).data_in = None;
    }
}

fn dropped_twice(_: &mut Bus, _: &Bus, _: Record, answer: &mut Answer) {
    if answer.dropped == 1 {
        answer.dropped = 2;
    }
}

fn broken_made_up(_: &mut Bus, _: &Bus, call: Record, answer: &mut Answer) {
    if is(call, answer, RESET) {
        answer.broken = 1;
    }
}

fn listen_again(bus: &mut Bus, before: &Bus, call: Record, answer: &mut Answer) {
    if is(call, answer, LISTEN) && call[4] == 1 && was(before, call).listen && !before.atn() {
        let dav = before.line_bits() & DAV != 0;
        actor(bus, call).acceptor = if dav { Acceptor::Awns } else { Acceptor::Anrs };
    }
}

fn high_bit_counts(bus: &mut Bus, before: &Bus, call: Record, answer: &mut Answer) {
    let hears = matches!(answer.event, Event::Heard | Event::Clear | Event::Trigger);
    if hears && answer.byte >= 0x80 {
        flags_back(actor(bus, call), was(before, call));
        answer.event = Event::Heard;
    }
}

fn sdc_always(_: &mut Bus, _: &Bus, _: Record, answer: &mut Answer) {
    if answer.event == Event::Heard && answer.byte & 0x7F == 0x04 {
        answer.event = Event::Clear;
    }
}

fn live_at_once(bus: &mut Bus, _: &Bus, call: Record, answer: &mut Answer) {
    if is(call, answer, POLL) {
        actor(bus, call).live = call[4];
    }
}

fn pass_keeps_byte(bus: &mut Bus, before: &Bus, _: Record, answer: &mut Answer) {
    if answer.event == Event::Passed {
        for place in 0..bus.count {
            if bus.parties[place].is_active() && before.parties[place].held.is_some() {
                bus.parties[place].held = before.parties[place].held;
                answer.dropped -= 1;
            }
        }
    }
}

fn clear_keeps_poll(bus: &mut Bus, before: &Bus, call: Record, answer: &mut Answer) {
    if is(call, answer, CLEAR) {
        for (party, old) in bus.parties.iter_mut().zip(&before.parties) {
            party.poll_mode = old.poll_mode;
        }
    }
}

fn reset_keeps_data_in(bus: &mut Bus, before: &Bus, call: Record, answer: &mut Answer) {
    if is(call, answer, RESET) {
        actor(bus, call).data_in = was(before, call).data_in;
    }
}

fn off_under_atn(bus: &mut Bus, before: &Bus, call: Record, answer: &mut Answer) {
    if is(call, answer, LISTEN) && call[4] == 0 && before.atn() {
        actor(bus, call).acceptor = Acceptor::Aids;
    }
}

fn on_under_atn(bus: &mut Bus, before: &Bus, call: Record, answer: &mut Answer) {
    if is(call, answer, LISTEN) && call[4] == 1 && before.atn() {
        actor(bus, call).acceptor = Acceptor::Anrs;
    }
}

fn value_first(_: &mut Bus, _: &Bus, call: Record, answer: &mut Answer) {
    if call[2] == TALK && call[4] > 1 && answer.refusal == Refusal::NoParty {
        answer.refusal = Refusal::BadValue;
    }
}

fn talk_again_refused(bus: &mut Bus, before: &Bus, call: Record, answer: &mut Answer) {
    if is(call, answer, TALK) && call[4] == 1 && was(before, call).talk {
        *bus = *before;
        *answer = Answer::refused(Refusal::Talker);
    }
}

fn reset_to_anrs(bus: &mut Bus, _: &Bus, call: Record, answer: &mut Answer) {
    if is(call, answer, RESET) && actor(bus, call).acceptor == Acceptor::Awns {
        actor(bus, call).acceptor = Acceptor::Anrs;
    }
}

fn command_end(bus: &mut Bus, before: &Bus, call: Record, answer: &mut Answer) {
    if answer.event == Event::Cmd {
        answer.end = was(before, call).held.is_some_and(|held| held.end);
        if let Some(standing) = &mut bus.standing {
            standing.end = answer.end;
        }
    }
}

fn standby_breaks(bus: &mut Bus, _: &Bus, call: Record, answer: &mut Answer) {
    if call[2] == STANDBY && answer.refusal == Refusal::Standing {
        actor(bus, call).source = Source::Sgns;
        bus.standing = None;
        *answer = bus.standby(call[3]);
        answer.broken = 1;
    }
}

fn no_own_hearing(bus: &mut Bus, before: &Bus, call: Record, answer: &mut Answer) {
    if answer.event == Event::Ended {
        flags_back(actor(bus, call), was(before, call));
    }
}

fn srq_stays(bus: &mut Bus, before: &Bus, _: Record, _: &mut Answer) {
    for (party, old) in bus.parties.iter_mut().zip(&before.parties) {
        if old.service == Service::Srqs && party.service == Service::Aprs {
            party.service = Service::Srqs;
        }
    }
}

fn reset_loses_register(bus: &mut Bus, _: &Bus, call: Record, answer: &mut Answer) {
    if is(call, answer, RESET) {
        actor(bus, call).saved = 0;
    }
}

fn clear_drops_standby(bus: &mut Bus, before: &Bus, call: Record, answer: &mut Answer) {
    if is(call, answer, CLEAR) {
        for (party, old) in bus.parties.iter_mut().zip(&before.parties) {
            if old.control == Control::Standby && party.held.take().is_some() {
                answer.dropped += 1;
            }
        }
    }
}

fn build_keeps_bus(bus: &mut Bus, before: &Bus, _: Record, answer: &mut Answer) {
    if answer.refusal == Refusal::BadBuild {
        *bus = *before;
    }
}

fn address_30_refused(bus: &mut Bus, _: &Bus, call: Record, answer: &mut Answer) {
    if is(call, answer, BUILD) && bus.present().iter().any(|party| party.name.primary == 30) {
        *bus = Bus::new();
        *answer = Answer::refused(Refusal::BadBuild);
    }
}

fn parties_15_refused(bus: &mut Bus, _: &Bus, call: Record, answer: &mut Answer) {
    if is(call, answer, BUILD) && bus.count == 15 {
        *bus = Bus::new();
        *answer = Answer::refused(Refusal::BadBuild);
    }
}

fn nobody_talks_kept(bus: &mut Bus, before: &Bus, call: Record, answer: &mut Answer) {
    let address = (answer.byte & 0x7F).wrapping_sub(0x40);
    let nobody = before
        .present()
        .iter()
        .all(|party| party.name.primary != address);
    if answer.event == Event::Heard && address < 31 && nobody {
        actor(bus, call).talk = was(before, call).talk;
    }
}

fn take_keeps_byte(bus: &mut Bus, before: &Bus, call: Record, answer: &mut Answer) {
    if is(call, answer, TAKE) {
        actor(bus, call).held = was(before, call).held;
        answer.dropped = 0;
    }
}

fn full_waits_under_atn(bus: &mut Bus, before: &Bus, call: Record, answer: &mut Answer) {
    let waits = was_anrs(before, call) && before.atn() && is(call, answer, STEP);
    if waits && was(before, call).data_in.is_some() {
        *bus = *before;
        *answer = Answer::NOTHING;
    }
}

fn was_anrs(before: &Bus, call: Record) -> bool {
    before
        .parties
        .get(usize::from(call[3]))
        .is_some_and(|p| p.acceptor == Acceptor::Anrs)
}

fn long_tct_ends(bus: &mut Bus, before: &Bus, _: Record, answer: &mut Answer) {
    let command = matches!(before.standing, Some(byte) if byte.kind == Kind::Command);
    if let (Event::Passed, true, Some(byte)) = (answer.event, command, before.standing) {
        if byte.value == 0x89 {
            *bus = *before;
            bus.standing = None;
            bus.parties[byte.sender].source = Source::Sgns;
            *answer = Answer::with_byte(Event::Ended, byte.value, byte.end);
        }
    }
}

fn takes_twice(bus: &mut Bus, before: &Bus, call: Record, answer: &mut Answer) {
    let lets_go = is(call, answer, STEP) && was(before, call).acceptor == Acceptor::Acds;
    if lets_go && before.line_bits() & DAV != 0 {
        actor(bus, call).acceptor = Acceptor::Acrs;
    }
}

fn end_lost(bus: &mut Bus, _: &Bus, call: Record, answer: &mut Answer) {
    if answer.event == Event::Took {
        answer.end = false;
        actor(bus, call).data_in = Some(Data {
            value: answer.byte,
            end: false,
        });
    }
}
