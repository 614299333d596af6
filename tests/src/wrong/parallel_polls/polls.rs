//! Wrong parallel polls.

use super::PollCallFault;
use crate::model::{Answer, Bus, Control, Event, Party, PollCall, Refusal, Source, RSV};

pub const POLL_CALL_FAULTS: &[(&str, PollCallFault)] = &[
    ("line 1 highest", line_1_highest),
    ("the status compared with not the sense", not_the_sense),
    ("on whatever the sense", whatever_the_sense),
    ("on whatever the status", whatever_the_status),
    ("the first party of a line alone", first_alone),
    ("the last party of a line alone", last_alone),
    ("off by a party of the line that is off", all_have_to),
    ("off by a second party that is on", by_odd_numbers),
    ("the poller's own response left out", poller_left_out),
    ("the system party's response left out", system_left_out),
    ("the last party's response left out", last_left_out),
    ("the fifteenth party left out", fifteenth_left_out),
    ("listeners alone respond", listeners_alone),
    ("bit 64 in place of the own status", register_for_status),
    ("the lines answer told", lines_told),
    ("a poll says END", says_end),
    ("a poll has the event none", says_none),
    ("a poll has the event read", says_read),
    ("a poll counts a dropped byte", counts_dropped),
    ("a poll counts a byte broken off", counts_broken),
    ("any party polls", any_party_polls),
    ("any party polls under ATN", any_under_atn),
    ("the party in standby polls", standby_polls),
    ("the system party polls", system_polls),
    ("the system party alone polls", system_alone),
    ("a poll while the command stands", while_standing),
    ("7 before 4 while a byte stands", standing_first),
    ("4 for a standing command", role_for_standing),
    ("7 while a byte is held", while_held),
    ("4 before 1", role_first),
    ("a poll removes the responses", removes_responses),
    ("a poll ends configuring", ends_configuring),
    ("a poll sets the statuses to 0", statuses_to_0),
    ("a poll drops the held byte", drops_held),
    ("a poll takes the source back", source_back),
    ("a poll has the poller go to standby", to_standby),
];

/// The line that this party turns on, as its bit.
fn line_of(party: &Party) -> u8 {
    party.asserts().map_or(0, |response| response.bit())
}

/// The lines of the parties with a response for which this holds.
fn where_it_holds(bus: &Bus, holds: impl Fn(usize, &Party) -> bool) -> u8 {
    let parties = bus.present().iter().enumerate();
    let parties = parties.filter(|(place, party)| holds(*place, party));
    let responses = parties.filter_map(|(_, party)| party.response);
    responses.fold(0, |lines, response| lines | response.bit())
}

fn right(bus: &Bus) -> u8 {
    where_it_holds(bus, |_, party| party.asserts().is_some())
}

/// An accepted poll has these lines.
fn told(bus: &mut Bus, call: PollCall, lines: impl Fn(&Bus) -> u8) -> Answer {
    let byte = lines(bus);
    altered(bus, call, |_, _, answer| answer.byte = byte)
}

/// What an accepted poll by this place leaves and answers.
fn altered(
    bus: &mut Bus,
    call: PollCall,
    alter: impl FnOnce(&mut Bus, usize, &mut Answer),
) -> Answer {
    let mut answer = bus.poll_call(call);
    if let (PollCall::Poll { party }, true) = (call, answer.accepted()) {
        alter(bus, usize::from(party), &mut answer);
    }
    answer
}

fn line_1_highest(bus: &mut Bus, call: PollCall) -> Answer {
    altered(bus, call, |_, _, answer| {
        answer.byte = answer.byte.reverse_bits();
    })
}

fn not_the_sense(bus: &mut Bus, call: PollCall) -> Answer {
    told(bus, call, |bus| {
        where_it_holds(bus, |_, party| party.asserts().is_none())
    })
}

fn whatever_the_sense(bus: &mut Bus, call: PollCall) -> Answer {
    told(bus, call, |bus| {
        where_it_holds(bus, |_, party| party.own_status)
    })
}

fn whatever_the_status(bus: &mut Bus, call: PollCall) -> Answer {
    told(bus, call, |bus| where_it_holds(bus, |_, _| true))
}

/// Of the parties on a line the first of these places alone turns it on.
fn first_of(bus: &Bus, places: impl Iterator<Item = usize>) -> u8 {
    let (mut seen, mut lines) = (0, 0);
    for party in places.map(|place| &bus.parties[place]) {
        lines |= line_of(party) & !seen;
        seen |= party.response.map_or(0, |response| response.bit());
    }
    lines
}

fn first_alone(bus: &mut Bus, call: PollCall) -> Answer {
    told(bus, call, |bus| first_of(bus, 0..bus.count))
}

fn last_alone(bus: &mut Bus, call: PollCall) -> Answer {
    told(bus, call, |bus| first_of(bus, (0..bus.count).rev()))
}

fn all_have_to(bus: &mut Bus, call: PollCall) -> Answer {
    told(bus, call, |bus| {
        let off = where_it_holds(bus, |_, party| party.asserts().is_none());
        right(bus) & !off
    })
}

fn by_odd_numbers(bus: &mut Bus, call: PollCall) -> Answer {
    told(bus, call, |bus| {
        let parties = bus.present().iter();
        parties.fold(0, |lines, party| lines ^ line_of(party))
    })
}

/// The right lines, without this place's.
fn without(
    bus: &mut Bus,
    call: PollCall,
    left_out: impl Fn(&Bus, &Party, usize) -> bool,
) -> Answer {
    told(bus, call, |bus| {
        where_it_holds(bus, |place, party| {
            party.asserts().is_some() && !left_out(bus, party, place)
        })
    })
}

fn poller_left_out(bus: &mut Bus, call: PollCall) -> Answer {
    without(bus, call, |_, party, _| party.is_active())
}

fn system_left_out(bus: &mut Bus, call: PollCall) -> Answer {
    without(bus, call, |bus, _, place| place == bus.system)
}

fn last_left_out(bus: &mut Bus, call: PollCall) -> Answer {
    without(bus, call, |bus, _, place| place + 1 == bus.count)
}

fn fifteenth_left_out(bus: &mut Bus, call: PollCall) -> Answer {
    without(bus, call, |_, _, place| place == 14)
}

fn listeners_alone(bus: &mut Bus, call: PollCall) -> Answer {
    without(bus, call, |_, party, _| !party.listen)
}

fn register_for_status(bus: &mut Bus, call: PollCall) -> Answer {
    told(bus, call, |bus| {
        where_it_holds(bus, |_, party| {
            let status = party.live & RSV != 0;
            party.response.is_some_and(|own| own.sense == status)
        })
    })
}

fn lines_told(bus: &mut Bus, call: PollCall) -> Answer {
    told(bus, call, Bus::line_bits)
}

fn says_end(bus: &mut Bus, call: PollCall) -> Answer {
    altered(bus, call, |_, _, answer| answer.end = true)
}

fn says_none(bus: &mut Bus, call: PollCall) -> Answer {
    altered(bus, call, |_, _, answer| *answer = Answer::NOTHING)
}

fn says_read(bus: &mut Bus, call: PollCall) -> Answer {
    altered(bus, call, |_, _, answer| answer.event = Event::Read)
}

fn counts_dropped(bus: &mut Bus, call: PollCall) -> Answer {
    altered(bus, call, |_, _, answer| answer.dropped = 1)
}

fn counts_broken(bus: &mut Bus, call: PollCall) -> Answer {
    altered(bus, call, |_, _, answer| answer.broken = 1)
}

/// A poll that is refused with this is accepted where it may.
fn accepted_if(
    bus: &mut Bus,
    call: PollCall,
    refused: Refusal,
    may: impl Fn(&Bus, &Party, usize) -> bool,
) -> Answer {
    let answer = bus.poll_call(call);
    let place = usize::from(call.party());
    let is_poll = matches!(call, PollCall::Poll { .. });
    if is_poll && answer.refusal == refused && may(bus, &bus.parties[place], place) {
        return Answer::with_byte(Event::Lines, right(bus), false);
    }
    answer
}

fn any_party_polls(bus: &mut Bus, call: PollCall) -> Answer {
    accepted_if(bus, call, Refusal::Role, |_, _, _| true)
}

fn any_under_atn(bus: &mut Bus, call: PollCall) -> Answer {
    accepted_if(bus, call, Refusal::Role, |bus, _, _| bus.atn())
}

fn standby_polls(bus: &mut Bus, call: PollCall) -> Answer {
    accepted_if(bus, call, Refusal::Role, |_, party, _| {
        party.control == Control::Standby
    })
}

fn system_polls(bus: &mut Bus, call: PollCall) -> Answer {
    accepted_if(bus, call, Refusal::Role, |bus, _, place| {
        place == bus.system
    })
}

fn while_standing(bus: &mut Bus, call: PollCall) -> Answer {
    accepted_if(bus, call, Refusal::Standing, |_, _, _| true)
}

/// A poll that would be refused so, or is accepted, is refused for another reason.
fn refused_if(
    bus: &mut Bus,
    call: PollCall,
    refused: Refusal,
    instead: Refusal,
    is_it: impl Fn(&Bus, usize) -> bool,
) -> Answer {
    let place = usize::from(call.party());
    let is_poll = matches!(call, PollCall::Poll { .. });
    let answer = bus.poll_call(call);
    if is_poll && answer.refusal == refused && is_it(bus, place) {
        return Answer::refused(instead);
    }
    answer
}

fn system_alone(bus: &mut Bus, call: PollCall) -> Answer {
    refused_if(bus, call, Refusal::Accepted, Refusal::Role, |bus, place| {
        place != bus.system
    })
}

fn standing_first(bus: &mut Bus, call: PollCall) -> Answer {
    refused_if(bus, call, Refusal::Role, Refusal::Standing, |bus, _| {
        bus.standing.is_some()
    })
}

fn role_for_standing(bus: &mut Bus, call: PollCall) -> Answer {
    refused_if(bus, call, Refusal::Standing, Refusal::Role, |_, _| true)
}

fn while_held(bus: &mut Bus, call: PollCall) -> Answer {
    refused_if(
        bus,
        call,
        Refusal::Accepted,
        Refusal::Standing,
        |bus, place| bus.parties[place].held.is_some(),
    )
}

fn role_first(bus: &mut Bus, call: PollCall) -> Answer {
    refused_if(bus, call, Refusal::NoParty, Refusal::Role, |_, _| true)
}

fn removes_responses(bus: &mut Bus, call: PollCall) -> Answer {
    altered(bus, call, |bus, _, _| {
        bus.parties.iter_mut().for_each(|own| own.response = None);
    })
}

fn ends_configuring(bus: &mut Bus, call: PollCall) -> Answer {
    altered(bus, call, |bus, _, _| {
        bus.parties
            .iter_mut()
            .for_each(|own| own.mark = own.primary_mark());
    })
}

fn statuses_to_0(bus: &mut Bus, call: PollCall) -> Answer {
    altered(bus, call, |bus, _, _| {
        bus.parties
            .iter_mut()
            .for_each(|own| own.own_status = false);
    })
}

fn drops_held(bus: &mut Bus, call: PollCall) -> Answer {
    altered(bus, call, |bus, place, answer| {
        answer.dropped = bus.parties[place].held.take().map_or(0, |_| 1);
    })
}

fn source_back(bus: &mut Bus, call: PollCall) -> Answer {
    altered(bus, call, |bus, place, _| {
        bus.parties[place].source = Source::Sgns;
    })
}

fn to_standby(bus: &mut Bus, call: PollCall) -> Answer {
    altered(bus, call, |bus, place, _| _ = bus.standby(place as u8))
}
