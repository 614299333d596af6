//! Calls for drivers that have one mistake each.

use crate::model::{
    Acceptor, Answer, Bus, Control, Drivers, Event, Line, Refusal, Service, Source, ATN, EOI,
};

pub type DriversFault = fn(&mut Bus) -> Drivers;

/// What a mistake shows.
#[derive(Clone, Copy, Debug)]
pub enum Shows {
    /// Wrong drivers, of no other lines than these.
    Lines(&'static [Line]),
    Answer,
    /// Another bus than the lines leave.
    Bus,
}

const EVERY: Shows = Shows::Lines(&Line::ALL);
const SHARED: Shows = Shows::Lines(&[Line::Nrfd, Line::Ndac, Line::Srq]);
const ACCEPTORS: Shows = Shows::Lines(&[Line::Nrfd, Line::Ndac]);
const OF_ATN: Shows = Shows::Lines(&[Line::Atn]);
const OF_DAV: Shows = Shows::Lines(&[Line::Dav]);
const OF_NRFD: Shows = Shows::Lines(&[Line::Nrfd]);
const OF_NDAC: Shows = Shows::Lines(&[Line::Ndac]);
const OF_EOI: Shows = Shows::Lines(&[Line::Eoi]);
const OF_SRQ: Shows = Shows::Lines(&[Line::Srq]);

pub const DRIVERS_FAULTS: &[(&str, DriversFault, Shows)] = &[
    ("bits one too high", one_too_high, EVERY),
    ("party 0 highest", party_0_highest, EVERY),
    ("the last party left out", last_left_out, EVERY),
    ("the fifteenth party left out", fifteenth_left_out, EVERY),
    ("ones of the low eight bits", low_eight_bits, EVERY),
    ("1 wherever the line is on", one_wherever_on, SHARED),
    ("drivers of NRFD told of NDAC", nrfd_for_ndac, OF_NDAC),
    ("NDAC before NRFD", ndac_first, ACCEPTORS),
    ("acceptors that listen alone", listeners_alone, ACCEPTORS),
    ("NRFD in ACRS", nrfd_in_acrs, OF_NRFD),
    ("NRFD not in AWNS", nrfd_not_in_awns, OF_NRFD),
    ("NDAC in AWNS", ndac_in_awns, OF_NDAC),
    ("NDAC not in ACDS", ndac_not_in_acds, OF_NDAC),
    ("EOI by all listeners", eoi_by_listeners, OF_EOI),
    ("EOI by who took the END", eoi_by_takers, OF_EOI),
    ("EOI without END", eoi_without_end, OF_EOI),
    ("EOI of a held byte", eoi_of_a_held_byte, OF_EOI),
    ("DAV by talkers", dav_by_talkers, OF_DAV),
    ("DAV in SDYS", dav_in_sdys, OF_DAV),
    ("ATN in standby", atn_in_standby, OF_ATN),
    ("ATN by the system party", atn_by_system, OF_ATN),
    ("SRQ in APRS", srq_in_aprs, OF_SRQ),
    (
        "refused where there is no party",
        refused_to_nobody,
        Shows::Answer,
    ),
    ("the event lines", event_lines, Shows::Answer),
    ("the standing byte broken off", breaks_off, Shows::Answer),
    ("the same, not told", breaks_off_silently, Shows::Bus),
    ("data-in emptied", empties_data_in, Shows::Bus),
];

/// The right drivers, but of these lines: each of their masks changed, and its count with it.
fn changed(bus: &mut Bus, lines: &[Line], change: impl Fn(u16) -> u16) -> Drivers {
    let mut told = bus.drivers();
    for line in lines {
        let mask = &mut told.masks[*line as usize];
        *mask = change(*mask);
        told.counts[*line as usize] = mask.count_ones();
    }
    told
}

fn mask_of(bus: &Bus, drives: impl Fn(&Bus, usize) -> bool) -> u16 {
    let places = (0..bus.count).filter(|&place| drives(bus, place));
    places.map(|place| 1 << place).sum()
}

/// The right drivers, but of one line.
fn but(bus: &mut Bus, line: Line, drives: impl Fn(&Bus, usize) -> bool) -> Drivers {
    let mask = mask_of(bus, drives);
    changed(bus, &[line], |_| mask)
}

fn one_too_high(bus: &mut Bus) -> Drivers {
    changed(bus, &Line::ALL, |mask| mask << 1)
}

fn party_0_highest(bus: &mut Bus) -> Drivers {
    changed(bus, &Line::ALL, |mask| mask.reverse_bits() >> 1)
}

fn last_left_out(bus: &mut Bus) -> Drivers {
    let last = bus.count.saturating_sub(1);
    changed(bus, &Line::ALL, |mask| mask & !(1 << last))
}

fn fifteenth_left_out(bus: &mut Bus) -> Drivers {
    changed(bus, &Line::ALL, |mask| mask & 0x3FFF)
}

fn low_eight_bits(bus: &mut Bus) -> Drivers {
    let told = bus.drivers();
    let counts = told.masks.map(|mask| (mask & 0xFF).count_ones());
    Drivers { counts, ..told }
}

fn one_wherever_on(bus: &mut Bus) -> Drivers {
    let told = bus.drivers();
    let counts = told.counts.map(|count| count.min(1));
    Drivers { counts, ..told }
}

fn nrfd_for_ndac(bus: &mut Bus) -> Drivers {
    but(bus, Line::Ndac, |bus, place| {
        bus.is_driven_by(Line::Nrfd, place)
    })
}

fn ndac_first(bus: &mut Bus) -> Drivers {
    let mut told = bus.drivers();
    let (nrfd, ndac) = (Line::Nrfd as usize, Line::Ndac as usize);
    told.masks.swap(nrfd, ndac);
    told.counts.swap(nrfd, ndac);
    told
}

/// Under ATN parties that do not listen are acceptors too.
fn listeners_alone(bus: &mut Bus) -> Drivers {
    let listeners = mask_of(bus, |bus, place| bus.parties[place].listen);
    changed(bus, &[Line::Nrfd, Line::Ndac], |mask| mask & listeners)
}

fn acceptor_in(bus: &Bus, place: usize, states: &[Acceptor]) -> bool {
    states.contains(&bus.parties[place].acceptor)
}

fn nrfd_in_acrs(bus: &mut Bus) -> Drivers {
    but(bus, Line::Nrfd, |bus, place| {
        bus.is_driven_by(Line::Nrfd, place) || acceptor_in(bus, place, &[Acceptor::Acrs])
    })
}

fn nrfd_not_in_awns(bus: &mut Bus) -> Drivers {
    but(bus, Line::Nrfd, |bus, place| {
        acceptor_in(bus, place, &[Acceptor::Anrs, Acceptor::Acds])
    })
}

fn ndac_in_awns(bus: &mut Bus) -> Drivers {
    but(bus, Line::Ndac, |bus, place| {
        !acceptor_in(bus, place, &[Acceptor::Aids])
    })
}

fn ndac_not_in_acds(bus: &mut Bus) -> Drivers {
    but(bus, Line::Ndac, |bus, place| {
        acceptor_in(bus, place, &[Acceptor::Anrs, Acceptor::Acrs])
    })
}

fn eoi_on(bus: &Bus) -> bool {
    bus.line_bits() & EOI != 0
}

fn eoi_by_listeners(bus: &mut Bus) -> Drivers {
    but(bus, Line::Eoi, |bus, place| {
        eoi_on(bus) && bus.parties[place].listen
    })
}

fn eoi_by_takers(bus: &mut Bus) -> Drivers {
    but(bus, Line::Eoi, |bus, place| {
        let took = acceptor_in(bus, place, &[Acceptor::Acds]);
        bus.is_driven_by(Line::Eoi, place) || (eoi_on(bus) && took)
    })
}

fn eoi_without_end(bus: &mut Bus) -> Drivers {
    but(
        bus,
        Line::Eoi,
        |bus, place| matches!(bus.standing, Some(byte) if byte.sender == place),
    )
}

fn eoi_of_a_held_byte(bus: &mut Bus) -> Drivers {
    but(bus, Line::Eoi, |bus, place| {
        let party = &bus.parties[place];
        party.is_source(bus.atn()) && party.held.is_some_and(|held| held.end)
    })
}

fn dav_by_talkers(bus: &mut Bus) -> Drivers {
    but(bus, Line::Dav, |bus, place| bus.parties[place].talk)
}

fn dav_in_sdys(bus: &mut Bus) -> Drivers {
    but(bus, Line::Dav, |bus, place| {
        matches!(bus.parties[place].source, Source::Sdys | Source::Strs)
    })
}

fn atn_in_standby(bus: &mut Bus) -> Drivers {
    but(bus, Line::Atn, |bus, place| {
        bus.parties[place].control != Control::Idle
    })
}

fn atn_by_system(bus: &mut Bus) -> Drivers {
    but(bus, Line::Atn, |bus, place| {
        bus.line_bits() & ATN != 0 && place == bus.system
    })
}

fn srq_in_aprs(bus: &mut Bus) -> Drivers {
    but(bus, Line::Srq, |bus, place| {
        bus.parties[place].service != Service::Nprs
    })
}

fn refused_to_nobody(bus: &mut Bus) -> Drivers {
    let mut told = bus.drivers();
    if bus.count == 0 {
        told.answer = Answer::refused(Refusal::NoParty);
    }
    told
}

fn event_lines(bus: &mut Bus) -> Drivers {
    let answer = Answer::with_byte(Event::Lines, bus.line_bits(), false);
    Drivers {
        answer,
        ..bus.drivers()
    }
}

fn breaks_off(bus: &mut Bus) -> Drivers {
    let mut told = bus.drivers();
    if let Some(byte) = bus.standing.take() {
        bus.parties[byte.sender].source = Source::Sgns;
        told.answer.broken = 1;
    }
    told
}

fn breaks_off_silently(bus: &mut Bus) -> Drivers {
    let told = breaks_off(bus);
    let answer = Answer::NOTHING;
    Drivers { answer, ..told }
}

fn empties_data_in(bus: &mut Bus) -> Drivers {
    let told = bus.drivers();
    for party in &mut bus.parties {
        party.data_in = None;
    }
    told
}
