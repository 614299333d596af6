//! The chip's registers on the model, worked out from document 01's text, document 02's Q-6 and document
//! 001's tables 2-1 to 2-3.

use crate::script_lines::check;
use meskvorn_tests::lists::composer::Composer;
use meskvorn_tests::lists::kinds_of_state;
use meskvorn_tests::lists::pieces;
use meskvorn_tests::lists::stands_for::{self, StandsFor};
use meskvorn_tests::model::script::{self, BUILD, CLEAR, LISTEN, POLL, READ, TALK, WRITE};
use meskvorn_tests::model::{Access, Answer, Bus, Event, Refusal, Service};

const NOTHING: Answer = Answer::NOTHING;

fn refused(refusal: Refusal) -> Answer {
    Answer::refused(refusal)
}

fn told(event: Event, byte: u8, end: bool) -> Answer {
    Answer::with_byte(event, byte, end)
}

fn read(bus: &mut Composer, party: u8, offset: u8) -> Answer {
    bus.access(Access::Read { party, offset })
}

fn write(bus: &mut Composer, party: u8, offset: u8, value: u8) -> Answer {
    bus.access(Access::Write {
        party,
        offset,
        value,
    })
}

/// Parties at addresses 5 and up; party 0 is the system party.
fn built(parties: u8) -> Composer {
    let mut bus = Composer::new();
    assert!(bus.call(BUILD, 0, parties, 5).accepted());
    bus
}

/// Party 0 talks to party 1.
fn talking() -> Composer {
    let mut bus = built(2);
    bus.call(TALK, 0, 1, 0);
    bus.call(LISTEN, 1, 1, 0);
    bus
}

/// Document 01's worked script through registers: ton, lon, feoi, data out, and data in at the end.
#[test]
fn the_worked_script_through_registers() {
    let mut bus = built(2);
    assert_eq!(write(&mut bus, 0, 3, 0x8A), NOTHING);
    assert_eq!(write(&mut bus, 1, 3, 0x89), NOTHING);
    assert_eq!(write(&mut bus, 0, 3, 0x08), NOTHING);
    assert_eq!(write(&mut bus, 0, 7, 0x41), NOTHING);
    let steps = [
        (0, Answer::moved()),
        (1, Answer::moved()),
        (0, told(Event::Data, 0x41, true)),
        (1, told(Event::Took, 0x41, true)),
        (0, NOTHING),
        (1, Answer::moved()),
        (0, told(Event::Ended, 0x41, true)),
    ];
    for (party, answer) in steps {
        assert_eq!(bus.step(party), answer);
    }
    assert_eq!(read(&mut bus, 1, 7), told(Event::Read, 0x41, true));
    assert_eq!(read(&mut bus, 1, 7), refused(Refusal::Empty));
}

#[test]
fn bus_status_is_the_lines_of_a_party_that_is_there() {
    let mut bus = talking();
    bus.call(WRITE, 0, 0x41, 1);
    assert!(bus.walk_until(Event::is_taking));
    // P2: DAV, NDAC, NRFD and EOI.
    for party in 0..2 {
        assert_eq!(read(&mut bus, party, 3), told(Event::Lines, 0x78, false));
    }
    for party in [2, 255] {
        assert_eq!(read(&mut bus, party, 3), refused(Refusal::NoParty));
    }
    assert_eq!(read(&mut Composer::new(), 0, 3), refused(Refusal::NoParty));
}

#[test]
fn no_other_offset_is_carried() {
    let mut bus = built(2);
    let before = bus.bus;
    for offset in 0..=255 {
        if ![3, 7].contains(&offset) {
            assert_eq!(read(&mut bus, 0, offset), refused(Refusal::NoReg));
            assert_eq!(read(&mut bus, 2, offset), refused(Refusal::NoParty));
        }
        if ![3, 5, 7].contains(&offset) {
            for value in [0x00, 0x08, 0x80, 0xFF] {
                assert_eq!(write(&mut bus, 1, offset, value), refused(Refusal::NoReg));
                assert_eq!(write(&mut bus, 9, offset, value), refused(Refusal::NoParty));
            }
        }
    }
    assert_eq!(bus.bus, before);
}

/// Table 2-3 has 25 commands; nine are carried, and there are no others.
#[test]
fn no_other_command_is_carried() {
    let carried = [0, 5, 8, 9, 10, 11, 12, 15, 24];
    for value in 0..=255u8 {
        let mut bus = built(1);
        let answer = write(&mut bus, 0, 3, value);
        let known = carried.contains(&(value % 32));
        assert_eq!(answer.refusal != Refusal::NoReg, known, "{value}");
        assert_eq!(write(&mut bus, 1, 3, value), refused(Refusal::NoParty));
    }
}

/// Before the refusals of the call: a full held byte, an empty data-in, a role.
#[test]
fn noreg_comes_after_noparty_and_before_the_rest() {
    let mut bus = built(2);
    assert_eq!(read(&mut bus, 0, 5), refused(Refusal::NoReg));
    bus.call(WRITE, 0, 0x41, 0);
    assert_eq!(write(&mut bus, 0, 6, 0x41), refused(Refusal::NoReg));
    assert_eq!(write(&mut bus, 0, 7, 0x41), refused(Refusal::Full));
    // tcs is no command here, and tca is.
    assert_eq!(write(&mut bus, 0, 3, 13), refused(Refusal::NoReg));
    assert_eq!(write(&mut bus, 0, 3, 12), refused(Refusal::Role));
    assert_eq!(write(&mut bus, 2, 3, 13), refused(Refusal::NoParty));
}

#[test]
fn refusals_of_the_calls_that_accesses_stand_for() {
    let mut bus = built(2);
    assert_eq!(write(&mut bus, 1, 3, 0x8F), refused(Refusal::Role));
    assert_eq!(write(&mut bus, 0, 3, 0x0B), refused(Refusal::Role));
    bus.call(TALK, 0, 1, 0);
    assert_eq!(write(&mut bus, 0, 3, 0x89), refused(Refusal::Role));
    assert_eq!(write(&mut bus, 1, 3, 0x8A), refused(Refusal::Talker));
    assert_eq!(write(&mut bus, 0, 3, 0x8F), NOTHING);
    assert_eq!(write(&mut bus, 1, 3, 0x8A), refused(Refusal::Attention));
    assert_eq!(write(&mut bus, 0, 7, 0x3F), NOTHING);
    assert!(bus.walk_until(Event::is_put));
    assert_eq!(write(&mut bus, 0, 3, 0x0B), refused(Refusal::Standing));
    assert_eq!(write(&mut bus, 0, 3, 0x80), refused(Refusal::Standing));
    assert_eq!(write(&mut bus, 1, 3, 0x80), NOTHING);
}

#[test]
fn cleared_swrst_and_sic_do_nothing_for_anybody() {
    let mut bus = talking();
    bus.call(WRITE, 0, 0x41, 0);
    assert!(bus.walk_until(Event::is_put));
    write(&mut bus, 0, 3, 0x08);
    let before = bus.bus;
    for party in 0..2 {
        for value in [0x00, 0x20, 0x40, 0x60, 0x0F, 0x2F, 0x4F, 0x6F] {
            assert_eq!(write(&mut bus, party, 3, value), NOTHING);
        }
    }
    assert_eq!(bus.bus, before);
    assert_eq!(write(&mut bus, 2, 3, 0x0F), refused(Refusal::NoParty));
    // The sender of a standing command is not refused either.
    bus.call(CLEAR, 0, 0, 0);
    bus.call(WRITE, 0, 0x3F, 0);
    assert!(bus.walk_until(Event::is_put));
    assert_eq!(write(&mut bus, 0, 3, 0x00), NOTHING);
}

#[test]
fn switches_are_bit_128_and_no_other() {
    for unseen in [0x00, 0x20, 0x40, 0x60] {
        let mut bus = built(1);
        write(&mut bus, 0, 3, 0x89 | unseen);
        assert!(bus.bus.parties[0].listen);
        write(&mut bus, 0, 3, 0x09 | unseen);
        assert!(!bus.bus.parties[0].listen);
        write(&mut bus, 0, 3, 0x8A | unseen);
        assert!(bus.bus.parties[0].talk);
        write(&mut bus, 0, 3, 0x0A | unseen);
        assert!(!bus.bus.parties[0].talk);
        write(&mut bus, 0, 3, 0x98 | unseen);
        assert_eq!(bus.bus.parties[0].service, Service::Srqs);
        write(&mut bus, 0, 3, 0x18 | unseen);
        assert_eq!(bus.bus.parties[0].service, Service::Nprs);
        write(&mut bus, 0, 5, 0x41);
        assert_eq!(bus.bus.parties[0].saved, 0x41);
    }
}

#[test]
fn no_record_is_an_access() {
    check(&[
        ("0e000000", "3 none -- 0 0 0"),
        ("0f000388", "3 none -- 0 0 0"),
    ]);
    let access = Access::auxiliary(1, 0x88);
    let mut bus = Bus::new();
    let answer = script::run_record(&mut bus, pieces::access(access));
    assert_eq!(answer, refused(Refusal::Record));
}

/// What the bits say is what the numbers of the tables say, on every kind of state.
#[test]
fn each_access_equals_the_host_call_that_it_stands_for() {
    for prefix in kinds_of_state::prefixes().iter().step_by(7) {
        let bus = pieces::bus_after(&prefix.concat());
        for (party, value) in (0..3).flat_map(|party| (0..=255).map(move |value| (party, value))) {
            for offset in [3, 5, 7] {
                one_access(
                    bus,
                    Access::Write {
                        party,
                        offset,
                        value,
                    },
                );
            }
            one_access(
                bus,
                Access::Read {
                    party,
                    offset: value,
                },
            );
        }
    }
}

fn one_access(bus: Bus, access: Access) {
    for marked in [false, true] {
        let (mut one, mut other) = (bus, bus);
        let place = usize::from(access.party());
        one.parties[place].feoi = marked;
        other.parties[place].feoi = marked;
        let answer = one.access(access);
        let (wanted, mark) = match stands_for::stands_for(access, marked) {
            StandsFor::Call(call) => {
                let wanted = script::call(&mut other, call);
                let used = call[0] == WRITE && wanted.accepted();
                (wanted, other.parties[place].feoi && !used)
            }
            StandsFor::Mark => (NOTHING, true),
            StandsFor::Nothing => (NOTHING, marked),
            StandsFor::NoRegister => (refused(Refusal::NoReg), marked),
        };
        other.parties[place].feoi = mark;
        assert_eq!((answer, one), (wanted, other), "{access:?}");
    }
}

/// The poll register and the second request through registers, told by a status byte.
#[test]
fn a_poll_through_registers() {
    let mut bus = built(2);
    write(&mut bus, 1, 5, 0x01);
    write(&mut bus, 1, 3, 0x98);
    assert_eq!(read(&mut bus, 0, 3), told(Event::Lines, 0x04, false));
    write(&mut bus, 0, 3, 0x8F);
    write(&mut bus, 0, 3, 0x89);
    for command in [0x18, 0x46] {
        write(&mut bus, 0, 7, command);
        assert!(bus.walk_until(Event::is_end));
    }
    write(&mut bus, 0, 3, 0x0B);
    assert!(bus.walk_until(Event::is_end));
    assert_eq!(read(&mut bus, 0, 7), told(Event::Read, 0x41, false));
    write(&mut bus, 0, 3, 0x0C);
    write(&mut bus, 0, 3, 0x8B);
    assert!(bus.walk_until(Event::is_end));
    assert_eq!(bus.call(READ, 0, 0, 0), told(Event::Read, 0x01, false));
    assert_eq!(bus.call(POLL, 1, 0, 0), NOTHING);
}
