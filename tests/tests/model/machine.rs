//! Points of the machine that P1 to P12 leave open, worked out from document 01's text.

use meskvorn_tests::lists::composer::Composer;
use meskvorn_tests::model::script::{
    BUILD, CLEAR, DROP, LINES, LISTEN, POLL, RESET, STANDBY, TAKE, TALK, WRITE,
};
use meskvorn_tests::model::{Answer, Event, Refusal};

const SPE: u8 = 0x18;

fn lost(dropped: u8, broken: u8) -> Answer {
    Answer {
        dropped,
        broken,
        ..Answer::NOTHING
    }
}

fn told(event: Event, byte: u8) -> Answer {
    Answer::with_byte(event, byte, false)
}

/// Parties at addresses 5 and up; party 0 is the system party, and active.
fn under_control(parties: u8) -> Composer {
    let mut bus = Composer::new();
    bus.call(BUILD, 0, parties, 5);
    assert_eq!(bus.call(CLEAR, 0, 0, 0), Answer::NOTHING);
    bus
}

fn lines(bus: &mut Composer, wanted: u8) {
    assert_eq!(bus.call(LINES, 0, 0, 0), told(Event::Lines, wanted));
}

#[test]
fn a_status_byte_that_nobody_takes_is_kept_and_so_is_the_held_byte() {
    let mut bus = under_control(2);
    assert!(bus.command(SPE));
    bus.call(STANDBY, 0, 0, 0);
    bus.call(TALK, 1, 1, 0);
    bus.call(WRITE, 1, 0xAA, 1);
    bus.call(POLL, 1, 0x05, 0);
    assert_eq!(bus.step(1), Answer::moved());
    // The register waits for the end of the poll.
    assert_eq!(bus.step(1), told(Event::Noacc, 0x00));
    assert_eq!(bus.step(1), told(Event::Noacc, 0x00));
    assert_eq!(bus.call(LISTEN, 0, 1, 0), Answer::NOTHING);
    assert_eq!(bus.step(0), Answer::moved());
    assert_eq!(bus.step(1), told(Event::Stat, 0x00));
    assert_eq!(bus.step(0), told(Event::Took, 0x00));
    assert_eq!(bus.call(DROP, 1, 0, 0), lost(1, 0));
}

#[test]
fn a_command_that_nobody_takes_is_kept_until_it_is_off_offer() {
    let mut bus = under_control(1);
    bus.call(WRITE, 0, 0x3F, 1);
    assert_eq!(bus.step(0), Answer::moved());
    // A command has END off.
    assert_eq!(bus.step(0), told(Event::Noacc, 0x3F));
    assert_eq!(bus.step(0), told(Event::Noacc, 0x3F));
    assert_eq!(bus.call(DROP, 0, 0, 0), lost(1, 0));
    assert_eq!(bus.step(0), Answer::moved());
    assert_eq!(bus.step(0), Answer::NOTHING);
}

#[test]
fn a_listener_that_joined_in_awns_is_no_noacc() {
    let mut bus = under_control(3);
    bus.call(STANDBY, 0, 0, 0);
    bus.call(TALK, 1, 1, 0);
    bus.call(LISTEN, 2, 1, 0);
    bus.call(WRITE, 1, 0x41, 0);
    // The byte stands with one listener; the other joins in AWNS, and the first leaves.
    bus.step(2);
    assert_eq!(bus.step(1), Answer::moved());
    assert_eq!(bus.step(1), told(Event::Data, 0x41));
    bus.call(LISTEN, 0, 1, 0);
    bus.call(LISTEN, 2, 0, 0);
    assert_eq!(bus.step(1), told(Event::Ended, 0x41));
    // That one drives NRFD alone: the next byte waits for it.
    bus.call(WRITE, 1, 0x42, 0);
    assert_eq!(bus.step(1), Answer::moved());
    assert_eq!(bus.step(1), Answer::NOTHING);
    assert_eq!(bus.step(0), Answer::moved());
    assert_eq!(bus.step(0), Answer::moved());
    assert_eq!(bus.step(1), told(Event::Data, 0x42));
}

#[test]
fn a_register_written_in_a_poll_asks_for_service_after_it() {
    let mut bus = under_control(2);
    bus.call(POLL, 1, 0x01, 0);
    assert!(bus.command(SPE) && bus.command(0x46));
    bus.call(STANDBY, 0, 0, 0);
    lines(&mut bus, 0x00);
    bus.call(POLL, 1, 0x41, 0);
    lines(&mut bus, 0x00);
    bus.step(1);
    assert_eq!(bus.step(1), told(Event::Noacc, 0x01));
    bus.call(TAKE, 0, 0, 0);
    lines(&mut bus, 0xB4);
}

#[test]
fn a_sender_hears_its_own_command_when_it_ends() {
    let mut bus = under_control(2);
    assert!(bus.command(0x25));
    bus.call(STANDBY, 0, 0, 0);
    lines(&mut bus, 0x30);
}

#[test]
fn clear_and_the_bytes_held() {
    let mut bus = under_control(2);
    assert!(bus.command(0x46) && bus.command(0x09));
    bus.call(STANDBY, 1, 0, 0);
    bus.call(WRITE, 1, 0xAA, 0);
    // In standby, a party made idle keeps its byte.
    assert_eq!(bus.call(CLEAR, 0, 0, 0), lost(0, 0));
    let full = Answer::refused(Refusal::Full);
    assert_eq!(bus.call(WRITE, 1, 0xBB, 0), full);
    assert_eq!(bus.call(DROP, 1, 0, 0), lost(1, 0));
    // Active, it loses it, and the system party loses its own.
    assert!(bus.command(0x46) && bus.command(0x09));
    bus.call(WRITE, 0, 0xAA, 0);
    bus.call(WRITE, 1, 0xBB, 0);
    assert_eq!(bus.call(CLEAR, 0, 0, 0), lost(2, 0));
    bus.call(WRITE, 0, 0xAA, 0);
    assert_eq!(bus.call(CLEAR, 0, 0, 0), lost(1, 0));
}

/// Party 0 talks to parties 1 and 2; byte 41 stands.
fn data_stands() -> Composer {
    let mut bus = Composer::new();
    bus.call(BUILD, 0, 3, 5);
    bus.call(TALK, 0, 1, 0);
    bus.call(LISTEN, 1, 1, 0);
    bus.call(LISTEN, 2, 1, 0);
    bus.call(WRITE, 0, 0x41, 0);
    for party in [0, 1, 2] {
        assert_eq!(bus.step(party), Answer::moved());
    }
    assert_eq!(bus.step(0), told(Event::Data, 0x41));
    bus
}

#[test]
fn listen_only_on_again_leaves_the_acceptor() {
    let mut bus = data_stands();
    assert_eq!(bus.call(LISTEN, 1, 1, 0), Answer::NOTHING);
    assert_eq!(bus.step(1), told(Event::Took, 0x41));
}

#[test]
fn talk_only_off_and_reset_break_the_byte_off() {
    assert_eq!(data_stands().call(TALK, 0, 0, 0), lost(0, 1));
    let mut bus = data_stands();
    bus.call(WRITE, 0, 0x42, 0);
    assert_eq!(bus.call(RESET, 0, 0, 0), lost(1, 1));
    // The listeners stay as they were; the byte is gone.
    assert_eq!(bus.step(1), Answer::NOTHING);
    lines(&mut bus, 0x20);
}

#[test]
fn a_party_that_leaves_is_not_waited_for() {
    let mut bus = data_stands();
    bus.step(1);
    bus.step(1);
    assert_eq!(bus.step(0), Answer::NOTHING);
    bus.call(LISTEN, 2, 0, 0);
    assert_eq!(bus.step(0), told(Event::Ended, 0x41));
}

#[test]
fn reset_under_a_standing_command_goes_to_awns() {
    let mut bus = under_control(3);
    bus.call(WRITE, 0, 0x3F, 0);
    for party in [0, 1, 2] {
        assert_eq!(bus.step(party), Answer::moved());
    }
    assert_eq!(bus.step(0), told(Event::Cmd, 0x3F));
    assert_eq!(bus.call(RESET, 2, 0, 0), Answer::NOTHING);
    assert_eq!(bus.step(2), Answer::NOTHING);
    assert_eq!(bus.step(1), told(Event::Heard, 0x3F));
    assert_eq!(bus.step(1), Answer::moved());
    assert_eq!(bus.step(0), told(Event::Ended, 0x3F));
    assert_eq!(bus.step(2), Answer::moved());
}

#[test]
fn reset_of_the_active_party_ends_attention() {
    let mut bus = under_control(2);
    bus.call(LISTEN, 1, 1, 0);
    bus.call(WRITE, 0, 0x3F, 0);
    assert_eq!(bus.call(RESET, 0, 0, 0), lost(1, 0));
    lines(&mut bus, 0x30);
    let role = Answer::refused(Refusal::Role);
    assert_eq!(bus.call(TAKE, 0, 0, 0), role);
    assert_eq!(bus.call(STANDBY, 0, 0, 0), role);
}

#[test]
fn clear_and_trigger_are_for_listeners() {
    let wanted = [
        (0x04, Event::Clear, Event::Heard),
        (0x08, Event::Trigger, Event::Heard),
        (0x14, Event::Clear, Event::Clear),
        (0x94, Event::Clear, Event::Clear),
    ];
    for (byte, listener, other) in wanted {
        let mut bus = under_control(3);
        assert!(bus.command(0x26));
        bus.call(WRITE, 0, byte, 1);
        assert!(bus.walk_until(Event::is_put));
        assert_eq!(bus.step(1), told(listener, byte));
        assert_eq!(bus.step(2), told(other, byte));
    }
}

#[test]
fn a_talk_address_of_nobody_turns_talk_off() {
    let mut bus = under_control(2);
    assert!(bus.command(0x46) && bus.command(0x50));
    bus.call(STANDBY, 0, 0, 0);
    assert_eq!(bus.call(TALK, 0, 1, 0), Answer::NOTHING);
}

#[test]
fn tct_without_another_talker_just_ends() {
    let mut bus = under_control(2);
    assert!(bus.command(0x45) && bus.command(0x09));
    assert_eq!(bus.call(STANDBY, 0, 0, 0), Answer::NOTHING);
    assert_eq!(bus.call(TAKE, 0, 0, 0), Answer::NOTHING);
}

#[test]
fn a_full_data_in_holds_off_data_but_no_command() {
    let mut bus = data_stands();
    bus.step(1);
    bus.step(1);
    bus.step(2);
    bus.step(2);
    bus.step(0);
    assert_eq!(bus.step(1), Answer::moved());
    assert_eq!(bus.step(1), Answer::NOTHING);
    assert_eq!(bus.call(CLEAR, 0, 0, 0), Answer::NOTHING);
    assert_eq!(bus.step(1), Answer::moved());
    lines(&mut bus, 0xB0);
}
