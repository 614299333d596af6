//! Secondary addresses on the model, worked out from document 02's Q-3.

use meskvorn_tests::lists::composer::Composer;
use meskvorn_tests::model::script::{
    CLEAR, LINES, LISTEN, POLL, READ, RESET, STANDBY, TAKE, TALK, WRITE,
};
use meskvorn_tests::model::{Answer, Bus, Event, Lists, Mark, Name, Refusal};

const RACK: [Name; 4] = [
    Name::plain(1),
    Name::extended(2, 12),
    Name::extended(2, 13),
    Name::plain(3),
];

/// Party 0 is the system party, and active.
fn under_control(names: &[Name]) -> Composer {
    let mut bus = Composer::new();
    assert_eq!(bus.build(names, 0), Answer::NOTHING);
    assert_eq!(bus.call(CLEAR, 0, 0, 0), Answer::NOTHING);
    bus
}

fn send(bus: &mut Composer, commands: &[u8]) {
    for command in commands {
        assert!(bus.command(*command), "{command:02x}");
    }
}

/// The rack after these commands.
fn after(commands: &[u8]) -> Composer {
    let mut bus = under_control(&RACK);
    send(&mut bus, commands);
    bus
}

/// For each party T if it talks, L if it listens, else a dot.
fn flags(bus: &Composer) -> String {
    let flag = |party: &meskvorn_tests::model::Party| match (party.talk, party.listen) {
        (true, false) => 'T',
        (false, true) => 'L',
        (false, false) => '.',
        (true, true) => '?',
    };
    bus.bus.present().iter().map(flag).collect()
}

fn flags_after(commands: &[u8]) -> String {
    flags(&after(commands))
}

fn marks(bus: &Composer) -> Vec<Option<Mark>> {
    bus.bus.present().iter().map(|party| party.mark).collect()
}

#[test]
fn a_primary_alone_addresses_nobody() {
    assert_eq!(flags_after(&[0x42]), "....");
    assert_eq!(flags_after(&[0x22]), "....");
    let talk = Some(Mark::TalkPrimary);
    assert_eq!(marks(&after(&[0x42])), [None, talk, talk, None]);
    let listen = Some(Mark::ListenPrimary);
    assert_eq!(marks(&after(&[0x22])), [None, listen, listen, None]);
}

#[test]
fn two_bytes_address_one_party() {
    assert_eq!(flags_after(&[0x42, 0x6C]), ".T..");
    assert_eq!(flags_after(&[0x22, 0x6D]), "..L.");
    assert_eq!(flags_after(&[0xC2, 0xEC]), ".T..");
    assert_eq!(flags_after(&[0x43, 0x6C]), "...T");
}

#[test]
fn a_mark_survives_a_secondary() {
    assert_eq!(flags_after(&[0x42, 0x6C, 0x6D]), "..T.");
    assert_eq!(flags_after(&[0x22, 0x6C, 0x6D]), ".LL.");
    assert_eq!(flags_after(&[0x42, 0x6E, 0x6C]), ".T..");
}

#[test]
fn a_wrong_secondary_ends_talking_and_not_listening() {
    assert_eq!(flags_after(&[0x42, 0x6C, 0x6E]), "....");
    assert_eq!(flags_after(&[0x22, 0x6C, 0x6E]), ".L..");
    assert_eq!(flags_after(&[0x42, 0x6C, 0x14, 0x6E]), ".T..");
}

#[test]
fn a_secondary_without_a_mark_does_nothing() {
    assert_eq!(flags_after(&[0x6C]), "....");
    assert_eq!(flags_after(&[0x42, 0x14, 0x6C]), "....");
    assert_eq!(flags_after(&[0x42, 0x6C, 0x14, 0x6D]), ".T..");
    for code in (0x00..0x60).filter(|code| ![0x22, 0x42].contains(code)) {
        assert_eq!(marks(&after(&[0x42, code])), [None; 4], "{code:02x}");
        assert_eq!(marks(&after(&[0x22, code | 0x80])), [None; 4]);
    }
}

#[test]
fn code_7f_clears_nothing() {
    assert_eq!(flags_after(&[0x42, 0x7F, 0x6C]), ".T..");
    assert_eq!(flags_after(&[0x22, 0xFF, 0x6D]), "..L.");
    assert_eq!(flags_after(&[0x42, 0x6C, 0x7F]), ".T..");
}

#[test]
fn each_primary_replaces_the_other() {
    assert_eq!(flags_after(&[0x42, 0x22, 0x6C]), ".L..");
    assert_eq!(flags_after(&[0x22, 0x42, 0x6C]), ".T..");
    assert_eq!(flags_after(&[0x42, 0x6C, 0x22, 0x6C]), ".L..");
    assert_eq!(flags_after(&[0x22, 0x6C, 0x42, 0x6C]), ".T..");
    assert_eq!(flags_after(&[0x22, 0x6C, 0x42, 0x6D]), ".LT.");
}

#[test]
fn the_own_primary_leaves_talk_and_listen() {
    assert_eq!(flags_after(&[0x42, 0x6C, 0x42]), ".T..");
    assert_eq!(flags_after(&[0x42, 0x6C, 0x22]), ".T..");
    assert_eq!(flags_after(&[0x22, 0x6C, 0x42]), ".L..");
}

#[test]
fn other_talk_addresses_unt_and_unl_count_as_ever() {
    assert_eq!(flags_after(&[0x42, 0x6C, 0x43]), "...T");
    assert_eq!(flags_after(&[0x43, 0x42, 0x6C]), ".T..");
    assert_eq!(flags_after(&[0x42, 0x6C, 0x50]), "....");
    assert_eq!(flags_after(&[0x42, 0x6C, 0x5F]), "....");
    assert_eq!(flags_after(&[0x42, 0x6C, 0x3F]), ".T..");
    assert_eq!(flags_after(&[0x22, 0x6C, 0x23, 0x3F]), "....");
}

#[test]
fn secondaries_and_7f_are_heard() {
    for byte in [0x6C, 0x60, 0x7E, 0x7F, 0xEC] {
        let mut bus = after(&[0x22]);
        bus.call(WRITE, 0, byte, 0);
        assert!(bus.walk_until(Event::is_put));
        for party in 1..4 {
            let heard = Answer::with_byte(Event::Heard, byte, false);
            assert_eq!(bus.step(party), heard);
        }
    }
}

#[test]
fn a_sender_marks_itself() {
    let names = [Name::extended(2, 12), Name::extended(2, 13)];
    let mut bus = under_control(&names);
    send(&mut bus, &[0x42]);
    assert_eq!(marks(&bus), [Some(Mark::TalkPrimary); 2]);
    send(&mut bus, &[0x6C]);
    assert_eq!(flags(&bus), "T.");
    send(&mut bus, &[0x6D]);
    assert_eq!(flags(&bus), ".T");
}

#[test]
fn every_change_of_attention_clears_all_marks() {
    let mut bus = after(&[0x42]);
    bus.call(STANDBY, 0, 0, 0);
    assert_eq!(marks(&bus), [None; 4]);
    bus.call(TAKE, 0, 0, 0);
    send(&mut bus, &[0x6C]);
    assert_eq!(flags(&bus), "....");
    let mut bus = after(&[0x42]);
    assert_eq!(bus.call(CLEAR, 0, 0, 0), Answer::NOTHING);
    assert_eq!(marks(&bus), [None; 4]);
    let mut bus = after(&[0x22]);
    assert_eq!(bus.call(RESET, 0, 0, 0), Answer::NOTHING);
    assert_eq!(marks(&bus), [None; 4]);
}

#[test]
fn reset_clears_the_mark_of_its_party_alone() {
    let mut bus = after(&[0x42]);
    bus.call(RESET, 1, 0, 0);
    assert_eq!(marks(&bus), [None, None, Some(Mark::TalkPrimary), None]);
    send(&mut bus, &[0x6C]);
    assert_eq!(flags(&bus), "....");
    send(&mut bus, &[0x6D]);
    assert_eq!(flags(&bus), "..T.");
}

#[test]
fn other_host_calls_leave_marks() {
    let mut bus = after(&[0x42]);
    let before = marks(&bus);
    for party in 0..4 {
        for value in 0..2 {
            bus.call(LISTEN, party, value, 0);
            bus.call(TALK, party, value, 0);
            bus.call(POLL, party, value, 0);
        }
        bus.call(READ, party, 0, 0);
    }
    bus.call(LINES, 0, 0, 0);
    assert_eq!(marks(&bus), before);
}

#[test]
fn control_passes_to_an_extended_talker() {
    let mut bus = after(&[0x42, 0x6C]);
    bus.call(WRITE, 0, 0x09, 0);
    assert!(bus.walk_until(|event| event == Event::Passed));
    assert!(bus.bus.parties[1].is_active());
    assert_eq!(marks(&bus), [None; 4]);
    send(&mut bus, &[0x42, 0x6D]);
    assert_eq!(flags(&bus), "..T.");
}

#[test]
fn an_extended_talker_sends_to_an_extended_listener() {
    let mut bus = after(&[0x22, 0x6D, 0x42, 0x6C]);
    assert_eq!(flags(&bus), ".TL.");
    bus.call(STANDBY, 0, 0, 0);
    bus.call(WRITE, 1, 0x41, 1);
    assert!(bus.walk_until(Event::is_end));
    let read = Answer::with_byte(Event::Read, 0x41, true);
    assert_eq!(bus.call(READ, 2, 0, 0), read);
}

#[test]
fn an_extended_talker_is_polled() {
    let mut bus = under_control(&RACK);
    bus.call(POLL, 2, 0x41, 0);
    send(&mut bus, &[0x21, 0x18, 0x42, 0x6D]);
    bus.call(STANDBY, 0, 0, 0);
    assert!(bus.walk_until(Event::is_end));
    let read = Answer::with_byte(Event::Read, 0x41, false);
    assert_eq!(bus.call(READ, 0, 0, 0), read);
}

/// A refused build leaves the bus of no parties.
fn built_from(addresses: &[u8], secondaries: &[Option<u8>]) -> bool {
    let mut bus = after(&[0x42]).bus;
    let lists = Lists {
        addresses: addresses.to_vec(),
        secondaries: secondaries.to_vec(),
    };
    let answer = bus.build_extended(&lists, 0);
    let refused = Answer::refused(Refusal::BadBuild);
    assert_eq!(bus == Bus::new(), answer == refused);
    answer == Answer::NOTHING
}

fn built(names: &[Name]) -> bool {
    let Lists {
        addresses,
        secondaries,
    } = Lists::of(names);
    built_from(&addresses, &secondaries)
}

#[test]
fn parties_that_go_beside_each_other() {
    let (plain, extended) = (Name::plain, Name::extended);
    assert!(built(&[extended(2, 12), extended(2, 13)]));
    assert!(built(&[extended(2, 12), extended(3, 12), plain(4)]));
    assert!(built(&[extended(0, 0)]) && built(&[extended(30, 30)]));
    assert!(built(
        &(0..15).map(|own| extended(7, own)).collect::<Vec<_>>()
    ));
    assert!(!built(&[extended(2, 12), extended(2, 12)]));
    assert!(!built(&[extended(2, 12), plain(2)]));
    assert!(!built(&[plain(2), extended(2, 12)]));
    assert!(!built(&[plain(2), plain(2)]));
    assert!(!built(&[extended(2, 31)]) && !built(&[extended(2, 255)]));
    assert!(!built(&[extended(31, 2)]));
    assert!(!built(
        &(0..16).map(|own| extended(7, own)).collect::<Vec<_>>()
    ));
    assert!(!built(&[]));
}

#[test]
fn a_list_of_secondaries_is_empty_or_as_long_as_that_of_the_addresses() {
    let given = [Some(1), None, Some(3), Some(4)];
    assert!(built_from(&[5, 6, 7], &[]));
    assert!(!built_from(&[5, 6, 7], &given[..1]));
    assert!(!built_from(&[5, 6, 7], &given[..2]));
    assert!(built_from(&[5, 6, 7], &given[..3]));
    assert!(!built_from(&[5, 6, 7], &given));
    // Entries that say none are entries.
    assert!(!built_from(&[5, 6, 7], &[None; 2]) && !built_from(&[5, 6, 7], &[None; 4]));
    assert!(built_from(&[5, 6, 7], &[None; 3]));
    assert!(!built_from(&[5], &[None; 2]) && !built_from(&[], &[None]));
    // Without secondaries no primary is shared.
    assert!(built_from(&[5, 5], &given[2..]) && !built_from(&[5, 5], &[]));
}

#[test]
fn a_build_names_its_parties() {
    let bus = after(&[0x42, 0x6C]).bus;
    let names: Vec<Option<Name>> = (0..5).map(|party| bus.name(party)).collect();
    assert_eq!(names[..4], RACK.map(Some));
    assert_eq!(names[4], None);
    assert_eq!(Bus::new().name(0), None);
}
