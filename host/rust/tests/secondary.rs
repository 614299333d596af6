//! Secondary addresses; what is expected is worked out from document 01 and from document 02's Q-3.

use meskvorn::{Answer, Bus, Event, Name, Refusal};

const PARTIES: u8 = 4;

const RACK: [Name; PARTIES as usize] = [
    Name::plain(1),
    Name::extended(2, 12),
    Name::extended(2, 13),
    Name::plain(3),
];

/// Party 0 is the system party, and active.
fn under_control() -> Bus {
    let (mut bus, answer) = Bus::build_extended(&RACK, 0);
    assert_eq!(answer.refusal, Refusal::Accepted);
    assert_eq!(bus.interface_clear(0).refusal, Refusal::Accepted);
    bus
}

/// The active party 0 sends these commands, each to its end.
fn send(bus: &mut Bus, commands: &[u8]) {
    for command in commands {
        assert_eq!(bus.write(0, *command, false).refusal, Refusal::Accepted);
        bus.give_turns(4 * u16::from(PARTIES));
        // ATN, and NRFD and NDAC of the parties in ANRS.
        assert_eq!(bus.lines().byte, 0xb0, "{command:02x}");
    }
}

/// For each party T if it talks, L if it listens, else a dot. Listen-only is refused with 4 to a
/// talker, and talk-only to a listener.
fn roles(bus: &Bus) -> String {
    let role = |party| {
        let talks = bus.clone().listen_only(party, true).refusal == Refusal::Role;
        let listens = bus.clone().talk_only(party, true).refusal == Refusal::Role;
        match (talks, listens) {
            (true, _) => 'T',
            (_, true) => 'L',
            _ => '.',
        }
    };
    (0..PARTIES).map(role).collect()
}

fn roles_after(commands: &[u8]) -> String {
    let mut bus = under_control();
    send(&mut bus, commands);
    roles(&bus)
}

#[test]
fn two_bytes_address_a_party() {
    assert_eq!(roles_after(&[0x42]), "....");
    assert_eq!(roles_after(&[0x22]), "....");
    assert_eq!(roles_after(&[0x42, 0x6c]), ".T..");
    assert_eq!(roles_after(&[0x22, 0x6d]), "..L.");
    assert_eq!(roles_after(&[0x22, 0x6d, 0x42, 0x6c]), ".TL.");
    assert_eq!(roles_after(&[0x43, 0x6c]), "...T");
}

#[test]
fn talk_moves_and_ends() {
    assert_eq!(roles_after(&[0x42, 0x6c, 0x6d]), "..T.");
    assert_eq!(roles_after(&[0x42, 0x6c, 0x6e]), "....");
    assert_eq!(roles_after(&[0x22, 0x6c, 0x6e]), ".L..");
    assert_eq!(roles_after(&[0x42, 0x6c, 0x43]), "...T");
    assert_eq!(roles_after(&[0x42, 0x6c, 0x5f]), "....");
}

#[test]
fn a_primary_command_between_costs_the_mark_and_7f_does_not() {
    assert_eq!(roles_after(&[0x42, 0x14, 0x6c]), "....");
    assert_eq!(roles_after(&[0x42, 0x6c, 0x14, 0x6d]), ".T..");
    assert_eq!(roles_after(&[0x42, 0x7f, 0x6c]), ".T..");
    assert_eq!(roles_after(&[0x42, 0x22, 0x6c]), ".L..");
}

#[test]
fn attention_and_reset_cost_the_mark() {
    let between: [fn(&mut Bus) -> Answer; 3] = [
        |bus| bus.go_to_standby(0),
        |bus| bus.interface_clear(0),
        |bus| bus.reset(1),
    ];
    for call in between {
        let mut bus = under_control();
        send(&mut bus, &[0x42]);
        assert_eq!(call(&mut bus).refusal, Refusal::Accepted);
        // After the standby control is taken again; elsewhere that is refused.
        bus.take_control(0);
        send(&mut bus, &[0x6c]);
        assert_eq!(roles(&bus), "....");
    }
    let mut bus = under_control();
    send(&mut bus, &[0x42]);
    bus.reset(1);
    send(&mut bus, &[0x6d]);
    assert_eq!(roles(&bus), "..T.");
}

#[test]
fn a_secondary_is_heard_and_a_sender_hears_its_own() {
    let names = [Name::extended(2, 12), Name::extended(2, 13)];
    let (mut bus, _) = Bus::build_extended(&names, 0);
    bus.interface_clear(0);
    bus.write(0, 0x42, false);
    bus.give_turns(8);
    bus.write(0, 0x6c, false);
    for (party, event) in [
        (0, Event::Moved),
        (1, Event::Moved),
        (0, Event::Cmd),
        (1, Event::Heard),
        (1, Event::Moved),
    ] {
        assert_eq!(bus.step(party).event, event);
    }
    assert_eq!(bus.clone().listen_only(0, true).refusal, Refusal::Accepted);
    assert_eq!(bus.step(0).event, Event::Ended);
    assert_eq!(bus.listen_only(0, true).refusal, Refusal::Role);
}

#[test]
fn control_passes_to_an_extended_talker() {
    let mut bus = under_control();
    send(&mut bus, &[0x42, 0x6c, 0x09]);
    assert_eq!(bus.go_to_standby(0).refusal, Refusal::Role);
    assert_eq!(bus.go_to_standby(1).refusal, Refusal::Accepted);
}

fn built(names: &[Name]) -> Refusal {
    let (bus, answer) = Bus::build_extended(names, 0);
    let no_parties = bus == Bus::default();
    assert_eq!(no_parties, answer.refusal == Refusal::BadBuild);
    answer.refusal
}

#[test]
fn builds_accepted_and_refused() {
    let (plain, extended) = (Name::plain, Name::extended);
    let at_one_primary: Vec<Name> = (0..16).map(|own| extended(9, own)).collect();
    for names in [
        &[extended(2, 12), extended(2, 13)][..],
        &[extended(2, 12), extended(3, 12)],
        &[extended(30, 30), extended(30, 0), plain(0)],
        &at_one_primary[..15],
    ] {
        assert_eq!(built(names), Refusal::Accepted, "{names:?}");
    }
    for names in [
        &[extended(2, 12), extended(2, 12)][..],
        &[extended(2, 12), plain(2)],
        &[plain(2), extended(2, 12)],
        &[plain(2), plain(2)],
        &[extended(2, 31)],
        &[extended(2, 254)],
        &[extended(2, 255)],
        &[plain(2), extended(3, 255)],
        &[extended(31, 2)],
        &at_one_primary,
        &[],
    ] {
        assert_eq!(built(names), Refusal::BadBuild, "{names:?}");
    }
}

#[test]
fn a_build_names_its_parties() {
    let mut bus = under_control();
    send(&mut bus, &[0x42, 0x6c, 0x22]);
    for (party, name) in (0..).zip(RACK) {
        assert_eq!(bus.name(party), Some(name));
    }
    for party in [PARTIES, 15, 255] {
        assert_eq!(bus.name(party), None);
    }
    assert_eq!(Bus::default().name(0), None);
}

#[test]
fn a_build_leaves_nothing_of_the_bus_before() {
    let mut bus = under_control();
    send(&mut bus, &[0x42]);
    assert_eq!(bus.rebuild(&[5, 2], 0).refusal, Refusal::Accepted);
    assert_eq!(bus, Bus::build(&[5, 2], 0).0);
    assert_eq!(bus.name(1), Some(Name::plain(2)));
    let pair = [Name::extended(2, 1), Name::extended(2, 2)];
    assert_eq!(bus.rebuild_extended(&pair, 1).refusal, Refusal::Accepted);
    assert_eq!(bus, Bus::build_extended(&pair, 1).0);
    assert_eq!(bus.name(1), Some(pair[1]));
}

#[test]
fn without_secondaries_both_builds_are_one() {
    let addresses: Vec<u8> = (10..25).rev().collect();
    let names: Vec<Name> = addresses.iter().copied().map(Name::plain).collect();
    assert_eq!(Bus::build(&addresses, 3), Bus::build_extended(&names, 3));
    assert_eq!(
        Bus::build(&[7, 7], 0),
        Bus::build_extended(&[Name::plain(7); 2], 0)
    );
    assert_eq!(Bus::build(&[], 0).0, Bus::default());
}
