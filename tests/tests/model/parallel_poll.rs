//! Parallel polls on the model, worked out from document 02's Q-8.

use meskvorn_tests::lists::composer::Composer;
use meskvorn_tests::model::registers::{SET, SIC, SWRST};
use meskvorn_tests::model::script::{
    CLEAR, LAST_OPERATION, LISTEN, RESET, STANDBY, TAKE, TALK, WRITE,
};
use meskvorn_tests::model::{Answer, Bus, Event, Mark, Name, Refusal};

const NOTHING: Answer = Answer::NOTHING;

/// Party 0 at address 1 controls; party 1 at 2/12, party 2 at 2/13, party 3 at address 3.
const RACK: [Name; 4] = [
    Name::plain(1),
    Name::extended(2, 12),
    Name::extended(2, 13),
    Name::plain(3),
];

fn refused(refusal: Refusal) -> Answer {
    Answer::refused(refusal)
}

fn lines(byte: u8) -> Answer {
    Answer::with_byte(Event::Lines, byte, false)
}

fn send(bus: &mut Composer, commands: &[u8]) {
    for command in commands {
        assert!(bus.command(*command), "{command:02x}");
    }
}

/// The rack under control, after these commands.
fn after(commands: &[u8]) -> Composer {
    let mut bus = Composer::new();
    assert_eq!(bus.build(&RACK, 0), NOTHING);
    assert_eq!(bus.call(CLEAR, 0, 0, 0), NOTHING);
    send(&mut bus, commands);
    bus
}

/// A poll by party 0.
fn poll(bus: &mut Composer) -> u8 {
    let before = bus.bus;
    let answer = bus.parallel_poll(0);
    assert_eq!(answer, lines(answer.byte));
    assert_eq!(bus.bus, before);
    answer.byte
}

fn polled_after(commands: &[u8]) -> u8 {
    poll(&mut after(commands))
}

/// With the own status of these parties 1.
fn polled_with(commands: &[u8], ones: &[u8]) -> u8 {
    let mut bus = after(commands);
    for party in ones {
        assert_eq!(bus.own_status(*party, 1), NOTHING);
    }
    poll(&mut bus)
}

/// Party 3 alone listens and hears PPC.
const CONFIGURING: [u8; 3] = [0x3F, 0x23, 0x05];

fn configured_by(codes: &[u8]) -> Composer {
    after(&[&CONFIGURING[..], codes].concat())
}

/// The polls with the status of party 3 at 0 and at 1.
fn polls(bus: &mut Composer) -> [u8; 2] {
    [0, 1].map(|value| {
        assert_eq!(bus.own_status(3, value), NOTHING);
        poll(bus)
    })
}

#[test]
fn nobody_answers_who_has_no_response() {
    assert_eq!(polled_after(&[]), 0);
    assert_eq!(polled_with(&[], &[0, 1, 2, 3]), 0);
    assert_eq!(polls(&mut configured_by(&[])), [0, 0]);
}

#[test]
fn the_low_three_bits_are_the_line_minus_one_and_bit_8_the_sense() {
    let lines = [0x01, 0x02, 0x04, 0x08, 0x10, 0x20, 0x40, 0x80];
    for (code, line) in (0x60..0x68).zip(lines) {
        assert_eq!(polls(&mut configured_by(&[code])), [line, 0], "{code:02x}");
        assert_eq!(polls(&mut configured_by(&[code | 0x80])), [line, 0]);
    }
    for (code, line) in (0x68..0x70).zip(lines) {
        assert_eq!(polls(&mut configured_by(&[code])), [0, line], "{code:02x}");
    }
}

#[test]
fn codes_70_to_7f_remove_the_response() {
    for code in 0x70..=0x7F {
        assert_eq!(polls(&mut configured_by(&[0x62, code])), [0, 0]);
        // The mark outlasts them.
        assert_eq!(polls(&mut configured_by(&[code, 0x62])), [0x04, 0]);
    }
}

#[test]
fn a_second_code_replaces_the_first() {
    assert_eq!(polls(&mut configured_by(&[0x62, 0x69])), [0, 0x02]);
    assert_eq!(polls(&mut configured_by(&[0x70, 0x6F, 0x60])), [0x01, 0]);
}

#[test]
fn ppc_marks_those_who_listen() {
    // 2/12 and party 3 listen, 2/13 and the controller do not.
    let mut bus = after(&[0x22, 0x6C, 0x23, 0x05]);
    let configuring = Some(Mark::Configuring);
    let marks = |bus: &Composer| bus.bus.parties.map(|party| party.mark)[..4].to_vec();
    assert_eq!(marks(&bus), [None, configuring, None, configuring]);
    send(&mut bus, &[0x68]);
    for (party, byte) in [(0, 0), (2, 0), (1, 1)] {
        bus.own_status(party, 1);
        assert_eq!(poll(&mut bus), byte);
    }
    bus.own_status(1, 0);
    assert_eq!(poll(&mut bus), 0);
    bus.own_status(3, 1);
    assert_eq!(poll(&mut bus), 1);
}

#[test]
fn a_party_without_ppc_or_without_listening_is_not_configured() {
    assert_eq!(polled_after(&[0x23, 0x60]), 0);
    assert_eq!(polled_after(&[0x05, 0x60]), 0);
    assert_eq!(polled_after(&[0x05, 0x23, 0x60]), 0);
    assert_eq!(polled_after(&[0x43, 0x05, 0x60]), 0);
    assert_eq!(polled_after(&[0x23, 0x3F, 0x05, 0x60]), 0);
}

#[test]
fn any_other_primary_command_ends_configuring() {
    for code in (0x00..0x60).filter(|code| *code != 0x05) {
        assert_eq!(polls(&mut configured_by(&[code, 0x61])), [0, 0]);
        assert_eq!(polls(&mut configured_by(&[code | 0x80, 0x69])), [0, 0]);
        let kept = if code == 0x15 { [0, 0] } else { [0x08, 0] };
        assert_eq!(polls(&mut configured_by(&[0x63, code, 0x71])), kept);
    }
    assert_eq!(polls(&mut configured_by(&[0x05, 0x61])), [0x02, 0]);
}

#[test]
fn ppc_takes_configuring_from_nobody() {
    // A listener that hears it again, and one that does not listen any more.
    assert_eq!(polls(&mut configured_by(&[0x60, 0x05, 0x61])), [0x02, 0]);
    let mut bus = configured_by(&[]);
    bus.call(LISTEN, 3, 0, 0);
    send(&mut bus, &[0x05, 0x61]);
    assert_eq!(polls(&mut bus), [0x02, 0]);
    let mut bus = configured_by(&[]);
    bus.call(CLEAR, 0, 0, 0);
    send(&mut bus, &[0x05, 0x6A]);
    assert_eq!(polls(&mut bus), [0, 0x04]);
}

#[test]
fn ppc_is_a_primary_command_and_clears_the_other_marks() {
    // Not listening: the secondary after it finds no mark.
    let bus = after(&[0x42, 0x05, 0x6C]);
    assert!(!bus.bus.parties[1].talk);
    let bus = after(&[0x22, 0x05, 0x6C]);
    assert!(!bus.bus.parties[1].listen);
    // Listening, and talk primary: the own secondary is no address, and no other ends talking.
    let mut bus = after(&[0x22, 0x6C, 0x42, 0x05, 0x6C]);
    assert!(!bus.bus.parties[1].talk && bus.bus.parties[1].listen);
    bus.own_status(1, 1);
    assert_eq!(poll(&mut bus), 0x10);
}

/// A talker that was configured before: its mark is not talk primary.
#[test]
fn a_secondary_while_configuring_is_not_an_address() {
    let mut bus = after(&[0x22, 0x6C, 0x05]);
    bus.call(STANDBY, 0, 0, 0);
    bus.call(LISTEN, 1, 0, 0);
    assert_eq!(bus.call(TALK, 1, 1, 0), NOTHING);
    bus.call(TAKE, 0, 0, 0);
    send(&mut bus, &[0x6D, 0x7C]);
    assert!(bus.bus.parties[1].talk && !bus.bus.parties[1].listen);
    send(&mut bus, &[0x6C]);
    assert!(bus.bus.parties[1].talk && !bus.bus.parties[1].listen);
    bus.own_status(1, 1);
    assert_eq!(poll(&mut bus), 0x10);
    // After another primary command secondaries are addresses again.
    send(&mut bus, &[0x22, 0x6C]);
    assert!(!bus.bus.parties[1].talk && bus.bus.parties[1].listen);
    assert_eq!(poll(&mut bus), 0x10);
}

#[test]
fn ppu_removes_the_response_of_all() {
    let responses = [0x23, 0x22, 0x6C, 0x05, 0x60, 0x3F, 0x21, 0x05, 0x61];
    assert_eq!(polled_after(&responses), 0x03);
    let with = |commands: &[u8]| polled_after(&[&responses, commands].concat());
    // Party 0 listens and is its sender; the others do not listen.
    assert_eq!(with(&[0x15]), 0);
    assert_eq!(with(&[0x3F, 0x95]), 0);
    assert_eq!(with(&[0x23, 0x15]), 0);
    // It ends configuring too.
    assert_eq!(with(&[0x15, 0x62]), 0);
}

#[test]
fn ppc_and_ppu_have_the_event_heard() {
    for (commands, byte) in [(&[][..], 0x05), (&[0x23][..], 0x85), (&[0x23][..], 0x15)] {
        let mut bus = after(commands);
        bus.call(WRITE, 0, byte, 0);
        assert!(bus.walk_until(Event::is_put));
        for party in 1..4 {
            let heard = Answer::with_byte(Event::Heard, byte, false);
            assert_eq!(bus.step(party), heard);
            bus.step(party);
        }
        let ended = Answer::with_byte(Event::Ended, byte, false);
        assert_eq!(bus.step(0), ended);
    }
}

#[test]
fn the_sender_configures_itself_when_its_command_ends() {
    let mut bus = after(&[0x21, 0x05]);
    assert_eq!(bus.bus.parties[0].mark, Some(Mark::Configuring));
    bus.call(WRITE, 0, 0x6F, 0);
    assert!(bus.walk_until(Event::is_put));
    assert_eq!(bus.bus.parties[0].response, None);
    assert!(bus.walk_until(Event::is_end));
    assert_eq!(poll(&mut bus), 0);
    bus.own_status(0, 1);
    assert_eq!(poll(&mut bus), 0x80);
}

#[test]
fn a_line_is_on_if_some_party_of_it_is() {
    // Parties 0 and 3 on line 2 with sense 1, party 1 on line 2 with sense 0, party 2 on line 5.
    let rack = [
        0x21, 0x23, 0x05, 0x69, 0x3F, 0x22, 0x6C, 0x05, 0x61, 0x3F, 0x22, 0x6D, 0x05, 0x6C,
    ];
    for (ones, byte) in [
        (&[][..], 0x02),
        (&[1], 0x00),
        (&[0, 1], 0x02),
        (&[1, 3], 0x02),
        (&[0, 1, 3], 0x02),
        (&[0, 3], 0x02),
        (&[1, 2], 0x10),
        (&[0, 1, 2, 3], 0x12),
    ] {
        assert_eq!(polled_with(&rack, ones), byte, "{ones:?}");
    }
}

/// What leaves configuring and the response, with party 0 active again after it.
const KEEPERS: [fn(&mut Composer); 8] = [
    |bus| _ = bus.call(CLEAR, 0, 0, 0),
    |bus| _ = bus.auxiliary(0, SIC | SET),
    |bus| {
        bus.call(STANDBY, 0, 0, 0);
        bus.call(TAKE, 0, 0, 0);
    },
    |bus| {
        bus.call(RESET, 0, 0, 0);
        bus.call(CLEAR, 0, 0, 0);
    },
    |bus| _ = bus.call(RESET, 1, 0, 0),
    |bus| {
        bus.call(LISTEN, 3, 0, 0);
        bus.call(LISTEN, 3, 1, 0);
    },
    |bus| {
        bus.own_status(3, 1);
        bus.parallel_poll(0);
    },
    |bus| {
        // A data byte to party 3.
        bus.call(STANDBY, 0, 0, 0);
        bus.call(TALK, 0, 1, 0);
        bus.call(WRITE, 0, 0x41, 1);
        assert!(bus.walk_until(Event::is_end));
        bus.call(TALK, 0, 0, 0);
        bus.call(TAKE, 0, 0, 0);
    },
];

#[test]
fn attention_and_interface_clear_leave_configuring_and_the_response() {
    for keep in KEEPERS {
        let mut bus = configured_by(&[0x63]);
        keep(&mut bus);
        assert_eq!(polls(&mut bus), [0x08, 0]);
        let mut bus = configured_by(&[]);
        keep(&mut bus);
        send(&mut bus, &[0x63]);
        assert_eq!(polls(&mut bus), [0x08, 0]);
    }
}

/// TCT and the talk address are primary commands, so that they end configuring and leave responses.
#[test]
fn passed_control_leaves_the_response_and_the_new_controller_polls() {
    let mut bus = configured_by(&[0x63, 0x42, 0x6C]);
    bus.call(WRITE, 0, 0x09, 0);
    assert!(bus.walk_until(|event| event == Event::Passed));
    assert_eq!(bus.parallel_poll(0), refused(Refusal::Role));
    assert_eq!(bus.parallel_poll(1), lines(0x08));
    send(&mut bus, &[0x62]);
    assert_eq!(bus.parallel_poll(1), lines(0x08));
}

#[test]
fn reset_removes_the_response_and_the_mark_and_keeps_the_status() {
    for by_register in [false, true] {
        let reset = |bus: &mut Composer| {
            let answer = if by_register {
                bus.auxiliary(3, SWRST | SET)
            } else {
                bus.call(RESET, 3, 0, 0)
            };
            assert_eq!(answer, NOTHING);
        };
        let mut bus = configured_by(&[0x63]);
        reset(&mut bus);
        assert_eq!(polls(&mut bus), [0, 0]);
        let mut bus = configured_by(&[]);
        reset(&mut bus);
        send(&mut bus, &[0x63]);
        assert_eq!(polls(&mut bus), [0, 0]);
        let mut bus = after(&[]);
        bus.own_status(3, 1);
        reset(&mut bus);
        send(&mut bus, &[0x23, 0x05, 0x6B]);
        assert_eq!(poll(&mut bus), 0x08);
    }
}

#[test]
fn a_build_has_status_0_and_no_response() {
    let mut bus = configured_by(&[0x60]);
    bus.own_status(3, 1);
    assert_eq!(bus.build(&RACK, 0), NOTHING);
    bus.call(CLEAR, 0, 0, 0);
    assert_eq!(bus.bus, after(&[]).bus);
    assert_eq!(poll(&mut bus), 0);
    send(&mut bus, &[0x60]);
    assert_eq!(poll(&mut bus), 0);
    send(&mut bus, &[0x23, 0x05, 0x60]);
    assert_eq!(poll(&mut bus), 0x01);
}

#[test]
fn polls_are_refused_in_order() {
    let mut bus = configured_by(&[0x60]);
    let [party, role, standing] = [Refusal::NoParty, Refusal::Role, Refusal::Standing].map(refused);
    for number in [4, 15, 255] {
        assert_eq!(bus.parallel_poll(number), party);
    }
    assert_eq!(bus.parallel_poll(3), role);
    // A held byte does not stand.
    bus.call(WRITE, 0, 0x61, 0);
    assert_eq!(bus.parallel_poll(0), lines(0x01));
    assert!(bus.walk_until(Event::is_put));
    let before = bus.bus;
    assert_eq!(bus.parallel_poll(0), standing);
    assert_eq!(bus.parallel_poll(3), role);
    assert_eq!(bus.bus, before);
    assert!(bus.walk_until(Event::is_end));
    assert_eq!(bus.parallel_poll(0), lines(0x02));
    bus.call(STANDBY, 0, 0, 0);
    assert_eq!(bus.parallel_poll(0), role);
    assert_eq!(Bus::new().parallel_poll(0), party);
}

#[test]
fn statuses_are_refused_in_order() {
    let mut bus = configured_by(&[0x68]);
    assert_eq!(bus.own_status(3, 1), NOTHING);
    let before = bus.bus;
    for value in [2, 3, 128, 255] {
        assert_eq!(bus.own_status(3, value), refused(Refusal::BadValue));
        assert_eq!(bus.own_status(4, value), refused(Refusal::NoParty));
    }
    assert_eq!(bus.own_status(4, 0), refused(Refusal::NoParty));
    assert_eq!(bus.bus, before);
    assert_eq!(poll(&mut bus), 0x01);
    assert_eq!(Bus::new().own_status(0, 1), refused(Refusal::NoParty));
}

#[test]
fn no_operation_of_a_script_stands_for_them() {
    for operation in LAST_OPERATION + 1..=u8::MAX {
        let answer = configured_by(&[0x60]).call(operation, 0, 1, 0);
        assert_eq!(answer, refused(Refusal::BadValue));
    }
}
