//! The examples P1 to P12 of document 01, with answers worked out from its text.

use crate::script_lines::{check, text, MOVED, NONE};
use meskvorn_tests::lists::hex::records;

const WORKED: &str = "00000205 06000100 05010100 02004101 01000000 01010000
    01000000 01010000 01000000 01010000 01000000 03010000";

#[test]
fn p1_the_worked_script() {
    let wanted = "1 0 none -- 0 0 0\n2 0 none -- 0 0 0\n3 0 none -- 0 0 0\n4 0 none -- 0 0 0\n\
        5 0 moved -- 0 0 0\n6 0 moved -- 0 0 0\n7 0 data 41 1 0 0\n8 0 took 41 1 0 0\n\
        9 0 none -- 0 0 0\n10 0 moved -- 0 0 0\n11 0 ended 41 1 0 0\n12 0 read 41 1 0 0\n";
    assert_eq!(text(&records(WORKED).concat()), wanted);
}

#[test]
fn p2_lines_after_record_8() {
    let mut first = records(WORKED);
    first.truncate(8);
    first.extend(records("0c000000"));
    let out = text(&first.concat());
    assert_eq!(out.lines().last(), Some("9 0 lines 78 0 0 0"));
}

/// A talker at party 0 and a listener at party 1 of three; byte 41 stands after these.
const STANDING: [(&str, &str); 7] = [
    ("00000305", NONE),
    ("06000100", NONE),
    ("05010100", NONE),
    ("02004101", NONE),
    ("01000000", MOVED),
    ("01010000", MOVED),
    ("01000000", "0 data 41 1 0 0"),
];

fn after_standing(more: &[(&str, &str)]) {
    check(&[&STANDING, more].concat());
}

#[test]
fn p3_a_joiner_under_dav_takes_the_next_byte_only() {
    after_standing(&[
        ("05020100", NONE),
        ("01020000", NONE),
        ("0c000000", "0 lines 78 0 0 0"),
        ("01010000", "0 took 41 1 0 0"),
        ("01010000", MOVED),
        ("01020000", NONE),
        ("01000000", "0 ended 41 1 0 0"),
        ("03020000", "9 none -- 0 0 0"),
        ("03010000", "0 read 41 1 0 0"),
        ("01010000", MOVED),
        ("01010000", MOVED),
        ("02004200", NONE),
        ("01000000", MOVED),
        ("01000000", NONE),
        ("01020000", MOVED),
        ("01000000", NONE),
        ("01020000", MOVED),
        ("01000000", "0 data 42 0 0 0"),
        ("01020000", "0 took 42 0 0 0"),
        ("03020000", "0 read 42 0 0 0"),
    ]);
}

#[test]
fn p4_off_and_on_again_takes_no_second_time() {
    after_standing(&[
        ("01010000", "0 took 41 1 0 0"),
        ("05010000", NONE),
        ("05010100", NONE),
        ("01010000", NONE),
        ("01000000", "0 ended 41 1 0 0"),
        ("01010000", MOVED),
        ("01010000", NONE),
        ("03010000", "0 read 41 1 0 0"),
        ("01010000", MOVED),
        ("01010000", NONE),
        ("03010000", "9 none -- 0 0 0"),
    ]);
}

#[test]
fn p5_a_byte_waits_for_the_slow_listener() {
    check(&[
        ("00000305", NONE),
        ("06000100", NONE),
        ("05010100", NONE),
        ("05020100", NONE),
        ("02004100", NONE),
        ("01000000", MOVED),
        ("01010000", MOVED),
        ("01000000", NONE),
        ("01020000", MOVED),
        ("01000000", "0 data 41 0 0 0"),
        ("01010000", "0 took 41 0 0 0"),
        ("01010000", MOVED),
        ("01000000", NONE),
        ("01020000", "0 took 41 0 0 0"),
        ("01000000", NONE),
        ("01020000", MOVED),
        ("01000000", "0 ended 41 0 0 0"),
    ]);
}

#[test]
fn p6_taking_control_breaks_the_byte_off() {
    check(&[
        ("00000405", NONE),
        ("09000000", NONE),
        ("08000000", NONE),
        ("06010100", NONE),
        ("05020100", NONE),
        ("05030100", NONE),
        ("02014100", NONE),
        ("01010000", MOVED),
        ("01020000", MOVED),
        ("01030000", MOVED),
        ("01010000", "0 data 41 0 0 0"),
        ("01020000", "0 took 41 0 0 0"),
        ("07000000", "0 none -- 0 0 1"),
        ("0c000000", "0 lines b0 0 0 0"),
        ("03020000", "0 read 41 0 0 0"),
        ("03030000", "9 none -- 0 0 0"),
        // In standby again, the talker has nothing left to put up.
        ("08000000", NONE),
        ("01010000", NONE),
        ("01010000", NONE),
        ("0b010000", NONE),
    ]);
}

#[test]
fn p7_no_listener() {
    check(&[
        ("00000205", NONE),
        ("06000100", NONE),
        ("02004101", NONE),
        ("01000000", MOVED),
        ("01000000", "0 noacc 41 1 0 0"),
        // Kept, until a listener has joined and takes it.
        ("01000000", "0 noacc 41 1 0 0"),
        ("02004200", "8 none -- 0 0 0"),
        ("05010100", NONE),
        ("01000000", NONE),
        ("01010000", MOVED),
        ("01000000", "0 data 41 1 0 0"),
        ("01010000", "0 took 41 1 0 0"),
        ("01010000", MOVED),
        ("01000000", "0 ended 41 1 0 0"),
        ("02004200", NONE),
    ]);
}

#[test]
fn p8_address_30_and_31() {
    check(&[
        ("0000011e", NONE),
        ("01000000", NONE),
        ("0000011f", "2 none -- 0 0 0"),
        ("01000000", "1 none -- 0 0 0"),
        ("0000021d", NONE),
        ("0000021e", "2 none -- 0 0 0"),
    ]);
}

#[test]
fn p9_15_and_16_parties() {
    check(&[
        ("00000f00", NONE),
        ("010e0000", NONE),
        ("010f0000", "1 none -- 0 0 0"),
        ("00001000", "2 none -- 0 0 0"),
        ("01000000", "1 none -- 0 0 0"),
        ("00000f10", NONE),
    ]);
}

/// Party 0 at address 4 is active and its command stands; party 1 has address 5.
const COMMAND_STANDS: [(&str, &str); 6] = [
    ("00000204", NONE),
    ("09000000", NONE),
    ("0200c501", NONE),
    ("01000000", MOVED),
    ("01010000", MOVED),
    ("01000000", "0 cmd c5 0 0 0"),
];

#[test]
fn p10_c5_is_talk_address_5() {
    let more = [
        ("0c000000", "0 lines e0 0 0 0"),
        ("01010000", "0 heard c5 0 0 0"),
        ("01010000", MOVED),
        ("01000000", "0 ended c5 0 0 0"),
        ("05010100", "4 none -- 0 0 0"),
        ("08000000", NONE),
        ("06000100", "6 none -- 0 0 0"),
        ("02014100", NONE),
        ("01010000", MOVED),
        ("01010000", "0 noacc 41 0 0 0"),
    ];
    check(&[&COMMAND_STANDS[..], &more].concat());
}

#[test]
fn p11_standby_under_a_standing_command() {
    let more = [
        ("08000000", "7 none -- 0 0 0"),
        ("0a000000", "7 none -- 0 0 0"),
        ("01010000", "0 heard c5 0 0 0"),
        ("01010000", MOVED),
        ("08000000", "7 none -- 0 0 0"),
        ("01000000", "0 ended c5 0 0 0"),
        ("08000000", NONE),
    ];
    check(&[&COMMAND_STANDS[..], &more].concat());
}

/// Party 0 at address 5 polls party 1 at address 6, whose register is given.
fn poll(register: &str, lines: [&str; 3], status: &str) {
    let value = format!("0401{register}00");
    let [free, active, polled] = lines.map(|bits| format!("0 lines {bits} 0 0 0"));
    let [stat, took, ended, read] =
        ["stat", "took", "ended", "read"].map(|event| format!("0 {event} {status} 0 0 0"));
    let mut pairs = vec![
        ("00000205", NONE),
        (&value[..], NONE),
        ("0c000000", &free[..]),
    ];
    pairs.extend([
        ("09000000", NONE),
        ("0c000000", &active[..]),
        ("05000100", NONE),
    ]);
    pairs.extend([("02001800", NONE), ("01000000", MOVED), ("01010000", MOVED)]);
    pairs.extend([
        ("01000000", "0 cmd 18 0 0 0"),
        ("01010000", "0 heard 18 0 0 0"),
    ]);
    pairs.extend([("01010000", MOVED), ("01000000", "0 ended 18 0 0 0")]);
    pairs.extend([("02004600", NONE), ("01000000", MOVED), ("01000000", NONE)]);
    pairs.extend([("01010000", MOVED), ("01010000", MOVED)]);
    pairs.extend([
        ("01000000", "0 cmd 46 0 0 0"),
        ("01010000", "0 heard 46 0 0 0"),
    ]);
    pairs.extend([("01010000", MOVED), ("01000000", "0 ended 46 0 0 0")]);
    pairs.extend([("08000000", NONE), ("0c000000", &polled[..])]);
    pairs.extend([
        ("01010000", MOVED),
        ("01000000", MOVED),
        ("01010000", &stat[..]),
    ]);
    pairs.extend([("01000000", &took[..]), ("01000000", MOVED)]);
    pairs.extend([("01010000", &ended[..]), ("03000000", &read[..])]);
    check(&pairs);
}

#[test]
fn p12_status_bytes() {
    poll("41", ["04", "b4", "30"], "41");
    poll("01", ["00", "b0", "30"], "01");
}

#[test]
fn control_passes_when_tct_ends_and_two_bytes_drop() {
    check(&[
        ("00000205", NONE),
        ("06010100", NONE),
        ("0201aa00", NONE),
        // A clear would turn talk off, so talk comes from the address.
        ("09000000", NONE),
        ("0b010000", "0 none -- 0 1 0"),
        ("02004600", NONE),
        ("01000000", MOVED),
        ("01010000", MOVED),
        ("01000000", "0 cmd 46 0 0 0"),
        ("01010000", "0 heard 46 0 0 0"),
        ("01010000", MOVED),
        ("01000000", "0 ended 46 0 0 0"),
        ("02000900", NONE),
        ("0201bb00", NONE),
        ("01000000", MOVED),
        ("01010000", MOVED),
        ("01010000", MOVED),
        ("01000000", "0 cmd 09 0 0 0"),
        ("0200cc00", NONE),
        ("01010000", "0 heard 09 0 0 0"),
        ("0c000000", "0 lines f0 0 0 0"),
        ("01010000", MOVED),
        ("01000000", "0 passed 09 0 2 0"),
        ("08000000", "4 none -- 0 0 0"),
        ("08010000", NONE),
        ("07000000", "4 none -- 0 0 0"),
        ("07010000", NONE),
    ]);
}
