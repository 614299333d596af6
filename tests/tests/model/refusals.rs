//! Each refusal of document 01's table, and their order.

use crate::script_lines::{check, text, NONE};
use meskvorn_tests::lists::hex::records;
use meskvorn_tests::model::{Answer, Bus, Event, Refusal};

fn refused(number: &str) -> String {
    format!("{number} none -- 0 0 0")
}

/// Accepted calls, then one that is refused.
fn check_last(accepted: &str, last: &str, number: &str) {
    let wanted = refused(number);
    let mut pairs: Vec<(&str, &str)> = accepted
        .split_whitespace()
        .map(|call| (call, NONE))
        .collect();
    pairs.push((last, &wanted));
    check(&pairs);
}

#[test]
fn refusal_1_no_such_party() {
    for operation in (1..12).chain([13]) {
        check_last("00000205", &format!("{operation:02x}020000"), "1");
        check_last("00000205", &format!("{operation:02x}ff0000"), "1");
        check_last("", &format!("{operation:02x}000000"), "1");
    }
}

#[test]
fn lines_names_no_party() {
    check(&[("0cffffff", "0 lines 00 0 0 0"), ("00000205", NONE)]);
}

#[test]
fn refusal_2_bad_builds() {
    for build in [
        "00000005", "00001000", "0000ff00", "00000120", "0000021e", "00020205", "000102ff",
    ] {
        check_last("", build, "2");
    }
    let mut bus = Bus::new();
    let bad = Answer::refused(Refusal::BadBuild);
    assert_eq!(bus.build(&[5, 9, 5], 0), bad);
    assert_eq!(bus.build(&[30, 31], 0), bad);
    assert_eq!(bus.build(&[7], 1), bad);
    assert_eq!(bus.build(&[], 0), bad);
    assert_eq!(bus.build(&(0..16).collect::<Vec<u8>>(), 0), bad);
    assert_eq!(bus.build(&[30, 0, 12], 2), Answer::NOTHING);
}

#[test]
fn a_refused_build_leaves_no_parties() {
    check(&[
        ("00000205", NONE),
        ("00000005", &refused("2")),
        ("01000000", &refused("1")),
    ]);
    let mut bus = Bus::new();
    bus.build(&[4, 5], 1);
    bus.build(&[4, 4], 1);
    assert_eq!(bus, Bus::new());
}

#[test]
fn refusal_3_values_and_operations() {
    for call in [
        "0e000000", "ff000000", "02004102", "020041ff", "05000200", "06000200", "0500ff00",
        "0d000200", "0d01ff01",
    ] {
        check_last("00000205", call, "3");
    }
    check_last("", "0e000000", "3");
}

#[test]
fn refusal_4_roles() {
    check_last("00000205", "07000000", "4");
    check_last("00000205 09000000", "07000000", "4");
    check_last("00000205", "08000000", "4");
    check_last("00000205 09000000 08000000", "08000000", "4");
    check_last("00000205", "09010000", "4");
    check_last("00000205 06000100", "05000100", "4");
    check_last("00000205 05000100", "06000100", "4");
}

#[test]
fn refusal_5_talk_only_under_attention() {
    check_last("00000205 09000000", "06000100", "5");
    check_last("00000205 09000000", "06010100", "5");
    check(&[("00000205", NONE), ("09000000", NONE), ("06010000", NONE)]);
}

#[test]
fn refusal_6_another_talker() {
    check_last("00000205 06000100", "06010100", "6");
    check(&[
        ("00000205", NONE),
        ("06000100", NONE),
        ("06000100", NONE),
        ("06010000", NONE),
    ]);
}

#[test]
fn refusal_7_standing_command() {
    let start = "00000205 09000000 02003f00 01000000 01010000 01000000";
    for last in ["08000000", "0a000000"] {
        let out = text(&records(&format!("{start} {last}")).concat());
        assert_eq!(out.lines().last(), Some(&format!("7 {}", refused("7"))[..]));
    }
    // The other party may be reset, and the sender's own clear breaks the byte off.
    let out = text(&records(&format!("{start} 0a010000 09000000")).concat());
    let last: Vec<&str> = out.lines().skip(6).collect();
    assert_eq!(last, ["7 0 none -- 0 0 0", "8 0 none -- 0 0 1"]);
}

#[test]
fn refusal_8_full() {
    check_last("00000205 02004100", "02004200", "8");
    check(&[
        ("00000205", NONE),
        ("02004100", NONE),
        ("0b000000", "0 none -- 0 1 0"),
        ("0b000000", NONE),
        ("02004200", NONE),
    ]);
}

#[test]
fn refusal_9_empty() {
    check_last("00000205", "03000000", "9");
}

#[test]
fn refusal_10_bad_records() {
    let bad = |number: usize| format!("{number} 10 none -- 0 0 0\n");
    assert_eq!(text(&[]), "");
    for length in 1..6 {
        assert_eq!(text(&records("00000205")[0][..length]), bad(1));
    }
    for place in 0..2 {
        let mut script = records("00000205 01000000 01000000").concat();
        script[6 + place] ^= 0x20;
        assert_eq!(text(&script), format!("1 {NONE}\n{}", bad(2)));
    }
    let lines = records("0c000000")[0];
    let longest = lines.repeat(10_922);
    assert_eq!(longest.len(), 65_532);
    assert_eq!(
        text(&longest).lines().last(),
        Some("10922 0 lines 00 0 0 0")
    );
    for more in 1..8 {
        assert_eq!(
            text(&[&longest[..], &lines.repeat(2)[..more]].concat()),
            bad(0)
        );
    }
}

#[test]
fn order_of_refusals() {
    // A wrong mark before all else.
    assert_eq!(text(&[0, 0, 99, 99, 99, 99]), "1 10 none -- 0 0 0\n");
    // An unknown operation before the party.
    check_last("00000205", "0e090000", "3");
    // The party before values, values before 4 to 9.
    check_last("00000205", "05090200", "1");
    check_last("00000205", "02094102", "1");
    check_last("00000205", "0d090200", "1");
    check_last("00000205 02004100", "02004102", "3");
    check_last("00000205 05000100", "06000200", "3");
    check_last("00000205 06000100", "05000200", "3");
    // 4 before 5, 5 before 6.
    check_last("00000205 09000000 05010100", "06010100", "4");
    check_last("00000205 06000100 05010100", "06010100", "4");
    check_last("00000205", "08090000", "1");
}

#[test]
fn five_comes_before_six() {
    // Party 1 was made a talker by its address, so talk stays on under ATN.
    let calls = "00000305 09000000 02004600 01000000 01010000 01020000 01000000 01010000 01020000
        01010000 01020000 01000000 06020100 08000000 06020100";
    let out = text(&records(calls).concat());
    let last: Vec<&str> = out.lines().skip(11).collect();
    assert_eq!(last[0], "12 0 ended 46 0 0 0");
    assert_eq!(last[1], "13 5 none -- 0 0 0");
    assert_eq!(last[2], "14 0 none -- 0 0 0");
    assert_eq!(last[3], "15 6 none -- 0 0 0");
}

#[test]
fn numbers_and_words_keep_their_places() {
    for (number, refusal) in Refusal::ALL.iter().enumerate() {
        assert_eq!(*refusal as usize, number);
    }
    for (number, event) in Event::ALL.iter().enumerate() {
        assert_eq!(*event as usize, number);
        assert_eq!(event.has_byte(), number > 1);
    }
    assert_eq!(Event::Noacc.word(), "noacc");
    assert_eq!(Refusal::Full.word(), "FULL");
}
