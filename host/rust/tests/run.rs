//! Scripts: the text that document 01 gives, the room that it has to have, and a buffer without that
//! room, which is left as it was.

use meskvorn::run;

const WORKED: [[u8; 4]; 12] = [
    [0, 0, 2, 5],
    [6, 0, 1, 0],
    [5, 1, 1, 0],
    [2, 0, 0x41, 1],
    [1, 0, 0, 0],
    [1, 1, 0, 0],
    [1, 0, 0, 0],
    [1, 1, 0, 0],
    [1, 0, 0, 0],
    [1, 1, 0, 0],
    [1, 0, 0, 0],
    [3, 1, 0, 0],
];

const WORKED_TEXT: &str =
    "1 0 none -- 0 0 0\n2 0 none -- 0 0 0\n3 0 none -- 0 0 0\n4 0 none -- 0 0 0\n\
    5 0 moved -- 0 0 0\n6 0 moved -- 0 0 0\n7 0 data 41 1 0 0\n8 0 took 41 1 0 0\n\
    9 0 none -- 0 0 0\n10 0 moved -- 0 0 0\n11 0 ended 41 1 0 0\n12 0 read 41 1 0 0\n";

fn worked() -> Vec<u8> {
    WORKED
        .iter()
        .flat_map(|call| [&[0x47, 0x42], &call[..]].concat())
        .collect()
}

#[test]
fn the_worked_script_gives_its_text_and_nothing_past_it() {
    let mut out = [0x55; 12 * 34];
    let written = run(&worked(), &mut out).expect("34 bytes for each record");
    assert_eq!(&out[..written], WORKED_TEXT.as_bytes());
    assert!(out[written..].iter().all(|&byte| byte == 0x55));
}

#[test]
fn too_small_a_buffer_is_answered_and_untouched() {
    for room in 0..12 * 34 {
        let mut out = vec![0x55; room];
        assert_eq!(run(&worked(), &mut out), None, "room {room}");
        assert!(out.iter().all(|&byte| byte == 0x55), "room {room}");
    }
}

/// Runs the script in this room; what is behind it is not lent. The text, if there was room.
#[track_caller]
fn run_in(script: &[u8], room: usize) -> Option<String> {
    let mut buffer = vec![0x55; room + 100];
    let written = run(script, &mut buffer[..room]);
    let text = buffer.drain(..written.unwrap_or(0)).collect();
    assert!(buffer.iter().all(|&byte| byte == 0x55), "room {room}");
    written.map(|_| String::from_utf8(text).expect("text"))
}

/// How many lines a script of so many bytes has, and the last of them.
#[test]
fn the_room_is_34_bytes_a_line() {
    let script = [0x47, 0x42, 12, 0, 0, 0].repeat(10_923);
    for (length, lines, last) in [
        (0, 0, None),
        (1, 1, Some("1 10 none -- 0 0 0")),
        (6, 1, Some("1 0 lines 00 0 0 0")),
        (7, 2, Some("2 10 none -- 0 0 0")),
        (65_531, 10_922, Some("10922 10 none -- 0 0 0")),
        (65_532, 10_922, Some("10922 0 lines 00 0 0 0")),
        (65_533, 1, Some("0 10 none -- 0 0 0")),
        (65_538, 1, Some("0 10 none -- 0 0 0")),
    ] {
        let script = &script[..length];
        let text = run_in(script, 34 * lines).expect("34 bytes a line");
        assert_eq!(text.lines().count(), lines, "length {length}");
        assert_eq!(text.lines().last(), last);
        if lines > 0 {
            assert_eq!(run_in(script, 34 * lines - 1), None, "length {length}");
        }
    }
}
