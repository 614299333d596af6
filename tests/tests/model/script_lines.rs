//! Scripts in hexadecimal without their marks, and the lines that they give without their numbers.

use meskvorn_tests::lists::hex::records;
use meskvorn_tests::model::script;

pub fn text(script: &[u8]) -> String {
    let mut out = Vec::new();
    script::run(script, &mut out);
    String::from_utf8(out).unwrap()
}

/// Runs pairs of a call and the line expected of it, numbers left out.
pub fn check(pairs: &[(&str, &str)]) {
    let calls: Vec<&str> = pairs.iter().map(|pair| pair.0).collect();
    let out = text(&records(&calls.join(" ")).concat());
    let lines: Vec<&str> = out.lines().collect();
    assert_eq!(lines.len(), pairs.len(), "{out}");
    for (place, (call, wanted)) in pairs.iter().enumerate() {
        let wanted = format!("{} {wanted}", place + 1);
        assert_eq!(lines[place], wanted, "call {call}");
    }
}

pub const NONE: &str = "0 none -- 0 0 0";
pub const MOVED: &str = "0 moved -- 0 0 0";
