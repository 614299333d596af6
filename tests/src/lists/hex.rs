//! Records from hexadecimal digits, as tests write them.

use crate::model::script::{Record, MARK};

/// Records from words of eight digits: operation, party, value, extra.
pub fn records(calls: &str) -> Vec<Record> {
    let field = |call: &str, at: usize| u8::from_str_radix(&call[at..at + 2], 16).unwrap();
    calls
        .split_whitespace()
        .map(|call| {
            assert_eq!(call.len(), 8, "{call}");
            let [operation, party, value, extra] = [0, 2, 4, 6].map(|at| field(call, at));
            [MARK[0], MARK[1], operation, party, value, extra]
        })
        .collect()
}
