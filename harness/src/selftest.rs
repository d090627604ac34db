//! The second implementation against the documents' own numbers and 01's worked example. Needs no archive.

use crate::compare::Count;
use crate::numbers::{NUMBERS, same};
use crate::second::Second;
use crate::second::program::text;

/// Document 01's script and the whole of what the program prints for it.
const SCRIPT: [u8; 22] = [4, 0, 0x0f, 0, 2, 0, 6, 0, 0x10, 0, 0, 0, 1, 0, 2, 0, 0x13, 0, 2, 0, 0x13, 0];
const TEXT: &str = "\
event kind code queued
1 15 0 0
2 16 0 4
3 19 0 1
4 19 0 0
d 0 0 0 0
d 0 1 1 1
d 1 0 1 0
d 1 1 0 1
";

/// R-5's kind 20: 1 notices and 0 does not; the notice again, link up and a delivery are refused.
const NOTICED: [[u8; 8]; 4] =
    [[6, 0, 20, 0, 1, 0, 0, 0], [6, 0, 20, 0, 1, 0, 0, 0], [6, 0, 16, 0, 0, 0, 1, 0], [6, 0, 18, 0, 0, 0, 1, 0]];
const NOTICED_TEXT: &str = "\
event kind code queued
1 15 0 0
2 16 0 4
3 19 0 1
4 19 0 0
5 20 0 0
6 20 7 0
7 16 13 0
8 18 7 0
d 0 0 0 0
d 0 1 1 1
d 1 0 2 -
d 1 1 0 1
";

fn examples() -> Vec<(&'static str, Result<(), String>)> {
    let noticed = [&SCRIPT[..], NOTICED.as_flattened()].concat();
    vec![
        ("the program's worked example", same("text", text(&SCRIPT).as_str(), TEXT)),
        ("the program where one end notices", same("text", text(&noticed).as_str(), NOTICED_TEXT)),
        ("the program on empty input", same("text", text(&[]).as_str(), "event kind code queued\nd 0 0 0 0\n")),
    ]
}

/// Prints a line for each number and counts those that hold.
pub fn selftest() -> Count {
    let mut count = Count::default();
    let numbers = NUMBERS.iter().map(|(name, check)| (*name, check(&Second)));
    for (name, held) in numbers.chain(examples()) {
        match held {
            Ok(()) => {
                count.passed += 1;
                println!("{name}: holds");
            }
            Err(what) => {
                count.failed += 1;
                println!("{name}: FAILED\n  {what}");
            }
        }
    }
    count
}
