//! The safe implementation does the same as the second one: the comparison holds it to it, and so does what is timed.
//! Uses the comparison and the rows.

use crate::measure::outcome;
use crate::rows::rows;
use crate::safe::Safe;
use hop_harness::compare::compare;
use hop_harness::compare::options::{Amount, Options};
use hop_harness::second::Second;

/// So many cases of each random group, without some groups. One that fails is enough.
fn held(cases: u64, skip: &[&str]) {
    let skip = skip.iter().map(|name| name.to_string()).collect();
    let count = compare(&Safe, &Options { amount: Amount::Cases(cases), skip, first: true, ..Options::default() });
    assert_eq!(count.failed, 0);
    assert!(count.passed > 0);
}

/// What is quick comes first, so that an implementation that is wrong is soon seen to be.
#[test]
fn equals_the_second_implementation() {
    let program = ["program", "program-input"];
    let long = ["numbers", "two-nodes", "three-nodes", "every-node-count", "queue-places", "worth-node-counts"];
    held(8, &[&program[..], &long, &["why-node-counts", "route-node-counts"]].concat());
    held(40, &program);
}

/// The rows themselves, but for the largest: the second implementation takes long over these.
#[test]
fn rows_equal_the_second_implementation() {
    for row in [10, 20].into_iter().flat_map(rows) {
        assert!(outcome(&Safe, &row) == outcome(&Second, &row), "{}, n = {}", row.name, row.state[0]);
    }
}
