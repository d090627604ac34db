//! One call on a state as a value, and what came of it. Uses the trait of the calls, and random numbers for what
//! stands in a trial and a list before it.

use super::random::Random;
use super::states::pairs;
use crate::engine::Engine;
use crate::second::rule::State;
use crate::second::stored::size;

/// A call on the state in a buffer, with so much room for a record, so many bytes for a trial and numbers for the lines,
/// or so many bytes for a list. What stands in trial and lists before it is random, and fixed by a seed.
#[derive(Clone, Copy, PartialEq, Eq, Debug)]
pub enum Call {
    Make { n: usize },
    Check,
    Up { a: usize, b: usize },
    Down { a: usize, b: usize },
    Notice { noticing: usize, other: usize },
    Deliver { from: usize, to: usize },
    Pass,
    Run { allowance: u8 },
    Route { node: usize, destination: usize },
    QueueLength { from: usize, to: usize },
    TotalQueued,
    Status { node: usize, room: usize },
    Worth { trial: usize, lines: usize, seed: u64 },
    Why { node: usize, destination: usize, room: usize, seed: u64 },
}

/// The number, then the other answers; 0 where a call has fewer.
pub type Answers = [u32; 3];

/// An output before a call: bytes that no record is likely to have.
pub fn blank(room: usize) -> Vec<u8> {
    (0..room).map(|place| 0xd0 ^ place as u8).collect()
}

/// A list that holds the reason of any node and destination of any state.
pub const ANY_REASON: usize = 40;

/// What the worth of a state needs: bytes for the trial, and seven numbers for each pair but those with one end up.
pub fn needed(state: &State) -> (usize, usize) {
    let with_line = pairs(state.n).into_iter().filter(|&(a, b)| !state.one_ended(a, b));
    (size(state.n), 7 * with_line.count())
}

impl Call {
    /// The worth of a state of n nodes, in a trial of exact size and a list that has room for every pair.
    pub fn worth(n: usize, seed: u64) -> Call {
        Call::Worth { trial: size(n), lines: 7 * pairs(n).len(), seed }
    }

    /// The worth of a state, in a trial and a list of exact size.
    pub fn worth_of(state: &State, seed: u64) -> Call {
        let (trial, lines) = needed(state);
        Call::Worth { trial, lines, seed }
    }

    /// The reason of a node and a destination, in a list that is long enough for any.
    pub fn why(node: usize, destination: usize) -> Call {
        Call::Why { node, destination, room: ANY_REASON, seed: node as u64 ^ (destination as u64).rotate_left(32) }
    }

    /// The call's output before it: room for a record, with bytes that no record is likely to have, a trial, or a list
    /// of bytes.
    pub fn blank(&self) -> Vec<u8> {
        match *self {
            Call::Status { room, .. } => blank(room),
            Call::Worth { trial, seed, .. } => Random::new(seed).bytes(trial),
            Call::Why { room, seed, .. } => Random::new(seed).bytes(room),
            _ => Vec::new(),
        }
    }

    /// The call's list of numbers before it.
    pub fn blank_list(&self) -> Vec<i32> {
        match *self {
            Call::Worth { lines, seed, .. } => Random::new(!seed).numbers(lines),
            _ => Vec::new(),
        }
    }

    /// Has a core do it, with an output, a trial or a list of bytes, and a list of numbers.
    pub fn on(&self, core: &dyn Engine, state: &mut [u8], out: &mut [u8], list: &mut [i32]) -> Answers {
        let number = |code: u32| [code, 0, 0];
        let one = |answer: crate::engine::Answer| [answer.code, answer.value, 0];
        match *self {
            Call::Make { n } => number(core.make(state, n)),
            Call::Check => number(core.check(state)),
            Call::Up { a, b } => number(core.up(state, a, b)),
            Call::Down { a, b } => number(core.down(state, a, b)),
            Call::Notice { noticing, other } => number(core.notice(state, noticing, other)),
            Call::Deliver { from, to } => number(core.deliver(state, from, to)),
            Call::Pass => one(core.pass(state)),
            Call::Run { allowance } => {
                let ran = core.run(state, allowance);
                [ran.code, ran.passes, ran.deliveries]
            }
            Call::Route { node, destination } => {
                let way = core.route(state, node, destination);
                [way.code, way.distance, way.downstream]
            }
            Call::QueueLength { from, to } => one(core.queue_length(state, from, to)),
            Call::TotalQueued => one(core.total_queued(state)),
            Call::Status { node, .. } => one(core.status(state, node, out)),
            Call::Worth { .. } => one(core.worth(state, out, list)),
            Call::Why { node, destination, .. } => {
                let reason = core.why(state, node, destination, out);
                [reason.code, reason.kind, reason.count]
            }
        }
    }

    /// Every call with these two numbers, and those that take none.
    pub fn all(first: usize, second: usize) -> Vec<Call> {
        let mut calls = Call::with_two(first, second);
        calls.extend([Call::Check, Call::Pass, Call::TotalQueued]);
        calls.extend([0, 1, 255].map(|allowance| Call::Run { allowance }));
        calls.extend([0, 13, 14, 15].map(|room| Call::Status { node: first, room }));
        calls.push(Call::Make { n: first });
        // There is room for five nodes and no more, so that no call makes trials of large states.
        calls.push(Call::worth(5, first as u64 ^ (second as u64).rotate_left(32)));
        calls.push(Call::Worth { trial: 0, lines: 0, seed: 0 });
        calls.extend([0, 1, 2].map(|room| Call::Why { node: first, destination: second, room, seed: 0 }));
        calls
    }

    /// Every call that takes two nodes, or a node and a destination.
    pub fn with_two(first: usize, second: usize) -> Vec<Call> {
        vec![
            Call::Up { a: first, b: second },
            Call::Down { a: first, b: second },
            Call::Notice { noticing: first, other: second },
            Call::Deliver { from: first, to: second },
            Call::Route { node: first, destination: second },
            Call::QueueLength { from: first, to: second },
            Call::why(first, second),
        ]
    }
}
