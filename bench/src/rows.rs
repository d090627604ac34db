//! What is timed: calls on states that a network is often in. Uses the safe implementation to make the states.

use crate::safe::Safe;
use crate::safe::parts::PartsMut;
use hop_harness::compare::call::Call;
use hop_harness::compare::random::Random;
use hop_harness::engine::Engine;

/// The node counts: each doubles the one before, so that growth can be read off.
pub const NODE_COUNTS: [usize; 3] = [10, 20, 40];

/// A call on a state, by name.
pub struct Row {
    pub name: &'static str,
    pub state: Vec<u8>,
    pub call: Call,
}

fn fresh(n: usize) -> Vec<u8> {
    let mut state = vec![0; Safe.size(n)];
    assert_eq!(Safe.make(&mut state, n), 0);
    state
}

fn with_links(n: usize, links: impl Iterator<Item = (usize, usize)>) -> Vec<u8> {
    let mut state = fresh(n);
    for (a, b) in links {
        assert_eq!(Safe.up(&mut state, a, b), 0);
    }
    state
}

/// All links up and nothing delivered: every queue is full.
fn complete(n: usize) -> Vec<u8> {
    with_links(n, (0..n).flat_map(|a| (a + 1..n).map(move |b| (a, b))))
}

/// The same with every queue in another order, which is as sound.
fn reordered(n: usize, mut reorder: impl FnMut(&mut [(u8, u8)])) -> Vec<u8> {
    let mut state = complete(n);
    let parts = PartsMut::of(&mut state, n);
    let queues = parts.destinations.chunks_exact_mut(n).zip(parts.values.chunks_exact_mut(n));
    for (destinations, values) in queues {
        let mut entries: Vec<(u8, u8)> = destinations.iter().copied().zip(values.iter().copied()).collect();
        reorder(&mut entries);
        for (place, (destination, value)) in entries.into_iter().enumerate() {
            (destinations[place], values[place]) = (destination, value);
        }
    }
    state
}

/// Every queue turned round: no destination is below the next one.
fn backward(n: usize) -> Vec<u8> {
    reordered(n, <[_]>::reverse)
}

/// Every queue in an order of its own, the same at each run.
fn shuffled(n: usize) -> Vec<u8> {
    let mut random = Random::new(n as u64);
    reordered(n, |entries| random.shuffle(entries))
}

fn line(n: usize) -> Vec<u8> {
    with_links(n, (1..n).map(|b| (b - 1, b)))
}

fn ring(n: usize) -> Vec<u8> {
    with_links(n, (0..n).map(|a| (a, (a + 1) % n)))
}

/// Four links a node: to the next and to the one after that, on both sides.
fn four_links(n: usize) -> Vec<u8> {
    with_links(n, (0..n).flat_map(|a| [(a, (a + 1) % n), (a, (a + 2) % n)]))
}

/// All links but those of the last node.
fn one_apart(n: usize) -> Vec<u8> {
    with_links(n, (0..n - 1).flat_map(|a| (a + 1..n - 1).map(move |b| (a, b))))
}

fn at_rest(mut state: Vec<u8>) -> Vec<u8> {
    assert_eq!(Safe.run(&mut state, 255).code, 0);
    state
}

/// A network in the middle of its work: every third link of a complete one, one pass made.
fn at_work(n: usize) -> Vec<u8> {
    let mut state =
        with_links(n, (0..n).flat_map(|a| (a + 1..n).map(move |b| (a, b))).filter(|(a, b)| (a + b) % 3 == 0));
    assert_eq!(Safe.pass(&mut state).code, 0);
    state
}

/// The checks, which stand in every call and are also timed beside a plain pass over the bytes.
pub fn checks(n: usize) -> Vec<Row> {
    let row = |name, state| Row { name, state, call: Call::Check };
    vec![
        row("check, fresh", fresh(n)),
        row("check, all queues full", complete(n)),
        row("check, full, none in order", backward(n)),
        row("check, full, shuffled", shuffled(n)),
        row("check, at work", at_work(n)),
        row("check, at rest, a line", at_rest(line(n))),
        row("check, at rest, four links", at_rest(four_links(n))),
        row("check, at rest, all links", at_rest(complete(n))),
    ]
}

/// Every call on a state that is timed.
pub fn rows(n: usize) -> Vec<Row> {
    let last = n - 1;
    let row = |name, state, call| Row { name, state, call };
    let mut rows = vec![row("make", fresh(n), Call::Make { n })];
    rows.extend(checks(n));
    rows.extend([
        row("up, at rest, a line", at_rest(line(n)), Call::Up { a: 0, b: last }),
        row("up, at rest, four links", at_rest(four_links(n)), Call::Up { a: 0, b: n / 2 }),
        row("down, at rest, a line", at_rest(line(n)), Call::Down { a: 0, b: 1 }),
        row("down, at rest, four links", at_rest(four_links(n)), Call::Down { a: 0, b: 1 }),
        row("down, at rest, all links", at_rest(complete(n)), Call::Down { a: 0, b: last }),
        row("notice, at rest, a line", at_rest(line(n)), Call::Notice { noticing: 0, other: 1 }),
        row("notice, at rest, four links", at_rest(four_links(n)), Call::Notice { noticing: 0, other: 1 }),
        row("notice, at rest, all links", at_rest(complete(n)), Call::Notice { noticing: 0, other: last }),
        row("deliver, all queues full", complete(n), Call::Deliver { from: 0, to: last }),
        row("deliver, full, four links", four_links(n), Call::Deliver { from: 0, to: 1 }),
        row("pass, all queues full", complete(n), Call::Pass),
        row("pass, at work", at_work(n), Call::Pass),
        row("pass, at rest", at_rest(complete(n)), Call::Pass),
        row("run to rest, all links", complete(n), Call::Run { allowance: 255 }),
        row("run to rest, a line", line(n), Call::Run { allowance: 255 }),
        row("route", at_rest(complete(n)), Call::Route { node: 0, destination: last }),
        row("total queued, all queues full", complete(n), Call::TotalQueued),
        row("status, all queues full", complete(n), Call::Status { node: last, room: 14 }),
        row("worth, a line", at_rest(line(n)), Call::worth(n, 0)),
        row("worth, a ring", at_rest(ring(n)), Call::worth(n, 0)),
        row("worth, four links a node", at_rest(four_links(n)), Call::worth(n, 0)),
        row("worth, all links", at_rest(complete(n)), Call::worth(n, 0)),
        row("why, a path of all nodes", at_rest(line(n)), Call::why(0, last)),
        row("why, one hop", at_rest(complete(n)), Call::why(0, last)),
        row("why, all nodes but one", at_rest(one_apart(n)), Call::why(0, last)),
    ]);
    rows
}

/// Event records, one of each of the first so many kinds in turn: an older core knows fewer.
pub fn events(kinds: u32) -> Vec<(u32, u16, u16)> {
    (0..1000).map(|k| (15 + k % kinds, (k % 40) as u16, (k % 39) as u16)).collect()
}

/// A run of these records.
pub fn script(kinds: u32) -> Vec<u8> {
    let mut script = Vec::new();
    for (kind, first, second) in events(kinds) {
        let mut record = [0; 8];
        let written = Safe.write_event(kind, first, second, &mut record);
        script.extend_from_slice(&record[..written.value as usize]);
    }
    script
}
