//! All states of few nodes that events reach. Uses the rule to find them and the ground to compare.

use crate::compare::call::{Call, needed};
use crate::compare::ground::Ground;
use crate::compare::random::Random;
use crate::compare::states::{self, Event, all_pairs, apply, at_rest_with_ends, filled, pairs};
use crate::second::rule::State;
use crate::second::stored::stored;
use std::collections::HashSet;

/// The events that change a state and are not refused, with notices of one end or without.
fn events(state: &State, with_notices: bool) -> Vec<Event> {
    let up = |a: usize, b: usize| state.links[a][b] || state.links[b][a];
    let links = pairs(state.n).into_iter();
    let links = links.map(|(a, b)| if up(a, b) { Event::Down(a, b) } else { Event::Up(a, b) });
    let ends = all_pairs(state.n).into_iter().filter(|&(a, b)| with_notices && state.links[a][b]);
    let notices = ends.map(|(noticing, other)| Event::Notice(noticing, other));
    let queues = filled(state).into_iter().map(|(from, to)| Event::Deliver(from, to));
    links.chain(notices).chain(queues).chain([Event::Pass]).collect()
}

pub fn call(event: Event) -> Call {
    match event {
        Event::Up(a, b) => Call::Up { a, b },
        Event::Down(a, b) => Call::Down { a, b },
        Event::Notice(noticing, other) => Call::Notice { noticing, other },
        Event::Deliver(from, to) => Call::Deliver { from, to },
        Event::Pass => Call::Pass,
        Event::Run(allowance) => Call::Run { allowance },
    }
}

/// Goes through the states of n nodes that so many events reach, and follows every event in each.
fn through(
    ground: &mut Ground,
    n: usize,
    depth: usize,
    with_notices: bool,
    mut also: impl FnMut(&mut Ground, &State) -> Result<u64, String>,
) -> Result<u64, String> {
    let mut seen = HashSet::from([State::fresh(n)]);
    let mut wave = vec![State::fresh(n)];
    let mut count = 0;
    for _ in 0..depth {
        let mut next = Vec::new();
        for state in &wave {
            for event in events(state, with_notices) {
                let mut after = state.clone();
                let answers = apply(&mut after, event);
                ground.follow(&call(event), answers, state, &after, &[])?;
                count += 1;
                if seen.insert(after.clone()) {
                    next.push(after);
                }
            }
            count += also(ground, state)?;
        }
        if next.is_empty() {
            break;
        }
        wave = next;
    }
    Ok(count)
}

/// Every call on a state with numbers up to n, and allowances around what rest needs.
fn every_call(ground: &mut Ground, state: &State) -> Result<u64, String> {
    let bytes = stored(state);
    let mut calls = vec![Call::Check, Call::Pass, Call::TotalQueued];
    calls.extend([0, 1, 2, 3, 4, 255].map(|allowance| Call::Run { allowance }));
    let (trial, lines) = needed(state);
    for (no_trial, no_line) in [(0, 0), (1, 0), (0, 1), (trial, 0), (0, lines)] {
        let lines = lines.saturating_sub(no_line);
        calls.push(Call::Worth { trial: trial - no_trial, lines, seed: calls.len() as u64 });
    }
    for first in 0..=state.n {
        calls.extend([0, 13, 14, 15].map(|room| Call::Status { node: first, room }));
        calls.extend((0..=state.n).flat_map(|second| Call::with_two(first, second)));
        for (destination, room) in (0..=state.n).flat_map(|second| [0, 1, 2, 3].map(|room| (second, room))) {
            calls.push(Call::Why { node: first, destination, room, seed: calls.len() as u64 });
        }
    }
    for call in &calls {
        ground.agree(&bytes, call)?;
    }
    Ok(calls.len() as u64)
}

pub fn two_nodes(ground: &mut Ground) -> Result<u64, String> {
    through(ground, 2, usize::MAX, true, every_call)
}

/// Every byte of every such state of two nodes, and of a few of three, with every other value in its place.
pub fn every_byte(ground: &mut Ground) -> Result<u64, String> {
    let mut states = Vec::new();
    through(ground, 2, usize::MAX, true, |_, state| {
        states.push(state.clone());
        Ok(0)
    })?;
    let random = &mut Random::of_case(0, "every-byte", 0);
    states.extend((0..6).map(|_| states::any(random, 3)));
    let mut count = 0;
    for state in &states {
        let mut bytes = stored(state);
        for at in 0..bytes.len() {
            let kept = bytes[at];
            for byte in 0..=255 {
                bytes[at] = byte;
                ground.agree(&bytes, &Call::Check)?;
                count += 1;
            }
            bytes[at] = kept;
        }
    }
    Ok(count)
}

/// Every length of a buffer up to a few bytes more than a small state needs, every call on it.
pub fn every_length(ground: &mut Ground) -> Result<u64, String> {
    let mut count = 0;
    for n in 1..=3 {
        let random = &mut Random::of_case(0, "every-length", n as u64);
        // Of each link in the second the end at the lower number is up.
        for state in [states::any(random, n), at_rest_with_ends(n, &pairs(n))] {
            let bytes = [stored(&state), random.bytes(3)].concat();
            for length in 0..=bytes.len() {
                for call in Call::all(0, n - 1) {
                    ground.agree(&bytes[..length], &call)?;
                    count += 1;
                }
            }
        }
    }
    Ok(count)
}

/// How many events from fresh the states of three nodes are gone through, if both ends always notice together and if not.
const DEPTH: usize = 10;
const DEPTH_WITH_NOTICES: usize = 8;

pub fn three_nodes(ground: &mut Ground) -> Result<u64, String> {
    let together = through(ground, 3, DEPTH, false, |_, _| Ok(0))?;
    Ok(together + through(ground, 3, DEPTH_WITH_NOTICES, true, |_, _| Ok(0))?)
}
