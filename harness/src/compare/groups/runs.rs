//! Sound states and what is done with them. Uses the rule for what should come, and the ground.

use super::small::call;
use crate::compare::call::Call;
use crate::compare::ground::{Ground, Outcome};
use crate::compare::random::Random;
use crate::compare::states::{self, all_pairs, almost_at_rest, apply, event};
use crate::second::calls::{route, state_in, two};
use crate::second::rule::State;
use crate::second::stored::{size, stored};

/// Bytes behind a state: none, or a few that must stay as they are.
pub fn behind(random: &mut Random) -> Vec<u8> {
    let count = *random.pick(&[0, 0, 1, 7, 40]);
    random.bytes(count)
}

/// How many events to follow: states are large where n is.
fn many(random: &mut Random, n: usize) -> usize {
    random.between(1, 4 + 4000 / (n * n))
}

pub fn reached(ground: &mut Ground, random: &mut Random) -> Result<(), String> {
    let n = random.node_count();
    let behind = behind(random);
    let start = if random.chance(50) { State::fresh(n) } else { states::reached(random, n) };
    follow_events(ground, random, start, &behind)
}

/// Follows random events. The core goes on from its own bytes, which are the rule's at every step.
fn follow_events(ground: &mut Ground, random: &mut Random, mut state: State, behind: &[u8]) -> Result<(), String> {
    for _ in 0..many(random, state.n) {
        let event = event(random, &state);
        let mut after = state.clone();
        let answers = apply(&mut after, event);
        ground.follow(&call(event), answers, &state, &after, behind)?;
        state = after;
    }
    let bytes = [&stored(&state), behind].concat();
    if state_in(&bytes).as_ref() != Ok(&state) {
        return Err("the second implementation does not read back what it wrote".to_string());
    }
    ground.agree(&bytes, &Call::Check)?;
    Ok(())
}

pub fn constructed(ground: &mut Ground, random: &mut Random) -> Result<(), String> {
    let n = random.node_count();
    let state = states::constructed(random, n);
    let behind = behind(random);
    let bytes = [&stored(&state), behind.as_slice()].concat();
    if state_in(&bytes).as_ref() != Ok(&state) {
        return Err(format!("a constructed state is not sound: {state:?}"));
    }
    ground.agree(&bytes, &Call::Check)?;
    let allowance = *random.pick(&[0, 1, 2, 255]);
    ground.agree(&bytes, &Call::Run { allowance })?;
    ground.agree(&bytes, &Call::Pass)?;
    follow_events(ground, random, state, &behind)
}

/// One state that events reach, one that none do and a site with ends up alone for each node count, every call in it.
pub fn every_node_count(ground: &mut Ground) -> Result<u64, String> {
    let mut count = 0;
    for n in 1..=40 {
        let random = &mut Random::of_case(0, "every-node-count", n as u64);
        let one_ended = states::one_ended_site(random, n);
        for state in [states::reached(random, n), states::constructed(random, n), one_ended] {
            let bytes = stored(&state);
            let (a, b) = (random.below(n), random.below(n));
            let mut calls = Call::all(a, b);
            calls.extend([Call::Make { n }, Call::Run { allowance: n as u8 }, Call::Run { allowance: n as u8 - 1 }]);
            // Some events that are not refused, wherever the two numbers fell.
            calls.extend((0..10).map(|_| call(event(random, &state))));
            for call in &calls {
                ground.agree(&bytes, call).map_err(|what| format!("n = {n}: {what}"))?;
            }
            count += calls.len() as u64;
        }
    }
    Ok(count)
}

pub fn questions(ground: &mut Ground, random: &mut Random) -> Result<(), String> {
    let n = random.node_count();
    let state = if random.chance(40) { almost_at_rest(random, n) } else { states::any(random, n) };
    let bytes = stored(&state);
    ground.agree(&bytes, &Call::TotalQueued)?;
    // All pairs of a small state, some of a large one: the second implementation reads all bytes each time.
    for (x, y) in random.shuffled(all_pairs(n)).into_iter().take(2 + 400_000 / size(n)) {
        ground.agree(&bytes, &Call::Route { node: x, destination: y })?;
        ground.agree(&bytes, &Call::QueueLength { from: x, to: y })?;
    }
    Ok(())
}

/// Hops and direction, for each n: of every pair of a line with a node apart, after n/2 passes and at rest, but at rest
/// of 60 pairs where n is 21 to 39; then of up to 60 pairs of the whole line at rest, first its two ends, which are n - 1
/// hops apart. What is due is asked of the state itself: its bytes are long to read.
pub fn routes(ground: &mut Ground) -> Result<u64, String> {
    let mut count = 0;
    for n in 1..=40 {
        let random = &mut Random::of_case(0, "route-node-counts", n as u64);
        let (order, mut pairs) = (random.shuffled(0..n), random.shuffled(all_pairs(n)));
        let ends = [(order[0], order[n - 1]), (order[n - 1], order[0])];
        pairs.sort_by_key(|pair| !ends.contains(pair));
        let most = if (21..40).contains(&n) { 60 } else { n * n };
        for (first, passes, asked) in [(1, n as u8 / 2, n * n), (1, 255, most), (0, 255, 60)] {
            let mut state = State::fresh(n);
            order[first..].windows(2).for_each(|two| state.up(two[0], two[1]));
            state.run(passes);
            let bytes = stored(&state);
            for &(node, destination) in pairs.iter().take(asked) {
                let answers = two(route(&state, node, destination));
                let should = Outcome { answers, state: bytes.clone(), out: Vec::new(), list: Vec::new() };
                ground.hold(&bytes, &Call::Route { node, destination }, &should)?;
                count += 1;
            }
        }
    }
    Ok(count)
}

pub fn status(ground: &mut Ground, random: &mut Random) -> Result<(), String> {
    let n = random.node_count();
    let state = states::any(random, n);
    let bytes = [stored(&state), behind(random)].concat();
    for room in [0, 1, 2, 12, 13, 14, 15, 16, 64] {
        ground.agree(&bytes, &Call::Status { node: random.below(n), room })?;
    }
    ground.agree(&bytes, &Call::Status { node: n, room: 0 })?;
    Ok(())
}
