//! Links whose two ends do not notice together: notices, link down after one and after none, what is refused meanwhile,
//! and coming to rest. Uses the rule, the bounds and the ground; 01's link down, which both ends see at one moment, is
//! written out here.

use super::runs::behind;
use crate::compare::bounds;
use crate::compare::call::Call;
use crate::compare::ground::{Ground, outcome};
use crate::compare::random::Random;
use crate::compare::states::{
    self, all_pairs, at_rest, at_rest_with_ends, either, lone_ends, sets_of_ends, whole_links,
};
use crate::second::rule::{Entry, State, recomputed, send};
use crate::second::stored::{Blocks, stored};

/// Every call that changes a link or delivers on it, in both directions.
fn link_calls(a: usize, b: usize) -> [Call; 6] {
    [
        Call::Up { a, b },
        Call::Down { a, b },
        Call::Notice { noticing: a, other: b },
        Call::Notice { noticing: b, other: a },
        Call::Deliver { from: a, to: b },
        Call::Deliver { from: b, to: a },
    ]
}

/// Every set of ends of up to four nodes at rest, each of these calls for every two nodes; of four nodes for some.
pub fn every_end(ground: &mut Ground) -> Result<u64, String> {
    let random = &mut Random::of_case(0, "notice-every-end", 0);
    let mut count = 0;
    for n in 1..=4 {
        for ends in sets_of_ends(n) {
            let bytes = stored(&at_rest_with_ends(n, &ends));
            ground.agree(&bytes, &Call::Check)?;
            for (a, b) in all_pairs(n).into_iter().filter(|_| n < 4 || random.chance(6)).collect::<Vec<_>>() {
                for call in link_calls(a, b) {
                    ground.agree(&bytes, &call)?;
                    count += 1;
                }
            }
        }
    }
    Ok(count)
}

/// Whether a's end and b's end are up, and what the calls for a and b then answer at rest: up, down, a's notice, b's,
/// delivery from a, from b.
const ANSWERS: [(bool, bool, [u32; 6]); 4] = [
    (false, false, [0, 7, 7, 7, 7, 7]),
    (true, true, [6, 0, 0, 0, 8, 8]),
    (true, false, [13, 0, 0, 7, 7, 7]),
    (false, true, [13, 0, 7, 0, 7, 7]),
];

/// The call has this answer, and both do it.
fn answered(ground: &mut Ground, bytes: &[u8], call: &Call, number: u32) -> Result<(), String> {
    if number != 0 {
        return ground.refuse(bytes, call, number);
    }
    let should = outcome(bytes, call);
    if should.answers != [0, 0, 0] {
        return Err(format!("{call:?} is to be done, the second implementation answers {:?}", should.answers));
    }
    ground.hold(bytes, call, &should)
}

/// The table for every two nodes of some sites, with all other links up, or none; beside it numbers that are no nodes and
/// one node twice, which are told first.
pub fn refusals(ground: &mut Ground) -> Result<u64, String> {
    let mut count = 0;
    for (n, others) in [(2, false), (3, false), (3, true), (5, true), (7, false)] {
        for (a, b) in all_pairs(n).into_iter().filter(|(a, b)| a != b) {
            for (at_a, at_b, answers) in ANSWERS {
                let mut ends: Vec<(usize, usize)> = all_pairs(n).into_iter().filter(|_| others).collect();
                ends.retain(|&(x, y)| x != y && (x, y) != (a, b) && (x, y) != (b, a));
                ends.extend(at_a.then_some((a, b)));
                ends.extend(at_b.then_some((b, a)));
                let bytes = stored(&at_rest_with_ends(n, &ends));
                for (call, number) in link_calls(a, b).iter().zip(answers) {
                    answered(ground, &bytes, call, number)?;
                }
                for none in [n, 255, 256 + b, usize::MAX] {
                    for call in link_calls(a, none).iter().chain(&link_calls(none, none)) {
                        ground.refuse(&bytes, call, 4)?;
                    }
                }
                for call in link_calls(a, a).iter().chain(&link_calls(b, b)) {
                    ground.refuse(&bytes, call, 5)?;
                }
                count += 6 + 4 * 12 + 12;
            }
        }
    }
    Ok(count)
}

/// A sound state with an end that is up, that end, and the node at the other one. With one node there is none.
fn with_end(random: &mut Random) -> Option<(State, usize, usize)> {
    let n = random.node_count();
    let state = states::any(random, n);
    let up: Vec<(usize, usize)> = all_pairs(n).into_iter().filter(|&(a, b)| state.links[a][b]).collect();
    let lone = lone_ends(&state);
    let from = if lone.is_empty() || random.chance(60) { &up } else { &lone };
    let &(a, b) = (!from.is_empty()).then(|| random.pick(from))?;
    Some((state, a, b))
}

/// A sound state with a link of which both ends are up, and these in some order.
fn with_link(random: &mut Random) -> Option<(State, usize, usize)> {
    let n = random.node_count();
    let state = states::any(random, n);
    let whole = whole_links(&state);
    let &pair = (!whole.is_empty()).then(|| random.pick(&whole))?;
    let (a, b) = either(random, pair);
    Some((state, a, b))
}

/// A notice at an end that is up, whether the other is or not; then what is refused and what is not, whichever notices
/// are missing.
pub fn notice(ground: &mut Ground, random: &mut Random) -> Result<(), String> {
    let Some((state, a, b)) = with_end(random) else { return Ok(()) };
    let behind = behind(random);
    let given = Call::Notice { noticing: a, other: b };
    let mut after = state.clone();
    after.notice(a, b);
    ground.follow(&given, [0, 0, 0], &state, &after, &behind)?;
    let bytes = done(ground, &state, &[given])?;
    let wrong = |what: String| format!("a notice of {a} for {b}: {what}\n  {state:?}");
    left_as_it_was(&Blocks::of(&state), &Blocks::read(&bytes), a, b).map_err(wrong)?;
    for call in [given, Call::Deliver { from: a, to: b }, Call::Deliver { from: b, to: a }] {
        ground.refuse(&bytes, &call, 7)?;
    }
    ground.agree(&bytes, &Call::Up { a, b })?;
    ground.agree(&bytes, &Call::Down { a, b })?;
    Ok(())
}

/// What a notice of a for b leaves as it was, looked at in the bytes themselves: all ends but its own, what everybody has
/// heard but for a over this link, and of the other nodes the tables and all queues but that of b to a. Over the link
/// nothing waits, and a knows nothing.
fn left_as_it_was(was: &Blocks, is: &Blocks, a: usize, b: usize) -> Result<(), String> {
    let n = usize::from(was.n);
    let mut due = was.clone();
    due.links[a][b] = 0;
    due.views[a][b] = vec![was.n; n];
    (due.distances[a], due.downstreams[a]) = (is.distances[a].clone(), is.downstreams[a].clone());
    due.lengths[a] = is.lengths[a].clone();
    (due.destinations[a], due.values[a]) = (is.destinations[a].clone(), is.values[a].clone());
    for (from, to) in [(a, b), (b, a)] {
        due.lengths[from][to] = 0;
        (due.destinations[from][to], due.values[from][to]) = (vec![0; n], vec![0; n]);
    }
    if *is == due { Ok(()) } else { Err("a byte changed that should stay, or stayed that should change".to_string()) }
}

/// The core's own bytes after calls, one after another, each of which must be done.
fn done(ground: &Ground, state: &State, calls: &[Call]) -> Result<Vec<u8>, String> {
    let mut bytes = stored(state);
    for call in calls {
        let answers = call.on(ground.core, &mut bytes, &mut [], &mut []);
        if answers != [0, 0, 0] {
            return Err(format!("{call:?} of {calls:?} answers {answers:?}\n  {state:?}"));
        }
    }
    Ok(bytes)
}

/// Both notices in either order, link down by either end's name, and link down after each notice come to the same bytes;
/// link down after one notice is the other.
pub fn orders(ground: &mut Ground, random: &mut Random) -> Result<(), String> {
    let Some((state, a, b)) = with_link(random) else { return Ok(()) };
    let (of_a, of_b) = (Call::Notice { noticing: a, other: b }, Call::Notice { noticing: b, other: a });
    let (down, by_other) = (Call::Down { a, b }, Call::Down { a: b, b: a });
    let should = done(ground, &state, &[down])?;
    let ways: [&[Call]; 7] =
        [&[by_other], &[of_a, of_b], &[of_b, of_a], &[of_a, down], &[of_a, by_other], &[of_b, down], &[of_b, by_other]];
    for way in ways {
        if done(ground, &state, way)? != should {
            return Err(format!("{way:?} and {down:?} differ\n  {state:?}"));
        }
    }
    for first in [of_a, of_b] {
        let bytes = done(ground, &state, &[first])?;
        for call in link_calls(a, b) {
            ground.agree(&bytes, &call)?;
        }
        ground.agree(&bytes, &Call::Check)?;
    }
    Ok(())
}

/// 01's link down as it stands there: both ends see it at one moment. Both queues are emptied, the views on it become n,
/// and each end recomputes every destination in ascending order, sending what changed on its other links.
fn down_of_01(before: &State, a: usize, b: usize) -> State {
    let (n, mut state) = (before.n, before.clone());
    for (end, other) in [(a, b), (b, a)] {
        state.links[end][other] = false;
        state.queues[end][other].clear();
        state.views[end][other] = vec![n; n];
    }
    for end in [a, b] {
        for v in 0..n {
            let heard = (0..n).filter(|&w| state.links[end][w]).map(|w| (w, state.views[end][w][v]));
            let route = recomputed(n, end, v, heard);
            state.downstreams[end][v] = route.downstream;
            if state.distances[end][v] == route.distance {
                continue;
            }
            state.distances[end][v] = route.distance;
            for w in state.joined_to(end) {
                send(&mut state.queues[end][w], Entry { destination: v, value: route.distance });
            }
        }
    }
    state
}

/// Where both ends are up link down is 01's, byte for byte, whichever end is named first.
pub fn as_01(ground: &mut Ground, random: &mut Random) -> Result<(), String> {
    let Some((state, a, b)) = with_link(random) else { return Ok(()) };
    let behind = behind(random);
    let after = down_of_01(&state, a, b);
    ground.follow(&Call::Down { a, b }, [0, 0, 0], &state, &after, &behind)?;
    ground.follow(&Call::Down { a: b, b: a }, [0, 0, 0], &state, &after, &behind)
}

/// Some notices in a state that events reach or none do: rest comes within n passes. Then those that are missing are
/// given, and rest comes again; the state is the one that its links alone give.
pub fn to_rest(ground: &mut Ground, random: &mut Random) -> Result<(), String> {
    let n = random.node_count();
    let mut state = states::any(random, n);
    let share = *random.pick(&[10, 40, 100]);
    for pair in random.shuffled(whole_links(&state)) {
        if random.chance(share) {
            let (noticing, other) = either(random, pair);
            state.notice(noticing, other);
        }
    }
    let state = rested(ground, &state)?;
    let mut after = state.clone();
    for (noticing, other) in random.shuffled(lone_ends(&state)) {
        after.notice(noticing, other);
    }
    let last = rested(ground, &after)?;
    if last != at_rest(n, &whole_links(&state)) {
        return Err(format!("with all notices given the site is not as its links are: {last:?}"));
    }
    Ok(())
}

/// The state that passes bring to rest, which the core's run does too, with the bounds.
fn rested(ground: &mut Ground, state: &State) -> Result<State, String> {
    let mut rested = state.clone();
    let (passes, deliveries) = rested.run(255);
    bounds::waiting(state)?;
    bounds::run(state.n, passes, deliveries)?;
    bounds::right_at_rest(&rested)?;
    let call = Call::Run { allowance: 255 };
    ground.follow(&call, [0, passes as u32, deliveries as u32], state, &rested, &[])?;
    Ok(rested)
}
