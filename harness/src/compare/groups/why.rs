//! Why a node reaches a destination or does not: sites at rest, states that are not, links of which one end is up, numbers
//! of every class, lists of every length. Each reason is held to the links as well; routes are asked beside it. Uses the rule, the bounds and the
//! ground.

use super::arguments::classes;
use super::damaged::spoiled;
use super::runs::behind;
use crate::compare::bounds;
use crate::compare::call::{ANY_REASON, Call};
use crate::compare::ground::{Ground, MOST_BYTES, Outcome};
use crate::compare::random::Random;
use crate::compare::states::{
    self, all_pairs, almost_at_rest, at_rest, at_rest_with_ends, either, lone_ends, one_ended_site, pairs,
    sets_of_ends, site,
};
use crate::engine::Way;
use crate::second::calls::{two, why};
use crate::second::rule::State;
use crate::second::stored::{Blocks, stored};

/// A node and a destination.
type Pair = (usize, usize);

/// How many bytes the reason of a pair has.
fn long(state: &State, (node, destination): Pair) -> usize {
    state.why(node, destination).bytes().len()
}

/// The core gives the second implementation's reason, which is asked on the state itself: its bytes are long to read.
/// What is written is then held to the links.
fn explained(ground: &mut Ground, state: &State, bytes: &[u8], call: Call) -> Result<(), String> {
    let Call::Why { node, destination, .. } = call else { return Err(format!("{call:?} asks for no reason")) };
    let mut list = call.blank();
    let answers = two(why(state, node, destination, &mut list));
    let should = Outcome { answers, state: bytes.to_vec(), out: list, list: Vec::new() };
    ground.hold(bytes, &call, &should)?;
    match answers {
        [0, kind, count] => bounds::reason(state, node, destination, kind, &should.out[..count as usize]),
        _ => Ok(()),
    }
}

/// The reason of a pair in a list of so many bytes.
fn in_room(random: &mut Random, (node, destination): Pair, room: usize) -> Call {
    Call::Why { node, destination, room, seed: random.word() }
}

/// Every set of links of up to five nodes, every pair: in lists that are exact and a byte longer, in turns, and in short
/// ones, of five nodes at times.
pub fn every_set(ground: &mut Ground) -> Result<u64, String> {
    let random = &mut Random::of_case(0, "why-every-set", 0);
    let mut count = 0;
    for n in 1..=5 {
        let links = pairs(n);
        for set in 0..1_u64 << links.len() {
            let links: Vec<Pair> = (0..links.len()).filter(|k| set >> k & 1 == 1).map(|k| links[k]).collect();
            let state = at_rest(n, &links);
            let bytes = stored(&state);
            for pair in all_pairs(n) {
                let (exact, more) = (long(&state, pair), random.below(2));
                explained(ground, &state, &bytes, in_room(random, pair, exact + more))?;
                if n < 5 || random.chance(30) {
                    explained(ground, &state, &bytes, in_room(random, pair, exact - 1))?;
                }
                count += 1;
            }
        }
    }
    Ok(count)
}

/// Lists that are far longer than a reason: around the lengths that 8 and 16 bits cannot count, some of which would be
/// short if they were cut to these, and the longest that is lent here.
fn far_longer(exact: usize) -> Vec<usize> {
    let around = |cut: usize| [cut - 1, cut, cut + 1, cut + exact - 1, cut + exact];
    [&around(1 << 8)[..], &around(1 << 16), &[MOST_BYTES]].concat()
}

/// Lists of every length up to a few more than a small site needs, for every pair; far longer ones for some.
pub fn every_room(ground: &mut Ground) -> Result<u64, String> {
    let mut count = 0;
    for n in 1..=6 {
        let random = &mut Random::of_case(0, "why-every-room", n as u64);
        for _ in 0..4 {
            let bytes = stored(&site(random, n));
            for (pair, room) in all_pairs(n).into_iter().flat_map(|pair| (0..n + 4).map(move |room| (pair, room))) {
                ground.agree(&bytes, &in_room(random, pair, room))?;
                count += 1;
            }
        }
        // The last node is apart, so that there are paths and sets.
        let state = at_rest(n, &pairs(n - 1));
        let bytes = stored(&state);
        for pair in [(0, 0), (0, n - 1), (n - 1, 0), (0, n / 2), (n / 2, n - 1)] {
            for room in far_longer(long(&state, pair)) {
                explained(ground, &state, &bytes, in_room(random, pair, room))?;
                count += 1;
            }
        }
    }
    Ok(count)
}

/// Sites of n nodes: a line with one node apart, a line, a ring, all in some numbering, and a random one.
fn sites_of(random: &mut Random, n: usize) -> Vec<State> {
    let order = random.shuffled(0..n);
    let line: Vec<Pair> = order.windows(2).map(|two| (two[0], two[1])).collect();
    let ring: Vec<Pair> = line.iter().copied().chain((n > 2).then(|| (order[n - 1], order[0]))).collect();
    let apart = &line[..line.len().saturating_sub(1)];
    vec![at_rest(n, apart), at_rest(n, &line), at_rest(n, &ring), site(random, n)]
}

/// Those of each node count: every pair of up to 20 nodes and of 40; of 21 to 39 every pair of the first site, and 60 of
/// each other one. In lists that would do, for some pairs in a short one too.
pub fn node_counts(ground: &mut Ground) -> Result<u64, String> {
    let random = &mut Random::of_case(0, "why-node-counts", 0);
    let mut count = 0;
    for n in 1..=40 {
        for (which, state) in sites_of(random, n).into_iter().enumerate() {
            let bytes = stored(&state);
            let mut pairs = random.shuffled(all_pairs(n));
            // The first has paths and sets.
            if (21..40).contains(&n) && which > 0 {
                pairs.truncate(60);
            }
            for pair in pairs {
                let exact = long(&state, pair);
                let mut rooms = vec![*random.pick(&[exact, exact + 1, ANY_REASON])];
                rooms.extend(random.chance(20).then_some(exact - 1));
                for room in rooms {
                    let call = in_room(random, pair, room);
                    explained(ground, &state, &bytes, call).map_err(|what| format!("n = {n}: {what}"))?;
                    count += 1;
                }
            }
        }
    }
    Ok(count)
}

/// Sites where one entry waits, or so many that a byte's sum of them is 0: asked of nodes next to it and far from it,
/// in lists that would do and in none.
pub fn one_waits(ground: &mut Ground) -> Result<u64, String> {
    let random = &mut Random::of_case(0, "why-one-waits", 0);
    let mut count = 0;
    for state in states::hardly_waiting(random) {
        let n = state.n;
        let bytes = stored(&state);
        let some: Vec<Pair> = [(0, 0), (0, n - 1), (n - 1, 0), (random.below(n), random.below(n))].into();
        for pair in if n <= 5 { all_pairs(n) } else { some } {
            let room = *random.pick(&[0, 1, n, ANY_REASON]);
            ground.refuse(&bytes, &in_room(random, pair, room), 12)?;
            count += 1;
        }
    }
    Ok(count)
}

/// Sites at rest where one end is up alone: of every set of ends of up to three nodes, and each end in turn of some larger
/// sites. Asked of nodes next to it and far from it, and of a node itself, in lists that would do and in none. And of each
/// node count a single link with one end up, at a few pairs, and at every pair of 40 nodes.
pub fn one_end(ground: &mut Ground) -> Result<u64, String> {
    let random = &mut Random::of_case(0, "why-one-end", 0);
    let mut states: Vec<State> =
        (2..=3).flat_map(|n| sets_of_ends(n).map(move |set| at_rest_with_ends(n, &set))).collect();
    states.retain(|state| !lone_ends(state).is_empty());
    for n in [4, 5, 40] {
        let whole = at_rest(n, &pairs(n));
        // Of a large site some nodes.
        let nodes: Vec<usize> = if n == 40 { vec![0, 1, 20, 39] } else { (0..n).collect() };
        let ends = nodes.iter().flat_map(|&a| nodes.iter().map(move |&b| (a, b)));
        for (noticing, other) in ends.filter(|(a, b)| a != b) {
            let mut state = whole.clone();
            state.notice(noticing, other);
            state.run(255);
            states.push(state);
        }
    }
    let mut count = 0;
    for state in states {
        let n = state.n;
        let bytes = stored(&state);
        let some: Vec<Pair> = [(0, 0), (0, n - 1), (n - 1, 0), (random.below(n), random.below(n))].into();
        for pair in if n <= 5 { all_pairs(n) } else { some } {
            for room in [0, *random.pick(&[1, n, ANY_REASON])] {
                ground.refuse(&bytes, &in_room(random, pair, room), 13)?;
                count += 1;
            }
        }
    }
    for n in 6..=40 {
        let mut links = random.shuffled(pairs(n));
        links.truncate(if n < 40 { 5 } else { links.len() });
        for link in links {
            let state = at_rest_with_ends(n, &[either(random, link)]);
            let pair = (random.below(n), random.below(n));
            let call = in_room(random, pair, ANY_REASON);
            ground.refuse(&stored(&state), &call, 13).map_err(|what| format!("n = {n}, {link:?}: {what}"))?;
            count += 1;
        }
    }
    Ok(count)
}

/// Buffers that are refused as such, with their numbers: empty, with a first byte that is no node count, cut, not sound.
/// All but the first are a state's where entries wait.
fn refused_states(busy: &State) -> Vec<(Vec<u8>, u32)> {
    let mut blocks = Blocks::of(busy);
    blocks.links[0][0] = 1;
    let unsound = blocks.write();
    let cut = |first: u8| [&[first], &unsound[1..unsound.len() - 1]].concat();
    vec![(vec![], 2), (cut(0), 1), (cut(41), 1), (cut(blocks.n), 2), (unsound.clone(), 3)]
}

/// Pairs of which one number at least is no node.
fn no_pairs(random: &mut Random, n: usize) -> Vec<Pair> {
    let none: Vec<usize> = classes(n).into_iter().filter(|&number| number >= n).collect();
    let with = |&bad: &usize| [(bad, 0), (n - 1, bad), (bad, bad), (bad, *random.pick(&none))];
    none.iter().flat_map(with).collect()
}

/// Every state, pair and list that can be at fault, together with every other: what is told is the first of them in
/// their order. The same of a route, which has no list and is answered where entries wait too, and where an end is up alone.
pub fn order(ground: &mut Ground) -> Result<u64, String> {
    let random = &mut Random::of_case(0, "refused-order", 0);
    let mut count = 0;
    for n in [3, 4, 7] {
        // The last node is apart, so that there are paths and sets.
        let resting = at_rest(n, &pairs(n - 1));
        let mut busy = resting.clone();
        busy.down(0, 1);
        busy.up(0, 1);
        let mut noticed = at_rest(n, &pairs(n));
        noticed.notice(0, 1);
        let busy_noticed = stored(&noticed);
        noticed.run(255);
        let noticed = stored(&noticed);
        let (at_rest, not_at_rest, refused) = (stored(&resting), stored(&busy), refused_states(&busy));
        let nodes = all_pairs(n).into_iter().map(|pair| (pair, true, long(&resting, pair)));
        let others = no_pairs(random, n).into_iter().map(|pair| (pair, false, 1));
        for (pair, are_nodes, exact) in nodes.chain(others).collect::<Vec<_>>() {
            let rooms = [0, exact - 1, exact, ANY_REASON, *random.pick(&far_longer(exact))];
            let whys = rooms.map(|room| in_room(random, pair, room));
            for call in whys.into_iter().chain([Call::Route { node: pair.0, destination: pair.1 }]) {
                for (bytes, number) in &refused {
                    ground.refuse(bytes, &call, *number)?;
                }
                if !are_nodes {
                    for bytes in [&at_rest, &not_at_rest, &noticed, &busy_noticed] {
                        ground.refuse(bytes, &call, 4)?;
                    }
                } else if let Call::Why { room, .. } = call {
                    ground.refuse(&not_at_rest, &call, 12)?;
                    ground.refuse(&busy_noticed, &call, 12)?;
                    ground.refuse(&noticed, &call, 13)?;
                    if room < exact {
                        ground.refuse(&at_rest, &call, 2)
                    } else {
                        explained(ground, &resting, &at_rest, call)
                    }?;
                } else {
                    for bytes in [&at_rest, &not_at_rest, &noticed, &busy_noticed] {
                        ground.agree(bytes, &call)?;
                    }
                }
                count += 4 + refused.len() as u64;
            }
        }
    }
    Ok(count)
}

/// A site with bytes behind it, some pairs of it; lists that are exact, longer, short by one, and none at all.
pub fn sites(ground: &mut Ground, random: &mut Random) -> Result<(), String> {
    let n = random.node_count();
    let state = site(random, n);
    let bytes = [stored(&state), behind(random)].concat();
    for pair in random.shuffled(all_pairs(n)).into_iter().take(1 + 4000 / bytes.len()) {
        let exact = long(&state, pair);
        let more = random.between(1, 900);
        for room in [exact, exact - 1, 0, exact + 1, exact + more, random.below(exact)] {
            explained(ground, &state, &bytes, in_room(random, pair, room))?;
        }
    }
    Ok(())
}

/// The order of refusals: each of a state's, with numbers that are nodes or none, and with lists of every class.
pub fn refused(ground: &mut Ground, random: &mut Random) -> Result<(), String> {
    let n = random.node_count();
    let state = match random.below(10) {
        0..5 => almost_at_rest(random, n),
        5..7 => one_ended_site(random, n),
        _ => states::any(random, n),
    };
    let bytes = spoiled(random, &state);
    let classes = classes(n);
    for _ in 0..4 {
        let mut number = || if random.chance(70) { random.below(n) } else { *random.pick(&classes) };
        let pair = (number(), number());
        let room = *random.pick(&[0, 1, 2, n - 1, n, ANY_REASON]);
        ground.agree(&bytes, &in_room(random, pair, room))?;
    }
    Ok(())
}

/// The core's own reasons, with nothing of the second implementation's: a search over the links bears each out. Along a
/// path the core's own routes lead, one hop less at each step; from a set none does.
pub fn by_search(ground: &mut Ground, random: &mut Random) -> Result<(), String> {
    let n = random.node_count();
    let state = site(random, n);
    let bytes = stored(&state);
    for (node, destination) in random.shuffled(all_pairs(n)).into_iter().take(1 + 4000 / bytes.len()) {
        let before = random.bytes(ANY_REASON + 8);
        let mut list = before.clone();
        let reason = ground.core.why(&bytes, node, destination, &mut list);
        let wrong = |what: String| format!("{what}\n  {reason:?}, n = {n}, {:?}", state.links);
        let (shown, behind) = list.split_at((reason.count as usize).min(ANY_REASON));
        if reason.code != 0 || reason.count as usize > n || behind != &before[shown.len()..] {
            return Err(wrong(format!(
                "{node} to {destination} is refused or too long, or what stands behind is not kept"
            )));
        }
        bounds::reason(&state, node, destination, reason.kind, shown).map_err(wrong)?;
        for (place, &u) in shown.iter().enumerate() {
            let next = shown.get(place + 1).map_or(destination as u32, |&w| w.into());
            let (distance, downstream) =
                if reason.kind == 1 { (reason.count - 1 - place as u32, next) } else { (n as u32, 255) };
            let way = ground.core.route(&bytes, u.into(), destination);
            if way != (Way { code: 0, distance, downstream }) {
                return Err(wrong(format!("the route of {u} to {destination} is {way:?}")));
            }
        }
    }
    Ok(())
}
