//! Sound states to start from: some that events reach, some that none do; in many of both, links of which one end is up.
//! Uses the rule and the random numbers.

use super::random::Random;
use crate::second::rule::{Entry, State, recomputed};

/// All pairs a < b.
pub fn pairs(n: usize) -> Vec<(usize, usize)> {
    (0..n).flat_map(|a| (a + 1..n).map(move |b| (a, b))).collect()
}

/// Every node with every destination, itself too.
pub fn all_pairs(n: usize) -> Vec<(usize, usize)> {
    (0..n).flat_map(|u| (0..n).map(move |v| (u, v))).collect()
}

/// Links of a random kind: none, a line, a ring, a star, a random set, or all.
pub fn links(random: &mut Random, n: usize) -> Vec<(usize, usize)> {
    let order = random.shuffled(0..n);
    let joined = |a: usize, b: usize| (order[a].min(order[b]), order[a].max(order[b]));
    let line = || (1..n).map(|b| joined(b - 1, b)).collect::<Vec<_>>();
    let links = match random.below(12) {
        0 => vec![],
        1 | 2 => line(),
        3 | 4 if n > 2 => line().into_iter().chain([joined(0, n - 1)]).collect(),
        5 => (1..n).map(|b| joined(0, b)).collect(),
        6 => pairs(n),
        _ => {
            let density = *random.pick(&[5, 15, 30, 50, 80]);
            pairs(n).into_iter().filter(|_| random.chance(density)).collect()
        }
    };
    random.shuffled(links)
}

/// An event that the rule can do in a state, or nothing where a random choice finds none.
#[derive(Clone, Copy, PartialEq, Eq, Debug)]
pub enum Event {
    Up(usize, usize),
    Down(usize, usize),
    Notice(usize, usize),
    Deliver(usize, usize),
    Pass,
    Run(u8),
}

/// Queues that hold something, by sender and receiver.
pub fn filled(state: &State) -> Vec<(usize, usize)> {
    all_pairs(state.n).into_iter().filter(|&(w, u)| !state.queues[w][u].is_empty()).collect()
}

/// Pairs a < b whose link has both ends up.
pub fn whole_links(state: &State) -> Vec<(usize, usize)> {
    pairs(state.n).into_iter().filter(|&(a, b)| state.whole(a, b)).collect()
}

/// The ends that are up though the other end has noticed: each with the node at the other end.
pub fn lone_ends(state: &State) -> Vec<(usize, usize)> {
    all_pairs(state.n).into_iter().filter(|&(a, b)| state.links[a][b] && !state.links[b][a]).collect()
}

/// Two nodes in one order or the other.
pub fn either(random: &mut Random, (a, b): (usize, usize)) -> (usize, usize) {
    if random.chance(50) { (a, b) } else { (b, a) }
}

/// A random event of two nodes that is not refused: where both ends are up, the link's end or a notice of one of them;
/// where one is, the link's end or the notice that is missing.
fn link_event(random: &mut Random, state: &State, a: usize, b: usize) -> Event {
    match (state.links[a][b], state.links[b][a]) {
        (false, false) => Event::Up(a, b),
        _ if random.chance(50) => Event::Down(a, b),
        (true, _) => Event::Notice(a, b),
        (false, true) => Event::Notice(b, a),
    }
}

/// A random event that is not refused. With one node only passes and runs are left.
pub fn event(random: &mut Random, state: &State) -> Event {
    let n = state.n;
    let quiet = |random: &mut Random| {
        if random.chance(50) { Event::Pass } else { Event::Run(*random.pick(&[0, 1, 2, 3, 40, 255])) }
    };
    if n == 1 {
        return quiet(random);
    }
    let filled = filled(state);
    match random.below(100) {
        0..30 => {
            let a = random.below(n);
            let b = (a + random.between(1, n - 1)) % n;
            link_event(random, state, a, b)
        }
        30..36 => {
            let up: Vec<(usize, usize)> = all_pairs(n).into_iter().filter(|&(a, b)| state.links[a][b]).collect();
            if up.is_empty() {
                return quiet(random);
            }
            let (a, b) = *random.pick(&up);
            let (a, b) = either(random, (a, b));
            link_event(random, state, a, b)
        }
        36..94 if !filled.is_empty() => {
            let &(from, to) = random.pick(&filled);
            Event::Deliver(from, to)
        }
        _ => quiet(random),
    }
}

/// Does an event. Gives the answers that the call for it gives.
pub fn apply(state: &mut State, event: Event) -> [u32; 3] {
    match event {
        Event::Up(a, b) => state.up(a, b),
        Event::Down(a, b) => state.down(a, b),
        Event::Notice(noticing, other) => state.notice(noticing, other),
        Event::Deliver(from, to) => state.deliver(from, to),
        Event::Pass => return [0, state.pass() as u32, 0],
        Event::Run(allowance) => {
            let (passes, deliveries) = state.run(allowance);
            return [0, passes as u32, deliveries as u32];
        }
    }
    [0, 0, 0]
}

/// A site with these links, at rest.
pub fn at_rest(n: usize, links: &[(usize, usize)]) -> State {
    let mut state = State::fresh(n);
    for &(a, b) in links {
        state.up(a, b);
    }
    state.run(255);
    state
}

/// Every set of ends of the links of n nodes, each named by its own node first.
pub fn sets_of_ends(n: usize) -> impl Iterator<Item = Vec<(usize, usize)>> {
    let ends: Vec<(usize, usize)> = all_pairs(n).into_iter().filter(|(a, b)| a != b).collect();
    (0..1_u64 << ends.len()).map(move |set| (0..ends.len()).filter(|k| set >> k & 1 == 1).map(|k| ends[k]).collect())
}

/// A site at rest with these ends up. Where one of two is missing it noticed when all was at rest.
pub fn at_rest_with_ends(n: usize, ends: &[(usize, usize)]) -> State {
    let links: Vec<(usize, usize)> =
        pairs(n).into_iter().filter(|&(a, b)| ends.contains(&(a, b)) || ends.contains(&(b, a))).collect();
    let mut state = at_rest(n, &links);
    for (a, b) in all_pairs(n) {
        if state.links[a][b] && !ends.contains(&(a, b)) {
            state.notice(a, b);
        }
    }
    state.run(255);
    state
}

/// A random site at rest.
pub fn site(random: &mut Random, n: usize) -> State {
    let links = links(random, n);
    at_rest(n, &links)
}

/// Has one end notice, of so many links in a hundred that have both ends up. Small sites often make passes in between.
fn notices(random: &mut Random, state: &mut State, share: usize) {
    for pair in random.shuffled(whole_links(state)) {
        if random.chance(share) {
            let (noticing, other) = either(random, pair);
            state.notice(noticing, other);
            if state.n <= 10 && random.chance(50) {
                state.run(*random.pick(&[1, 2, 255]));
            }
        }
    }
}

/// A random site at rest, often with links of which one end is up: noticed by events, or with any views at the other end.
pub fn one_ended_site(random: &mut Random, n: usize) -> State {
    if random.chance(40) {
        return constructed_with(random, n, 0);
    }
    let mut state = site(random, n);
    let share = *random.pick(&[5, 30, 100]);
    notices(random, &mut state, share);
    state.run(255);
    state
}

/// A site at rest where each pair has one end up or both.
pub fn with_lone_ends(random: &mut Random, n: usize) -> State {
    let ends: Vec<(usize, usize)> = pairs(n)
        .into_iter()
        .flat_map(|(a, b)| match random.below(3) {
            0 => vec![(a, b)],
            1 => vec![(b, a)],
            _ => vec![(a, b), (b, a)],
        })
        .collect();
    at_rest_with_ends(n, &ends)
}

/// Puts an entry that tells nothing new at a queue's tail. The state stays sound where the destination does not wait.
fn add_entry(state: &mut State, from: usize, to: usize, destination: usize) {
    let value = state.distances[from][destination];
    state.queues[from][to].push_back(Entry { destination, value });
}

/// A site at rest, or one in which a single entry waits; at times with links of which one end is up.
pub fn almost_at_rest(random: &mut Random, n: usize) -> State {
    let mut state = if random.chance(40) { one_ended_site(random, n) } else { site(random, n) };
    let whole = whole_links(&state);
    if random.chance(60) && !whole.is_empty() {
        let pair = *random.pick(&whole);
        let (from, to) = either(random, pair);
        add_entry(&mut state, from, to, random.below(n));
    }
    state
}

/// Sites that are not at rest, though hardly anything tells so: one entry in each queue in turn, the others empty; one
/// in each direction of a link; and so many that a byte's sum of the lengths is 0.
pub fn hardly_waiting(random: &mut Random) -> Vec<State> {
    let mut states = Vec::new();
    for n in [2, 3, 5, 40] {
        let whole = at_rest(n, &pairs(n));
        // Of a large site some nodes.
        let nodes: Vec<usize> = if n == 40 { vec![0, 1, 20, 38, 39] } else { (0..n).collect() };
        let ends = nodes.iter().flat_map(|&from| nodes.iter().map(move |&to| (from, to)));
        for (from, to) in ends.filter(|(from, to)| from != to) {
            let mut state = whole.clone();
            add_entry(&mut state, from, to, random.below(n));
            states.push(state.clone());
            if from < to {
                add_entry(&mut state, to, from, random.below(n));
                states.push(state);
            }
        }
    }
    // Entries of each queue, and to how many of the next nodes: 256, 512 and 1,024 of 16 nodes, 49,920 of 40.
    for (n, length, next) in [(16, 16, 1), (16, 16, 2), (16, 16, 4), (40, 32, 39)] {
        let mut state = at_rest(n, &pairs(n));
        for (from, step) in (0..n).flat_map(|from| (1..=next).map(move |step| (from, step))) {
            (0..length).for_each(|v| add_entry(&mut state, from, (from + step) % n, v));
        }
        assert_eq!(state.total_queued() % 256, 0, "a sum that a byte does not show");
        states.push(state);
    }
    states
}

/// A state that random events reach: some links at once, then at times notices of one end of many, then single events.
pub fn reached(random: &mut Random, n: usize) -> State {
    let mut state = State::fresh(n);
    for pair in links(random, n) {
        let (a, b) = either(random, pair);
        state.up(a, b);
    }
    if random.chance(40) {
        let passes = *random.pick(&[1, 2, 3, 255]);
        state.run(passes);
    }
    if random.chance(25) {
        let share = *random.pick(&[10, 40, 100]);
        notices(random, &mut state, share);
    }
    for _ in 0..random.below(4 * n + 4) {
        let event = event(random, &state);
        apply(&mut state, event);
    }
    state
}

/// A sound state whose queues hold any destinations in any order, and whose views of these are any numbers, as are those
/// at an end that is up alone. Of a destination that does not wait the view is the sender's distance: the distances are
/// then the one solution of their equations, and going down from n finds it.
pub fn constructed(random: &mut Random, n: usize) -> State {
    let waiting = *random.pick(&[0, 3, 20, 50, 90, 100]);
    constructed_with(random, n, waiting)
}

/// The same with so many destinations in a hundred that wait.
fn constructed_with(random: &mut Random, n: usize, waiting: usize) -> State {
    let mut state = State::fresh(n);
    let one_ended = *random.pick(&[0, 0, 10, 50, 100]);
    for pair in links(random, n) {
        let (a, b) = either(random, pair);
        state.links[a][b] = true;
        state.links[b][a] = !random.chance(one_ended);
    }
    let kind = random.below(4);
    for (w, u) in all_pairs(n).into_iter().filter(|&(w, u)| state.links[u][w]).collect::<Vec<_>>() {
        // Over a link whose other end has noticed nothing waits, and nothing said that these views should be as they are.
        let whole = state.links[w][u];
        let share = if whole { waiting } else { 100 };
        let mut order: Vec<usize> = (0..n).filter(|_| random.chance(share)).collect();
        random.shuffle(&mut order);
        for destination in order {
            if whole {
                state.queues[w][u].push_back(Entry { destination, value: n });
            }
            state.views[u][w][destination] = match kind {
                0 => random.between(0, n),
                1 => *random.pick(&[n, n, n, n - 1, 0]),
                2 => random.between(n - n.min(3), n),
                _ => random.between(0, n.min(3)),
            };
        }
    }
    settle(&mut state);
    state
}

/// Distances, downstreams, heard views and queued values from the views of what waits and those at ends that are up alone.
fn settle(state: &mut State) {
    let n = state.n;
    let waits = |w: usize, u: usize, v: usize| state.queues[w][u].iter().any(|entry| entry.destination == v);
    let waiting: Vec<bool> = (0..n)
        .flat_map(|w| (0..n).flat_map(move |u| (0..n).map(move |v| (w, u, v))))
        .map(|(w, u, v)| waits(w, u, v))
        .collect();
    loop {
        let before = state.distances.clone();
        for u in 0..n {
            let neighbours = state.neighbours(u);
            for v in 0..n {
                for &w in &neighbours {
                    if state.links[w][u] && !waiting[(w * n + u) * n + v] {
                        state.views[u][w][v] = state.distances[w][v];
                    }
                }
                let heard = neighbours.iter().map(|&w| (w, state.views[u][w][v]));
                let route = recomputed(n, u, v, heard);
                state.distances[u][v] = route.distance;
                state.downstreams[u][v] = route.downstream;
            }
        }
        if before == state.distances {
            break;
        }
    }
    for w in 0..n {
        for u in 0..n {
            for entry in &mut state.queues[w][u] {
                entry.value = state.distances[w][entry.destination];
            }
        }
    }
}

/// A sound state of either kind.
pub fn any(random: &mut Random, n: usize) -> State {
    if random.chance(50) { reached(random, n) } else { constructed(random, n) }
}
