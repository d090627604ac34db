//! What must be true of sound states and at rest: waiting entries, true hop counts, downstreams, what links are worth,
//! and reasons.
//! Uses the links of a state, and the views at ends that are up alone; hop counts are found by searches that have nothing
//! of the rule.

use super::states::{all_pairs, lone_ends};
use crate::second::rule::{Route, State};
use std::collections::VecDeque;

/// True hop counts from a node over links with both ends up, n where there is no path.
pub fn hops(state: &State, from: usize) -> Vec<usize> {
    let mut hops = vec![state.n; state.n];
    hops[from] = 0;
    let mut wave = VecDeque::from([from]);
    while let Some(u) = wave.pop_front() {
        for w in state.joined_to(u) {
            if hops[w] == state.n {
                hops[w] = hops[u] + 1;
                wave.push_back(w);
            }
        }
    }
    hops
}

/// Each node's hops to a destination where ends that are up alone are believed: over links with both ends up to the
/// destination, or to such an end and as many more as its view says. Waves go out from all of them at once; n at most.
fn believed(state: &State, destination: usize) -> Vec<usize> {
    let n = state.n;
    let mut hops = vec![n; n];
    for (u, w) in lone_ends(state) {
        hops[u] = hops[u].min(state.views[u][w][destination] + 1);
    }
    hops[destination] = 0;
    for near in 0..n {
        for u in (0..n).filter(|&u| hops[u] == near).collect::<Vec<_>>() {
            for w in state.joined_to(u) {
                hops[w] = hops[w].min(near + 1);
            }
        }
    }
    hops
}

/// What the distances come to at rest, by node and destination: true hop counts, or where an end is up alone what comes
/// of believing it.
pub fn hops_at_rest(state: &State) -> Vec<Vec<usize>> {
    let n = state.n;
    if lone_ends(state).is_empty() {
        return (0..n).map(|u| hops(state, u)).collect();
    }
    let believed: Vec<Vec<usize>> = (0..n).map(|v| believed(state, v)).collect();
    (0..n).map(|u| (0..n).map(|v| believed[v][u]).collect()).collect()
}

/// At rest: every distance is that number of hops, and every downstream is right for it.
pub fn right_at_rest(state: &State) -> Result<(), String> {
    let n = state.n;
    let hops = hops_at_rest(state);
    for (u, v) in all_pairs(n) {
        let told = |w: usize| if state.links[w][u] { hops[w][v] } else { state.views[u][w][v] };
        let nearer = state.neighbours(u).into_iter().find(|&w| hops[u][v] < n && told(w) + 1 == hops[u][v]);
        let should = Route { distance: hops[u][v], downstream: if u == v { Some(u) } else { nearer } };
        if state.route(u, v) != should {
            return Err(format!("{u} to {v} has {:?}, not {should:?}", state.route(u, v)));
        }
    }
    Ok(())
}

/// No sound state has more than n²(n−1) waiting.
pub fn waiting(state: &State) -> Result<(), String> {
    let (n, total) = (state.n, state.total_queued());
    if total <= n * n * (n - 1) { Ok(()) } else { Err(format!("{total} wait with n = {n}")) }
}

/// A run to rest takes at most n passes and n³(n−1) deliveries.
pub fn run(n: usize, passes: usize, deliveries: usize) -> Result<(), String> {
    if passes <= n && deliveries <= n.pow(3) * (n - 1) {
        Ok(())
    } else {
        Err(format!("{passes} passes and {deliveries} deliveries with n = {n}"))
    }
}

/// What a link is worth by hop counts before and after: ordered pairs that lost their route, those that gained one, and
/// the change in hops over those with a route both times.
pub fn worth(before: &[Vec<usize>], after: &[Vec<usize>]) -> [i64; 3] {
    let n = before.len();
    let hops = || before.iter().flatten().zip(after.iter().flatten());
    let lost = hops().filter(|&(&was, &is)| was < n && is == n).count();
    let gained = hops().filter(|&(&was, &is)| was == n && is < n).count();
    let both = || hops().filter(|&(&was, &is)| was.max(is) < n);
    let change = both().map(|(_, &is)| is as i64).sum::<i64>() - both().map(|(&was, _)| was as i64).sum::<i64>();
    [lost as i64, gained as i64, change]
}

/// What a list shows, held to the links: a path (kind 1) or a set (kind 2) that is the reason for a node and a
/// destination. Among shortest paths it does not choose.
pub fn reason(state: &State, node: usize, destination: usize, kind: u32, list: &[u8]) -> Result<(), String> {
    let list: Vec<usize> = list.iter().copied().map(usize::from).collect();
    let demands = match kind {
        _ if list.iter().any(|&u| u >= state.n) => vec![("instances only", false)],
        1 => path(state, node, destination, &list),
        2 => set(state, node, destination, &list),
        _ => vec![("a kind that is known", false)],
    };
    match demands.into_iter().find(|&(_, holds)| !holds) {
        Some((demand, _)) => Err(format!("{node} to {destination}, kind {kind}, {list:?} has not: {demand}")),
        None => Ok(()),
    }
}

fn path(state: &State, node: usize, destination: usize, list: &[usize]) -> Vec<(&'static str, bool)> {
    let remaining = hops(state, destination);
    let once = |(place, u): (usize, &usize)| !list[..place].contains(u);
    vec![
        ("the node first", list.first() == Some(&node)),
        ("the destination last", list.last() == Some(&destination)),
        ("a link with both ends up at each step", list.windows(2).all(|step| state.whole(step[0], step[1]))),
        ("the fewest hops", list.len() == hops(state, node)[destination] + 1),
        ("one hop less at each step", list.windows(2).all(|step| remaining[step[0]] == remaining[step[1]] + 1)),
        ("no instance twice", list.iter().enumerate().all(once)),
    ]
}

fn set(state: &State, node: usize, destination: usize, list: &[usize]) -> Vec<(&'static str, bool)> {
    let hops = hops(state, node);
    let joined: Vec<usize> = (0..state.n).filter(|&u| hops[u] < state.n).collect();
    let leads_inside = |&u: &usize| state.joined_to(u).iter().all(|w| list.contains(w));
    vec![
        ("the node inside", list.contains(&node)),
        ("the destination outside", !list.contains(&destination)),
        ("an ascending order", list.windows(2).all(|two| two[0] < two[1])),
        ("no link with both ends up that leaves it", list.iter().all(leads_inside)),
        ("all that is joined and nothing else", list == joined),
    ]
}
