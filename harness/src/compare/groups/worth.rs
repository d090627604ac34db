//! What each link is worth: sites at rest, states that are not, trials and lists of every length. Uses the rule, the
//! bounds and the ground.

use super::damaged::spoiled;
use super::runs::behind;
use crate::compare::bounds;
use crate::compare::call::{Call, needed};
use crate::compare::ground::Ground;
use crate::compare::random::Random;
use crate::compare::states::{
    self, almost_at_rest, at_rest, at_rest_with_ends, one_ended_site, pairs, sets_of_ends, site,
};
use crate::second::rule::State;
use crate::second::stored::stored;

/// Small sites often and large ones at times: a call has as many trials as there are pairs.
fn node_count(random: &mut Random) -> usize {
    match random.below(100) {
        0..50 => random.between(1, 5),
        50..85 => random.between(6, 10),
        85..98 => random.between(11, 16),
        _ => random.between(17, 24),
    }
}

/// Every set of links of up to five nodes. At rest there is one state for each.
pub fn every_set(ground: &mut Ground) -> Result<u64, String> {
    let mut count = 0;
    for n in 1..=5 {
        let pairs = pairs(n);
        for set in 0..1_u64 << pairs.len() {
            let links = pairs.iter().enumerate().filter(|(k, _)| set >> k & 1 == 1);
            let links: Vec<(usize, usize)> = links.map(|(_, &pair)| pair).collect();
            ground.agree(&stored(&at_rest(n, &links)), &Call::worth(n, set))?;
            count += 1;
        }
    }
    Ok(count)
}

/// Every set of ends of up to four nodes: no line for a pair with one end up, and no place in the list. In trials and lists
/// of exact size, in a list that would do for all pairs, and in short ones.
pub fn every_end(ground: &mut Ground) -> Result<u64, String> {
    let random = &mut Random::of_case(0, "worth-every-end", 0);
    let mut count = 0;
    for n in 1..=4 {
        for ends in sets_of_ends(n) {
            let state = at_rest_with_ends(n, &ends);
            let bytes = stored(&state);
            let (trial, lines) = needed(&state);
            let short = [(trial, lines.saturating_sub(1)), (trial, lines.saturating_sub(7)), (trial - 1, lines)];
            for (trial, lines) in [(trial, lines), (trial, 7 * pairs(n).len())].into_iter().chain(short) {
                ground.agree(&bytes, &Call::Worth { trial, lines, seed: random.word() })?;
                count += 1;
            }
        }
    }
    Ok(count)
}

/// Trials and lists of every length up to a few more than a small site needs, one with all links or none and one in which
/// some have one end up.
pub fn every_room(ground: &mut Ground) -> Result<u64, String> {
    let mut count = 0;
    for n in 1..=3 {
        let random = &mut Random::of_case(0, "worth-every-room", n as u64);
        for state in [site(random, n), at_rest_with_ends(n, &[(0, n - 1), (n - 1, 1)])] {
            let bytes = stored(&state);
            let (bytes_needed, numbers_needed) = needed(&state);
            for trial in 0..bytes_needed + 3 {
                for lines in 0..numbers_needed + 9 {
                    // A trial that is far too short meets few lists.
                    if trial + 2 >= bytes_needed || lines == 0 || lines.abs_diff(numbers_needed) <= 1 {
                        ground.agree(&bytes, &Call::Worth { trial, lines, seed: random.word() })?;
                        count += 1;
                    }
                }
            }
        }
    }
    Ok(count)
}

/// Random sites for each node count up to 24 and for 32, without ends up alone and with; a ring of 40 nodes with two; and
/// one of 40 nodes, the first 13 with all links and the others a tail. Its trials have up to 39 passes and over 65,536
/// deliveries, and change up to 7,762 hops.
pub fn node_counts(ground: &mut Ground) -> Result<u64, String> {
    let random = &mut Random::of_case(0, "worth-node-counts", 0);
    let counts = || (1..=24).chain([32]);
    let mut sites: Vec<State> = counts().map(|n| site(random, n)).collect();
    sites.extend(counts().map(|n| one_ended_site(random, n)));
    let ring = (0..40).flat_map(|a| [(a, (a + 1) % 40), ((a + 1) % 40, a)]);
    sites.push(at_rest_with_ends(40, &ring.filter(|end| ![(3, 4), (31, 30)].contains(end)).collect::<Vec<_>>()));
    let tailed: Vec<(usize, usize)> = pairs(40).into_iter().filter(|&(a, b)| b < 13 || a + 1 == b).collect();
    sites.push(at_rest(40, &tailed));
    for state in &sites {
        let n = state.n;
        ground.agree(&stored(state), &Call::worth(n, random.word())).map_err(|what| format!("n = {n}: {what}"))?;
    }
    Ok(sites.len() as u64)
}

/// Sites where one entry waits, or so many that a byte's sum of them is 0.
pub fn one_waits(ground: &mut Ground) -> Result<u64, String> {
    let random = &mut Random::of_case(0, "worth-one-waits", 0);
    let states = states::hardly_waiting(random);
    for state in &states {
        ground.refuse(&stored(state), &Call::worth(state.n, random.word()), 12)?;
    }
    Ok(states.len() as u64)
}

/// A site with bytes behind it; trials and lists that are exact, longer, short by one, and none at all.
pub fn sites(ground: &mut Ground, random: &mut Random) -> Result<(), String> {
    let n = node_count(random);
    let state = if random.chance(50) { one_ended_site(random, n) } else { site(random, n) };
    let bytes = [stored(&state), behind(random)].concat();
    let (trial, lines) = needed(&state);
    let (more, many) = (random.between(1, 900), random.between(1, 900));
    let one_less = lines.saturating_sub(1);
    let rooms = [(trial, lines), (trial + more, lines + many), (trial + many, lines), (trial, lines + more)];
    let short = [(trial - 1, lines + many), (trial + more, one_less), (trial - 1, one_less), (0, lines), (trial, 0)];
    let any = [(random.below(trial), random.below(lines + 1))];
    for (trial, lines) in rooms.into_iter().chain(short).chain(any) {
        ground.agree(&bytes, &Call::Worth { trial, lines, seed: random.word() })?;
    }
    Ok(())
}

/// The order of refusals: each of a state's, with a trial and a list that would do and with short ones.
pub fn refused(ground: &mut Ground, random: &mut Random) -> Result<(), String> {
    let n = random.node_count();
    let state = if random.chance(40) { almost_at_rest(random, n) } else { states::any(random, n) };
    let bytes = spoiled(random, &state);
    let (trial, lines) = needed(&state);
    let short_trial = *random.pick(&[0, 1, trial - 1]);
    let short_list = *random.pick(&[0, lines / 7, lines.saturating_sub(1)]);
    let rooms = [(trial, lines), (short_trial, lines), (trial, short_list), (short_trial, short_list)];
    // Of a large site only refusals are looked at here: all its trials take long.
    let first = usize::from(n > 10 && state.total_queued() == 0);
    for &(trial, lines) in &rooms[first..] {
        ground.agree(&bytes, &Call::Worth { trial, lines, seed: random.word() })?;
    }
    Ok(())
}

/// The core's own lines, with nothing of the second implementation's worth: routes and hops are held to a search over
/// the links before and after, which believes ends that are up alone, passes and deliveries to the core's own calls for the
/// link and for a run.
pub fn by_search(ground: &mut Ground, random: &mut Random) -> Result<(), String> {
    let n = if random.chance(1) { 40 } else { node_count(random) };
    let state = if random.chance(40) { one_ended_site(random, n) } else { site(random, n) };
    let bytes = stored(&state);
    let with_line: Vec<(usize, usize)> =
        pairs(n).into_iter().filter(|&(a, b)| state.links[a][b] == state.links[b][a]).collect();
    let (mut trial, mut list) = (random.bytes(bytes.len()), random.numbers(7 * with_line.len()));
    let answer = ground.core.worth(&bytes, &mut trial, &mut list);
    if (answer.code, answer.value as usize) != (0, with_line.len()) || trial != bytes {
        return Err(format!("n = {n}: {answer:?}, or the trial is no copy of the state"));
    }
    let before = bounds::hops_at_rest(&state);
    for (line, (a, b)) in list.chunks_exact(7).zip(with_line) {
        let wrong = |what: String| format!("line {line:?} of {a} and {b}: {what}\n  n = {n}, {:?}", state.links);
        let mut after = state.clone();
        (after.links[a][b], after.links[b][a]) = (!state.links[a][b], !state.links[a][b]);
        let should = bounds::worth(&before, &bounds::hops_at_rest(&after));
        let (pair, routes) = ([line[0], line[1]], [line[4], line[5], line[6]].map(i64::from));
        if pair != [a as i32, b as i32] || routes != should {
            return Err(wrong(format!("should end {should:?}")));
        }
        bounds::run(n, line[2] as usize, line[3] as usize).map_err(wrong)?;
        // Of a large site some pairs.
        if n <= 10 || random.chance(2) {
            by_own_run(ground, &bytes, state.links[a][b], line).map_err(wrong)?;
        }
    }
    Ok(())
}

/// A line's passes and deliveries are those that the core gives for the same link turned by hand.
fn by_own_run(ground: &Ground, bytes: &[u8], is_up: bool, line: &[i32]) -> Result<(), String> {
    let (a, b) = (line[0] as usize, line[1] as usize);
    let mut state = bytes.to_vec();
    let turned = if is_up { ground.core.down(&mut state, a, b) } else { ground.core.up(&mut state, a, b) };
    let ran = ground.core.run(&mut state, 255);
    let is = [turned as i32, ran.code as i32, ran.passes as i32, ran.deliveries as i32];
    if is == [0, 0, line[2], line[3]] { Ok(()) } else { Err(format!("by hand {is:?}")) }
}
