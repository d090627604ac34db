//! The soundness check. Uses the blocks of the buffer. What can be judged as a row or as a run of rows is: a loop then
//! gathers what is wrong and has no way out before its end, which is what compilers turn into vector instructions.

use super::parts::{NONE, Parts, row};

/// Destinations as link up puts them into a queue.
const IN_ORDER: [u8; 40] = {
    let mut order = [0; 40];
    let mut v = 0;
    while v < 40 {
        order[v] = v as u8;
        v += 1;
    }
    order
};

/// Sound, for a buffer that holds the stored form of n nodes.
pub fn sound(parts: &Parts) -> bool {
    links(parts) && (0..parts.n).all(|u| routes(parts, u)) && (0..parts.n).all(|u| queues(parts, u))
}

/// Each end is up or down, and no node has a link to itself. The two ends of a link may differ.
fn links(parts: &Parts) -> bool {
    let n = parts.n;
    let diagonal = (0..n).fold(0, |wrong, a| wrong | parts.links[a * n + a]);
    parts.links.iter().fold(diagonal, |wrong, &end| wrong | end & !1) == 0
}

/// Every byte is the one given.
pub fn all_are(bytes: &[u8], given: u8) -> bool {
    bytes.iter().fold(0, |wrong, &byte| wrong | byte ^ given) == 0
}

/// Where the zeros end that stand from a place on.
fn zeros_end(bytes: &[u8], from: usize) -> usize {
    bytes[from..].iter().position(|&byte| byte != 0).map_or(bytes.len(), |more| from + more)
}

/// The views of u are in range, n where u's end is down, and give u's distances and downstreams.
fn routes(parts: &Parts, u: usize) -> bool {
    let n = parts.n;
    let most = n as u8;
    let links = row(parts.links, n, u);
    let views = &parts.views[u * n * n..][..n * n];
    // The least view and the lowest node with it as one number; a view that would make it negative is refused.
    let mut best = [i16::from_be_bytes([most, NONE]); 40];
    let mut w = 0;
    while w < n {
        let up = zeros_end(links, w);
        if !all_are(&views[w * n..up * n], most) {
            return false;
        }
        if up < n {
            let mut greatest = 0;
            for (&view, best) in row(views, n, up).iter().zip(&mut best) {
                greatest = view.max(greatest);
                *best = i16::from_be_bytes([view, up as u8]).min(*best);
            }
            if greatest > most {
                return false;
            }
        }
        w = up + 1;
    }
    let (distances, downstreams) = (row(parts.distances, n, u), row(parts.downstreams, n, u));
    let mut wrong = 0;
    for v in 0..n {
        let [least, nearest] = best[v].to_be_bytes();
        let reached = if least + 1 < most { (least + 1, nearest) } else { (most, NONE) };
        let (distance, downstream) = if v == u { (0, u as u8) } else { reached };
        wrong |= distances[v] ^ distance | downstreams[v] ^ downstream;
    }
    wrong == 0
}

/// The queues that u sends on: nothing stands where nothing waits, nothing waits but where both ends are up, and the
/// receivers there know u's distances but for what waits.
fn queues(parts: &Parts, u: usize) -> bool {
    let n = parts.n;
    let mut whole = [0; 40];
    for (w, whole) in whole[..n].iter_mut().enumerate() {
        *whole = parts.links[u * n + w] & parts.links[w * n + u];
    }
    let lengths = row(parts.lengths, n, u);
    let distances = row(parts.distances, n, u);
    let destinations = &parts.destinations[u * n * n..][..n * n];
    let values = &parts.values[u * n * n..][..n * n];
    let heard = |w: usize| row(parts.views, n, w * n + u);
    // What each destination's value must be. None is right for a byte that is no node.
    let mut known = [u16::MAX; 256];
    for (known, &distance) in known.iter_mut().zip(distances) {
        *known = u16::from(distance);
    }
    let mut w = 0;
    while w < n {
        let held = zeros_end(lengths, w);
        if !all_are(&destinations[w * n..held * n], 0) || !all_are(&values[w * n..held * n], 0) {
            return false;
        }
        if !(w..held).all(|w| whole[w] == 0 || heard(w) == distances) {
            return false;
        }
        if held < n {
            let length = usize::from(lengths[held]);
            if whole[held] == 0 || length > n {
                return false;
            }
            let (waiting, places) = row(destinations, n, held).split_at(length);
            let (values, more_places) = row(values, n, held).split_at(length);
            if length < n && (places != &[0; 40][length..n] || more_places != places) {
                return false;
            }
            if !waits(waiting, values, heard(held), distances, &known) {
                return false;
            }
        }
        w = held + 1;
    }
    true
}

/// What waits are nodes that differ, each with its distance; of the others the distance was heard.
fn waits(waiting: &[u8], values: &[u8], heard: &[u8], distances: &[u8], known: &[u16; 256]) -> bool {
    let (n, length) = (distances.len(), waiting.len());
    if length == n && waiting == &IN_ORDER[..n] {
        return values == distances;
    }
    let (mut seen, mut wrong) = (0_u64, 0);
    for (&v, &value) in waiting.iter().zip(values) {
        seen |= 1 << (v % 64);
        wrong |= known[usize::from(v)] ^ u16::from(value);
    }
    if wrong != 0 || seen.count_ones() as usize != length {
        return false;
    }
    if length == n {
        return true;
    }
    let mut told = [0; 256];
    told[..n].copy_from_slice(heard);
    for (&v, &value) in waiting.iter().zip(values) {
        told[usize::from(v)] = value;
    }
    told[..n] == *distances
}
