//! Damage to stored states: any bytes, and for each clause of soundness ways to break it. Uses the stored blocks and the
//! rule's recompute.

use super::random::Random;
use super::states::either;
use crate::second::rule::recomputed;
use crate::second::sound::Clause;
use crate::second::stored::{Blocks, NONE};

/// A byte of one of the blocks: each block as often as another, whatever its size.
fn cell<'a>(random: &mut Random, blocks: &'a mut Blocks) -> &'a mut u8 {
    let n = usize::from(blocks.n);
    let (x, y, z) = (random.below(n), random.below(n), random.below(n));
    match random.below(8) {
        0 => &mut blocks.links[x][y],
        1 => &mut blocks.distances[x][y],
        2 => &mut blocks.downstreams[x][y],
        3 => &mut blocks.views[x][y][z],
        4 => &mut blocks.lengths[x][y],
        5 => &mut blocks.destinations[x][y][z],
        6 => &mut blocks.values[x][y][z],
        _ => &mut blocks.links[x][x],
    }
}

/// A byte near the edges that the clauses speak of, or any.
pub fn value(random: &mut Random, n: u8, old: u8) -> u8 {
    let near =
        [0, 1, n.wrapping_sub(1), n, n.wrapping_add(1), NONE, old.wrapping_add(1), old.wrapping_sub(1), old ^ 128];
    if random.chance(80) { *random.pick(&near) } else { random.byte() }
}

/// Changes so many single bytes of the blocks.
pub fn bytes(random: &mut Random, blocks: &mut Blocks, count: usize) {
    for _ in 0..count {
        let n = blocks.n;
        let cell = cell(random, blocks);
        *cell = value(random, n, *cell);
    }
}

/// Changes a whole row, square or block to one byte or to any bytes.
pub fn stretch(random: &mut Random, stored: &mut [u8]) {
    let n = usize::from(stored[0]);
    let length = *random.pick(&[2, n, n * n, n * n * n]);
    let first = random.between(1, stored.len() - 1);
    let stretch = &mut stored[first..];
    let length = length.clamp(1, stretch.len());
    let filled = random.chance(50).then(|| value(random, n as u8, 0));
    for byte in &mut stretch[..length] {
        *byte = filled.unwrap_or_else(|| random.byte());
    }
}

/// A way to break soundness: does it where the state has a place for it, and says which clause is then broken.
pub type Damage = fn(&mut Random, &mut Blocks) -> Option<Clause>;

pub const DAMAGES: &[Damage] = &[
    link_byte,
    lone_link_byte,
    end_cut_off,
    noticed_end_up,
    half_up,
    diagonal_link,
    link_to_itself,
    distance,
    downstream,
    equal_downstream,
    view_over_n,
    down_view,
    own_view,
    noticed_view,
    lone_view_over_n,
    lone_view_not_read,
    down_queue,
    own_queue,
    lone_queue,
    length_over_n,
    same_destination_twice,
    destination_again,
    destination_not_below_n,
    number_like_destination,
    other_value,
    other_view,
    destination_past,
    value_past,
    shorter_queue,
];

/// Those of links with one end up.
pub const LONE: &[Damage] = &[lone_link_byte, noticed_view, lone_view_over_n, lone_view_not_read, lone_queue];

/// One of the places for which a test holds, with the link's nodes and a third number below n.
fn place(random: &mut Random, n: u8, test: impl Fn(usize, usize, usize) -> bool) -> Option<(usize, usize, usize)> {
    let n = usize::from(n);
    // A few tries are enough where places are many, and where they are few the damage is left out.
    (0..200).map(|_| (random.below(n), random.below(n), random.below(n))).find(|&(x, y, z)| test(x, y, z))
}

fn other(random: &mut Random, n: u8, old: u8) -> u8 {
    loop {
        let byte = value(random, n, old);
        if byte != old {
            return byte;
        }
    }
}

fn link_byte(random: &mut Random, blocks: &mut Blocks) -> Option<Clause> {
    let (a, b, _) = place(random, blocks.n, |a, b, _| a != b)?;
    let byte = random.between(2, 255) as u8;
    blocks.links[a][b] = byte;
    blocks.links[b][a] = byte;
    Some(Clause::LinkIsZeroOrOne)
}

/// An end that is up alone, with the node at its other end and any third number.
fn lone_end(random: &mut Random, blocks: &Blocks) -> Option<(usize, usize, usize)> {
    place(random, blocks.n, |a, b, _| blocks.links[a][b] == 1 && blocks.links[b][a] == 0)
}

/// A link of which one end has noticed has another byte at either end.
fn lone_link_byte(random: &mut Random, blocks: &mut Blocks) -> Option<Clause> {
    let (a, b, _) = lone_end(random, blocks)?;
    let (a, b) = either(random, (a, b));
    blocks.links[a][b] = *random.pick(&[2, 3, 128, 129, 254, 255]);
    Some(Clause::LinkIsZeroOrOne)
}

/// One end of a link with both ends up is down. The other node's distance to itself, which is never n, was heard there or
/// waits.
fn end_cut_off(random: &mut Random, blocks: &mut Blocks) -> Option<Clause> {
    let (a, b, _) = place(random, blocks.n, |a, b, _| blocks.links[a][b] == 1 && blocks.links[b][a] == 1)?;
    blocks.links[a][b] = 0;
    Some(if blocks.views[a][b][b] == blocks.n { Clause::OneEndedQueueEmpty } else { Clause::DownViewIsN })
}

/// An end that has noticed is up again, and nothing was sent.
fn noticed_end_up(random: &mut Random, blocks: &mut Blocks) -> Option<Clause> {
    let (a, b, _) = lone_end(random, blocks)?;
    blocks.links[b][a] = 1;
    Some(Clause::NotWaitingIsHeard)
}

/// One end of a down link is up, and a queue on it holds what link up puts there: all else is as it should be, whether a
/// reader takes the sender's end or the receiver's for the queue.
fn half_up(random: &mut Random, blocks: &mut Blocks) -> Option<Clause> {
    let (a, b, _) = place(random, blocks.n, |a, b, _| a != b && blocks.links[a][b] == 0 && blocks.links[b][a] == 0)?;
    let (sender, receiver) = either(random, (a, b));
    blocks.links[a][b] = 1;
    all_entries(blocks, sender, receiver);
    Some(Clause::OneEndedQueueEmpty)
}

fn diagonal_link(random: &mut Random, blocks: &mut Blocks) -> Option<Clause> {
    let (u, _, _) = place(random, blocks.n, |_, _, _| true)?;
    blocks.links[u][u] = other(random, blocks.n, 0);
    Some(Clause::LinkDiagonalZero)
}

/// A node has a link to itself with all that a link has: what it says was heard, or waits.
fn link_to_itself(random: &mut Random, blocks: &mut Blocks) -> Option<Clause> {
    let (u, _, _) = place(random, blocks.n, |_, _, _| true)?;
    blocks.links[u][u] = 1;
    if random.chance(70) {
        blocks.views[u][u] = blocks.distances[u].clone();
    } else {
        all_entries(blocks, u, u);
    }
    Some(Clause::LinkDiagonalZero)
}

fn distance(random: &mut Random, blocks: &mut Blocks) -> Option<Clause> {
    let (u, v, _) = place(random, blocks.n, |_, _, _| true)?;
    blocks.distances[u][v] = other(random, blocks.n, blocks.distances[u][v]);
    Some(Clause::DistanceRecomputed)
}

fn downstream(random: &mut Random, blocks: &mut Blocks) -> Option<Clause> {
    let (u, v, _) = place(random, blocks.n, |_, _, _| true)?;
    blocks.downstreams[u][v] = other(random, blocks.n, blocks.downstreams[u][v]);
    Some(Clause::DownstreamRecomputed)
}

/// A neighbour that gives the same distance, and is not the lowest-numbered one.
fn equal_downstream(random: &mut Random, blocks: &mut Blocks) -> Option<Clause> {
    let (u, w, v) = place(random, blocks.n, |u, w, v| {
        let downstream = blocks.downstreams[u][v];
        let gives = blocks.links[u][w] == 1 && downstream != NONE && u != v && usize::from(downstream) != w;
        gives && blocks.views[u][w][v] == blocks.views[u][usize::from(downstream)][v]
    })?;
    blocks.downstreams[u][v] = w as u8;
    Some(Clause::DownstreamRecomputed)
}

/// A view of a destination that waits and that another neighbour is nearer to: no other clause speaks of it.
fn view_over_n(random: &mut Random, blocks: &mut Blocks) -> Option<Clause> {
    let n = blocks.n;
    let (u, w, v) = place(random, n, |u, w, v| {
        let length = usize::from(blocks.lengths[w][u]);
        let waits = blocks.destinations[w][u][..length].contains(&(v as u8));
        waits && usize::from(blocks.downstreams[u][v]) != w
    })?;
    blocks.views[u][w][v] = if random.chance(50) { n + 1 } else { random.between(usize::from(n) + 1, 255) as u8 };
    Some(Clause::ViewAtMostN)
}

fn down_view(random: &mut Random, blocks: &mut Blocks) -> Option<Clause> {
    let (u, w, v) = place(random, blocks.n, |u, w, _| u != w && blocks.links[u][w] == 0)?;
    blocks.views[u][w][v] = other(random, blocks.n, blocks.n);
    Some(Clause::DownViewIsN)
}

/// An end that has noticed has heard something: most often what the other end says, or nothing that is nearer.
fn noticed_view(random: &mut Random, blocks: &mut Blocks) -> Option<Clause> {
    let (a, b, v) = lone_end(random, blocks)?;
    let n = blocks.n;
    blocks.views[b][a][v] = match random.below(3) {
        0 if blocks.distances[a][v] < n => blocks.distances[a][v],
        1 => n - 1,
        _ => other(random, n, n),
    };
    Some(Clause::DownViewIsN)
}

/// A view at an end that is up alone, of a destination that another neighbour is nearer to or nobody is.
fn lone_view_over_n(random: &mut Random, blocks: &mut Blocks) -> Option<Clause> {
    let n = blocks.n;
    let (u, w, v) = place(random, n, |u, w, v| {
        blocks.links[u][w] == 1 && blocks.links[w][u] == 0 && usize::from(blocks.downstreams[u][v]) != w
    })?;
    blocks.views[u][w][v] = if random.chance(50) { n + 1 } else { random.between(usize::from(n) + 1, 255) as u8 };
    Some(Clause::ViewAtMostN)
}

/// Distances and downstreams of a node as its links with both ends up give them: what it heard over another is not read.
fn lone_view_not_read(random: &mut Random, blocks: &mut Blocks) -> Option<Clause> {
    let n = usize::from(blocks.n);
    let (u, _, v) = place(random, blocks.n, |u, w, v| {
        u != v && blocks.links[w][u] == 0 && usize::from(blocks.downstreams[u][v]) == w
    })?;
    let whole = (0..n).filter(|&w| blocks.links[u][w] == 1 && blocks.links[w][u] == 1);
    let route = recomputed(n, u, v, whole.map(|w| (w, usize::from(blocks.views[u][w][v]))));
    let distance = blocks.distances[u][v];
    blocks.distances[u][v] = route.distance as u8;
    blocks.downstreams[u][v] = route.downstream.map_or(NONE, |w| w as u8);
    Some(if blocks.distances[u][v] == distance { Clause::DownstreamRecomputed } else { Clause::DistanceRecomputed })
}

fn own_view(random: &mut Random, blocks: &mut Blocks) -> Option<Clause> {
    let (u, v, _) = place(random, blocks.n, |_, _, _| true)?;
    blocks.views[u][u][v] = other(random, blocks.n, blocks.n);
    Some(Clause::DownViewIsN)
}

fn down_queue(random: &mut Random, blocks: &mut Blocks) -> Option<Clause> {
    let (w, u, v) = place(random, blocks.n, |w, u, _| w != u && blocks.links[w][u] == 0 && blocks.links[u][w] == 0)?;
    one_entry(blocks, w, u, v);
    Some(Clause::DownQueueEmpty)
}

/// One entry or all wait for the end that has noticed, or from it.
fn lone_queue(random: &mut Random, blocks: &mut Blocks) -> Option<Clause> {
    let (a, b, v) = lone_end(random, blocks)?;
    let (w, u) = either(random, (a, b));
    if random.chance(30) {
        all_entries(blocks, w, u);
    } else {
        one_entry(blocks, w, u, v);
    }
    Some(Clause::OneEndedQueueEmpty)
}

fn own_queue(random: &mut Random, blocks: &mut Blocks) -> Option<Clause> {
    let (u, v, _) = place(random, blocks.n, |_, _, _| true)?;
    one_entry(blocks, u, u, v);
    Some(Clause::DownQueueEmpty)
}

/// An entry as it would stand in a queue of a link with both ends up.
fn one_entry(blocks: &mut Blocks, w: usize, u: usize, v: usize) {
    blocks.lengths[w][u] = 1;
    blocks.destinations[w][u][0] = v as u8;
    blocks.values[w][u][0] = blocks.distances[w][v];
}

/// All entries, as link up puts them.
fn all_entries(blocks: &mut Blocks, w: usize, u: usize) {
    blocks.lengths[w][u] = blocks.n;
    blocks.destinations[w][u] = (0..blocks.n).collect();
    blocks.values[w][u] = blocks.distances[w].clone();
}

fn length_over_n(random: &mut Random, blocks: &mut Blocks) -> Option<Clause> {
    let n = blocks.n;
    let (w, u, _) = place(random, n, |w, u, _| blocks.lengths[w][u] == n)?;
    blocks.lengths[w][u] = *random.pick(&[n + 1, n + 2, 128, 255]);
    Some(Clause::LengthAtMostN)
}

/// A place of a queue that is in use.
fn waiting(random: &mut Random, blocks: &Blocks) -> Option<(usize, usize, usize)> {
    place(random, blocks.n, |w, u, at| at < usize::from(blocks.lengths[w][u]))
}

/// An entry whose destination need not wait gives way to a second one of another destination.
fn same_destination_twice(random: &mut Random, blocks: &mut Blocks) -> Option<Clause> {
    let (w, u, at) = place(random, blocks.n, |w, u, at| {
        let v = usize::from(blocks.destinations[w][u][at]);
        let length = usize::from(blocks.lengths[w][u]);
        length > 1 && at < length && blocks.views[u][w][v] == blocks.distances[w][v]
    })?;
    let twice = (at + random.between(1, usize::from(blocks.lengths[w][u]) - 1)) % usize::from(blocks.lengths[w][u]);
    blocks.destinations[w][u][at] = blocks.destinations[w][u][twice];
    blocks.values[w][u][at] = blocks.values[w][u][twice];
    Some(Clause::DestinationsDiffer)
}

/// A queue that is in use, with room for one more entry: from a full one an entry that need not wait is taken out.
fn with_room(random: &mut Random, blocks: &mut Blocks) -> Option<(usize, usize)> {
    let n = usize::from(blocks.n);
    let all = (0..n).flat_map(|w| (0..n).map(move |u| (w, u)));
    let in_use: Vec<(usize, usize)> = all.filter(|&(w, u)| blocks.lengths[w][u] > 0).collect();
    let &(w, u) = (!in_use.is_empty()).then(|| random.pick(&in_use))?;
    if blocks.lengths[w][u] == blocks.n {
        let heard = |at: &usize| {
            let v = usize::from(blocks.destinations[w][u][*at]);
            blocks.views[u][w][v] == blocks.distances[w][v]
        };
        let heard: Vec<usize> = (0..n).filter(heard).collect();
        let &at = (!heard.is_empty()).then(|| random.pick(&heard))?;
        for row in [&mut blocks.destinations[w][u], &mut blocks.values[w][u]] {
            row.remove(at);
            row.push(0);
        }
        blocks.lengths[w][u] -= 1;
    }
    Some((w, u))
}

/// One more entry in a queue with room: next to the one at a place, at an end of the queue, or anywhere.
fn one_more(random: &mut Random, blocks: &mut Blocks, (w, u): (usize, usize), near: usize, entry: (u8, u8)) {
    let length = usize::from(blocks.lengths[w][u]);
    let any = random.between(0, length);
    let at = *random.pick(&[near, near + 1, 0, length, any]);
    for (row, byte) in [(&mut blocks.destinations[w][u], entry.0), (&mut blocks.values[w][u], entry.1)] {
        row.insert(at, byte);
        row.pop();
    }
    blocks.lengths[w][u] += 1;
}

/// A second entry of a destination that waits: no other clause is broken.
pub fn destination_again(random: &mut Random, blocks: &mut Blocks) -> Option<Clause> {
    let (w, u) = with_room(random, blocks)?;
    let at = random.below(usize::from(blocks.lengths[w][u]));
    let entry = (blocks.destinations[w][u][at], blocks.values[w][u][at]);
    one_more(random, blocks, (w, u), at, entry);
    Some(Clause::DestinationsDiffer)
}

/// An entry that would do for a destination that does not wait, were its number taken modulo 32, 64 or 128: no other
/// clause is broken.
pub fn number_like_destination(random: &mut Random, blocks: &mut Blocks) -> Option<Clause> {
    let (w, u) = with_room(random, blocks)?;
    let length = usize::from(blocks.lengths[w][u]);
    let waiting = &blocks.destinations[w][u][..length];
    let others: Vec<u8> = (0..blocks.n).filter(|v| !waiting.contains(v)).collect();
    let &v = random.pick(&others);
    let like: Vec<u8> = [32, 64, 128, 192].map(|more| v + more).into_iter().filter(|&x| x >= blocks.n).collect();
    let entry = (*random.pick(&like), blocks.distances[w][usize::from(v)]);
    let near = random.below(length);
    one_more(random, blocks, (w, u), near, entry);
    Some(Clause::DestinationBelowN)
}

fn destination_not_below_n(random: &mut Random, blocks: &mut Blocks) -> Option<Clause> {
    let (w, u, at) = waiting(random, blocks)?;
    blocks.destinations[w][u][at] = random.between(usize::from(blocks.n), 255) as u8;
    Some(Clause::DestinationBelowN)
}

fn other_value(random: &mut Random, blocks: &mut Blocks) -> Option<Clause> {
    let (w, u, at) = waiting(random, blocks)?;
    blocks.values[w][u][at] = other(random, blocks.n, blocks.values[w][u][at]);
    Some(Clause::ValueIsDistance)
}

/// A view of a destination that does not wait: larger ones often leave the recomputed distance as it is.
fn other_view(random: &mut Random, blocks: &mut Blocks) -> Option<Clause> {
    let (w, u, v) = place(random, blocks.n, |w, u, v| {
        let length = usize::from(blocks.lengths[w][u]);
        let waits = blocks.destinations[w][u][..length].contains(&(v as u8));
        blocks.links[w][u] == 1 && blocks.links[u][w] == 1 && !waits && blocks.views[u][w][v] < blocks.n
    })?;
    blocks.views[u][w][v] += 1;
    Some(Clause::NotWaitingIsHeard)
}

fn free_place(random: &mut Random, blocks: &Blocks) -> Option<(usize, usize, usize)> {
    place(random, blocks.n, |w, u, at| at >= usize::from(blocks.lengths[w][u]))
}

fn destination_past(random: &mut Random, blocks: &mut Blocks) -> Option<Clause> {
    let (w, u, at) = free_place(random, blocks)?;
    blocks.destinations[w][u][at] = other(random, blocks.n, 0);
    Some(Clause::PlacesPastZero)
}

fn value_past(random: &mut Random, blocks: &mut Blocks) -> Option<Clause> {
    let (w, u, at) = free_place(random, blocks)?;
    blocks.values[w][u][at] = other(random, blocks.n, 0);
    Some(Clause::PlacesPastZero)
}

/// A length that leaves the last entry standing behind it.
fn shorter_queue(random: &mut Random, blocks: &mut Blocks) -> Option<Clause> {
    let (w, u, _) = place(random, blocks.n, |w, u, _| {
        let length = usize::from(blocks.lengths[w][u]);
        length > 0 && (blocks.destinations[w][u][length - 1], blocks.values[w][u][length - 1]) != (0, 0)
    })?;
    blocks.lengths[w][u] -= 1;
    Some(Clause::PlacesPastZero)
}
