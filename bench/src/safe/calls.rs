//! The calls with their refusals: what is judged, in document 01's order, then the step. Uses all of this folder.

use super::check::{all_are, sound};
use super::parts::{NONE, Parts, PartsMut, row, size};
use super::why::explain;
use super::worth::{LINE, pairs, try_all};
use hop_harness::engine::{Answer, Engine, Ran, Read, Reason, Way};

/// The implementation that the core is timed against.
pub struct Safe;

/// A refusal's number, or what was asked for.
type Judged<T> = Result<T, u32>;

/// The node count of a sound state.
fn sound_state(buffer: &[u8]) -> Judged<usize> {
    let n = usize::from(*buffer.first().ok_or(2_u32)?);
    if !(1..=40).contains(&n) {
        return Err(1);
    }
    if buffer.len() < size(n) {
        return Err(2);
    }
    if sound(&Parts::of(buffer, n)) { Ok(n) } else { Err(3) }
}

fn below(n: usize, a: usize, b: usize) -> Judged<()> {
    if a < n && b < n { Ok(()) } else { Err(4) }
}

fn ends(n: usize, a: usize, b: usize) -> Judged<()> {
    below(n, a, b)?;
    if a == b { Err(5) } else { Ok(()) }
}

/// No link has just one end up.
fn all_whole(state: &[u8], n: usize) -> Judged<()> {
    if pairs(&Parts::of(state, n)).count() == n * (n - 1) / 2 { Ok(()) } else { Err(13) }
}

/// No entry waits.
fn at_rest(state: &[u8], n: usize) -> Judged<()> {
    if all_are(Parts::of(state, n).lengths, 0) { Ok(()) } else { Err(12) }
}

fn code(judged: Judged<()>) -> u32 {
    judged.err().unwrap_or(0)
}

fn one(judged: Judged<u32>) -> Answer {
    match judged {
        Ok(value) => Answer { code: 0, value },
        Err(code) => Answer { code, value: 0 },
    }
}

fn sum(bytes: impl Iterator<Item = u8>) -> u32 {
    bytes.map(u32::from).sum()
}

/// The blocks of a sound state, for two nodes that can be ends of a link. What is asked is judged by whether a's end and
/// b's end are up.
fn change(state: &mut [u8], a: usize, b: usize, judge: fn([bool; 2]) -> Judged<()>) -> Judged<PartsMut<'_>> {
    let n = sound_state(state)?;
    ends(n, a, b)?;
    let parts = PartsMut::of(state, n);
    judge([parts.links[a * n + b] == 1, parts.links[b * n + a] == 1])?;
    Ok(parts)
}

/// How many body numbers an event kind has.
fn body(kind: u32) -> Judged<usize> {
    match kind {
        15 => Ok(1),
        16..=18 | 20 => Ok(2),
        19 => Ok(0),
        _ => Err(10),
    }
}

fn status(state: &[u8], node: usize, out: &mut [u8]) -> Judged<u32> {
    let n = sound_state(state)?;
    below(n, node, 0)?;
    let out = out.get_mut(..14).ok_or(2_u32)?;
    let parts = Parts::of(state, n);
    let to = sum((0..n).map(|w| parts.lengths[w * n + node]));
    let from = sum(row(parts.lengths, n, node).iter().copied());
    let reached = row(parts.distances, n, node).iter().filter(|&&d| usize::from(d) < n).count() - 1;
    let total = sum(parts.lengths.iter().copied());
    let fields = [12, 1, node as u32, to, from, reached as u32, total];
    for (place, field) in out.chunks_exact_mut(2).zip(fields) {
        place.copy_from_slice(&(field as u16).to_le_bytes());
    }
    Ok(14)
}

fn route(state: &[u8], node: usize, destination: usize) -> Judged<Way> {
    let n = sound_state(state)?;
    below(n, node, destination)?;
    let (parts, at) = (Parts::of(state, n), node * n + destination);
    Ok(Way { code: 0, distance: parts.distances[at].into(), downstream: parts.downstreams[at].into() })
}

fn worth(state: &[u8], trial: &mut [u8], lines: &mut [i32]) -> Judged<u32> {
    let n = sound_state(state)?;
    at_rest(state, n)?;
    let count = pairs(&Parts::of(state, n)).count();
    let trial = trial.get_mut(..size(n)).ok_or(2_u32)?;
    let lines = lines.get_mut(..LINE * count).ok_or(2_u32)?;
    try_all(&state[..size(n)], n, trial, lines);
    Ok(count as u32)
}

fn why(state: &[u8], node: usize, destination: usize, list: &mut [u8]) -> Judged<Reason> {
    let n = sound_state(state)?;
    below(n, node, destination)?;
    at_rest(state, n)?;
    all_whole(state, n)?;
    let (kind, count) = explain(&Parts::of(state, n), node, destination, list).ok_or(2_u32)?;
    Ok(Reason { code: 0, kind, count: count as u32 })
}

// A record takes a few nanoseconds, and a call of the archive cannot be inlined: so the two for records are not either.
#[inline(never)]
fn write(kind: u32, first: u16, second: u16, out: &mut [u8]) -> Answer {
    one(body(kind).and_then(|numbers| {
        let out = out.get_mut(..4 + 2 * numbers).ok_or(2_u32)?;
        let record = [2 + 2 * numbers as u16, kind as u16, first, second];
        for (place, number) in out.chunks_exact_mut(2).zip(record) {
            place.copy_from_slice(&number.to_le_bytes());
        }
        Ok(4 + 2 * numbers as u32)
    }))
}

#[inline(never)]
fn read(bytes: &[u8], place: &mut usize) -> Read {
    found(bytes, place).unwrap_or_else(|code| Read { code, ..Read::default() })
}

fn found(bytes: &[u8], place: &mut usize) -> Judged<Read> {
    let left = bytes.get(*place..).ok_or(9_u32)?;
    if left.is_empty() {
        return Ok(Read::default());
    }
    let number = |at: usize| u32::from(u16::from_le_bytes([left[at], left[at + 1]]));
    if left.len() < 4 {
        return Err(9);
    }
    let kind = number(2);
    let numbers = body(kind)?;
    if number(0) as usize != 2 + 2 * numbers {
        return Err(11);
    }
    if left.len() < 4 + 2 * numbers {
        return Err(9);
    }
    *place += 4 + 2 * numbers;
    let first = if numbers > 0 { number(4) } else { 0 };
    let second = if numbers > 1 { number(6) } else { 0 };
    Ok(Read { code: 0, kind, first, second })
}

impl Engine for Safe {
    fn size(&self, n: usize) -> usize {
        if (1..=40).contains(&n) { size(n) } else { 0 }
    }

    fn make(&self, state: &mut [u8], n: usize) -> u32 {
        if !(1..=40).contains(&n) {
            return 1;
        }
        let Some(state) = state.get_mut(..size(n)) else { return 2 };
        state.fill(0);
        state[0] = n as u8;
        let parts = PartsMut::of(state, n);
        parts.distances.fill(n as u8);
        parts.downstreams.fill(NONE);
        parts.views.fill(n as u8);
        for u in 0..n {
            parts.distances[u * n + u] = 0;
            parts.downstreams[u * n + u] = u as u8;
        }
        0
    }

    fn check(&self, state: &[u8]) -> u32 {
        code(sound_state(state).map(|_| ()))
    }

    fn up(&self, state: &mut [u8], a: usize, b: usize) -> u32 {
        let judged = change(state, a, b, |up| match up {
            [false, false] => Ok(()),
            [true, true] => Err(6),
            _ => Err(13),
        });
        code(judged.map(|mut parts| parts.up(a, b)))
    }

    fn down(&self, state: &mut [u8], a: usize, b: usize) -> u32 {
        let judged = change(state, a, b, |up| if up == [false, false] { Err(7) } else { Ok(()) });
        code(judged.map(|mut parts| parts.down(a, b)))
    }

    fn notice(&self, state: &mut [u8], noticing: usize, other: usize) -> u32 {
        let judged = change(state, noticing, other, |up| if up[0] { Ok(()) } else { Err(7) });
        code(judged.map(|mut parts| parts.notice(noticing, other)))
    }

    fn deliver(&self, state: &mut [u8], from: usize, to: usize) -> u32 {
        let judged = change(state, from, to, |up| if up == [true, true] { Ok(()) } else { Err(7) });
        code(judged.and_then(|mut parts| {
            if parts.lengths[from * parts.n + to] == 0 {
                return Err(8);
            }
            parts.deliver(from, to);
            Ok(())
        }))
    }

    fn pass(&self, state: &mut [u8]) -> Answer {
        one(sound_state(state).map(|n| PartsMut::of(state, n).pass()))
    }

    fn run(&self, state: &mut [u8], allowance: u8) -> Ran {
        match sound_state(state).map(|n| PartsMut::of(state, n).run(allowance)) {
            Ok((passes, deliveries)) => Ran { code: 0, passes, deliveries },
            Err(code) => Ran { code, passes: 0, deliveries: 0 },
        }
    }

    fn route(&self, state: &[u8], node: usize, destination: usize) -> Way {
        route(state, node, destination).unwrap_or_else(|code| Way { code, ..Way::default() })
    }

    fn queue_length(&self, state: &[u8], from: usize, to: usize) -> Answer {
        one(sound_state(state).and_then(|n| {
            ends(n, from, to)?;
            Ok(Parts::of(state, n).lengths[from * n + to].into())
        }))
    }

    fn total_queued(&self, state: &[u8]) -> Answer {
        one(sound_state(state).map(|n| sum(Parts::of(state, n).lengths.iter().copied())))
    }

    fn status(&self, state: &[u8], node: usize, out: &mut [u8]) -> Answer {
        one(status(state, node, out))
    }

    fn write_event(&self, kind: u32, first: u16, second: u16, out: &mut [u8]) -> Answer {
        write(kind, first, second, out)
    }

    fn read_event(&self, bytes: &[u8], place: &mut usize) -> Read {
        read(bytes, place)
    }

    fn worth(&self, state: &[u8], trial: &mut [u8], lines: &mut [i32]) -> Answer {
        one(worth(state, trial, lines))
    }

    fn why(&self, state: &[u8], node: usize, destination: usize, list: &mut [u8]) -> Reason {
        why(state, node, destination, list).unwrap_or_else(|code| Reason { code, ..Reason::default() })
    }
}
