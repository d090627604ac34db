//! What each link is worth: a trial for every pair, and what its tables say beside the state's. Uses the blocks of the
//! buffer and the events.

use super::parts::{Parts, PartsMut};

/// How many numbers a line has.
pub const LINE: usize = 7;

/// The pairs that have a line, ascending: those with just one end up have none.
pub fn pairs(parts: &Parts) -> impl Iterator<Item = (usize, usize)> {
    let (n, links) = (parts.n, parts.links);
    let all = (0..n).flat_map(move |a| (a + 1..n).map(move |b| (a, b)));
    all.filter(move |&(a, b)| links[a * n + b] == links[b * n + a])
}

/// Fills the lines, one for each of these pairs, and leaves a copy of the state in the trial. The state is at rest, the
/// trial has as many bytes, and there is room for all lines.
pub fn try_all(state: &[u8], n: usize, trial: &mut [u8], lines: &mut [i32]) {
    let parts = Parts::of(state, n);
    let before = parts.distances;
    for ((a, b), line) in pairs(&parts).zip(lines.chunks_exact_mut(LINE)) {
        trial.copy_from_slice(state);
        let mut parts = PartsMut::of(trial, n);
        parts.turn(a, b);
        let (passes, deliveries) = parts.run(255);
        let [lost, gained, change] = differ(before, parts.distances, n as u8);
        line.copy_from_slice(&[a as i32, b as i32, passes as i32, deliveries as i32, lost, gained, change]);
    }
    trial.copy_from_slice(state);
}

impl PartsMut<'_> {
    /// Takes an up link down and puts a down link up.
    fn turn(&mut self, a: usize, b: usize) {
        if self.links[a * self.n + b] == 1 {
            self.down(a, b);
        } else {
            self.up(a, b);
        }
    }
}

/// Ordered pairs that lost their route, those that gained one, and the change in hops over those with one both times.
fn differ(before: &[u8], after: &[u8], n: u8) -> [i32; 3] {
    let [mut lost, mut gained, mut change] = [0; 3];
    for (&before, &after) in before.iter().zip(after) {
        match (before < n, after < n) {
            (true, true) => change += i32::from(after) - i32::from(before),
            (true, false) => lost += 1,
            (false, true) => gained += 1,
            (false, false) => {}
        }
    }
    [lost, gained, change]
}
