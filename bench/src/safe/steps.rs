//! The events on the stored bytes of a sound state. Uses the blocks of the buffer.

use super::parts::{NONE, PartsMut, row, row_mut};

impl PartsMut<'_> {
    /// Puts (v, value) into the queue from u to w: in its place if v waits there, else at the tail.
    fn send(&mut self, u: usize, w: usize, v: u8, value: u8) {
        let n = self.n;
        let at = u * n + w;
        let length = usize::from(self.lengths[at]);
        let waiting = row_mut(self.destinations, n, at);
        let values = row_mut(self.values, n, at);
        match waiting[..length].iter().position(|&waits| waits == v) {
            Some(place) => values[place] = value,
            None => {
                waiting[length] = v;
                values[length] = value;
                self.lengths[at] += 1;
            }
        }
    }

    fn recompute(&mut self, u: usize, v: usize) {
        let n = self.n;
        if u == v {
            return;
        }
        let mut least = n as u8;
        let mut nearest = NONE;
        for (w, &link) in row(self.links, n, u).iter().enumerate() {
            let view = self.views[(u * n + w) * n + v];
            if link == 1 && view < least {
                least = view;
                nearest = w as u8;
            }
        }
        let (distance, downstream) = if usize::from(least) + 1 < n { (least + 1, nearest) } else { (n as u8, NONE) };
        let changed = self.distances[u * n + v] != distance;
        self.distances[u * n + v] = distance;
        self.downstreams[u * n + v] = downstream;
        if changed {
            for w in 0..n {
                // What goes to an end that has noticed is dropped.
                if self.links[u * n + w] == 1 && self.links[w * n + u] == 1 {
                    self.send(u, w, v as u8, distance);
                }
            }
        }
    }

    pub fn up(&mut self, a: usize, b: usize) {
        let n = self.n;
        for (end, other) in [(a, b), (b, a)] {
            let at = end * n + other;
            self.links[at] = 1;
            self.lengths[at] = n as u8;
            for (v, place) in row_mut(self.destinations, n, at).iter_mut().enumerate() {
                *place = v as u8;
            }
            row_mut(self.values, n, at).copy_from_slice(row(self.distances, n, end));
        }
    }

    /// One end sees that the link is dead. The other stays up until its own notice.
    pub fn notice(&mut self, noticing: usize, other: usize) {
        let n = self.n;
        let (there, back) = (noticing * n + other, other * n + noticing);
        self.links[there] = 0;
        for at in [there, back] {
            self.lengths[at] = 0;
            row_mut(self.destinations, n, at).fill(0);
            row_mut(self.values, n, at).fill(0);
        }
        row_mut(self.views, n, there).fill(n as u8);
        for v in 0..n {
            self.recompute(noticing, v);
        }
    }

    /// Whatever notices are missing, the lower-numbered end first.
    pub fn down(&mut self, a: usize, b: usize) {
        let (lower, higher) = (a.min(b), a.max(b));
        for (noticing, other) in [(lower, higher), (higher, lower)] {
            if self.links[noticing * self.n + other] == 1 {
                self.notice(noticing, other);
            }
        }
    }

    /// Delivers the head of a queue that is not empty.
    pub fn deliver(&mut self, from: usize, to: usize) {
        let n = self.n;
        let at = from * n + to;
        let length = usize::from(self.lengths[at]);
        let waiting = &mut row_mut(self.destinations, n, at)[..length];
        let values = &mut row_mut(self.values, n, at)[..length];
        let (v, value) = (usize::from(waiting[0]), values[0]);
        waiting.copy_within(1.., 0);
        waiting[length - 1] = 0;
        values.copy_within(1.., 0);
        values[length - 1] = 0;
        self.lengths[at] -= 1;
        self.views[(to * n + from) * n + v] = value;
        self.recompute(to, v);
    }

    pub fn pass(&mut self) -> u32 {
        let n = self.n;
        let mut held = [0; 1600];
        held[..n * n].copy_from_slice(self.lengths);
        let mut delivered = 0;
        for from in 0..n {
            for to in 0..n {
                for _ in 0..held[from * n + to] {
                    self.deliver(from, to);
                    delivered += 1;
                }
            }
        }
        delivered
    }

    pub fn run(&mut self, allowance: u8) -> (u32, u32) {
        let (mut passes, mut deliveries) = (0, 0);
        while passes < u32::from(allowance) && self.lengths.iter().any(|&length| length != 0) {
            deliveries += self.pass();
            passes += 1;
        }
        (passes, deliveries)
    }
}
