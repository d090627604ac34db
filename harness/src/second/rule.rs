//! The rule of document 01, with 02's R-5 for its link down, on tables and queues. Uses std only; knows nothing of
//! stored bytes.

use std::collections::VecDeque;

/// The largest node count.
pub const MOST_NODES: usize = 40;

/// An entry that waits in a queue: a destination and the sender's distance to it.
#[derive(Clone, Copy, PartialEq, Eq, Hash, Debug)]
pub struct Entry {
    pub destination: usize,
    pub value: usize,
}

/// Hops and direction from one node to a destination. No downstream is `None`.
#[derive(Clone, Copy, PartialEq, Eq, Debug)]
pub struct Route {
    pub distance: usize,
    pub downstream: Option<usize>,
}

/// The whole machine. A link has two ends, and `links[a][b]` is a's own. Views go by node, neighbour, destination; queues
/// by sender, receiver.
#[derive(Clone, PartialEq, Eq, Hash, Debug)]
pub struct State {
    pub n: usize,
    pub links: Vec<Vec<bool>>,
    pub distances: Vec<Vec<usize>>,
    pub downstreams: Vec<Vec<Option<usize>>>,
    pub views: Vec<Vec<Vec<usize>>>,
    pub queues: Vec<Vec<VecDeque<Entry>>>,
}

/// The route that recompute of v at u gives, from what each neighbour over an up end of u was last heard to say of v.
/// Neighbours come in ascending order, so that the first of the nearest is the lowest-numbered.
pub fn recomputed(n: usize, u: usize, v: usize, heard: impl Iterator<Item = (usize, usize)>) -> Route {
    if v == u {
        return Route { distance: 0, downstream: Some(u) };
    }
    let mut nearest: Option<(usize, usize)> = None;
    for (w, view) in heard {
        if nearest.is_none_or(|(_, least)| view < least) {
            nearest = Some((w, view));
        }
    }
    match nearest {
        Some((w, least)) if least + 1 < n => Route { distance: least + 1, downstream: Some(w) },
        _ => Route { distance: n, downstream: None },
    }
}

/// Sending: a waiting destination has its value replaced and keeps its place; another joins the tail.
pub fn send(queue: &mut VecDeque<Entry>, entry: Entry) {
    match queue.iter_mut().find(|waiting| waiting.destination == entry.destination) {
        Some(waiting) => waiting.value = entry.value,
        None => queue.push_back(entry),
    }
}

impl State {
    /// No links; distance n and no downstream, but 0 and itself for a node to itself.
    pub fn fresh(n: usize) -> State {
        let mut state = State {
            n,
            links: vec![vec![false; n]; n],
            distances: vec![vec![n; n]; n],
            downstreams: vec![vec![None; n]; n],
            views: vec![vec![vec![n; n]; n]; n],
            queues: vec![vec![VecDeque::new(); n]; n],
        };
        for u in 0..n {
            state.distances[u][u] = 0;
            state.downstreams[u][u] = Some(u);
        }
        state
    }

    /// The nodes to which u's own end is up, ascending; the other end may have noticed that the link is dead.
    pub fn neighbours(&self, u: usize) -> Vec<usize> {
        (0..self.n).filter(|&w| self.links[u][w]).collect()
    }

    /// Both ends are up.
    pub fn whole(&self, a: usize, b: usize) -> bool {
        self.links[a][b] && self.links[b][a]
    }

    /// One end has noticed, and the other is still up.
    pub fn one_ended(&self, a: usize, b: usize) -> bool {
        self.links[a][b] != self.links[b][a]
    }

    /// The nodes to which u has a link with both ends up, ascending.
    pub fn joined_to(&self, u: usize) -> Vec<usize> {
        (0..self.n).filter(|&w| self.whole(u, w)).collect()
    }

    /// The route that u has to v: for itself 0 and itself, with none n and no downstream.
    pub fn route(&self, u: usize, v: usize) -> Route {
        Route { distance: self.distances[u][v], downstream: self.downstreams[u][v] }
    }

    /// Recompute of v at u, with the views over every end of u that is up. Only a changed distance is sent, on each of
    /// these; what goes to an end that has noticed is dropped.
    fn recompute(&mut self, u: usize, v: usize) {
        let neighbours = self.neighbours(u);
        let new = recomputed(self.n, u, v, neighbours.iter().map(|&w| (w, self.views[u][w][v])));
        let changed = new.distance != self.distances[u][v];
        self.distances[u][v] = new.distance;
        self.downstreams[u][v] = new.downstream;
        if changed {
            for w in neighbours {
                if self.links[w][u] {
                    send(&mut self.queues[u][w], Entry { destination: v, value: new.distance });
                }
            }
        }
    }

    /// Link up. Each end announces everything it has, the unreached too; nothing is recomputed.
    pub fn up(&mut self, a: usize, b: usize) {
        for (end, other) in [(a, b), (b, a)] {
            self.links[end][other] = true;
            for v in 0..self.n {
                let value = self.distances[end][v];
                self.queues[end][other].push_back(Entry { destination: v, value });
            }
        }
    }

    /// One end's notice that a link is dead: both queues are emptied, and this end forgets what it heard over the link and
    /// recomputes. The other end stays as it is until its own notice.
    pub fn notice(&mut self, noticing: usize, other: usize) {
        self.links[noticing][other] = false;
        self.queues[noticing][other].clear();
        self.queues[other][noticing].clear();
        self.views[noticing][other].fill(self.n);
        for v in 0..self.n {
            self.recompute(noticing, v);
        }
    }

    /// Link down: whatever notices are missing, that of the lower-numbered end first.
    pub fn down(&mut self, a: usize, b: usize) {
        let (lower, higher) = (a.min(b), a.max(b));
        for (noticing, other) in [(lower, higher), (higher, lower)] {
            if self.links[noticing][other] {
                self.notice(noticing, other);
            }
        }
    }

    /// Delivery of the head entry from one node to another. The queue must hold one.
    pub fn deliver(&mut self, from: usize, to: usize) {
        let head = self.queues[from][to].pop_front().expect("a delivery needs an entry");
        self.views[to][from][head.destination] = head.value;
        self.recompute(to, head.destination);
    }

    /// A pass: each queue gives up as many entries as it held when the pass began.
    pub fn pass(&mut self) -> usize {
        let held: Vec<Vec<usize>> = self.queues.iter().map(|row| row.iter().map(VecDeque::len).collect()).collect();
        let mut delivered = 0;
        for (from, row) in held.iter().enumerate() {
            for (to, &count) in row.iter().enumerate() {
                for _ in 0..count {
                    self.deliver(from, to);
                    delivered += 1;
                }
            }
        }
        delivered
    }

    /// A run: passes until every queue is empty or the allowance is used. Passes, then deliveries.
    pub fn run(&mut self, allowance: u8) -> (usize, usize) {
        let (mut passes, mut deliveries) = (0, 0);
        while passes < usize::from(allowance) && self.total_queued() > 0 {
            deliveries += self.pass();
            passes += 1;
        }
        (passes, deliveries)
    }

    /// The total queued.
    pub fn total_queued(&self) -> usize {
        self.queues.iter().flatten().map(VecDeque::len).sum()
    }

    /// Entries waiting to be delivered to a node.
    pub fn waiting_for(&self, node: usize) -> usize {
        self.queues.iter().map(|row| row[node].len()).sum()
    }

    /// Entries that a node has sent and that still wait.
    pub fn waiting_from(&self, node: usize) -> usize {
        self.queues[node].iter().map(VecDeque::len).sum()
    }

    /// How many destinations other than itself a node has a route to.
    pub fn reached(&self, node: usize) -> usize {
        (0..self.n).filter(|&v| v != node && self.distances[node][v] < self.n).count()
    }
}
