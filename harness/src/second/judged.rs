//! Events and questions with their refusals, on a state that is known to be sound. Uses the rule.

use super::refusal::Refusal;
use super::rule::{Entry, MOST_NODES, Route, State};
use super::why::Reason;

type Judged<T> = Result<T, Refusal>;

/// A node count that a state can have.
pub fn node_count(n: usize) -> Judged<usize> {
    if (1..=MOST_NODES).contains(&n) { Ok(n) } else { Err(Refusal::NodeCount) }
}

impl State {
    fn below_n(&self, numbers: &[usize]) -> Judged<()> {
        if numbers.iter().all(|&number| number < self.n) { Ok(()) } else { Err(Refusal::NoSuchNode) }
    }

    /// Two nodes that can be the ends of a link.
    fn ends(&self, a: usize, b: usize) -> Judged<()> {
        self.below_n(&[a, b])?;
        if a == b { Err(Refusal::OneNode) } else { Ok(()) }
    }

    /// Where 6 stands, 13 is told too: one end is still up.
    pub fn try_up(&mut self, a: usize, b: usize) -> Judged<()> {
        self.ends(a, b)?;
        if self.whole(a, b) {
            return Err(Refusal::IsUp);
        }
        if self.one_ended(a, b) {
            return Err(Refusal::OneEndUp);
        }
        self.up(a, b);
        Ok(())
    }

    /// Down is asked in vain only where no notice is missing.
    pub fn try_down(&mut self, a: usize, b: usize) -> Judged<()> {
        self.ends(a, b)?;
        if !self.links[a][b] && !self.links[b][a] {
            return Err(Refusal::IsDown);
        }
        self.down(a, b);
        Ok(())
    }

    /// A notice that was given already, or that there is no link for, is 7.
    pub fn try_notice(&mut self, noticing: usize, other: usize) -> Judged<()> {
        self.ends(noticing, other)?;
        if !self.links[noticing][other] {
            return Err(Refusal::IsDown);
        }
        self.notice(noticing, other);
        Ok(())
    }

    pub fn try_deliver(&mut self, from: usize, to: usize) -> Judged<()> {
        self.ends(from, to)?;
        if !self.whole(from, to) {
            return Err(Refusal::IsDown);
        }
        if self.queues[from][to].is_empty() {
            return Err(Refusal::EmptyQueue);
        }
        self.deliver(from, to);
        Ok(())
    }

    /// Hops and direction in one answer: 4 for either number.
    pub fn try_route(&self, node: usize, destination: usize) -> Judged<Route> {
        self.below_n(&[node, destination])?;
        Ok(self.route(node, destination))
    }

    /// A queue's entries, head first: none where the link is down, or one end is.
    pub fn try_queue(&self, from: usize, to: usize) -> Judged<Vec<Entry>> {
        self.ends(from, to)?;
        Ok(self.queues[from][to].iter().copied().collect())
    }

    /// At rest: no entry waits.
    pub fn try_rest(&self) -> Judged<()> {
        if self.total_queued() == 0 { Ok(()) } else { Err(Refusal::NotAtRest) }
    }

    /// No link of the state has just one end up.
    pub fn try_whole(&self) -> Judged<()> {
        let one_ended = |u: usize| (0..self.n).any(|w| self.one_ended(u, w));
        if (0..self.n).any(one_ended) { Err(Refusal::OneEndUp) } else { Ok(()) }
    }

    /// The reason why a node reaches a destination or does not: 4 for either number, then 12, then 13.
    pub fn try_why(&self, node: usize, destination: usize) -> Judged<Reason> {
        self.below_n(&[node, destination])?;
        self.try_rest()?;
        self.try_whole()?;
        Ok(self.why(node, destination))
    }

    /// What a status record says of a node, in its order.
    pub fn try_status(&self, node: usize) -> Judged<[usize; 5]> {
        self.below_n(&[node])?;
        let (to, from) = (self.waiting_for(node), self.waiting_from(node));
        Ok([node, to, from, self.reached(node), self.total_queued()])
    }
}
