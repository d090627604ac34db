//! Why a node reaches a destination in so many hops or not at all, document 02's R-3.
//! Uses the rule. Whether there is a route, and what is joined, is found over the links; the path alone goes by the
//! tables, and is held to what 02 says of it.

use super::rule::State;
use std::collections::BTreeSet;

/// What is shown to the night desk.
#[derive(Clone, PartialEq, Eq, Debug)]
pub enum Reason {
    /// From the node to the destination, both included.
    Path(Vec<usize>),
    /// What is joined to the node, the node included.
    Set(BTreeSet<usize>),
}

impl Reason {
    /// Which of them it is, as a number.
    pub fn kind(&self) -> usize {
        match self {
            Reason::Path(_) => 1,
            Reason::Set(_) => 2,
        }
    }

    /// The reason as it stands in a list: a path in its order, a set ascending.
    pub fn bytes(&self) -> Vec<u8> {
        let byte = |&node: &usize| u8::try_from(node).expect("a node is a byte");
        match self {
            Reason::Path(path) => path.iter().map(byte).collect(),
            Reason::Set(set) => set.iter().map(byte).collect(),
        }
    }
}

impl State {
    /// The reason, in a state at rest whose links all have both ends up or both down.
    pub fn why(&self, node: usize, destination: usize) -> Reason {
        let joined = self.joined(node);
        if joined.contains(&destination) { Reason::Path(self.path(node, destination)) } else { Reason::Set(joined) }
    }

    /// The instances joined to a node: itself, and whatever a link with both ends up leads to from one of them, until none
    /// leaves.
    fn joined(&self, node: usize) -> BTreeSet<usize> {
        let mut joined = BTreeSet::new();
        let mut found = vec![node];
        while let Some(u) = found.pop() {
            if joined.insert(u) {
                found.extend(self.joined_to(u));
            }
        }
        joined
    }

    /// The path along the downstreams. Each step goes over a link with both ends up, and the remaining hop count falls by
    /// one.
    fn path(&self, node: usize, destination: usize) -> Vec<usize> {
        let mut path = vec![node];
        let mut at = node;
        while at != destination {
            let here = self.route(at, destination);
            let next = here.downstream.expect("where there is a route there is a downstream");
            let remaining = self.route(next, destination).distance;
            assert!(self.whole(at, next) && remaining + 1 == here.distance, "a step of a path at rest");
            path.push(next);
            at = next;
        }
        path
    }
}
