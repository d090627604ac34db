//! Soundness, clause by clause in document 01's order and as 02's R-5 restates it, on blocks of any bytes. Uses the rule's
//! recompute.

use super::rule::recomputed;
use super::stored::{Blocks, NONE};
use std::collections::BTreeSet;

/// What the documents ask of a sound state, each demand by its own name. R-5 has links whose ends differ.
#[derive(Clone, Copy, PartialEq, Eq, PartialOrd, Ord, Debug)]
pub enum Clause {
    LinkIsZeroOrOne,
    LinkDiagonalZero,
    DistanceRecomputed,
    DownstreamRecomputed,
    ViewAtMostN,
    DownViewIsN,
    DownQueueEmpty,
    OneEndedQueueEmpty,
    LengthAtMostN,
    DestinationsDiffer,
    DestinationBelowN,
    ValueIsDistance,
    NotWaitingIsHeard,
    PlacesPastZero,
}

/// The clauses that do not hold. An end is up where its byte is exactly 1 and the two nodes differ.
pub fn broken(blocks: &Blocks) -> BTreeSet<Clause> {
    let n = usize::from(blocks.n);
    let up = |u: usize, w: usize| u != w && blocks.links[u][w] == 1;
    let mut broken = BTreeSet::new();
    let mut demand = |clause: Clause, holds: bool| {
        if !holds {
            broken.insert(clause);
        }
    };
    for u in 0..n {
        demand(Clause::LinkDiagonalZero, blocks.links[u][u] == 0);
        for w in 0..n {
            demand(Clause::LinkIsZeroOrOne, blocks.links[u][w] <= 1);
        }
        for v in 0..n {
            let heard = (0..n).filter(|&w| up(u, w)).map(|w| (w, usize::from(blocks.views[u][w][v])));
            let route = recomputed(n, u, v, heard);
            let downstream = route.downstream.map_or(usize::from(NONE), |w| w);
            demand(Clause::DistanceRecomputed, usize::from(blocks.distances[u][v]) == route.distance);
            demand(Clause::DownstreamRecomputed, usize::from(blocks.downstreams[u][v]) == downstream);
        }
        for w in 0..n {
            for &view in &blocks.views[u][w] {
                demand(Clause::ViewAtMostN, view <= blocks.n);
                demand(Clause::DownViewIsN, up(u, w) || view == blocks.n);
            }
        }
    }
    for sender in 0..n {
        for receiver in 0..n {
            let length = usize::from(blocks.lengths[sender][receiver]);
            demand(Clause::LengthAtMostN, length <= n);
            let ends_up = [up(sender, receiver), up(receiver, sender)].into_iter().filter(|&up| up).count();
            demand(Clause::DownQueueEmpty, ends_up != 0 || length == 0);
            demand(Clause::OneEndedQueueEmpty, ends_up != 1 || length == 0);
            let (waiting, past) = blocks.destinations[sender][receiver].split_at(length.min(n));
            let (values, values_past) = blocks.values[sender][receiver].split_at(length.min(n));
            demand(Clause::PlacesPastZero, past.iter().chain(values_past).all(|&byte| byte == 0));
            if ends_up != 2 {
                continue;
            }
            for (place, &v) in waiting.iter().enumerate() {
                demand(Clause::DestinationsDiffer, !waiting[..place].contains(&v));
                demand(Clause::DestinationBelowN, v < blocks.n);
                let distance = blocks.distances[sender].get(usize::from(v));
                demand(Clause::ValueIsDistance, distance.is_none_or(|&d| values[place] == d));
            }
            for v in (0..n).filter(|&v| !waiting.iter().any(|&w| usize::from(w) == v)) {
                let heard = blocks.views[receiver][sender][v];
                demand(Clause::NotWaitingIsHeard, heard == blocks.distances[sender][v]);
            }
        }
    }
    broken
}

/// Sound: no clause is broken.
pub fn sound(blocks: &Blocks) -> bool {
    broken(blocks).is_empty()
}
