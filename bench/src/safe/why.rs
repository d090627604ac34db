//! Why a node reaches a destination in so many hops or not at all: the path along the downstreams, or the nodes that
//! are joined to it. Uses the blocks of the buffer.

use super::parts::{Parts, row};

pub const PATH: u32 = 1;
pub const SET: u32 = 2;

/// Writes the reason to the front of a list, and gives its kind and how many bytes it has; nothing, and no byte is
/// written, where it does not fit. The state is at rest, and both numbers are nodes.
pub fn explain(parts: &Parts, node: usize, destination: usize, list: &mut [u8]) -> Option<(u32, usize)> {
    let n = parts.n;
    let distances = row(parts.distances, n, node);
    let hops = usize::from(distances[destination]);
    if hops < n {
        let list = list.get_mut(..hops + 1)?;
        let mut at = node;
        for place in &mut *list {
            *place = at as u8;
            at = usize::from(parts.downstreams[at * n + destination]);
        }
        Some((PATH, list.len()))
    } else {
        let joined = |v: &usize| usize::from(distances[*v]) < n;
        let list = list.get_mut(..(0..n).filter(joined).count())?;
        for (place, v) in list.iter_mut().zip((0..n).filter(joined)) {
            *place = v as u8;
        }
        Some((SET, list.len()))
    }
}
