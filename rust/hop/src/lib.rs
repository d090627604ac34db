#![doc = include_str!("../README.md")]
//!
//! # The state
//!
//! A [`State`] is a view of bytes: a `Vec<u8>` that it owns, or a `&mut [u8]` that it is lent. The bytes can be
//! kept in a file and taken up again with [`State::over`]. Every call checks all of them first, so that a stray
//! write by somebody else is answered with [`Refusal::NotSound`] and never followed.
//!
//! # Refusals
//!
//! A call that cannot be done gives a [`Refusal`] and changes no byte. Where several apply, the first in this order is
//! given: an empty buffer ([`ShortBuffer`](Refusal::ShortBuffer)), [`NodeCount`](Refusal::NodeCount), a short buffer,
//! [`NotSound`](Refusal::NotSound), [`NoSuchNode`](Refusal::NoSuchNode), [`OneNode`](Refusal::OneNode),
//! [`LinkIsUp`](Refusal::LinkIsUp) or [`LinkIsDown`](Refusal::LinkIsDown), [`QueueIsEmpty`](Refusal::QueueIsEmpty),
//! [`NotAtRest`](Refusal::NotAtRest), and last an output, a trial or a list that is too short.
//! [`OneEndIsUp`](Refusal::OneEndIsUp) stands with `LinkIsUp` where a link is asked up, and after `NotAtRest` where why
//! is asked.
//!
//! # Routes
//!
//! [`State::route`] gives what a node has for a destination as one [`Way`]: the hops, and the neighbour to send through.
//! No event can run between the two.
//!
//! # Coming to rest
//!
//! Without link events, n passes bring any sound state to rest: no queue holds an entry. If besides no link is
//! one-ended, every distance is the true number of hops (n for no path), and every downstream is the lowest-numbered
//! neighbour one hop nearer.
//!
//! # Links with one end up
//!
//! The two ends of a link need not notice together that it is lost: [`State::notice`] takes one end down. The link is
//! then one-ended until the other end's notice, or [`State::down`], which gives it. It carries no entries, but the end
//! still up goes by what it last heard there, so that a route of any node may lead over the dead link, at rest too. In
//! the bytes a's own end of its link to b stands at 1 + a·n + b: a link is one-ended where the bytes of its two ends
//! differ.
//!
//! # What each link is worth
//!
//! For a state at rest, [`State::worth`] tries every link out on a copy, and gives for each a [`Worth`]: how many routes
//! are lost or gained, and how many hops the others take more or fewer. The state itself is only read.
//!
//! # Why so many hops, or none at all
//!
//! For a state at rest, [`State::why`] gives the [`Reason`]: the path that a node takes to a destination, or the set of
//! nodes that it is joined to where the destination is not among them. [`Reason::holds`] checks either against the
//! site's links without the core.

mod answer;
mod event;
mod ffi;
mod reason;
mod refusal;
mod state;
mod status;
mod worth;

pub use event::{Event, Reader};
pub use reason::Reason;
pub use refusal::Refusal;
pub use state::{Ran, State, Way};
pub use status::Status;
pub use worth::{Lines, Worth};

/// The largest node count.
pub const MOST_NODES: usize = 40;

/// The bytes that a state of `n` nodes takes, or nothing where `n` is not 1 to 40.
///
/// ```
/// assert_eq!(hop::size(2), Some(41));
/// assert_eq!(hop::size(40), Some(198_401));
/// assert_eq!(hop::size(41), None);
/// ```
pub fn size(n: usize) -> Option<usize> {
    match ffi::size(n) {
        0 => None,
        size => Some(size),
    }
}
