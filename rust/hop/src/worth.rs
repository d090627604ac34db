//! What a link is worth as a value, and the lines of a list. Uses the largest node count.

use crate::MOST_NODES;
use std::iter::FusedIterator;
use std::slice::ChunksExact;

/// What the link between two nodes is worth: what its trial did, see [`State::worth`](crate::State::worth).
///
/// A pair has a route where its distance is below n. Pairs are ordered: from u to v and from v to u are two.
///
/// Where no link of the state is one-ended, exactly one of `lost`, `gained` and `change` is not 0. Where one is, the line
/// of another pair counts routes as the tables say them, those over the dead link too, and two of the three, or none, can
/// be other than 0.
///
/// ```
/// // What hurts most when it goes stands first: the routes that are lost, then the hops that are added.
/// let mut state = hop::State::new(4)?;
/// for (a, b) in [(0, 1), (0, 2), (1, 2), (2, 3)] {
///     state.up(a, b)?;
/// }
/// state.run(255)?;
/// let mut up: Vec<_> = state.worth()?.into_iter().filter(|line| line.is_up()).collect();
/// up.sort_by_key(|line| std::cmp::Reverse((line.lost, line.change)));
/// assert_eq!((up[0].a, up[0].b, up[0].lost), (2, 3, 6));
/// # Ok::<(), hop::Refusal>(())
/// ```
#[derive(Clone, Copy, PartialEq, Eq, Hash, Debug)]
pub struct Worth {
    /// The lower-numbered end of the link.
    pub a: usize,
    /// The other end.
    pub b: usize,
    /// The passes that brought the trial to rest, at most n.
    pub passes: usize,
    /// The entries delivered in them.
    pub deliveries: usize,
    /// Ordered pairs that had a route before and have none after: 0 for a link that was put up.
    pub lost: usize,
    /// Ordered pairs that had no route before and have one after: 0 for a link that was taken down.
    pub gained: usize,
    /// The hops after minus the hops before, over ordered pairs with a route both times: below 0 where routes got
    /// shorter.
    pub change: i32,
}

impl Worth {
    /// The numbers of a line.
    pub const NUMBERS: usize = 7;

    /// The numbers of the longest list, that of 40 nodes.
    pub const LONGEST_LIST: usize = Worth::NUMBERS * MOST_NODES * (MOST_NODES - 1) / 2;

    /// The numbers that are enough for the list of any state of `n` nodes, or nothing where `n` is not 1 to 40. Exactly
    /// so many are needed where no link is one-ended, and seven fewer for each that is.
    ///
    /// ```
    /// use hop::Worth;
    ///
    /// assert_eq!(Worth::list_size(1), Some(0));
    /// assert_eq!(Worth::list_size(3), Some(21));
    /// assert_eq!(Worth::list_size(40), Some(Worth::LONGEST_LIST));
    /// assert_eq!(Worth::list_size(41), None);
    /// ```
    pub fn list_size(n: usize) -> Option<usize> {
        (1..=MOST_NODES).contains(&n).then(|| Worth::NUMBERS * n * (n - 1) / 2)
    }

    /// Whether the line shows that the link is up, so that the trial took it down; the trial of any other put it up. It
    /// never shows so of a link that is down, and of each that is up where no link of the state is one-ended.
    ///
    /// At rest the ends of an up link are then one hop apart, and without it their routes are lost or longer.
    pub fn is_up(&self) -> bool {
        self.lost > 0 || self.change > 0
    }

    /// The fields of a line that the core wrote.
    fn of_line(line: &[i32]) -> Worth {
        let count = |at: usize| usize::try_from(line[at]).expect("all numbers of a line but the change are counts");
        Worth {
            a: count(0),
            b: count(1),
            passes: count(2),
            deliveries: count(3),
            lost: count(4),
            gained: count(5),
            change: line[6],
        }
    }
}

/// The lines of a list, one after another, see [`State::write_worth`](crate::State::write_worth).
#[derive(Clone, Debug)]
pub struct Lines<'a> {
    lines: ChunksExact<'a, i32>,
}

impl<'a> Lines<'a> {
    /// The lines of a list that the core wrote.
    pub(crate) fn of_list(list: &'a [i32]) -> Self {
        Lines { lines: list.chunks_exact(Worth::NUMBERS) }
    }
}

impl Iterator for Lines<'_> {
    type Item = Worth;

    fn next(&mut self) -> Option<Worth> {
        self.lines.next().map(Worth::of_line)
    }

    fn size_hint(&self) -> (usize, Option<usize>) {
        self.lines.size_hint()
    }
}

impl ExactSizeIterator for Lines<'_> {}

impl FusedIterator for Lines<'_> {}
