//! Why a node reaches a destination as a value, and the check of it against links. Uses the largest node count, and
//! nothing of the core: whoever checks a reason here does not go by the core's word.

use crate::MOST_NODES;

/// Why a node reaches a destination in so many hops, or not at all, see [`State::why`](crate::State::why).
///
/// Its bytes are nodes, and stand in the list that was lent. An operator who holds the links of the site need not take
/// the core's word for it: [`links_show`](Reason::links_show) and [`holds`](Reason::holds) go by the links alone.
///
/// ```
/// use hop::Reason;
///
/// // The line 0-1-2, and 3 apart: what an operator has is the links.
/// let up = |a, b| [(0, 1), (1, 2)].contains(&(a, b));
/// assert!(Reason::Path(&[0, 1, 2]).holds(0, 2, 4, up));
/// assert!(Reason::Set(&[0, 1, 2]).holds(2, 3, 4, up));
/// assert!(!Reason::Set(&[0, 1]).holds(0, 3, 4, up));
/// ```
#[derive(Clone, Copy, PartialEq, Eq, Hash, Debug)]
pub enum Reason<'a> {
    /// There is a route: the path along the downstreams, from the node to the destination, one byte if they are the
    /// same. Its hops are one fewer than its bytes, and no path over up links is shorter.
    Path(&'a [u8]),
    /// There is none: the nodes that up links join to the node, itself included, ascending. The destination is not among
    /// them, and no up link leads from them to any other.
    Set(&'a [u8]),
}

impl Reason<'_> {
    /// What the links show of the reason without any search, for a site of `n` nodes. `up` says whether the link between
    /// two nodes is up, at both ends; it is asked with the lower of them first, and never for a node with itself.
    ///
    /// - A path begins at the node, ends at the destination, and each step goes over an up link. So the destination is
    ///   reached, in as many hops as the path has or in fewer. That none is shorter this does not show:
    ///   [`holds`](Reason::holds) searches.
    /// - A set ascends, the node is in it and the destination is not, and no up link has one end inside and the other
    ///   outside. So the destination is not reached: a path to it would have to leave the set. Nothing more is needed.
    ///
    /// Where `n` is not 1 to 40, or a node is not below it, nothing is shown.
    pub fn links_show(&self, node: usize, destination: usize, n: usize, up: impl Fn(usize, usize) -> bool) -> bool {
        let (Reason::Path(nodes) | Reason::Set(nodes)) = *self;
        // The node itself stands in either, and is judged with the others.
        if n > MOST_NODES || destination >= n || nodes.iter().any(|&x| usize::from(x) >= n) {
            return false;
        }
        match *self {
            Reason::Path(path) => is_path(path, node, destination, linked(up)),
            Reason::Set(set) => parts(set, node, destination, n, linked(up)),
        }
    }

    /// Whether the reason is right in all that it says: [`links_show`](Reason::links_show), and besides, by a
    /// breadth-first search of this crate's own over the links,
    ///
    /// - of a path, that none is shorter: the search needs as many hops;
    /// - of a set, that it holds nothing else: exactly the nodes that the search comes to.
    ///
    /// Of several shortest paths each holds; which of them the downstreams take, links do not tell.
    ///
    /// ```
    /// use hop::Reason;
    ///
    /// // A square with one diagonal, 0-3. The way round is a path, and not the shortest.
    /// let up = |a, b| [(0, 1), (0, 2), (0, 3), (1, 3), (2, 3)].contains(&(a, b));
    /// assert!(Reason::Path(&[0, 1, 3]).links_show(0, 3, 4, up));
    /// assert!(!Reason::Path(&[0, 1, 3]).holds(0, 3, 4, up));
    /// assert!(Reason::Path(&[0, 3]).holds(0, 3, 4, up));
    /// ```
    pub fn holds(&self, node: usize, destination: usize, n: usize, up: impl Fn(usize, usize) -> bool) -> bool {
        if !self.links_show(node, destination, n, &up) {
            return false;
        }
        let hops = search(node, n, linked(up));
        match *self {
            Reason::Path(path) => hops[destination] == Some(path.len() - 1),
            Reason::Set(set) => (0..n).all(|x| hops[x].is_some() == inside(set, x)),
        }
    }
}

/// Whether two nodes have an up link, by what is asked with the lower one first.
fn linked(up: impl Fn(usize, usize) -> bool) -> impl Fn(usize, usize) -> bool {
    move |a: usize, b: usize| a != b && up(a.min(b), a.max(b))
}

fn inside(set: &[u8], x: usize) -> bool {
    set.iter().any(|&y| usize::from(y) == x)
}

/// From the node to the destination, each step over an up link.
fn is_path(path: &[u8], node: usize, destination: usize, linked: impl Fn(usize, usize) -> bool) -> bool {
    let ends = [path.first(), path.last()].map(|end| end.copied().map(usize::from));
    ends == [Some(node), Some(destination)] && path.windows(2).all(|step| linked(step[0].into(), step[1].into()))
}

/// Ascending, the node inside, the destination outside, and no up link from inside to outside.
fn parts(set: &[u8], node: usize, destination: usize, n: usize, linked: impl Fn(usize, usize) -> bool) -> bool {
    let leaves = |x: usize| (0..n).any(|y| !inside(set, y) && linked(x, y));
    set.windows(2).all(|two| two[0] < two[1])
        && inside(set, node)
        && !inside(set, destination)
        && !set.iter().any(|&x| leaves(x.into()))
}

/// The hops from a node to each that is joined to it: those of the next wave are linked to one of this wave, and were
/// in none before.
fn search(node: usize, n: usize, linked: impl Fn(usize, usize) -> bool) -> [Option<usize>; MOST_NODES] {
    let mut hops = [None; MOST_NODES];
    hops[node] = Some(0);
    for wave in 0..n {
        for x in 0..n {
            for y in 0..n {
                if hops[x] == Some(wave) && hops[y].is_none() && linked(x, y) {
                    hops[y] = Some(wave + 1);
                }
            }
        }
    }
    hops
}
