//! The stored form: blocks of single bytes, read and written one after another. Uses the rule's state.

use super::rule::{Entry, State};

/// The byte for 'no downstream'.
pub const NONE: u8 = 255;

/// The tables as their bytes stand in a buffer, sound or not.
#[derive(Clone, PartialEq, Eq, Debug)]
pub struct Blocks {
    pub n: u8,
    pub links: Vec<Vec<u8>>,
    pub distances: Vec<Vec<u8>>,
    pub downstreams: Vec<Vec<u8>>,
    pub views: Vec<Vec<Vec<u8>>>,
    pub lengths: Vec<Vec<u8>>,
    pub destinations: Vec<Vec<Vec<u8>>>,
    pub values: Vec<Vec<Vec<u8>>>,
}

/// How many bytes the stored form of n nodes has.
pub fn size(n: usize) -> usize {
    1 + 4 * n.pow(2) + 3 * n.pow(3)
}

type Bytes<'a> = std::iter::Copied<std::slice::Iter<'a, u8>>;

fn row(rest: &mut Bytes, n: usize) -> Vec<u8> {
    rest.by_ref().take(n).collect()
}

fn square(rest: &mut Bytes, n: usize) -> Vec<Vec<u8>> {
    (0..n).map(|_| row(rest, n)).collect()
}

fn cube(rest: &mut Bytes, n: usize) -> Vec<Vec<Vec<u8>>> {
    (0..n).map(|_| square(rest, n)).collect()
}

impl Blocks {
    /// The blocks at the front of a buffer that is long enough for its own first byte.
    pub fn read(buffer: &[u8]) -> Blocks {
        let mut rest = buffer.iter().copied();
        let first = rest.next().expect("a buffer that is not empty");
        let n = usize::from(first);
        Blocks {
            n: first,
            links: square(&mut rest, n),
            distances: square(&mut rest, n),
            downstreams: square(&mut rest, n),
            views: cube(&mut rest, n),
            lengths: square(&mut rest, n),
            destinations: cube(&mut rest, n),
            values: cube(&mut rest, n),
        }
    }

    /// The bytes of the blocks, in their order.
    pub fn write(&self) -> Vec<u8> {
        let mut bytes = vec![self.n];
        for square in [&self.links, &self.distances, &self.downstreams] {
            bytes.extend(square.iter().flatten());
        }
        bytes.extend(self.views.iter().flatten().flatten());
        bytes.extend(self.lengths.iter().flatten());
        for cube in [&self.destinations, &self.values] {
            bytes.extend(cube.iter().flatten().flatten());
        }
        bytes
    }

    /// The state that sound blocks hold.
    pub fn state(&self) -> State {
        let n = usize::from(self.n);
        let mut state = State::fresh(n);
        for u in 0..n {
            for w in 0..n {
                state.links[u][w] = self.links[u][w] == 1;
                state.distances[u][w] = usize::from(self.distances[u][w]);
                state.downstreams[u][w] = match self.downstreams[u][w] {
                    NONE => None,
                    downstream => Some(usize::from(downstream)),
                };
                for place in 0..n {
                    state.views[u][w][place] = usize::from(self.views[u][w][place]);
                }
                for place in 0..usize::from(self.lengths[u][w]) {
                    let destination = usize::from(self.destinations[u][w][place]);
                    let value = usize::from(self.values[u][w][place]);
                    state.queues[u][w].push_back(Entry { destination, value });
                }
            }
        }
        state
    }

    /// The blocks of a state. Places of a queue past its length are 0.
    pub fn of(state: &State) -> Blocks {
        let byte = |number: &usize| u8::try_from(*number).expect("a number of a state is a byte");
        let squared = |table: &Vec<Vec<usize>>| -> Vec<Vec<u8>> {
            table.iter().map(|row| row.iter().map(byte).collect()).collect()
        };
        let queued = |part: fn(&Entry) -> usize| -> Vec<Vec<Vec<u8>>> {
            let padded = |queue: &std::collections::VecDeque<Entry>| {
                let mut row: Vec<u8> = queue.iter().map(|entry| byte(&part(entry))).collect();
                row.resize(state.n, 0);
                row
            };
            state.queues.iter().map(|row| row.iter().map(padded).collect()).collect()
        };
        Blocks {
            n: byte(&state.n),
            links: state.links.iter().map(|row| row.iter().map(|&up| u8::from(up)).collect()).collect(),
            distances: squared(&state.distances),
            downstreams: state
                .downstreams
                .iter()
                .map(|row| row.iter().map(|d| d.as_ref().map_or(NONE, byte)).collect())
                .collect(),
            views: state.views.iter().map(squared).collect(),
            lengths: state.queues.iter().map(|row| row.iter().map(|queue| byte(&queue.len())).collect()).collect(),
            destinations: queued(|entry| entry.destination),
            values: queued(|entry| entry.value),
        }
    }
}

/// The stored form of a state.
pub fn stored(state: &State) -> Vec<u8> {
    Blocks::of(state).write()
}
