//! The blocks of a stored state as slices of one buffer. Uses nothing.

/// The byte for 'no downstream'.
pub const NONE: u8 = 255;

/// How many bytes the stored form of n nodes has.
pub fn size(n: usize) -> usize {
    1 + 4 * n * n + 3 * n * n * n
}

/// The blocks for reading.
pub struct Parts<'a> {
    pub n: usize,
    pub links: &'a [u8],
    pub distances: &'a [u8],
    pub downstreams: &'a [u8],
    pub views: &'a [u8],
    pub lengths: &'a [u8],
    pub destinations: &'a [u8],
    pub values: &'a [u8],
}

impl<'a> Parts<'a> {
    /// The blocks of a buffer that holds at least the stored form of n nodes.
    pub fn of(buffer: &'a [u8], n: usize) -> Parts<'a> {
        let (square, cube) = (n * n, n * n * n);
        let (links, rest) = buffer[1..].split_at(square);
        let (distances, rest) = rest.split_at(square);
        let (downstreams, rest) = rest.split_at(square);
        let (views, rest) = rest.split_at(cube);
        let (lengths, rest) = rest.split_at(square);
        let (destinations, rest) = rest.split_at(cube);
        Parts { n, links, distances, downstreams, views, lengths, destinations, values: &rest[..cube] }
    }
}

/// The blocks for writing.
pub struct PartsMut<'a> {
    pub n: usize,
    pub links: &'a mut [u8],
    pub distances: &'a mut [u8],
    pub downstreams: &'a mut [u8],
    pub views: &'a mut [u8],
    pub lengths: &'a mut [u8],
    pub destinations: &'a mut [u8],
    pub values: &'a mut [u8],
}

impl<'a> PartsMut<'a> {
    /// The blocks of a buffer that holds at least the stored form of n nodes.
    pub fn of(buffer: &'a mut [u8], n: usize) -> PartsMut<'a> {
        let (square, cube) = (n * n, n * n * n);
        let (links, rest) = buffer[1..].split_at_mut(square);
        let (distances, rest) = rest.split_at_mut(square);
        let (downstreams, rest) = rest.split_at_mut(square);
        let (views, rest) = rest.split_at_mut(cube);
        let (lengths, rest) = rest.split_at_mut(square);
        let (destinations, rest) = rest.split_at_mut(cube);
        PartsMut { n, links, distances, downstreams, views, lengths, destinations, values: &mut rest[..cube] }
    }
}

/// Row number `at` of a block whose rows have n bytes.
pub fn row(block: &[u8], n: usize, at: usize) -> &[u8] {
    &block[at * n..][..n]
}

/// The same for writing.
pub fn row_mut(block: &mut [u8], n: usize, at: usize) -> &mut [u8] {
    &mut block[at * n..][..n]
}
