//! Event records: writing one, reading a run of them. Uses the foreign calls.

use crate::answer::{answered, done};
use crate::ffi;
use crate::refusal::Refusal;

/// An event. Its numbers are judged by the call that it is given to, see [`State::apply`](crate::State::apply).
///
/// ```
/// use hop::Event;
///
/// let mut record = [0; Event::LONGEST];
/// assert_eq!(Event::Up { a: 0, b: 1 }.write(&mut record)?, 8);
/// assert_eq!(record, [6, 0, 16, 0, 0, 0, 1, 0]);
/// # Ok::<(), hop::Refusal>(())
/// ```
#[derive(Clone, Copy, PartialEq, Eq, Hash, Debug)]
#[non_exhaustive]
pub enum Event {
    /// Kind 15: make a fresh state.
    #[allow(missing_docs)]
    Make { n: u16 },
    /// Kind 16: link up.
    #[allow(missing_docs)]
    Up { a: u16, b: u16 },
    /// Kind 17: link down.
    #[allow(missing_docs)]
    Down { a: u16, b: u16 },
    /// Kind 18: delivery of one entry.
    #[allow(missing_docs)]
    Deliver { from: u16, to: u16 },
    /// Kind 19: a pass.
    Pass,
    /// Kind 20: one end's notice that a link is lost.
    #[allow(missing_docs)]
    Notice { noticing: u16, other: u16 },
}

impl Event {
    /// The bytes of the longest event record.
    pub const LONGEST: usize = 8;

    /// The kind of the event, and its numbers; 0 for a number that it does not have.
    fn parts(self) -> (u32, u16, u16) {
        match self {
            Event::Make { n } => (15, n, 0),
            Event::Up { a, b } => (16, a, b),
            Event::Down { a, b } => (17, a, b),
            Event::Deliver { from, to } => (18, from, to),
            Event::Pass => (19, 0, 0),
            Event::Notice { noticing, other } => (20, noticing, other),
        }
    }

    /// The number of its kind.
    pub fn kind(self) -> u32 {
        self.parts().0
    }

    /// Writes its record to the front of an output, and gives the bytes written.
    ///
    /// Refuses: [`ShortBuffer`](Refusal::ShortBuffer).
    pub fn write(self, out: &mut [u8]) -> Result<usize, Refusal> {
        let (kind, first, second) = self.parts();
        answered(ffi::write_event(kind, first, second, out))
    }
}

/// Reads a run of event records one after another.
///
/// As an iterator it ends at the plain end, or after the refusal that it meets.
///
/// ```
/// use hop::{Event, Reader, Refusal, State};
///
/// let script = [4, 0, 15, 0, 2, 0, 6, 0, 16, 0, 0, 0, 1, 0, 2, 0, 19, 0];
/// let mut state = State::over(vec![0; 1000]);
/// for event in Reader::new(&script) {
///     state.apply(event?)?;
/// }
/// assert_eq!(state.total_queued()?, 1);
///
/// let mut reader = Reader::new(&script[..9]);
/// assert_eq!(reader.read()?, Some(Event::Make { n: 2 }));
/// assert_eq!(reader.read(), Err(Refusal::RecordCut));
/// assert_eq!(reader.place(), 6);
/// # Ok::<(), Refusal>(())
/// ```
#[derive(Clone, Debug)]
pub struct Reader<'a> {
    bytes: &'a [u8],
    place: usize,
    refused: bool,
}

impl<'a> Reader<'a> {
    /// A reader at the front of the bytes.
    pub fn new(bytes: &'a [u8]) -> Self {
        Reader::at(bytes, 0)
    }

    /// A reader at a place of the bytes.
    pub fn at(bytes: &'a [u8], place: usize) -> Self {
        Reader { bytes, place, refused: false }
    }

    /// Where the next record is read.
    pub fn place(&self) -> usize {
        self.place
    }

    /// Reads the next event and goes past it; nothing at the plain end. There and at a refusal the place stays.
    ///
    /// Refuses: [`RecordCut`](Refusal::RecordCut) for a place past the end, or fewer than 4 bytes,
    /// [`UnknownKind`](Refusal::UnknownKind), [`WrongLength`](Refusal::WrongLength),
    /// [`RecordCut`](Refusal::RecordCut) for a body that is cut.
    pub fn read(&mut self) -> Result<Option<Event>, Refusal> {
        let read = ffi::read_event(self.bytes, &mut self.place);
        done(read.code)?;
        // A record's numbers have 16 bits.
        let (first, second) = (read.first as u16, read.second as u16);
        Ok(match read.kind {
            0 => None,
            15 => Some(Event::Make { n: first }),
            16 => Some(Event::Up { a: first, b: second }),
            17 => Some(Event::Down { a: first, b: second }),
            18 => Some(Event::Deliver { from: first, to: second }),
            19 => Some(Event::Pass),
            20 => Some(Event::Notice { noticing: first, other: second }),
            kind => unreachable!("the archive reads the kinds that this crate knows, and not {kind}"),
        })
    }
}

impl Iterator for Reader<'_> {
    type Item = Result<Event, Refusal>;

    fn next(&mut self) -> Option<Self::Item> {
        if self.refused {
            return None;
        }
        let read = self.read();
        self.refused = read.is_err();
        read.transpose()
    }
}

impl std::iter::FusedIterator for Reader<'_> {}
