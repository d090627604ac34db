//! Records: writing and reading events, writing a status. Uses the refusals only.

use super::refusal::Refusal;

/// The kind of a status record.
pub const STATUS: u16 = 1;

/// An event as a record says it. Its numbers are judged by the call, not here.
#[derive(Clone, Copy, PartialEq, Eq, Debug)]
pub enum Event {
    Make { n: u16 },
    Up { a: u16, b: u16 },
    Down { a: u16, b: u16 },
    Deliver { from: u16, to: u16 },
    Pass,
    Notice { noticing: u16, other: u16 },
}

impl Event {
    /// The event of a kind with its numbers; numbers that the kind does not have are not looked at.
    pub fn of(kind: u32, first: u16, second: u16) -> Option<Event> {
        match kind {
            15 => Some(Event::Make { n: first }),
            16 => Some(Event::Up { a: first, b: second }),
            17 => Some(Event::Down { a: first, b: second }),
            18 => Some(Event::Deliver { from: first, to: second }),
            19 => Some(Event::Pass),
            20 => Some(Event::Notice { noticing: first, other: second }),
            _ => None,
        }
    }

    pub fn kind(self) -> u16 {
        match self {
            Event::Make { .. } => 15,
            Event::Up { .. } => 16,
            Event::Down { .. } => 17,
            Event::Deliver { .. } => 18,
            Event::Pass => 19,
            Event::Notice { .. } => 20,
        }
    }

    /// The numbers that its kind holds.
    pub fn numbers(self) -> Vec<u16> {
        match self {
            Event::Make { n } => vec![n],
            Event::Up { a, b } | Event::Down { a, b } => vec![a, b],
            Event::Deliver { from, to } => vec![from, to],
            Event::Pass => vec![],
            Event::Notice { noticing, other } => vec![noticing, other],
        }
    }

    /// The record of the event.
    pub fn record(self) -> Vec<u8> {
        record(self.kind(), &self.numbers())
    }
}

/// Length of all that follows it, kind, body; each number little-endian in 16 bits.
pub fn record(kind: u16, body: &[u16]) -> Vec<u8> {
    let length = u16::try_from(2 + 2 * body.len()).expect("a short body");
    [length, kind].iter().chain(body).flat_map(|number| number.to_le_bytes()).collect()
}

/// Writes a record to the front of an output, or leaves it alone where it is too short.
pub fn write(record: &[u8], out: &mut [u8]) -> Result<usize, Refusal> {
    let place = out.get_mut(..record.len()).ok_or(Refusal::Short)?;
    place.copy_from_slice(record);
    Ok(record.len())
}

/// Reads the record at a place: nothing at the plain end, else the event and the place after it.
pub fn read(bytes: &[u8], place: usize) -> Result<Option<(Event, usize)>, Refusal> {
    let left = bytes.get(place..).ok_or(Refusal::RecordCut)?;
    if left.is_empty() {
        return Ok(None);
    }
    let number = |at: usize| left.get(at..at + 2).map(|two| u16::from_le_bytes([two[0], two[1]]));
    let (Some(length), Some(kind)) = (number(0), number(2)) else { return Err(Refusal::RecordCut) };
    // The numbers of a body that is cut are read as 0 and never answered.
    let (first, second) = (number(4).unwrap_or(0), number(6).unwrap_or(0));
    let event = Event::of(u32::from(kind), first, second).ok_or(Refusal::UnknownKind)?;
    let whole = event.record().len();
    if usize::from(length) + 2 != whole {
        return Err(Refusal::WrongLength);
    }
    if left.len() < whole {
        return Err(Refusal::RecordCut);
    }
    Ok(Some((event, place + whole)))
}
