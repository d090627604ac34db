//! The refusal numbers of documents 01 and 02, by name. Uses nothing.

/// Why a call is refused.
#[derive(Clone, Copy, PartialEq, Eq, Debug)]
pub enum Refusal {
    NodeCount = 1,
    Short = 2,
    NotSound = 3,
    NoSuchNode = 4,
    OneNode = 5,
    IsUp = 6,
    IsDown = 7,
    EmptyQueue = 8,
    RecordCut = 9,
    UnknownKind = 10,
    WrongLength = 11,
    NotAtRest = 12,
    OneEndUp = 13,
}

impl Refusal {
    /// The documents' number for it.
    pub fn number(self) -> u32 {
        self as u32
    }
}
