//! The refusals and their numbers. Uses nothing.

use std::fmt;

/// Why a call was refused. Its number is the one that the C interface gives; it prints the rule's own words.
///
/// ```
/// use hop::{Refusal, State};
///
/// let mut state = State::new(2)?;
/// state.up(0, 1)?;
/// let refusal = state.up(0, 1).unwrap_err();
/// assert_eq!(refusal, Refusal::LinkIsUp);
/// assert_eq!(refusal.number(), 6);
/// assert_eq!(refusal.to_string(), "link up asked where both ends are up");
/// # Ok::<(), Refusal>(())
/// ```
#[derive(Clone, Copy, PartialEq, Eq, Hash, Debug)]
#[non_exhaustive]
#[repr(u32)]
pub enum Refusal {
    /// 1: the node count, asked for or the state's first byte, is not 1 to 40.
    NodeCount = 1,
    /// 2: a buffer is shorter than needed.
    ShortBuffer = 2,
    /// 3: the state is not sound.
    NotSound = 3,
    /// 4: a node or destination number is not below n.
    NoSuchNode = 4,
    /// 5: both ends are one node.
    OneNode = 5,
    /// 6: link up asked where both ends are up.
    LinkIsUp = 6,
    /// 7: link down asked where both ends are down, a notice where its own end is, a delivery where either is.
    LinkIsDown = 7,
    /// 8: delivery from an empty queue.
    QueueIsEmpty = 8,
    /// 9: a record is cut short.
    RecordCut = 9,
    /// 10: a record's kind is unknown.
    UnknownKind = 10,
    /// 11: a record's length is not that of its kind.
    WrongLength = 11,
    /// 12: the state is not at rest: an entry waits.
    NotAtRest = 12,
    /// 13: one end is still up: of the link that is asked up, or, where why is asked, of any link of the state.
    OneEndIsUp = 13,
}

impl Refusal {
    const ALL: [Refusal; 13] = [
        Refusal::NodeCount,
        Refusal::ShortBuffer,
        Refusal::NotSound,
        Refusal::NoSuchNode,
        Refusal::OneNode,
        Refusal::LinkIsUp,
        Refusal::LinkIsDown,
        Refusal::QueueIsEmpty,
        Refusal::RecordCut,
        Refusal::UnknownKind,
        Refusal::WrongLength,
        Refusal::NotAtRest,
        Refusal::OneEndIsUp,
    ];

    /// The number of the refusal.
    pub fn number(self) -> u32 {
        self as u32
    }

    /// The refusal of a number; 0 and numbers that are not given have none.
    ///
    /// ```
    /// assert_eq!(hop::Refusal::of_number(3), Some(hop::Refusal::NotSound));
    /// assert_eq!(hop::Refusal::of_number(0), None);
    /// ```
    pub fn of_number(number: u32) -> Option<Refusal> {
        Refusal::ALL.into_iter().find(|refusal| refusal.number() == number)
    }
}

impl fmt::Display for Refusal {
    fn fmt(&self, out: &mut fmt::Formatter<'_>) -> fmt::Result {
        out.write_str(match self {
            Refusal::NodeCount => "node count (asked for, or the state's first byte) is not 1 to 40",
            Refusal::ShortBuffer => "a buffer is shorter than needed",
            Refusal::NotSound => "the state is not sound",
            Refusal::NoSuchNode => "a node or destination number is not below n",
            Refusal::OneNode => "both ends are one node",
            Refusal::LinkIsUp => "link up asked where both ends are up",
            Refusal::LinkIsDown => {
                "link down asked where both ends are down, a notice where its own end is, a delivery where either is"
            }
            Refusal::QueueIsEmpty => "delivery from an empty queue",
            Refusal::RecordCut => "a record is cut short",
            Refusal::UnknownKind => "its kind is unknown",
            Refusal::WrongLength => "its length is not that of its kind",
            Refusal::NotAtRest => "the state is not at rest",
            Refusal::OneEndIsUp => "one end of a link is still up",
        })
    }
}

impl std::error::Error for Refusal {}
