//! The status record as a value. Uses nothing.

/// What a status record says of a node.
#[derive(Clone, Copy, PartialEq, Eq, Hash, Debug)]
pub struct Status {
    /// The node.
    pub node: u16,
    /// Entries waiting to be delivered to it.
    pub waiting_for: u16,
    /// Entries that it sent and that still wait.
    pub waiting_from: u16,
    /// Destinations other than itself that it has a route to.
    pub reached: u16,
    /// Entries waiting in the whole state.
    pub total_queued: u16,
}

impl Status {
    /// The bytes of a status record.
    pub const LENGTH: usize = 14;

    /// The fields of a record that the core wrote: they follow its length and its kind.
    pub(crate) fn of_record(record: &[u8; Status::LENGTH]) -> Status {
        let number = |at: usize| u16::from_le_bytes([record[at], record[at + 1]]);
        Status {
            node: number(4),
            waiting_for: number(6),
            waiting_from: number(8),
            reached: number(10),
            total_queued: number(12),
        }
    }
}
