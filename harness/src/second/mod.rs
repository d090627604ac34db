//! The second implementation: document 01, and 02 as far as it has landed, on tables and queues, written from the
//! documents alone.
//! Uses std and the names of the calls; shares no code and no offsets with the core.

pub mod calls;
pub mod judged;
pub mod program;
pub mod records;
pub mod refusal;
pub mod rule;
pub mod sound;
pub mod stored;
pub mod why;
pub mod worth;

pub use calls::Second;
