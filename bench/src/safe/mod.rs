//! A straightforward, careful, safe Rust implementation on the stored bytes: what the core is timed against.
//! Uses the names of the calls and std.

pub mod calls;
mod check;
pub mod parts;
mod steps;
mod why;
mod worth;

pub use calls::Safe;
