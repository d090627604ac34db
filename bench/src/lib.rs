//! The safe implementation that the core is timed against, what is timed, and how. Uses the harness.

#[cfg(test)]
mod equal;
pub mod measure;
pub mod rows;
pub mod safe;
