//! The comparison of the hop-route core with a second implementation of documents 01 and 02.
//! Uses std, and the archive where there is one.

pub mod compare;
pub mod core;
pub mod engine;
pub mod numbers;
pub mod second;
pub mod selftest;
