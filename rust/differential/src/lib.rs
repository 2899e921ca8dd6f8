//! The library held against the reference implementation: the same call on both sides, on buffers that hold the same
//! before it, must leave the same result and the same buffers.

#![forbid(unsafe_code)]

pub mod call;
pub mod tally;
pub mod wanted;

pub use call::{Buffers, LibraryCall};
pub use tally::Tally;
