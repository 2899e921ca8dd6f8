//! The program `fikrem`: rate books and requests as text, quotes and refusals in plain words.
//!
//! The proved library judges every byte and prices; this program reads and writes texts and says what the library answers.

#![forbid(unsafe_code)]
#![deny(clippy::expect_used, clippy::indexing_slicing, clippy::panic, clippy::unreachable, clippy::unwrap_used)]

pub mod band;
pub mod command;
pub mod disk;
pub mod file;
pub mod help;
pub mod pack;
pub mod quote;
pub mod table;
pub mod template;
pub mod text;
pub mod unit;
pub mod words;
