//! A file by itself: what it ends in, and whether it can be read.

use crate::raw;
use crate::refusal::Refusal;

/// The check of a file's bytes before its last two, which hold it, high byte first: for whoever writes a book or a
/// request.
pub fn check(bytes: &[u8]) -> u16 {
    // always below 65,521
    raw::check(bytes) as u16
}

/// Whether a rate book can be read; it is file 1 in a refusal, by 1, 2 or 3.
pub fn judge_book(book: &[u8]) -> Result<(), Refusal> {
    match raw::judge_book(book) {
        raw::DONE => Ok(()),
        result => Err(Refusal::of(result)),
    }
}

/// Whether a request can be read; it too is file 1 in a refusal, by 1, 2 or 3.
pub fn judge_request(request: &[u8]) -> Result<(), Refusal> {
    match raw::judge_request(request) {
        raw::DONE => Ok(()),
        result => Err(Refusal::of(result)),
    }
}
