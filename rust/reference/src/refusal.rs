//! Document 01, 'How calls end': "A refusal returns number, file .. and place, and changes nothing."

use std::fmt;

/// The file's number for a book, or a file read alone.
pub const BOOK: u8 = 1;
/// The file's number for a request, and for refusals 4 and 5.
pub const REQUEST: u8 = 2;

/// "file doesn't walk as above": as 'Tagged fields' has it
pub const FILE_DOES_NOT_WALK: u8 = 1;
/// "check differs"
pub const CHECK_DIFFERS: u8 = 2;
/// "value or letters not as listed; in a stored ledger only the letters": listed under 'Rate book', 'Request' and
/// 'Stored form'
pub const VALUE_NOT_LISTED: u8 = 3;
/// "zone not in the book"
pub const ZONE_NOT_IN_BOOK: u8 = 4;
/// "bespoke rate not allowed"
pub const BESPOKE_NOT_ALLOWED: u8 = 5;
/// "scheme never opened"
pub const SCHEME_NEVER_OPENED: u8 = 6;
/// "month before the last accepted"
pub const MONTH_BEFORE_LAST: u8 = 7;
/// "64 schemes, one must open"
pub const NO_SCHEME_LEFT: u8 = 8;
/// "no table entry left, one is needed"
pub const NO_ENTRY_LEFT: u8 = 9;
/// "1,000,000 connections taken"
pub const NO_CONNECTION_LEFT: u8 = 10;
/// "no such entry"
pub const NO_SUCH_ENTRY: u8 = 11;
/// "pay-out above standing credit"
pub const PAY_OUT_ABOVE_CREDIT: u8 = 12;
/// "ledger unsound, or table shorter than its entries"
pub const LEDGER_UNSOUND: u8 = 13;
/// "output shorter than the stored form"; of a page, "An output under 768 bytes"
pub const OUTPUT_TOO_SHORT: u8 = 14;
/// Of a price band, "a low above its high"
pub const LOW_ABOVE_HIGH: u8 = 15;
/// "moving back where a next number isn't its count plus one"
pub const NUMBERS_NOT_COUNTS: u8 = 16;

/// The refusals in words that stand by themselves, from number 1 on.
const WORDS: [&str; 16] = [
    "a field can't stand at the place, or the file's last five bytes are wrong",
    "the file's check differs",
    "a value is past its limits, or the file's letters differ; in a stored ledger only the letters",
    "the request's zone is not in the book",
    "a bespoke rate is not allowed",
    "the scheme that the request joins was never opened",
    "the month is before the last accepted",
    "there are 64 schemes, or the next would be the 65,536th, and one must open",
    "the table has fewer records than the stored ledger has entries, or than it would have after accept",
    "1,000,000 connections are taken",
    "there is no such entry",
    "the pay-out is above the standing credit",
    "the stored ledger is unsound",
    "the output, the answer or the figures are too short",
    "a low revenue is above its high",
    "the next scheme or entry number is not its count plus one",
];

/// A refusal: its number, 1 to 16, the file it is about and the place in it.
#[derive(Debug, Clone, Copy, PartialEq, Eq)]
pub struct Refusal {
    pub number: u8,
    /// "1 book or a file read alone; 2 request, and for 4 and 5; 0 from 6 on"
    pub file: u8,
    pub place: usize,
}

impl Refusal {
    /// A refusal that is about no file: one from 6 on, or of a price band's figures.
    pub const fn of_call(number: u8) -> Self {
        Refusal { number, file: 0, place: 0 }
    }

    /// The number in words.
    pub fn words(&self) -> &'static str {
        usize::from(self.number).checked_sub(1).and_then(|index| WORDS.get(index).copied()).unwrap_or("no refusal")
    }
}

impl fmt::Display for Refusal {
    fn fmt(&self, f: &mut fmt::Formatter<'_>) -> fmt::Result {
        write!(f, "refusal {} (file {}, place {}): {}", self.number, self.file, self.place, self.words())
    }
}

impl std::error::Error for Refusal {}
