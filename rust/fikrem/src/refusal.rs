//! Refusals. Document 01, 'How calls end': "A refusal returns number, file .. and place, and changes nothing."

use crate::raw;
use std::fmt;

/// What a call can be refused for, by number, name and words: docs/REFUSALS.md has the table, which a test holds this
/// against.
macro_rules! reasons {
    ($($number:literal $name:ident $words:literal)*) => {
        /// What a call is refused for. More may come with a later version of the interface.
        #[derive(Debug, Clone, Copy, PartialEq, Eq)]
        #[non_exhaustive]
        pub enum Reason {
            $(#[doc = $words] $name,)*
            /// A number that this version doesn't have.
            Unknown(u8),
        }

        impl Reason {
            /// Of a result 1 to 31.
            pub fn number(self) -> u8 {
                match self {
                    $(Reason::$name => $number,)*
                    Reason::Unknown(number) => number,
                }
            }
        }

        impl From<u8> for Reason {
            fn from(number: u8) -> Reason {
                match number {
                    $($number => Reason::$name,)*
                    _ => Reason::Unknown(number),
                }
            }
        }

        impl fmt::Display for Reason {
            fn fmt(&self, f: &mut fmt::Formatter<'_>) -> fmt::Result {
                f.write_str(match self {
                    $(Reason::$name => $words,)*
                    Reason::Unknown(_) => "this version of the interface has no such refusal",
                })
            }
        }
    };
}

reasons! {
    1 FileDoesNotWalk "a field can't stand at the place, or the file's last five bytes are wrong"
    2 CheckDiffers "the file's check differs"
    3 ValueNotListed "a value is past its limits, or the file's letters differ; in a stored ledger only the letters"
    4 ZoneNotInBook "the request's zone is not in the book"
    5 BespokeNotAllowed "a bespoke rate is not allowed"
    6 SchemeNeverOpened "the scheme that the request joins was never opened"
    7 MonthBeforeLast "the month is before the last accepted"
    8 NoSchemeLeft "there are 64 schemes, or the next would be the 65,536th, and one must open"
    9 NoEntryLeft "the table has fewer records than the stored ledger has entries, or than it would have after accept"
    10 NoConnectionLeft "1,000,000 connections are taken"
    11 NoSuchEntry "there is no such entry"
    12 PayOutAboveCredit "the pay-out is above the standing credit"
    13 LedgerUnsound "the stored ledger is unsound"
    14 OutputTooShort "the output, the answer or the figures are too short"
    15 LowAboveHigh "a low revenue is above its high"
    16 NumbersNotCounts "the next scheme or entry number is not its count plus one"
}

/// A refusal: what for, the file it is about and the place in it.
#[derive(Debug, Clone, Copy, PartialEq, Eq)]
pub struct Refusal {
    pub reason: Reason,
    /// "1 book or a file read alone; 2 request, and for 4 and 5; 0 from 6 on"; 0 too for 3 where a band's figure is past
    /// its limit
    pub file: u8,
    /// An offset in the file for 1 to 3 (0 where that is 0), the tier for 5, otherwise 0.
    pub place: usize,
}

impl Refusal {
    pub(crate) fn of(result: u64) -> Refusal {
        let [number, file] = [raw::number(result), raw::file(result)].map(|told| told as u8);
        Refusal { reason: Reason::from(number), file, place: raw::place(result) as usize }
    }

    /// The reason's number.
    pub fn number(&self) -> u8 {
        self.reason.number()
    }
}

impl fmt::Display for Refusal {
    fn fmt(&self, f: &mut fmt::Formatter<'_>) -> fmt::Result {
        write!(f, "refusal {} (file {}, place {}): {}", self.number(), self.file, self.place, self.reason)
    }
}

impl std::error::Error for Refusal {}

/// What a call on a stored ledger is refused for.
#[derive(Debug, Clone, Copy, PartialEq, Eq)]
pub enum Refused {
    /// The stored ledger doesn't read; file 1 is the stored ledger.
    Stored(Refusal),
    /// The stored ledger reads, the call is refused; file 1 is the book.
    Call(Refusal),
}

impl Refused {
    pub(crate) fn of(result: u64) -> Refused {
        if raw::of_ledger(result) == 1 {
            Refused::Stored(Refusal::of(result))
        } else {
            Refused::Call(Refusal::of(result))
        }
    }

    pub fn refusal(&self) -> Refusal {
        match self {
            Refused::Stored(refusal) | Refused::Call(refusal) => *refusal,
        }
    }
}

impl fmt::Display for Refused {
    fn fmt(&self, f: &mut fmt::Formatter<'_>) -> fmt::Result {
        match self {
            Refused::Stored(refusal) => write!(f, "the stored ledger: {refusal}"),
            Refused::Call(refusal) => refusal.fmt(f),
        }
    }
}

impl std::error::Error for Refused {}
