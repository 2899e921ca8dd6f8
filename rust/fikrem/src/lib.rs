//! The connection charge and the pioneer ledger: a safe wrapper of the proved library `libfikrem.a`.
//!
//! Money is in whole cents, capacity in hundredths of a kVA, a month is year × 12 + (month − 1). Books, requests and
//! stored ledgers are bytes; a call on a stored ledger leaves it as it is and gives the new one. Each call is given a
//! result or a numbered refusal, which changes nothing; none panics, whatever the bytes. The library takes
//! at most 32 KiB of stack for each.
//!
//! A program calls [`linked`] before anything else: it says whether the library that was linked is of this crate's
//! version of the interface.

#![deny(unsafe_code)]
#![deny(clippy::expect_used, clippy::panic, clippy::unreachable, clippy::unwrap_used)]

pub mod file;
pub mod ledger;
pub mod pricing;
pub mod raw;
pub mod refusal;
pub mod version;

pub use file::{check, judge_book, judge_request};
pub use ledger::{accept, clear, hand_over, judge_ledger, new_ledger, pay_out, Accepted, Answer, Holdings, Joining};
pub use ledger::{accept_into, clear_into, hand_over_into, new_ledger_into, pay_out_into, LONGEST_FORM, LONGEST_TABLE};
pub use ledger::{move_back, move_back_into, move_to_new, move_to_new_into, LONGEST_OLD_FORM};
pub use pricing::{page, page_into, price, slip_text, slip_text_into, Bill, Percentage, LONGEST_SLIP, PAGE};
pub use pricing::{price_band, Bands, PriceBand};
pub use refusal::{Reason, Refusal, Refused};
pub use version::{linked, OtherVersion};
