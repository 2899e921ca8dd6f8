//! The connection charge and the pioneer ledger, written from documents 01 and 02 alone; docs/RULES.md has document 01's
//! headings.
//!
//! Money is in whole cents, capacity in hundredths of a kVA, factors in ten-thousandths, months are
//! year × 12 + (month − 1). Files are big endian. A refused call changes nothing.

#![forbid(unsafe_code)]

pub mod file;
pub mod ledger;
pub mod page;
pub mod page_reader;
pub mod price_band;
pub mod pricing;
pub mod rate_book;
pub mod refusal;
pub mod request;
pub mod slip;
pub mod stored;

pub use ledger::{accept, clear, hand_over, pay_out, Answer, Joining, Ledger, Party, Scheme};
pub use page::page;
pub use price_band::{price_band, PriceBand};
pub use pricing::{price, Bill, Percentage, Reconciliation};
pub use refusal::Refusal;
pub use slip::slip;
pub use stored::{move_back, move_to_new, read_ledger, write_ledger};
