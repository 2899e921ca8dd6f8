//! Seeded rate books, requests, damaged files and lists of calls, for tests and benchmarks.
//!
//! ```
//! use generate::{Book, Request};
//! let book = Book { fee: 5, ..Book::slip() };
//! let bill = reference::price(&book.encode(), &Request::slip().encode()).unwrap();
//! assert_eq!((bill.fee, bill.reconciliation.cc), (5, 1_147_630));
//! ```

#![forbid(unsafe_code)]

pub mod book;
pub mod books;
pub mod calls;
pub mod damage;
pub mod fields;
pub mod ledgers;
pub mod random;
pub mod request;
pub mod zone_numbers;

pub use book::Book;
pub use books::Books;
pub use calls::{Call, Outcome};
pub use random::Random;
pub use request::Request;
