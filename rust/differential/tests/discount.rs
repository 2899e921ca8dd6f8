//! Pricing at the rates of the table of discount factors, and at those about them, against the reference implementation,
//! which goes by document 01's recurrence at every rate.

use fikrem::raw::{self, FIGURES, IR};
use generate::{Book, Request};

/// The slip's request by the slip's book at another rate, for a class.
fn slip(discount_rate: u16, class: u8) -> (Vec<u8>, Vec<u8>) {
    (Book { discount_rate, ..Book::slip() }.encode(), Request { class, ..Request::slip() }.encode())
}

fn ir(book: &[u8], request: &[u8]) -> u64 {
    let mut figures = [0; FIGURES];
    assert_eq!(raw::price(book, request, &mut figures), 0);
    u64::try_from(figures[IR]).expect("IR is never negative")
}

/// At the ends of the table, inside it, beside it and past it.
#[test]
fn the_slips_ir() {
    let non_residential = [275, 299, 300, 301, 312, 325, 475, 575, 600, 601, 625].map(|rate| slip(rate, 1));
    assert_eq!(
        non_residential.map(|(book, request)| ir(&book, &request)),
        [696814, 684770, 684276, 683779, 678374, 672063, 605138, 565906, 556698, 556335, 547718]
    );
    let residential = [275, 300, 325, 475, 575, 600, 625].map(|rate| slip(rate, 0));
    assert_eq!(
        residential.map(|(book, request)| ir(&book, &request)),
        [1160676, 1123482, 1088027, 906811, 810547, 788983, 768321]
    );
}

/// Every rate about the table, and the limits of the rate. A year's revenue is ten times its factor, so that a factor
/// that is one off in any year shows.
#[test]
fn every_rate_about_the_table() {
    for discount_rate in (250..=650).chain([0, 1, 9_999, 10_000]) {
        let book = Book { discount_rate, ..Book::slip() }.encode();
        for class in [0, 1] {
            let request = Request { class, distribution_revenue: 1_000_000_000, ..Request::slip() }.encode();
            let wanted = reference::price(&book, &request).expect("it prices").reconciliation.ir;
            assert_eq!(ir(&book, &request), wanted, "rate {discount_rate}, class {class}");
        }
    }
}
