use super::damage::old_form;
use differential::{Buffers, LibraryCall, Tally};
use fikrem::raw::ANSWER;
use fikrem::LONGEST_TABLE;
use generate::books::stored_form;
use generate::calls::{after, filling};
use generate::{Book, Books, Random, Request};

/// The lengths 0 to 10 and those about `length`.
fn lengths(length: usize) -> Vec<usize> {
    (0..=10).chain(length - 2..=length + 2).collect()
}

/// Outputs, texts, figures and answers of every short length and about the length that is needed.
pub fn every_length(tally: &mut Tally) {
    let (ledger, parties) = after(&filling(&mut Random::new(150), 3, 9), 9);
    let stored = &stored_form(&ledger, &parties)[..];
    let old = &old_form(&ledger, &parties)[..];
    // all of scheme 1's credit is paid out, then it is cleared
    let mut books = Books { ledger: ledger.clone(), parties };
    for entry in [1, 4, 7] {
        let party = books.parties[entry as usize - 1];
        books.pay_out(entry, party.credited).expect("it is the standing credit");
    }
    let paid_out = &books.stored()[..];
    books.clear(24_399).expect("the month is after the last");
    let cleared = &books.stored()[..];
    let book = &Book::slip().encode()[..];
    let request = &Request { month: ledger.month, ..Request::slip() }.encode()[..];
    let building_on = &Request { month: ledger.month, scheme: 1, ..Request::extension(6_000_000) }.encode()[..];
    let table_size = LONGEST_TABLE;
    let unpriced = &Request { zone: 3, ..Request::slip() }.encode()[..];
    let calls = [
        (LibraryCall::Price { book, request }, 0),
        (LibraryCall::Price { book, request: unpriced }, 0),
        (LibraryCall::SlipText { book, request }, reference::slip(book, request).len()),
        (LibraryCall::SlipText { book, request: unpriced }, reference::slip(book, unpriced).len()),
        (LibraryCall::NewLedger, 69),
        (LibraryCall::Accept { stored, table_size, book, request }, stored.len()),
        (LibraryCall::Accept { stored, table_size, book, request: unpriced }, stored.len()),
        (LibraryCall::Accept { stored, table_size, book, request: building_on }, stored.len() + 31 + 2 * 37),
        (LibraryCall::PayOut { stored, table_size, entry: 1, amount: 1 }, stored.len()),
        (LibraryCall::PayOut { stored, table_size, entry: 0, amount: 1 }, stored.len()),
        (LibraryCall::HandOver { stored, table_size, entry: 9, person: 1 }, stored.len()),
        (LibraryCall::HandOver { stored, table_size: 8, entry: 9, person: 1 }, stored.len()),
        (LibraryCall::Clear { stored, table_size, month: 24_398 }, stored.len()),
        (LibraryCall::Clear { stored, table_size, month: 24_399 }, stored.len()),
        (LibraryCall::Clear { stored: paid_out, table_size, month: 24_399 }, paid_out.len() - 31 - 3 * 37),
        (LibraryCall::Clear { stored, table_size, month: 24_314 }, stored.len()),
        (LibraryCall::MoveBack { file: stored }, old.len()),
        (LibraryCall::MoveBack { file: cleared }, cleared.len()),
        (LibraryCall::MoveToNew { file: old }, stored.len()),
        (LibraryCall::MoveToNew { file: stored }, stored.len()),
        (LibraryCall::JudgeLedger { stored, table_size }, 0),
        (LibraryCall::JudgeLedger { stored, table_size: 8 }, 0),
        (LibraryCall::JudgeLedger { stored: &stored[1..], table_size }, 0),
    ];
    for (call, length) in &calls {
        for out in lengths(*length.max(&2)) {
            for figures in [0, 1, 20, 21, 22, 26, 27, 28] {
                for answer in 0..=ANSWER + 1 {
                    tally.compare_on(call, Buffers::of(out, figures, answer));
                }
            }
        }
        for out in 0..*length {
            tally.compare_on(call, Buffers::of(out, 27, ANSWER));
        }
    }
}
