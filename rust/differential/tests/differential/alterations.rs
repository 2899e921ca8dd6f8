use super::damage::old_form;
use differential::{LibraryCall, Tally};
use fikrem::LONGEST_TABLE;
use generate::books::stored_form;
use generate::calls::{after, filling};
use generate::damage::{alter_byte, alter_byte_and_check};
use generate::{Book, Random, Request};

/// Compares every other value of every byte, with the old check and with its own; by the old check each is refused.
fn altered(file: &[u8], mut compare: impl FnMut(&[u8]) -> u64) {
    assert_eq!(compare(file), 0);
    for place in 0..file.len() {
        for value in (0..=u8::MAX).filter(|&value| value != file[place]) {
            assert_ne!(compare(&alter_byte(file, place, value)), 0, "byte {place} altered to {value} is let pass");
            compare(&alter_byte_and_check(file, place, value));
        }
    }
}

/// A book of three zones, a request with lists of factors, and a stored ledger of two schemes and five entries; one of a
/// scheme and two entries moved back, and from the old form.
pub fn every_byte(tally: &mut Tally) {
    let zones = vec![(1, [0, 0, 8_500, 38_000, 10_000]), (2, [1, 2, 3, 4, 5]), (9, [10_000_000; 5])];
    let book = Book { zones, distribution_factors: vec![10_000, 9_000], ..Book::slip() }.encode();
    let request = Request::slip().encode();
    altered(&book, |book| tally.compare(&LibraryCall::Price { book, request: &request }).0);
    altered(&request, |request| tally.compare(&LibraryCall::Price { book: &book, request }).0);

    let (ledger, parties) = after(&filling(&mut Random::new(110), 2, 5), 5);
    let stored = stored_form(&ledger, &parties);
    altered(&stored, |stored| tally.compare(&LibraryCall::JudgeLedger { stored, table_size: LONGEST_TABLE }).0);

    let (ledger, parties) = after(&filling(&mut Random::new(111), 1, 2), 2);
    altered(&stored_form(&ledger, &parties), |file| tally.compare(&LibraryCall::MoveBack { file }).0);
    altered(&old_form(&ledger, &parties), |file| tally.compare(&LibraryCall::MoveToNew { file }).0);
}
