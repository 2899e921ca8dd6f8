use super::cases;
use differential::{LibraryCall, Tally};
use generate::books::stored_form;
use generate::calls::{after, calls, filling, Call};
use generate::damage::{damaged, extend, extend_and_close, truncate, truncate_and_close};
use generate::ledgers::{encode_old, renumbered, table_size};
use generate::request::pair;
use generate::{Book, Random, Request};
use reference::{Ledger, Party};

/// Damaged once or several times, either file or both.
pub fn books_and_requests(tally: &mut Tally) {
    let mut random = Random::new(120);
    for _ in 0..cases(60_000) {
        let (book, request) = pair(&mut random);
        let mut files = [book.encode(), request.encode()];
        for _ in 0..random.within(1, 3) {
            let file = random.index(2);
            if !files[file].is_empty() {
                files[file] = damaged(&mut random, &files[file]);
            }
        }
        tally.compare(&LibraryCall::Price { book: &files[0], request: &files[1] });
    }
}

/// A file of every size below its own, and longer ones, with the old check and with their own.
fn sizes(random: &mut Random, file: &[u8], mut compare: impl FnMut(&[u8])) {
    for size in 0..file.len() {
        compare(&truncate(file, size));
        compare(&truncate_and_close(file, size));
    }
    for size in 1..300 {
        let more: Vec<u8> = (0..size).map(|_| random.next_u64() as u8).collect();
        compare(&extend(file, &more));
        compare(&extend_and_close(file, &more));
        compare(&extend(file, &vec![0; size]));
        compare(&more);
    }
    compare(&extend(file, file));
    compare(&vec![0xFF; 70_000]);
}

pub fn every_size(tally: &mut Tally) {
    let mut random = Random::new(121);
    let (slip_book, slip_request) = (Book::slip().encode(), Request::slip().encode());
    for _ in 0..cases(10) {
        let (book, request) = pair(&mut random);
        sizes(&mut random, &book.encode(), |book| {
            tally.compare(&LibraryCall::Price { book, request: &slip_request });
        });
        sizes(&mut random, &request.encode(), |request| {
            tally.compare(&LibraryCall::SlipText { book: &slip_book, request });
        });
    }
    let (ledger, parties) = after(&filling(&mut random, 3, 9), 9);
    let stored = stored_form(&ledger, &parties);
    sizes(&mut random, &stored, |stored| {
        tally.compare(&LibraryCall::JudgeLedger { stored, table_size: 9 });
        tally.compare(&LibraryCall::MoveBack { file: stored });
    });
    sizes(&mut random, &old_form(&ledger, &parties), |file| {
        tally.compare(&LibraryCall::MoveToNew { file });
    });
}

/// The stored form in the old form, numbered anew.
pub fn old_form(ledger: &Ledger, parties: &[Party]) -> Vec<u8> {
    let (ledger, parties) = renumbered(ledger, parties);
    encode_old(&ledger, &ledger.schemes[..usize::from(ledger.standing)], &parties)
}

/// Damaged once, or in a quarter of the cases twice.
fn damaged_once_or_twice(random: &mut Random, whole: &[u8]) -> Vec<u8> {
    let file = damaged(random, whole);
    if random.once_in(4) && !file.is_empty() {
        damaged(random, &file)
    } else {
        file
    }
}

/// Damaged stored ledgers, by each call.
pub fn stored_ledgers(tally: &mut Tally) {
    let mut random = Random::new(122);
    for _ in 0..cases(60) {
        let count = random.within(1, 200) as usize;
        let list = calls(&mut random, 512, count);
        let (ledger, parties) = after(&list, 512);
        let (whole, old) = (stored_form(&ledger, &parties), old_form(&ledger, &parties));
        for call in list.iter().take(60) {
            let stored = damaged_once_or_twice(&mut random, &whole);
            let table_size = table_size(&mut random, ledger.entries);
            tally.compare(&LibraryCall::JudgeLedger { stored: &stored, table_size });
            tally.compare(&LibraryCall::on(&stored, table_size, call));
            tally.compare(&LibraryCall::MoveBack { file: &stored });
            tally.compare(&LibraryCall::MoveToNew { file: &damaged_once_or_twice(&mut random, &old) });
        }
    }
    let full = filling(&mut random, 64, 512);
    let (ledger, parties) = after(&full, 512);
    let whole = stored_form(&ledger, &parties);
    for _ in 0..cases(300) {
        let stored = damaged(&mut random, &whole);
        let table_size = table_size(&mut random, ledger.entries);
        tally.compare(&LibraryCall::JudgeLedger { stored: &stored, table_size });
        tally.compare(&LibraryCall::on(&stored, table_size, &Call::HandOver { entry: 512, person: 1 }));
    }
}
