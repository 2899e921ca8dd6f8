//! Books and requests read alone, by the library and by the reference implementation: file 1 in a refusal, the request too.

use fikrem::{judge_book, judge_request};
use generate::damage::{book_past_limits, damaged, request_past_limits};
use generate::request::pair;
use generate::Random;
use reference::rate_book::RateBook;
use reference::request::Request;
use std::collections::BTreeSet;

/// Both sides on these bytes as a book and as a request: the numbers that they end with, 0 where the file stands.
fn compare(bytes: &[u8]) -> [u8; 2] {
    let wanted = [RateBook::read(bytes).err(), Request::read(bytes).err()];
    let seen = [judge_book(bytes).err(), judge_request(bytes).err()];
    for (seen, wanted) in seen.iter().zip(wanted) {
        let seen = seen.map(|refusal| (refusal.number(), refusal.file, refusal.place));
        assert_eq!(seen, wanted.map(|refusal| (refusal.number, 1, refusal.place)), "{bytes:?}");
    }
    seen.map(|refusal| refusal.map_or(0, |refusal| refusal.number()))
}

#[test]
fn within_their_limits() {
    let mut random = Random::new(210);
    for _ in 0..2_000 {
        let (book, request) = pair(&mut random);
        assert_eq!(compare(&book.encode()), [0, 1]);
        assert_eq!(compare(&request.encode()), [1, 0]);
    }
}

#[test]
fn past_their_limits() {
    let mut random = Random::new(211);
    for _ in 0..20 {
        let (book, request) = pair(&mut random);
        assert!(book_past_limits(&book).iter().all(|past| compare(&past.file)[0] == 3));
        assert!(request_past_limits(&request).iter().all(|past| compare(&past.file)[1] == 3));
    }
}

#[test]
fn damaged_or_any_bytes() {
    let mut random = Random::new(212);
    let mut met = [BTreeSet::new(), BTreeSet::new()];
    for _ in 0..20_000 {
        let (book, request) = pair(&mut random);
        let file = random.index(2);
        let mut bytes = if file == 0 { book.encode() } else { request.encode() };
        for _ in 0..random.within(1, 3) {
            bytes = match random.within(0, 9) {
                0 => (0..random.edge(0, 300)).map(|_| random.next_u64() as u8).collect(),
                _ if bytes.is_empty() => bytes,
                _ => damaged(&mut random, &bytes),
            };
        }
        met[file].insert(compare(&bytes)[file]);
    }
    assert_eq!(met, [BTreeSet::from([0, 1, 2, 3]), BTreeSet::from([0, 1, 2, 3])]);
}
