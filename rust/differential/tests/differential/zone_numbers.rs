use super::cases;
use differential::{LibraryCall, Tally};
use fikrem::raw;
use generate::damage::{alter_byte, alter_byte_and_check, damaged, recheck};
use generate::request::pair;
use generate::zone_numbers::{mixture, rising_numbers, wide_book, wide_request, widened_book, zone_number};
use generate::{Book, Random, Request};

/// The number of the pricing's result.
fn priced(tally: &mut Tally, book: &[u8], request: &[u8]) -> u64 {
    raw::number(tally.compare(&LibraryCall::Price { book, request }).0)
}

/// Numbers up to 255 in all four pairs of forms, which price alike; numbers of two bytes, in the book and out of it.
pub fn forms(tally: &mut Tally) {
    let mut random = Random::new(140);
    for _ in 0..cases(8_000) {
        let (book, request) = pair(&mut random);
        let (books, requests) =
            ([book.encode(), widened_book(&book)], [request.encode(), wide_request(&request, request.zone.into())]);
        let alike = tally.compare(&LibraryCall::Price { book: &books[0], request: &requests[0] });
        for (book, request) in [(0, 1), (1, 0), (1, 1)] {
            assert_eq!(tally.compare(&LibraryCall::Price { book: &books[book], request: &requests[request] }), alike);
        }
        let numbers = rising_numbers(&mut random, book.zones.len());
        let file = wide_book(&book, &numbers);
        let zone =
            numbers[book.zones.iter().position(|(number, _)| *number == request.zone).expect("it is the book's")];
        assert_eq!(tally.compare(&LibraryCall::Price { book: &file, request: &wide_request(&request, zone) }), alike);
        for other in [zone_number(&mut random), zone ^ 0x0100, zone ^ 0xFF00, zone.wrapping_add(1)] {
            let missing = !numbers.contains(&other);
            let number = priced(tally, &file, &wide_request(&request, other));
            assert!(if missing { number == 4 } else { number != 4 });
        }
        priced(tally, &file, &requests[0]);
    }
}

/// Files with fields of both forms, of neither, once too often and out of order.
pub fn mixtures(tally: &mut Tally) {
    let mut random = Random::new(141);
    let mut results = [0u64; 5];
    for _ in 0..cases(20_000) {
        let (book, request) = pair(&mut random);
        let (books, requests) =
            ([book.encode(), widened_book(&book)], [request.encode(), wide_request(&request, request.zone.into())]);
        let mixed = mixture(&mut random, [&books[0], &books[1]]);
        results[priced(tally, &mixed, &requests[1]) as usize] += 1;
        let mixed = mixture(&mut random, [&requests[0], &requests[1]]);
        results[priced(tally, &books[1], &mixed) as usize] += 1;
    }
    assert!(results[0] > 0 && results[1] > 0 && results[3] > 0, "{results:?}");
}

/// Every other value of every byte of both files with two-byte numbers, and damage of any sort.
pub fn damage(tally: &mut Tally) {
    let zones = vec![(1, [0, 0, 8_500, 38_000, 10_000]), (2, [10_000_000; 5]), (9, [1, 2, 3, 4, 5])];
    let book = wide_book(&Book { zones, ..Book::slip() }, &[255, 256, 65_535]);
    let request = wide_request(&Request::slip(), 255);
    assert_eq!(priced(tally, &book, &request), 0);
    for (of_book, file) in [(true, &book), (false, &request)] {
        let mut compare =
            |altered: &[u8]| if of_book { priced(tally, altered, &request) } else { priced(tally, &book, altered) };
        for place in 0..file.len() {
            for value in (0..=u8::MAX).filter(|&value| value != file[place]) {
                assert_ne!(compare(&alter_byte(file, place, value)), 0, "byte {place} altered to {value} is let pass");
                compare(&alter_byte_and_check(file, place, value));
            }
        }
    }
    let mut random = Random::new(142);
    for _ in 0..cases(10_000) {
        let (plain, request) = pair(&mut random);
        let numbers = rising_numbers(&mut random, plain.zones.len());
        let mut book = wide_book(&plain, &numbers);
        let mut request = wide_request(&request, random.choose(&numbers));
        match random.within(0, 3) {
            0 => book = damaged(&mut random, &book),
            1 => request = damaged(&mut random, &request),
            // a rate or a number of some zone
            _ => {
                let zones = book.len() - 5 - 25 * plain.zones.len();
                let place = zones + 25 * random.index(plain.zones.len()) + 3 + random.index(22);
                book[place] = random.next_u64() as u8;
                recheck(&mut book);
            }
        }
        priced(tally, &book, &request);
    }
}
