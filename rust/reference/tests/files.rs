//! Files: the walk's places, the check, the values' limits, one altered byte.

use generate::damage::*;
use generate::fields::{closed, parts, File};
use generate::request::pair;
use generate::{Book, Random, Request};
use reference::{price, read_ledger, Ledger, Party, Refusal};

fn book_refused(book: &[u8]) -> Option<(u8, u8, usize)> {
    price(book, &Request::slip().encode()).err().map(|refused| (refused.number, refused.file, refused.place))
}

/// Demand 1: if exactly one byte of an accepted book or request is altered, it is refused; 2 unless it is in the tail.
#[test]
fn one_altered_byte_is_refused() {
    let mut random = Random::new(2);
    let mut pairs = vec![(Book::slip(), Request::slip())];
    pairs.extend((0..3).map(|_| pair(&mut random)));
    for (book, request) in pairs {
        let (book, request) = (book.encode(), request.encode());
        for (file, whole) in [(1, &book), (2, &request)] {
            for place in 0..whole.len() {
                for value in (0..=255).filter(|&value| value != whole[place]) {
                    let altered = alter_byte(whole, place, value);
                    let answer = if file == 1 { price(&altered, &request) } else { price(&book, &altered) };
                    let in_tail = (whole.len() - 5..whole.len() - 2).contains(&place);
                    let wanted = if in_tail { (1, 0) } else { (2, whole.len() - 2) };
                    assert_eq!(answer.err(), Some(Refusal { number: wanted.0, file, place: wanted.1 }));
                }
            }
        }
    }
}

#[test]
fn bad_tails() {
    let book = Book::slip().encode();
    for bytes in [&[][..], &[0xFF], &[0xFF, 0, 2, 0], &[0xFF; 5], &book[..book.len() - 1]] {
        assert_eq!(book_refused(bytes), Some((1, 1, 0)));
    }
    assert_eq!(book_refused(&extend(&book, &[0; 5])), Some((1, 1, 0)));
    // a bad tail comes before a check that differs
    assert_eq!(book_refused(&alter_byte(&alter_byte(&book, 3, 0), book.len() - 3, 3)), Some((1, 1, 0)));
    // an altered tail with a right check is 1, too
    assert_eq!(book_refused(&alter_byte_and_check(&book, book.len() - 5, 0xFE)), Some((1, 1, 0)));
    assert_eq!(book_refused(&closed(Vec::new())), Some((1, 1, 0)));
}

#[test]
fn fields_that_cant_stand() {
    let book = Book { zones: (0..8).map(|zone| (zone, [0; 5])).collect(), ..Book::slip() }.encode();
    let parts = parts(&book);
    let end = book.len() - 5;
    assert_eq!(parts.len(), 15);
    for (index, part) in parts.iter().enumerate().take(7) {
        assert_eq!(book_refused(&without_field(&book, index)), Some((1, 1, part.start)), "without field {index}");
        assert_eq!(book_refused(&field_twice(&book, index)), Some((1, 1, part.end)), "field {index} twice");
        assert_eq!(
            book_refused(&fields_exchanged(&book, index)),
            Some((1, 1, part.start)),
            "field {index} after the next"
        );
    }
    assert_eq!(book_refused(&field_twice(&book, 14)), Some((1, 1, end)), "nine zones");
    assert_eq!(book_refused(&truncate_and_close(&book, parts[7].start)), Some((1, 1, parts[7].start)), "no zone");
    for more in 1..3 {
        assert_eq!(
            book_refused(&extend_and_close(&without_field(&book, 14), &[8, 0, 21][..more])),
            Some((1, 1, end - 24))
        );
    }
    // every cut within the fields is refused at the field that is cut
    for size in 0..parts[7].end {
        let cut = parts.iter().find(|part| part.end > size).unwrap().start;
        assert_eq!(book_refused(&truncate_and_close(&book, size)), Some((1, 1, cut)), "cut to {size}");
    }
    let early = [&book[..parts[3].start], &[0xFF, 0, 2, 0, 0], &book[parts[3].start..end]].concat();
    assert_eq!(book_refused(&closed(early)), Some((1, 1, parts[3].start)), "FF before size − 5");
}

#[test]
fn lengths_that_are_not_permitted() {
    for count in 0..=10 {
        let book = Book { distribution_factors: vec![1; count], ..Book::slip() }.encode();
        let at = parts(&Book::slip().encode())[3].start;
        let wanted = if (1..=8).contains(&count) { None } else { Some((1, 1, at)) };
        assert_eq!(book_refused(&book), wanted, "{count} factors");
    }
    let slip = Book::slip().encode();
    let at = parts(&slip)[3].clone();
    let odd = File::new().field(4).bytes(&[0, 0, 0]).close();
    let odd = [&slip[..at.start], &odd[..6], &slip[at.end..slip.len() - 5]].concat();
    assert_eq!(book_refused(&closed(odd)), Some((1, 1, at.start)));
}

/// 1 for the rest comes before 3, and 3 is in byte order.
#[test]
fn walk_before_values_in_byte_order() {
    let wrong = Book { discount_rate: 10_001, term: 83, credit_share: 10_001, ..Book::slip() };
    let file = wrong.encode();
    let values: Vec<usize> = parts(&file).iter().map(|part| part.start + 3).collect();
    assert_eq!(book_refused(&without_field(&file, 7)), Some((1, 1, file.len() - 5 - 24)));
    assert_eq!(book_refused(&file), Some((3, 1, values[1])));
    let mut wrong = Book { discount_rate: 0, ..wrong };
    assert_eq!(book_refused(&wrong.encode()), Some((3, 1, values[5] + 12)));
    wrong.term = 84;
    assert_eq!(book_refused(&wrong.encode()), Some((3, 1, values[6] + 1)));
    // a rate of an earlier zone comes before the number of a later one
    let mut wrong = Book { zones: vec![(5, [0, 0, 0, 0, 10_000_001]), (5, [0; 5])], ..Book::slip() };
    assert_eq!(book_refused(&wrong.encode()), Some((3, 1, values[7] + 17)));
    wrong.zones[0].1[4] = 10_000_000;
    assert_eq!(book_refused(&wrong.encode()), Some((3, 1, values[7] + 24)));
    wrong.zones[1] = (6, [0, 10_000_001, 10_000_001, 0, 0]);
    assert_eq!(book_refused(&wrong.encode()), Some((3, 1, values[7] + 24 + 5)));
    // fee above the minimum comes before the minimum's own limit
    let wrong = Book { fee: 1_000_000_002, minimum: 1_000_000_001, ..Book::slip() };
    assert_eq!(book_refused(&wrong.encode()), Some((3, 1, values[5] + 4)));
    let wrong = Book { fee: 1_000_000_001, minimum: 1_000_000_001, ..Book::slip() };
    assert_eq!(book_refused(&wrong.encode()), Some((3, 1, values[5] + 8)));
}

#[test]
fn values_past_their_limits() {
    let mut random = Random::new(3);
    let mut pairs = vec![(Book::slip(), Request::slip())];
    pairs.extend((0..60).map(|_| pair(&mut random)));
    for (book, request) in pairs {
        let (whole_book, whole_request) = (book.encode(), request.encode());
        assert!(price(&whole_book, &whole_request).is_ok());
        for PastLimit { file, place } in book_past_limits(&book) {
            let wanted = Refusal { number: 3, file: 1, place };
            assert_eq!(price(&file, &whole_request).err(), Some(wanted), "{book:?}");
            assert_eq!(price(&file, &[]).err(), Some(wanted), "the book comes before the request");
        }
        for PastLimit { file, place } in request_past_limits(&request) {
            assert_eq!(price(&whole_book, &file).err(), Some(Refusal { number: 3, file: 2, place }), "{request:?}");
        }
    }
}

/// Every answer to a damaged file is a result or a refusal with a place in the file.
#[test]
fn damaged_files_are_answered() {
    let mut random = Random::new(4);
    let stored = {
        let calls = generate::calls::filling(&mut random, 3, 9);
        let (ledger, parties) = generate::calls::after(&calls, 9);
        let mut output = vec![0; 1_000];
        let length = reference::write_ledger(&ledger, &parties, &mut output).unwrap();
        output[..length].to_vec()
    };
    for _ in 0..6_000 {
        let (book, request) = pair(&mut random);
        let (mut book, mut request) = (book.encode(), request.encode());
        for _ in 0..random.within(1, 3) {
            if random.once_in(2) && !book.is_empty() {
                book = damaged(&mut random, &book);
            } else if !request.is_empty() {
                request = damaged(&mut random, &request);
            }
        }
        if let Err(refused) = price(&book, &request) {
            let size = if refused.file == 1 { book.len() } else { request.len() };
            assert!((1..=5).contains(&refused.number) && (1..=2).contains(&refused.file));
            assert!(refused.place <= size.max(5));
        }
        let file = damaged(&mut random, &stored);
        let (mut ledger, mut parties) = (Ledger::new(), [Party::default(); 9]);
        if let Err(refused) = read_ledger(&mut ledger, &mut parties, &file) {
            assert!([1, 2, 3, 9, 13].contains(&refused.number));
            assert_eq!((ledger, parties), (Ledger::new(), [Party::default(); 9]));
        }
    }
}
