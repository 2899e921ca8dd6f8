//! Document 02, E8: clearing ended schemes, and numbers that last.

use generate::calls::{after, filling, Outcome};
use generate::{Book, Books, Random, Request};
use reference::ledger::is_sound;
use reference::*;

const DONE: Result<Outcome, Refusal> = Ok(Outcome::Done);

fn call(number: u8) -> Refusal {
    Refusal { number, file: 0, place: 0 }
}

/// Threshold 5,000,000, fee and minimum 20,000, term 84.
fn book() -> Book {
    Book { credit_share: 0, ..Book::slip() }
}

/// A request of person 1 in this month that joins this scheme, or none, with this extension.
fn request(month: u16, scheme: u16, me: u32, capacity: u32) -> Request {
    Request { month, scheme, capacity, person: 1, ..Request::extension(me) }
}

fn opened(number: u16) -> Result<Answer, Refusal> {
    Ok(Answer { joining: None, opened: Some(number) })
}

fn ended(opened: Option<u16>) -> Result<Answer, Refusal> {
    Ok(Answer { joining: Some(Joining::Ended), opened })
}

/// Scheme 1 with entries 1 and 2, scheme 2 with entry 3, on a table of 4 records.
fn two_schemes() -> Books {
    let nine = Party { number: 9, scheme: 9, person: 9, capacity: 9, put_in: 9, credited: 9, paid_out: 9 };
    let mut books = Books { ledger: Ledger::new(), parties: vec![nine; 4] };
    assert_eq!(books.accept(&book(), &request(24_315, 0, 6_000_000, 10_000)), opened(1));
    let other_book = Book { fee: 7, minimum: 9, term: 100, ..book() };
    let building_on = books.accept(&other_book, &request(24_315, 1, 5_000_001, 5_000));
    let joining = Some(Joining::Joined { entry: 2, collected: 2_000_000 });
    assert_eq!(building_on, Ok(Answer { joining, opened: Some(2) }));
    assert_eq!((books.parties[2].number, books.parties[2].scheme, books.parties[3]), (3, 2, nine));
    books
}

/// The same when all is paid out and scheme 1 was cleared.
fn scheme_1_cleared() -> Books {
    let mut books = two_schemes();
    assert_eq!(books.pay_out(1, 1_980_000), DONE);
    assert_eq!(books.clear(24_399), DONE);
    books
}

/// Neither a month before the end nor a cent of standing credit clears; the month is set all the same.
#[test]
fn nothing_goes() {
    let mut books = two_schemes();
    assert_eq!(books.pay_out(1, 1_979_999), DONE);
    for month in [24_398, 24_399] {
        let mut wanted = books.clone();
        wanted.ledger.month = month;
        assert_eq!(books.clear(month), DONE);
        assert_eq!(books, wanted);
    }
    assert_eq!(books.accept(&book(), &request(24_398, 0, 0, 1)), Err(call(7)));
    assert_eq!(books.clear(24_398), Err(call(7)));
}

#[test]
fn a_scheme_goes() {
    let mut books = two_schemes();
    assert_eq!(books.pay_out(1, 1_980_000), DONE);
    let mut before = books.clone();
    assert_eq!(books.clear(24_398), DONE);
    before.ledger.month = 24_398;
    assert_eq!(books, before, "the scheme is in force for another month");
    assert_eq!(books.clear(24_399), DONE);

    let mut wanted = before.clone();
    wanted.ledger = Ledger {
        month: 24_399,
        cleared_collected: 2_000_000,
        cleared_paid_out: 1_980_000,
        cleared_fees: 20_000,
        standing: 1,
        entries: 1,
        ..wanted.ledger
    };
    (wanted.ledger.schemes[0], wanted.ledger.schemes[1]) = (before.ledger.schemes[1], Scheme::default());
    wanted.parties[0] = before.parties[2];
    assert_eq!(books, wanted);
    assert_eq!((books.ledger.next_scheme, books.ledger.next_entry), (3, 4));
    assert_eq!([0, 1, 2].map(|record: usize| books.parties[record].number), [3, 2, 3]);
}

/// Numbers of what was cleared are never given again.
#[test]
fn numbers_of_a_cleared_scheme() {
    let mut books = scheme_1_cleared();
    for (entry, wanted) in [(1, Err(call(11))), (2, Err(call(11))), (4, Err(call(11))), (3, DONE)] {
        assert_eq!(books.pay_out(entry, 0), wanted);
    }
    let late = |scheme, me| request(24_399, scheme, me, 5_000);
    assert_eq!(books.accept(&book(), &late(3, 0)), Err(call(6)));
    assert_eq!(books.accept(&book(), &late(u16::MAX, 0)), Err(call(6)));
    assert_eq!(books.accept(&book(), &late(1, 0)), ended(None));
    assert_eq!(books.accept(&book(), &late(1, 6_000_000)), ended(Some(3)));
    let Books { ledger, parties } = books;
    assert_eq!((ledger.connections, ledger.next_scheme, ledger.next_entry), (4, 4, 5));
    assert_eq!((ledger.schemes[1].number, parties[1].number, parties[1].scheme), (3, 4, 3));
    assert_eq!(parties[2].number, 3, "a record past the last entry is left");
}

/// "Ended" comes after a reading, too.
#[test]
fn ended_in_a_ledger_that_was_read() {
    let stored = scheme_1_cleared().stored();
    let mut books = Books::new(4);
    read_ledger(&mut books.ledger, &mut books.parties, &stored).unwrap();
    assert_eq!(books.accept(&book(), &request(24_399, 1, 0, 5_000)), ended(None));
    assert_eq!(books.accept(&book(), &request(24_399, 3, 0, 5_000)), Err(call(6)));
    assert!(matches!(
        books.accept(&book(), &request(24_399, 2, 0, 5_000)),
        Ok(Answer { joining: Some(Joining::Joined { entry: 4, .. }), opened: None })
    ));
}

/// Three schemes, two joiners of the second; the middle one goes first.
#[test]
fn the_rest_closes_up() {
    let free = |term| Book { threshold: 0, fee: 0, minimum: 0, term, ..book() };
    let mut books = Books::new(5);
    for (number, term) in [(1, 100), (2, 84), (3, 100)] {
        assert_eq!(books.accept(&free(term), &request(24_315, 0, 100, 1)), opened(number));
    }
    for (scheme, entry) in [(2, 4), (1, 5)] {
        let joined = Ok(Answer { joining: Some(Joining::Joined { entry, collected: 50 }), opened: None });
        assert_eq!(books.accept(&free(84), &request(24_315, scheme, 0, 1)), joined);
    }
    assert_eq!(books.pay_out(2, 50), DONE);
    assert_eq!(books.clear(24_399), DONE);
    let numbers = |books: &Books| {
        let of_schemes: Vec<_> = books.ledger.schemes[..3].iter().map(|scheme| scheme.number).collect();
        (of_schemes, books.parties.iter().map(|party| party.number).collect::<Vec<_>>())
    };
    assert_eq!(numbers(&books), (vec![1, 3, 0], vec![1, 3, 5, 4, 5]));
    assert_eq!(sums(&books.ledger), [50, 50, 0]);
    assert_eq!(books.pay_out(1, 50), DONE);
    assert_eq!(books.clear(24_415), DONE);
    assert_eq!(numbers(&books), (vec![0; 3], vec![1, 3, 5, 4, 5]));
    assert_eq!(sums(&books.ledger), [100, 100, 0]);
    let Ledger { next_scheme, next_entry, standing, entries, connections, .. } = books.ledger;
    assert_eq!((next_scheme, next_entry, standing, entries, connections), (4, 6, 0, 0, 5));
}

fn sums(ledger: &Ledger) -> [u64; 3] {
    [ledger.cleared_collected, ledger.cleared_paid_out, ledger.cleared_fees]
}

/// The month of the end is a sum of more than 16 bits.
#[test]
fn the_last_months() {
    for (opening, goes) in [(65_451, true), (65_452, false), (65_535, false)] {
        let mut books = Books::new(1);
        assert_eq!(books.accept(&book(), &request(opening, 0, 6_000_000, 1)), opened(1));
        assert_eq!(books.clear(65_535), DONE);
        assert_eq!(books.ledger.standing, u16::from(!goes), "opened in {opening}");
        assert_eq!(books.ledger.month, 65_535);
    }
}

/// The call's month counts, not the last one.
#[test]
fn the_calls_month() {
    let mut books = scheme_1_cleared();
    assert_eq!(books.clear(24_414), DONE);
    assert_eq!(books.ledger.standing, 1);
    assert_eq!(books.clear(24_415), DONE);
    assert_eq!((books.ledger.standing, sums(&books.ledger)), (0, [2_000_000, 1_980_000, 20_000]));
}

/// A freed place serves the next opening, which has the next number.
#[test]
fn freed_places() {
    let (ledger, parties) = after(&filling(&mut Random::new(14), 64, 64), 64);
    let mut books = Books { ledger, parties };
    let opening = |month| request(month, 0, 6_000_000, 10_000);
    assert_eq!(books.accept(&book(), &opening(24_399)), Err(call(8)));
    assert_eq!(books.clear(24_399), DONE);
    assert_eq!(books.accept(&book(), &opening(24_399)), opened(65));
    let Ledger { standing, entries, next_scheme, next_entry, .. } = books.ledger;
    assert_eq!((standing, entries, next_scheme, next_entry), (1, 1, 66, 66));
    assert_eq!((books.ledger.schemes[0].number, books.parties[0].number, books.parties[0].scheme), (65, 65, 65));
}

/// From a new ledger at most 49,984 schemes can open, so that the last numbers are those of a made one.
#[test]
fn the_last_scheme_number() {
    let mut books = two_schemes();
    (books.ledger.next_scheme, books.ledger.next_entry) = (65_535, 500);
    assert!(is_sound(&books.ledger, &books.parties));
    let before = books.clone();
    assert_eq!(books.accept(&book(), &request(24_315, 65_535, 0, 1)), Err(call(6)));
    assert_eq!(books.accept(&book(), &request(24_315, 65_534, 0, 1)), ended(None));
    let opening = request(24_315, 0, 6_000_000, 10_000);
    assert_eq!(books.accept(&book(), &opening), opened(65_535));
    assert_eq!((books.parties[3].number, books.parties[3].scheme), (500, 65_535));
    assert_eq!(books.accept(&book(), &request(24_315, 65_535, 0, 5_000)), Err(call(9)));
    assert_eq!(books.accept(&book(), &opening), Err(call(8)), "8 comes before 9");
    assert_eq!(books.ledger.next_scheme, 65_536);

    let mut past = before;
    past.ledger.next_scheme = 65_536;
    assert_eq!(past.accept(&book(), &opening), Err(call(8)));
    assert_eq!(past.accept(&book(), &request(24_315, 1, 6_000_000, 10_000)), Err(call(8)));
    assert_eq!(past.accept(&book(), &request(24_315, u16::MAX, 0, 1)), ended(None));
}

/// 13, 7, then done.
#[test]
fn order_of_clear() {
    let mut books = two_schemes();
    books.ledger.cleared_fees = 1;
    assert_eq!(books.clear(24_314), Err(call(13)));
    books.ledger.cleared_fees = 0;
    assert_eq!(books.clear(24_314), Err(call(7)));
    assert_eq!(books.clear(24_315), DONE);
    assert_eq!(Books::new(0).clear(0), DONE);
}
