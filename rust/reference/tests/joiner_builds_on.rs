//! Document 02, E4: a joiner that opens a scheme of its own.

use generate::calls::{after, filling};
use generate::{Book, Books, Random, Request};
use reference::*;

fn call(number: u8) -> Refusal {
    Refusal { number, file: 0, place: 0 }
}

/// Threshold 5,000,000, fee and minimum 20,000, term 84.
fn book() -> Book {
    Book { credit_share: 0, ..Book::slip() }
}

/// The book of the joiner that builds on.
fn other_book() -> Book {
    Book { fee: 7, minimum: 9, term: 100, ..book() }
}

/// A request in month 24,315 that joins this scheme, or none, with this extension.
fn request(scheme: u16, me: u32, capacity: u32) -> Request {
    Request { scheme, capacity, ..Request::extension(me) }
}

/// The joiner that builds on: it opens a scheme of cost 5,000,001.
fn building_on() -> Request {
    request(1, 5_000_001, 5_000)
}

fn joined(entry: u32, collected: u32) -> Option<Joining> {
    Some(Joining::Joined { entry, collected })
}

/// Scheme 1 of cost 6,000,000 stands, by a first party of capacity 10,000.
fn with_a_scheme(table_length: usize) -> Books {
    let mut books = Books::new(table_length);
    let opening = books.accept(&book(), &request(0, 6_000_000, 10_000));
    assert_eq!(opening, Ok(Answer { joining: None, opened: Some(1) }));
    books
}

/// 64 schemes stand, the last of cost 1,000,000,000, and so many entries.
fn of_64_schemes(entries: usize, table_length: usize) -> Books {
    let (ledger, parties) = after(&filling(&mut Random::new(11), 64, entries), table_length);
    assert_eq!((ledger.standing, ledger.entries as usize), (64, entries));
    Books { ledger, parties }
}

/// Both schemes get later joiners, each by its own fee, minimum and term.
#[test]
fn both_schemes_are_joined() {
    let mut books = with_a_scheme(6);
    let built_on = books.accept(&other_book(), &building_on());
    assert_eq!(built_on, Ok(Answer { joining: joined(2, 2_000_000), opened: Some(2) }));
    // the first entry of scheme 2 is no party of scheme 1
    let first = books.accept(&book(), &request(1, 0, 5_000));
    assert_eq!(first, Ok(Answer { joining: joined(4, 1_500_000), opened: None }));
    let second = books.accept(&book(), &request(2, 0, 5_000));
    assert_eq!(second, Ok(Answer { joining: joined(5, 2_500_000), opened: None }));

    let mut wanted = Ledger {
        month: 24_315,
        connections: 4,
        charged: 11_000_001,
        next_scheme: 3,
        next_entry: 6,
        standing: 2,
        entries: 5,
        ..Ledger::new()
    };
    let (number, fees) = (1, 40_000);
    let scheme = Scheme { number, cost: 6_000_000, fee: 20_000, minimum: 20_000, opening: 24_315, term: 84, fees };
    wanted.schemes[0] = scheme;
    wanted.schemes[1] = Scheme { number: 2, cost: 5_000_001, fee: 7, minimum: 9, term: 100, fees: 7, ..scheme };
    assert_eq!(books.ledger, wanted);
    let party = |number, scheme, capacity, put_in, credited| Party {
        number,
        scheme,
        person: 4_711,
        capacity,
        put_in,
        credited,
        paid_out: 0,
    };
    let wanted = [
        party(1, 1, 10_000, 6_000_000, 1_980_000 + 986_666),
        party(2, 1, 5_000, 2_000_000, 493_334),
        party(3, 2, 5_000, 5_000_001, 2_499_993),
        party(4, 1, 5_000, 1_500_000, 0),
        party(5, 2, 5_000, 2_500_000, 0),
        Party::default(),
    ];
    assert_eq!(books.parties, wanted);
}

/// The new scheme has its own book's term and minimum, the joined one keeps those that it opened with.
#[test]
fn terms_and_minimums_stay_apart() {
    let mut books = with_a_scheme(6);
    books.accept(&other_book(), &building_on()).unwrap();
    let joining = |scheme, month, capacity| {
        let request = Request { month, ..request(scheme, 0, capacity) };
        books.clone().accept(&book(), &request).unwrap().joining
    };
    let rows = [(1, 24_398, false), (1, 24_399, true), (2, 24_399, false), (2, 24_414, false), (2, 24_415, true)];
    for (scheme, month, ended) in rows {
        assert_eq!(joining(scheme, month, 5_000) == Some(Joining::Ended), ended, "scheme {scheme} in month {month}");
    }
    // ⌊6,000,000 × 50 / 15,050⌋ and ⌊5,000,001 × 50 / 5,050⌋: the one is below 20,000, the other isn't below 9
    assert_eq!(joining(1, 24_315, 50), Some(Joining::Small));
    assert_eq!(joining(2, 24_315, 50), joined(4, 49_504));
}

/// Each answer of the joining with each answer of the opening; X at the threshold and one more; marks.
#[test]
fn pairs_of_answers() {
    let (small, ended) = (Some(Joining::Small), Some(Joining::Ended));
    let rows = [
        (request(0, 5_000_000, 5_000), None, false),
        (request(0, 5_000_001, 5_000), None, true),
        (request(1, 5_000_000, 5_000), joined(2, 2_000_000), false),
        (request(1, 5_000_001, 5_000), joined(2, 2_000_000), true),
        (request(1, 5_000_000, 33), small, false),
        (request(1, 5_000_001, 33), small, true),
        (request(1, 5_000_000, 34), joined(2, 20_330), false),
        (request(1, 5_000_001, 34), joined(2, 20_330), true),
        (Request { month: 24_399, ..request(1, 5_000_000, 5_000) }, ended, false),
        (Request { month: 24_399, ..building_on() }, ended, true),
        (Request { month: 24_398, ..building_on() }, joined(2, 2_000_000), true),
    ];
    for (request, joining, opens) in rows {
        for mark in [0, 1, 2] {
            let opened = (opens && mark == 0).then_some(2);
            let mut books = with_a_scheme(4);
            let answer = books.accept(&other_book(), &Request { mark, ..request.clone() });
            assert_eq!(answer, Ok(Answer { joining, opened }), "{request:?}, mark {mark}");
            let joins = matches!(joining, Some(Joining::Joined { .. }));
            assert_eq!(books.ledger.entries, 1 + u32::from(joins) + u32::from(opened.is_some()));
            assert_eq!((books.ledger.standing, books.ledger.connections), (1 + u16::from(opened.is_some()), 2));
        }
    }
}

/// An X above the threshold through CE and less a credit, by the joiner's own book alone.
#[test]
fn the_joiners_own_book_decides() {
    let low = Book { threshold: 0, ..book() };
    let one_cent = request(1, 1, 5_000);
    for (book, opened) in [(book(), None), (low, Some(2))] {
        let answer = with_a_scheme(3).accept(&book, &one_cent);
        assert_eq!(answer, Ok(Answer { joining: joined(2, 2_000_000), opened }));
    }
    // a credit of half of 31 × 200,000 cents leaves 2,000,001 of ME
    let half = Book { credit_share: 5_000, ..book() };
    let revenue = |me, ce| Request {
        class: 0,
        ce,
        distribution_revenue: 200_000,
        part_year: vec![10_000],
        ..request(1, me, 5_000)
    };
    for (request, opened) in [(revenue(5_100_001, 2_999_999), None), (revenue(5_100_001, 3_000_000), Some(2))] {
        let mut books = with_a_scheme(3);
        assert_eq!(books.accept(&half, &request), Ok(Answer { joining: joined(2, 2_000_000), opened }));
        if opened.is_some() {
            assert_eq!((books.ledger.schemes[1].cost, books.parties[2].put_in), (5_000_001, 5_000_001));
        }
    }
}

/// 9 is judged for the entries that joining and opening need together, before either is booked.
#[test]
fn entries_left_for_both() {
    let late = |month| Request { month, ..building_on() };
    let rows = [
        (building_on(), 2, joined(2, 2_000_000), Some(2)),
        (request(1, 5_000_000, 5_000), 1, joined(2, 2_000_000), None),
        (request(1, 5_000_001, 33), 1, Some(Joining::Small), Some(2)),
        (request(1, 5_000_001, 34), 2, joined(2, 20_330), Some(2)),
        (late(24_399), 1, Some(Joining::Ended), Some(2)),
        (late(24_398), 2, joined(2, 2_000_000), Some(2)),
        (request(1, 5_000_000, 33), 0, Some(Joining::Small), None),
        (Request { month: 24_399, ..request(1, 0, 5_000) }, 0, Some(Joining::Ended), None),
        (request(0, 5_000_001, 5_000), 1, None, Some(2)),
        (request(0, 5_000_000, 5_000), 0, None, None),
    ];
    for (request, needed, joining, opened) in rows {
        for left in 0..=3 {
            let wanted = if left < needed { Err(call(9)) } else { Ok(Answer { joining, opened }) };
            let answer = with_a_scheme(1 + left).accept(&other_book(), &request);
            assert_eq!(answer, wanted, "{request:?} with {left} entries left");
        }
    }
}

/// 512 entries are the most on a longer table, too.
#[test]
fn the_last_entries() {
    let (ledger, parties) = after(&filling(&mut Random::new(12), 1, 510), 600);
    let books = Books { ledger, parties };
    let answer = books.clone().accept(&book(), &building_on()).unwrap();
    assert!(matches!(answer.joining, Some(Joining::Joined { entry: 511, .. })) && answer.opened == Some(2));
    let mut full = books;
    full.accept(&book(), &request(1, 0, 5_000)).unwrap();
    assert_eq!(full.ledger.entries, 511);
    assert_eq!(full.accept(&book(), &building_on()), Err(call(9)));
    assert!(full.accept(&book(), &request(1, 0, 5_000)).is_ok());
}

#[test]
fn all_schemes_taken() {
    let building_on = |month| Request { month, ..request(64, 5_000_001, 5_000) };
    let mut books = of_64_schemes(64, 65);
    for month in [24_315, 24_399] {
        assert_eq!(books.accept(&book(), &building_on(month)), Err(call(8)), "joined or ended, it must open");
    }
    let full = of_64_schemes(64, 64);
    assert_eq!(full.clone().accept(&book(), &building_on(24_315)), Err(call(8)), "8 comes before 9");
    for mark in [1, 2] {
        let marked = |month| Request { mark, ..building_on(month) };
        assert_eq!(full.clone().accept(&book(), &marked(24_315)), Err(call(9)));
        let ended = Ok(Answer { joining: Some(Joining::Ended), opened: None });
        assert_eq!(full.clone().accept(&book(), &marked(24_399)), ended);
        let answer = books.clone().accept(&book(), &marked(24_315)).unwrap();
        assert!(matches!(answer.joining, Some(Joining::Joined { entry: 65, .. })) && answer.opened.is_none());
    }
}

/// 6 is judged before the opening, and the earlier refusals before both.
#[test]
fn a_joiner_never_joins_its_own_opening() {
    let own = Request { scheme: 2, ..building_on() };
    assert_eq!(with_a_scheme(3).accept(&book(), &own), Err(call(6)));
    assert_eq!(with_a_scheme(1).accept(&book(), &own), Err(call(6)));
    assert_eq!(Books::new(3).accept(&book(), &building_on()), Err(call(6)));
    let never_opened = Request { scheme: 65, ..building_on() };
    assert_eq!(of_64_schemes(64, 64).accept(&book(), &never_opened), Err(call(6)));
    let early = Request { month: 24_314, ..own };
    assert_eq!(with_a_scheme(1).accept(&book(), &early), Err(call(7)));
}

/// One accept more than 63 schemes: the last place is taken by a joiner.
#[test]
fn the_sixty_fourth_scheme() {
    let (ledger, parties) = after(&filling(&mut Random::new(13), 63, 63), 65);
    let mut books = Books { ledger, parties };
    let last = books.accept(&other_book(), &Request { scheme: 63, ..building_on() }).unwrap();
    assert!(matches!(last.joining, Some(Joining::Joined { entry: 64, .. })) && last.opened == Some(64));
    assert_eq!((books.ledger.schemes[63].cost, books.parties[64].scheme), (5_000_001, 64));
    assert!(ledger::is_sound(&books.ledger, &books.parties));
}
