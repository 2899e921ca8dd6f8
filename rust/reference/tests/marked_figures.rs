//! Document 01, 'Marked figures', over whole files. M1 stands beside the check, M2, M3, M5 and M9 beside the pricing.

use generate::{Book, Request};
use reference::{accept, price, Answer, Joining, Ledger, Party, Refusal};

/// Accepts the requests one after the other by a book; the answers, the ledger and the table.
fn accepted(book: &Book, requests: &[Request]) -> (Vec<Answer>, Ledger, [Party; 8]) {
    let (mut ledger, mut parties) = (Ledger::new(), [Party::default(); 8]);
    let answers = requests
        .iter()
        .map(|request| accept(&mut ledger, &mut parties, &book.encode(), &request.encode()).unwrap().1)
        .collect();
    (answers, ledger, parties)
}

/// The answer of an accept that opens this scheme, or none.
fn opened(scheme: Option<u16>) -> Answer {
    Answer { joining: None, opened: scheme }
}

/// The answer of a joiner that opens nothing.
fn answered(joining: Joining) -> Answer {
    Answer { joining: Some(joining), opened: None }
}

fn joined(entry: u32, collected: u32) -> Answer {
    answered(Joining::Joined { entry, collected })
}

fn opening(cost: u32) -> Request {
    Request { capacity: 10_000, ..Request::extension(cost) }
}

fn joiner(month: u16) -> Request {
    Request { scheme: 1, capacity: 5_000, month, ..Request::of_nothing() }
}

#[test]
fn m3_and_m5_over_whole_files() {
    let book = Book { pairs: [(19_300, 153_800); 5], ..Book::slip() };
    let request = Request { distribution_revenue: 10_000, part_year: vec![10_000, 0], ..Request::slip() };
    assert_eq!(price(&book.encode(), &request.encode()).unwrap().reconciliation.ir, 8_745);
    for (rate, wanted) in [(12_751, None), (6_799, None), (12_750, Some(3)), (6_800, Some(3))] {
        let mut request = Request::slip();
        request.tiers[2].mode = 2;
        request.tiers[2].bespoke_rate = rate;
        let refused = price(&Book::slip().encode(), &request.encode()).err();
        assert_eq!(refused, wanted.map(|place| Refusal { number: 5, file: 2, place }), "bespoke rate {rate}");
    }
}

#[test]
fn m4_the_slip() {
    let bill = price(&Book::slip().encode(), &Request::slip().encode()).unwrap();
    let figures = bill.reconciliation;
    assert_eq!((figures.mc, figures.ir, figures.cc, figures.nc), (108_000, 859_800, 1_147_630, 300_930));
    assert_eq!((figures.ic, figures.nic, figures.cc2), (1_706_500, 846_700, 0));
    let percentages = [bill.reliance, bill.upfront, bill.nc_ratio].map(|percentage| percentage.unwrap().rounded);
    assert_eq!(percentages, [67, 57, 15]);
    assert_eq!((bill.x, bill.entered, bill.borne), (1_598_500 - 558_870, 1_706_500, 558_870));
    assert_eq!((bill.threshold, bill.fee, bill.minimum, bill.term), (5_000_000, 20_000, 20_000, 84));
    assert_eq!((bill.person, bill.month, bill.capacity, bill.scheme, bill.mark), (4_711, 24_315, 15_000, 0, 0));
}

#[test]
fn m6_the_threshold() {
    assert_eq!(accepted(&Book::slip(), &[opening(5_000_000)]).0, [opened(None)]);
    assert_eq!(accepted(&Book::slip(), &[opening(5_000_001)]).0, [opened(Some(1))]);
    for mark in [1, 2] {
        let marked = Request { mark, ..opening(5_000_001) };
        assert_eq!(accepted(&Book::slip(), &[marked]).0, [opened(None)]);
    }
}

#[test]
fn m7_two_joinings() {
    let (answers, ledger, parties) = accepted(&Book::slip(), &[opening(6_000_000), joiner(24_315), joiner(24_316)]);
    assert_eq!(answers, [opened(Some(1)), joined(2, 2_000_000), joined(3, 1_500_000)]);
    assert_eq!(parties[0].credited, 1_980_000 + 986_666);
    assert_eq!(parties[1].credited, 493_334);
    assert_eq!(parties[2].credited, 0);
    assert_eq!(parties.map(|party| party.put_in)[..4], [6_000_000, 2_000_000, 1_500_000, 0]);
    assert_eq!((ledger.schemes[0].fees, ledger.entries, ledger.connections, ledger.month), (40_000, 3, 3, 24_316));
    assert_eq!(parties[3..], [Party::default(); 5]);
}

#[test]
fn m8_the_minimum_and_the_term() {
    for (minimum, wanted) in [(2_000_000, joined(2, 2_000_000)), (2_000_001, answered(Joining::Small))] {
        let book = Book { minimum, ..Book::slip() };
        assert_eq!(accepted(&book, &[opening(6_000_000), joiner(24_315)]).0[1], wanted);
    }
    let ended = answered(Joining::Ended);
    for (month, wanted) in [(24_315 + 83, joined(2, 2_000_000)), (24_315 + 84, ended), (24_315 + 85, ended)] {
        let (answers, ledger, _) = accepted(&Book::slip(), &[opening(6_000_000), joiner(month)]);
        assert_eq!(answers[1], wanted);
        assert_eq!((ledger.connections, ledger.month), (2, month));
    }
}

/// The scheme's fee, minimum and term hold for a joining, not those of the joiner's book.
#[test]
fn a_joining_goes_by_the_scheme() {
    let (mut ledger, mut parties) = (Ledger::new(), [Party::default(); 2]);
    let request = opening(6_000_000).encode();
    accept(&mut ledger, &mut parties, &Book::slip().encode(), &request).unwrap();
    let other = Book { fee: 3_000_000, minimum: 3_000_000, term: 200, ..Book::slip() }.encode();
    let answer = accept(&mut ledger.clone(), &mut parties.clone(), &other, &joiner(24_315).encode()).unwrap().1;
    assert_eq!(answer, joined(2, 2_000_000));
    let late = joiner(24_315 + 84).encode();
    assert_eq!(accept(&mut ledger, &mut parties, &other, &late).unwrap().1, answered(Joining::Ended));
}

/// The last month of a 16-bit calendar: opening + term passes 65,535.
#[test]
fn a_term_past_the_last_month_never_ends() {
    let book = Book { term: u16::MAX, ..Book::slip() };
    let requests = [Request { month: 1_000, ..opening(6_000_000) }, joiner(u16::MAX)];
    assert_eq!(accepted(&book, &requests).0[1], joined(2, 2_000_000));
}
