use super::cases;
use differential::call::refused;
use differential::{LibraryCall, Tally};
use fikrem::raw;
use generate::damage::{book_past_limits, request_past_limits};
use generate::request::{pair, refused_bespoke_rate, Tier, SPECIAL_PRICING};
use generate::{Book, Random, Request};
use std::collections::BTreeSet;

/// The offset of the operating loading in a request.
const LOADING: usize = 45;

/// Prices the pair and prints its slip; the pricing's result.
fn both(tally: &mut Tally, book: &[u8], request: &[u8]) -> u64 {
    tally.compare(&LibraryCall::SlipText { book, request });
    tally.compare(&LibraryCall::Price { book, request }).0
}

/// Over all limits and edges; some of a zone that isn't in the book, some of a bespoke rate that isn't allowed, some with
/// an operating loading in any class.
pub fn random_pair(random: &mut Random) -> (Book, Request) {
    let (book, mut request) = pair(random);
    match random.within(0, 9) {
        0 => request.zone = book.missing_zone(random),
        1 => {
            let tier = random.index(5);
            let posted = book.rates(request.zone).map_or(0, |rates| rates[tier]);
            request.tiers[tier].mode = 2;
            request.tiers[tier].bespoke_rate = refused_bespoke_rate(random, posted);
        }
        2 => request = Request { zone: request.zone, ..Request::loose(random) },
        3 => request.ol = random.edge_u32(1, 1_000_000_000),
        _ => {}
    }
    (book, request)
}

pub fn random_pairs(tally: &mut Tally) {
    let mut random = Random::new(100);
    // the classes that were refused at their loading, and how often special pricing met a book with opex
    let (mut refused_at_loading, mut specially_priced) = (BTreeSet::new(), 0);
    assert_eq!(both(tally, &Book::slip().encode(), &Request::slip().encode()), raw::DONE);
    for _ in 0..cases(40_000) {
        let (book, request) = random_pair(&mut random);
        let result = both(tally, &book.encode(), &request.encode());
        if result == refused(3, 2, false, LOADING) {
            refused_at_loading.insert(request.class);
        }
        let opex = book.pairs.iter().any(|pair| pair.0 > 0);
        if result == raw::DONE && request.class == SPECIAL_PRICING && request.ol > 0 && opex {
            specially_priced += 1;
        }
    }
    assert_eq!(refused_at_loading, BTreeSet::from([0, 1]), "classes refused at the operating loading");
    assert!(specially_priced > 0, "no loading was priced by a book with opex");
}

/// A book whose first tier costs a cent for each hundredth of a kVA.
fn book_of_cents(capacity_charged: u8, credit_share: u16) -> Vec<u8> {
    Book { capacity_charged, credit_share, zones: vec![(1, [100, 0, 0, 0, 0])], ..Book::slip() }.encode()
}

/// A request of this extension, capacity and revenue, all in cents.
fn request_of_cents(me: u32, capacity: u32, revenue: u32) -> Vec<u8> {
    let mut request = Request { distribution_revenue: revenue, part_year: vec![10_000, 0], ..Request::extension(me) };
    request.tiers[0].demand = capacity;
    request.encode()
}

/// Every small extension, capacity and revenue: divisors of 0 and of a few cents, remainders of every size, halves, NC on
/// both sides of 0. Then halves of a percent and their neighbours, which need a divisor of about 200.
pub fn small_percentages(tally: &mut Tally) {
    for (charged, share) in [(0, 0), (0, 6_500), (0, 10_000), (1, 0), (1, 6_500), (1, 10_000)] {
        let book = book_of_cents(charged, share);
        for me in 0..24 {
            for capacity in 0..8 {
                for revenue in 0..9 {
                    assert_eq!(both(tally, &book, &request_of_cents(me, capacity, revenue)), raw::DONE);
                }
            }
        }
        for me in 98..=102 {
            for capacity in 0..4 {
                for revenue in 98..=102 {
                    assert_eq!(both(tally, &book, &request_of_cents(me, capacity, revenue)), raw::DONE);
                    assert_eq!(both(tally, &book, &request_of_cents(me + 100, capacity, revenue - 98)), raw::DONE);
                }
            }
        }
    }
}

/// Capacity of up to 10^12 cents that isn't charged, over divisors from 0 up to the highest amount.
pub fn lowest_percentages(tally: &mut Tally) {
    let mut random = Random::new(102);
    let book = Book { capacity_charged: 0, zones: vec![(1, [10_000_000; 5])], ..Book::slip() }.encode();
    let mut request = Request::of_nothing();
    for _ in 0..cases(2_000) {
        request.ce = random.edge_u32(0, 1_000_000_000);
        for tier in &mut request.tiers {
            tier.demand = random.edge_u32(0, 1_000_000);
        }
        request.added_demands = [(); 5].map(|_| random.edge_u32(0, 1_000_000));
        assert_eq!(both(tally, &book, &request.encode()), raw::DONE);
    }
    request.tiers = request.tiers.map(|tier| Tier { demand: 1_000_000, ..tier });
    request.added_demands = [1_000_000; 5];
    for ce in [0, 1, 2, 3, 10_000_000, 10_000_001, 1_000_000_000] {
        request.ce = ce;
        assert_eq!(both(tally, &book, &request.encode()), raw::DONE);
    }
}

/// Every value of a book and a request, one past its limit and the highest.
pub fn past_limits(tally: &mut Tally) {
    let mut random = Random::new(101);
    for _ in 0..cases(60) {
        let (book, request) = pair(&mut random);
        let (book_file, request_file) = (book.encode(), request.encode());
        for past in book_past_limits(&book) {
            assert_eq!(raw::number(both(tally, &past.file, &request_file)), 3);
        }
        for past in request_past_limits(&request) {
            assert_eq!(raw::number(both(tally, &book_file, &past.file)), 3);
        }
    }
}
