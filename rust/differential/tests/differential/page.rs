use super::cases;
use super::faults::faulty;
use super::pricing::random_pair;
use differential::{Buffers, LibraryCall, Tally};
use fikrem::raw;
use generate::damage::{book_past_limits, damaged, request_past_limits};
use generate::request::{pair, Tier, SPECIAL_PRICING};
use generate::{Book, Random, Request};
use reference::page::PAGE_SIZE;
use reference::page_reader::{read_page, Line};
use std::collections::BTreeSet;

/// Numbers of results that were met: 0 done, otherwise the refusal's.
type Met = BTreeSet<u64>;

/// The lines that the charge has, as the library prices it.
fn lines_of_charge(book: &[u8], request: &[u8]) -> Vec<Line> {
    let bill = fikrem::price(book, request).expect("what has a page is priced");
    let lines: [(&str, i128); 12] = [
        ("ME", bill.me.into()),
        ("MC", bill.mc.into()),
        ("CE", bill.ce.into()),
        ("CC2", bill.cc2.into()),
        ("TW", bill.tw.into()),
        ("HR", bill.hr.into()),
        ("OL", bill.ol.into()),
        ("IC", bill.ic.into()),
        ("IR", bill.ir.into()),
        ("CC", bill.cc.into()),
        ("NIC", bill.nic.into()),
        ("NC", bill.nc.into()),
    ];
    lines.map(|(label, cents)| Line { label: label.to_string(), cents }).to_vec()
}

/// The page on both sides, on an output of this length; the number of the result. What the library writes reads as what
/// it prices.
fn compare(tally: &mut Tally, book: &[u8], request: &[u8], length: usize) -> u64 {
    let (result, seen) = tally.compare_on(&LibraryCall::Page { book, request }, Buffers::of(length, 0, 0));
    if result == raw::DONE {
        assert_eq!(read_page(&seen.out[..PAGE_SIZE]), Some(lines_of_charge(book, request)));
    }
    raw::number(result)
}

/// A length of an output: none, about a page, larger, or any.
fn output_length(random: &mut Random) -> usize {
    match random.within(0, 3) {
        0 => random.choose(&[0, 1, PAGE_SIZE - 1, PAGE_SIZE + 1, 2 * PAGE_SIZE, 4_096]),
        1 => random.edge(0, 2_000) as usize,
        _ => PAGE_SIZE,
    }
}

/// Over all limits and edges, zones that aren't in the book, bespoke rates that aren't allowed and operating loadings
/// in any class; each on no output, on outputs about a page and on a larger one.
pub fn random_pairs(tally: &mut Tally) {
    let mut random = Random::new(180);
    let mut met = Met::new();
    for _ in 0..cases(8_000) {
        let (book, request) = random_pair(&mut random);
        let (book, request) = (book.encode(), request.encode());
        let larger = random.within(PAGE_SIZE as u64 + 2, 5_000) as usize;
        for length in [0, PAGE_SIZE - 1, PAGE_SIZE, PAGE_SIZE + 1, larger] {
            met.insert(compare(tally, &book, &request, length));
        }
    }
    assert_eq!(met, Met::from([0, 3, 4, 5, 14]));
}

/// Every amount up to 20 dollars and about 1,000 dollars, on both sides of 0: a demand at a rate of 100 that isn't
/// charged is as many cents of MC, and of NC below 0.
pub fn small_amounts(tally: &mut Tally) {
    let book = Book { capacity_charged: 0, zones: vec![(1, [100, 0, 0, 0, 0])], ..Book::slip() }.encode();
    for demand in (0..=2_000).chain(99_000..=101_000) {
        let mut request = Request::of_nothing();
        request.tiers[0].demand = demand;
        let request = request.encode();
        let cents = i128::from(demand);
        let lines = lines_of_charge(&book, &request);
        assert_eq!((lines[1].cents, lines[11].cents), (cents, -cents));
        assert_eq!(compare(tally, &book, &request, PAGE_SIZE), raw::DONE);
    }
}

/// A request of amounts, revenues and demands about the powers of ten, where digits and commas are added; most of them
/// 0, so that sums and differences lie about them too. Its IR by the slip's book is the revenue of one year.
fn about_powers_of_ten(random: &mut Random) -> Request {
    let mut about = |highest: u32| {
        let power = 10_u32.pow(random.within(0, 9) as u32);
        let number = random.choose(&[power - 1, power, power + 1]).min(highest);
        random.choose(&[0, 0, 0, number])
    };
    let [me, ce, tw, hr, ol] = [(); 5].map(|_| about(1_000_000_000));
    Request {
        class: SPECIAL_PRICING,
        me,
        ce,
        tw,
        hr,
        ol,
        tiers: [(); 5].map(|_| Tier { mode: 0, demand: about(1_000_000), bespoke_rate: 0 }),
        added_demands: [(); 5].map(|_| about(1_000_000)),
        distribution_revenue: about(1_000_000_000),
        transmission_revenue: about(1_000_000_000),
        part_year: vec![10_000, 0],
        ..Request::slip()
    }
}

/// Amounts of one to ten digits on both sides of 0; at a rate of 100 a tier costs as many cents as its demand says.
pub fn powers_of_ten(tally: &mut Tally) {
    let mut random = Random::new(181);
    let mut digits = BTreeSet::new();
    for _ in 0..cases(20_000) {
        let zones = vec![(1, [random.choose(&[0, 100]); 5])];
        let (capacity_charged, credit_share) = (random.edge_u8(0, 1), random.choose(&[0, 10_000]));
        let book = Book { capacity_charged, credit_share, zones, ..Book::slip() }.encode();
        let request = about_powers_of_ten(&mut random).encode();
        assert_eq!(compare(tally, &book, &request, PAGE_SIZE), raw::DONE);
        for line in lines_of_charge(&book, &request) {
            digits.insert((line.cents < 0, line.cents.unsigned_abs().to_string().len()));
        }
    }
    for count in 1..=10 {
        assert!(digits.contains(&(false, count)), "no amount of {count} digits");
        assert!(digits.contains(&(true, count)), "no amount of {count} digits below 0");
    }
}

/// Either file or both damaged once or several times, or any bytes.
pub fn damaged_files(tally: &mut Tally) {
    let mut random = Random::new(182);
    let mut met = Met::new();
    for _ in 0..cases(30_000) {
        let (book, request) = pair(&mut random);
        let mut files = [book.encode(), request.encode()];
        for _ in 0..random.within(1, 3) {
            let file = &mut files[random.index(2)];
            match random.within(0, 9) {
                0 => *file = (0..random.edge(0, 300)).map(|_| random.next_u64() as u8).collect(),
                _ if file.is_empty() => {}
                _ => *file = damaged(&mut random, file),
            }
        }
        let length = output_length(&mut random);
        met.insert(compare(tally, &files[0], &files[1], length));
    }
    assert_eq!(met, Met::from([0, 1, 2, 3, 4, 5, 14]));
}

/// Every value of a book and a request, one past its limit and the highest.
pub fn past_limits(tally: &mut Tally) {
    let mut random = Random::new(184);
    for _ in 0..cases(20) {
        let (book, request) = pair(&mut random);
        let (book_file, request_file) = (book.encode(), request.encode());
        for past in book_past_limits(&book) {
            assert_eq!(compare(tally, &past.file, &request_file, output_length(&mut random)), 3);
        }
        for past in request_past_limits(&request) {
            assert_eq!(compare(tally, &book_file, &past.file, output_length(&mut random)), 3);
        }
    }
}

/// Several faults at once, so that the first counts: book, request, 4, 5, then 14.
pub fn faults_at_once(tally: &mut Tally) {
    let mut random = Random::new(183);
    let mut met = Met::new();
    for _ in 0..cases(10_000) {
        let mut request = Request::slip();
        if random.once_in(3) {
            request.zone = 2;
        }
        if random.once_in(3) {
            let tier = random.index(5);
            (request.tiers[tier].mode, request.tiers[tier].bespoke_rate) = (2, 10_000);
        }
        let [book, request] = [Book::slip().encode(), request.encode()].map(|file| {
            if random.once_in(4) {
                faulty(&mut random, &file)
            } else {
                file
            }
        });
        let length = random.choose(&[0, 1, PAGE_SIZE - 1, PAGE_SIZE, PAGE_SIZE + 1]);
        met.insert(compare(tally, &book, &request, length));
    }
    assert_eq!(met, Met::from([0, 1, 2, 3, 4, 5, 14]));
}

/// Outputs of every length up to two pages and more, and large ones, of a request that is priced and two that aren't.
pub fn every_length(tally: &mut Tally) {
    let book = Book::slip().encode();
    let mut bespoke = Request::slip();
    (bespoke.tiers[2].mode, bespoke.tiers[2].bespoke_rate) = (2, 12_750);
    let requests = [Request::slip(), Request { zone: 2, ..Request::slip() }, bespoke].map(|request| request.encode());
    for length in (0..=2 * PAGE_SIZE + 100).chain([4_096, 65_535, 65_536, 1_000_000]) {
        let numbers = requests.each_ref().map(|request| compare(tally, &book, request, length));
        assert_eq!(numbers, [if length < PAGE_SIZE { 14 } else { 0 }, 4, 5], "an output of {length}");
    }
}
