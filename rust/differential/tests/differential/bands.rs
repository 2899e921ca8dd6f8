use super::cases;
use super::faults::faulty;
use super::pricing::random_pair;
use differential::wanted::figures_of_band;
use differential::{Buffers, LibraryCall, Tally};
use fikrem::raw::{self, BAND};
use fikrem::Bands;
use generate::request::pair;
use generate::{Book, Random, Request};
use std::collections::BTreeSet;

const HIGHEST: u64 = 1_000_000_000;

/// Low and high year-one revenue, distribution then transmission.
type Revenues = [u64; 4];

/// Numbers of results that were met: 0 done, otherwise the refusal's.
type Met = BTreeSet<u64>;

/// The band on both sides and by the wrapper; the number of the result, and the figures after it.
fn compare(tally: &mut Tally, book: &[u8], request: &[u8], revenues: Revenues) -> (u64, Vec<i64>) {
    let call = LibraryCall::PriceBand { book, request, revenues };
    let (result, seen) = tally.compare_on(&call, Buffers::of(0, BAND, 0));
    let [distribution_low, distribution_high, transmission_low, transmission_high] = revenues;
    let bands = Bands { distribution_low, distribution_high, transmission_low, transmission_high };
    match fikrem::price_band(book, request, bands) {
        Ok(band) => {
            let (ir, cc) = ([band.lowest_ir, band.highest_ir], [band.lowest_cc, band.highest_cc]);
            let wrapped = reference::PriceBand { ir, cc, nc: [band.lowest_nc, band.highest_nc] };
            assert_eq!(figures_of_band(&wrapped)[..], seen.figures);
        }
        Err(refusal) => assert_eq!(u64::from(refusal.number()), raw::number(result)),
    }
    (raw::number(result), seen.figures)
}

/// IR, CC and NC of the request with these revenues in field 08.
fn priced(book: &[u8], request: &Request, distribution: u64, transmission: u64) -> [i64; 3] {
    let (distribution_revenue, transmission_revenue) = (distribution as u32, transmission as u32);
    let request = Request { distribution_revenue, transmission_revenue, ..request.clone() };
    let bill = fikrem::price(book, &request.encode()).expect("a request with a band is priced with any revenue");
    [bill.ir as i64, bill.cc as i64, bill.nc]
}

/// Holds the prices of pairs of revenues inside the bands against the band: none lies outside, and each of the six is
/// the price of some pair.
fn hold_prices(random: &mut Random, book: &[u8], request: &Request, revenues: Revenues, band: &[i64]) {
    let [low, high, low_transmission, high_transmission] = revenues;
    let mut pairs =
        vec![(low, low_transmission), (low, high_transmission), (high, low_transmission), (high, high_transmission)];
    pairs.extend([(); 8].map(|_| (random.edge(low, high), random.edge(low_transmission, high_transmission))));
    let prices: Vec<[i64; 3]> =
        pairs.iter().map(|&(distribution, transmission)| priced(book, request, distribution, transmission)).collect();
    for figure in 0..3 {
        let (lowest, highest) = (band[2 * figure], band[2 * figure + 1]);
        let of_pairs = || prices.iter().map(|price| price[figure]);
        assert!(of_pairs().all(|price| lowest <= price && price <= highest), "{revenues:?}: a price outside {band:?}");
        assert!(of_pairs().any(|price| price == lowest), "{revenues:?}: nothing comes to {lowest}");
        assert!(of_pairs().any(|price| price == highest), "{revenues:?}: nothing comes to {highest}");
    }
}

/// A low and a high: any, narrow, or small, so that the credit lies about M.
fn low_and_high(random: &mut Random) -> [u64; 2] {
    let highest = random.choose(&[HIGHEST, 1_000_000, 1_000]);
    let low = random.edge(0, highest);
    let high = match random.within(0, 2) {
        0 => (low + random.within(0, 3)).min(HIGHEST),
        _ => random.edge(low, highest),
    };
    [low, high]
}

fn within_limits(random: &mut Random) -> Revenues {
    let ([low, high], [low_transmission, high_transmission]) = (low_and_high(random), low_and_high(random));
    [low, high, low_transmission, high_transmission]
}

/// Over all limits and edges, zones that aren't in the book, bespoke rates that aren't allowed and operating loadings
/// that their class may not have.
pub fn random_bands(tally: &mut Tally) {
    let mut random = Random::new(190);
    let (mut met, mut capped, mut below_0) = (Met::new(), 0, 0);
    for _ in 0..cases(10_000) {
        let (book, request) = random_pair(&mut random);
        let (book, file) = (book.encode(), request.encode());
        let revenues = within_limits(&mut random);
        let (number, band) = compare(tally, &book, &file, revenues);
        met.insert(number);
        if number == raw::DONE {
            hold_prices(&mut random, &book, &request, revenues, &band);
            capped += u64::from(band[1] > band[0] && band[2] < band[3] && band[5] - band[4] > band[3] - band[2]);
            below_0 += u64::from(band[4] < 0 && band[5] > 0);
        }
    }
    assert_eq!(met, Met::from([0, 3, 4, 5]));
    assert!(capped > 0 && below_0 > 0, "no band with the credit's cap or 0 of NC inside");
}

/// Each of the four figures at its limit, one past it and far past it, and each low at its high, one below and above it.
pub fn about_limits(tally: &mut Tally) {
    let mut random = Random::new(191);
    let mut met = Met::new();
    for _ in 0..cases(200) {
        let (book, request) = pair(&mut random);
        let (book, request) = (book.encode(), request.encode());
        for place in 0..4 {
            for past in [HIGHEST + 1, 1 << 32, (1 << 32) + 1, (1 << 63) + 1, u64::MAX] {
                let mut revenues = within_limits(&mut random);
                revenues[place] = past;
                assert_eq!(compare(tally, &book, &request, revenues).0, 3, "{revenues:?}");
            }
            let mut revenues = [0, HIGHEST, 0, HIGHEST];
            revenues[place] = random.choose(&[0, HIGHEST]);
            assert_eq!(compare(tally, &book, &request, revenues).0, 0, "{revenues:?}");
        }
        let high = random.edge(1, HIGHEST - 1);
        let other = low_and_high(&mut random);
        for (low, wanted) in [(high - 1, 0), (high, 0), (high + 1, 15)] {
            for revenues in [[low, high, other[0], other[1]], [other[0], other[1], low, high]] {
                assert_eq!(compare(tally, &book, &request, revenues).0, wanted, "{revenues:?}");
            }
        }
        // any figures, wide ones and reversed ones among them
        let revenues = [(); 4].map(|_| random.choose(&[0, 1, HIGHEST, HIGHEST + 1, (1 << 32) + 1]));
        met.insert(compare(tally, &book, &request, revenues).0);
    }
    assert_eq!(met, Met::from([0, 3, 15]));
}

/// Several faults at once, so that the first counts: book, request, 4, 5, then 3 and 15 for the figures.
pub fn faults_at_once(tally: &mut Tally) {
    let mut random = Random::new(192);
    let mut met = Met::new();
    for _ in 0..cases(10_000) {
        let mut request = Request::slip();
        if random.once_in(4) {
            request.zone = 2;
        }
        if random.once_in(4) {
            let tier = random.index(5);
            (request.tiers[tier].mode, request.tiers[tier].bespoke_rate) = (2, 10_000);
        }
        if random.once_in(8) {
            request.transmission_revenue = random.choose(&[1_000_000_000, 1_000_000_001, u32::MAX]);
        }
        let [book, request] = [Book::slip().encode(), request.encode()].map(|file| {
            if random.once_in(6) {
                faulty(&mut random, &file)
            } else {
                file
            }
        });
        let revenues = [(); 4].map(|_| random.choose(&[0, 0, 5, HIGHEST, HIGHEST + 1]));
        met.insert(compare(tally, &book, &request, revenues).0);
    }
    assert_eq!(met, Met::from([0, 1, 2, 3, 4, 5, 15]));
}

/// Figures of every length up to twelve places, of a band, of one that is refused, and of a request that isn't priced.
pub fn every_length(tally: &mut Tally) {
    let book = &Book::slip().encode()[..];
    let requests = [Request::slip(), Request { zone: 2, ..Request::slip() }].map(|request| request.encode());
    for length in 0..=12 {
        for (request, revenues, wanted) in
            [(&requests[0], [0, 57_320, 0, 1], 0), (&requests[0], [1, 0, 0, 0], 15), (&requests[1], [0; 4], 4)]
        {
            let call = LibraryCall::PriceBand { book, request, revenues };
            let (result, _) = tally.compare_on(&call, Buffers::of(0, length, 0));
            assert_eq!(raw::number(result), if length < BAND { 14 } else { wanted }, "figures of {length} places");
        }
    }
}
