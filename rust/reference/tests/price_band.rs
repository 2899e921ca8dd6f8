//! Document 02, E5: lowest and highest IR, CC and NC of a band of revenue.

use generate::request::pair;
use generate::{Book, Random, Request};
use reference::{price, price_band, PriceBand, Reconciliation, Refusal};

/// Low and high distribution revenue, then transmission.
type Figures = [u64; 4];

fn band(book: &Book, request: &Request, figures: Figures) -> Result<PriceBand, Refusal> {
    let [low_distribution, high_distribution, low_transmission, high_transmission] = figures;
    let (book, request) = (book.encode(), request.encode());
    price_band(&book, &request, low_distribution, high_distribution, low_transmission, high_transmission)
}

fn refused(book: &Book, request: &Request, figures: Figures) -> (u8, u8, usize) {
    let refused = band(book, request, figures).unwrap_err();
    (refused.number, refused.file, refused.place)
}

/// The request's price with these revenues in field 08.
fn priced(book: &Book, request: &Request, distribution: u64, transmission: u64) -> Reconciliation {
    let request = Request {
        distribution_revenue: distribution as u32,
        transmission_revenue: transmission as u32,
        ..request.clone()
    };
    price(&book.encode(), &request.encode()).unwrap().reconciliation
}

#[test]
fn bands_of_the_slip() {
    let rows = [
        ([57_320, 57_320, 0, 0], [859_800; 2], [1_147_630; 2], [300_930; 2]),
        ([57_320, 200_000, 0, 0], [859_800, 3_000_000], [0, 1_147_630], [300_930, 1_293_500]),
        ([50_000, 57_320, 1_000, 2_000], [765_000, 889_800], [1_128_130, 1_209_250], [267_750, 311_430]),
        ([0, 1_000_000_000, 0, 1_000_000_000], [0, 30_000_000_000], [0, 1_706_500], [0, 29_998_293_500]),
        ([0, 0, 0, 0], [0; 2], [1_706_500; 2], [0; 2]),
    ];
    for (figures, ir, cc, nc) in rows {
        assert_eq!(band(&Book::slip(), &Request::slip(), figures), Ok(PriceBand { ir, cc, nc }), "{figures:?}");
    }
}

#[test]
fn shares_and_uncharged_capacity() {
    let figures = [0, 57_320, 0, 0];
    let all = Book { credit_share: 10_000, ..Book::slip() };
    let wanted = PriceBand { ir: [0, 859_800], cc: [846_700, 1_706_500], nc: [0, 0] };
    assert_eq!(band(&all, &Request::slip(), figures), Ok(wanted));
    let uncharged = Book { capacity_charged: 0, ..Book::slip() };
    let wanted = PriceBand { ir: [0, 859_800], cc: [1_039_630, 1_598_500], nc: [-108_000, 192_930] };
    assert_eq!(band(&uncharged, &Request::slip(), figures), Ok(wanted));
    // at the high end the credit is past its cap, ME
    let wanted = PriceBand { ir: [1_500_000, 3_000_000], cc: [0, 623_500], nc: [417_000, 1_293_500] };
    assert_eq!(band(&uncharged, &Request::slip(), [100_000, 200_000, 0, 0]), Ok(wanted));
}

/// Opex scales the distribution band down alone.
#[test]
fn opex_and_both_bands() {
    let book = Book { pairs: [(19_300, 153_800); 5], ..Book::slip() };
    let wanted = PriceBand { ir: [225, 693_525], cc: [1_255_709, 1_706_354], nc: [79, 242_734] };
    assert_eq!(band(&book, &Request::slip(), [10, 30_000, 7, 20_000]), Ok(wanted));
}

/// Special pricing with an operating loading: opex scales neither band down.
#[test]
fn special_pricing() {
    let book = Book { pairs: [(19_300, 153_800); 5], ..Book::slip() };
    let request = Request { class: 2, ol: 50_000, ..Request::slip() };
    let wanted = PriceBand { ir: [0, 859_815], cc: [1_197_621, 1_756_500], nc: [0, 300_936] };
    assert_eq!(band(&book, &request, [0, 57_320, 0, 1]), Ok(wanted));
}

/// The figures stand in for field 08, which is judged and otherwise plays no part.
#[test]
fn the_requests_own_revenue() {
    let figures = [50_000, 57_320, 1_000, 2_000];
    let wanted = band(&Book::slip(), &Request::slip(), figures).unwrap();
    for (distribution_revenue, transmission_revenue) in [(0, 0), (1_000_000_000, 1_000_000_000), (7, 60_000)] {
        let request = Request { distribution_revenue, transmission_revenue, ..Request::slip() };
        assert_eq!(band(&Book::slip(), &request, figures), Ok(wanted));
    }
    for (distribution_revenue, transmission_revenue, place) in
        [(1_000_000_001, 0, 123), (1_000_000_001, 1_000_000_001, 123), (0, 1_000_000_001, 127)]
    {
        let request = Request { distribution_revenue, transmission_revenue, ..Request::slip() };
        assert_eq!(refused(&Book::slip(), &request, figures), (3, 2, place));
    }
}

#[test]
fn figures_past_field_08s_limit() {
    let most = 1_000_000_000;
    for place in 0..4 {
        // 2^32 and 2^32 + 1 aren't 0 and 1
        for figure in [most + 1, u32::MAX.into(), 1 << 32, (1 << 32) + 1, u64::MAX] {
            for others in [0, 1, most] {
                let mut figures = [others; 4];
                figures[place] = figure;
                assert_eq!(refused(&Book::slip(), &Request::slip(), figures), (3, 0, 0), "{figures:?}");
            }
        }
    }
    assert!(band(&Book::slip(), &Request::slip(), [most; 4]).is_ok());
    // 3 comes before 15
    for figures in [[most + 1, 0, 0, 0], [1, 0, 0, most + 1], [1, 0, most + 1, 0], [0, most + 1, 1, 0]] {
        assert_eq!(refused(&Book::slip(), &Request::slip(), figures), (3, 0, 0), "{figures:?}");
    }
}

#[test]
fn lows_above_their_highs() {
    let most = 1_000_000_000;
    for figures in [[1, 0, 0, 0], [0, 0, 1, 0], [1, 0, 1, 0], [most, most - 1, 0, most], [0, most, most, most - 1]] {
        assert_eq!(refused(&Book::slip(), &Request::slip(), figures), (15, 0, 0), "{figures:?}");
    }
    // each low is held against the high of its own kind
    for figures in [[5, 9, 1, 2], [1, 2, 5, 9], [most, most, 0, 0], [0, 0, most, most]] {
        assert!(band(&Book::slip(), &Request::slip(), figures).is_ok(), "{figures:?}");
    }
}

/// Book, request, 4, 5, then the figures.
#[test]
fn order_of_refusals() {
    for figures in [[1, 0, 0, 0], [u64::MAX; 4], [0; 4]] {
        let [low, high, ..] = figures;
        let of_files = |book: &[u8], request: &[u8]| price_band(book, request, low, high, 0, 0).unwrap_err();
        assert_eq!(of_files(&[], &[]), Refusal { number: 1, file: 1, place: 0 });
        assert_eq!(of_files(&Book::slip().encode(), &[]), Refusal { number: 1, file: 2, place: 0 });
        let term = Book { term: 83, ..Book::slip() };
        assert_eq!(refused(&term, &Request { mark: 3, ..Request::slip() }, figures), (3, 1, 80));
        assert_eq!(refused(&Book::slip(), &Request { mark: 3, ..Request::slip() }, figures), (3, 2, 159));
        let mut request = Request { zone: 2, ..Request::slip() };
        (request.tiers[2].mode, request.tiers[2].bespoke_rate) = (2, 12_750);
        assert_eq!(refused(&Book::slip(), &request, figures), (4, 2, 0));
        request.zone = 1;
        assert_eq!(refused(&Book::slip(), &request, figures), (5, 2, 3));
    }
}

/// A band of revenue, often at an edge of the limits or of no width.
fn revenue_band(random: &mut Random) -> [u64; 2] {
    let low = random.edge(0, 1_000_000_000);
    [low, random.edge(low, 1_000_000_000)]
}

/// "For every pair of revenues inside the bands, the priced figures lie inside the given ones. Both ends are reached by
/// some pair."
#[test]
fn pairs_inside_the_bands() {
    let mut random = Random::new(15);
    for _ in 0..2_000 {
        let (book, request) = pair(&mut random);
        let ([d0, d1], [t0, t1]) = (revenue_band(&mut random), revenue_band(&mut random));
        let PriceBand { ir, cc, nc } = band(&book, &request, [d0, d1, t0, t1]).unwrap();
        let (low, high) = (priced(&book, &request, d0, t0), priced(&book, &request, d1, t1));
        assert_eq!((ir, cc, nc), ([low.ir, high.ir], [high.cc, low.cc], [low.nc, high.nc]));
        for _ in 0..4 {
            let inside = priced(&book, &request, random.edge(d0, d1), random.edge(t0, t1));
            assert!((ir[0]..=ir[1]).contains(&inside.ir));
            assert!((cc[0]..=cc[1]).contains(&inside.cc));
            assert!((nc[0]..=nc[1]).contains(&inside.nc));
        }
    }
}
