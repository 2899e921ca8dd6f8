//! Document 02, E3: the classes of field 03, the operating loading OL in each of them, and special pricing.

use generate::request::Tier;
use generate::{Book, Request};
use reference::{price, Reconciliation};

/// The places of class, HR and OL, of the first mode and of the last mark in the slip's request.
const CLASS: usize = 17;
const HR: usize = 41;
const OL: usize = 45;
const FIRST_MODE: usize = 52;
const MARK: usize = 159;

/// The slip's request in this class, with this operating loading.
fn of_class(class: u8, ol: u32) -> Request {
    Request { class, ol, ..Request::slip() }
}

/// The slip's book with the opex and revenue of M3: O 8,745.
fn book_with_opex() -> Book {
    Book { pairs: [(19_300, 153_800); 5], ..Book::slip() }
}

fn refused(book: &Book, request: &Request) -> Option<(u8, u8, usize)> {
    price(&book.encode(), &request.encode()).err().map(|refused| (refused.number, refused.file, refused.place))
}

fn priced(book: &Book, request: &Request) -> Reconciliation {
    price(&book.encode(), &request.encode()).unwrap().reconciliation
}

/// Refused by 3 in the request, at this place.
fn at(place: usize) -> Option<(u8, u8, usize)> {
    Some((3, 2, place))
}

#[test]
fn classes() {
    for (class, wanted) in [(0, None), (1, None), (2, None), (3, at(CLASS)), (4, at(CLASS)), (255, at(CLASS))] {
        assert_eq!(refused(&Book::slip(), &of_class(class, 0)), wanted, "class {class}");
        assert_eq!(refused(&book_with_opex(), &of_class(class, 0)), wanted, "class {class}");
    }
}

#[test]
fn operating_loading_by_class() {
    let most = 1_000_000_000;
    let rows = [
        (0, 0, None),
        (0, 1, at(OL)),
        (0, most, at(OL)),
        (0, most + 1, at(OL)),
        (1, 0, None),
        (1, 1, at(OL)),
        (1, 256, at(OL)),
        (1, u32::MAX, at(OL)),
        (2, 0, None),
        (2, 1, None),
        (2, most, None),
        (2, most + 1, at(OL)),
        (2, u32::MAX, at(OL)),
        (3, 1, at(CLASS)),
    ];
    for (class, ol, wanted) in rows {
        assert_eq!(refused(&Book::slip(), &of_class(class, ol)), wanted, "class {class}, OL {ol}");
    }
}

/// OL is refused "in its turn among the values": after the amounts before it, before field 06 and all later ones.
#[test]
fn operating_loading_in_its_turn() {
    for class in [0, 1] {
        let mut request = Request { hr: 1_000_000_001, mark: 3, ..of_class(class, 1) };
        request.tiers[0].mode = 3;
        assert_eq!(refused(&Book::slip(), &request), at(HR));
        request.hr = 1_000_000_000;
        assert_eq!(refused(&Book::slip(), &request), at(OL));
        request.ol = 0;
        assert_eq!(refused(&Book::slip(), &request), at(FIRST_MODE));
        request.tiers[0].mode = 0;
        assert_eq!(refused(&Book::slip(), &request), at(MARK));
        let unknown_zone = Request { zone: 2, ..of_class(class, 1) };
        assert_eq!(refused(&Book::slip(), &unknown_zone), at(OL), "3 comes before 4");
    }
    let special = Request { zone: 2, ..of_class(2, 1) };
    assert_eq!(refused(&Book::slip(), &special), Some((4, 2, 0)));
}

/// The book's sums are judged in every class, though special pricing makes no use of them.
#[test]
fn opex_above_revenue_in_every_class() {
    let above = Book { pairs: [(2, 1); 5], ..Book::slip() };
    let no_revenue = Book { pairs: [(0, 0); 5], ..Book::slip() };
    for class in [0, 1, 2] {
        assert_eq!(refused(&above, &of_class(class, 0)), Some((3, 1, 15)));
        assert_eq!(refused(&no_revenue, &of_class(class, 0)), Some((3, 1, 15)));
    }
}

/// "O taken as 10,000 for distribution too": the opex scales revenue down in class 1, and not in class 2.
#[test]
fn opex_in_classes_one_and_two() {
    let scaled = priced(&book_with_opex(), &of_class(1, 0));
    assert_eq!((scaled.cc, scaled.ir, scaled.nc), (1_217_772, 751_890, 263_162));
    let special = priced(&book_with_opex(), &of_class(2, 50_000));
    assert_eq!((special.cc, special.ic, special.ir), (1_197_630, 1_756_500, 859_800));
    assert_eq!((special.nic, special.nc, special.ol), (896_700, 300_930, 50_000));
    // opex as high as the revenue leaves nothing of the one and all of the other
    let all_opex = Book { pairs: [(1, 1); 5], ..Book::slip() };
    assert_eq!([1, 2].map(|class| priced(&all_opex, &of_class(class, 0)).ir), [0, 859_800]);
}

/// CC, IR and NC at b 463: classes 1 and 2 have the same life, classes 0 and 1 the same opex factor.
#[test]
fn life_and_opex_of_every_class() {
    let book = Book { discount_rate: 463, ..book_with_opex() };
    let rows =
        [(0, (1_183_811, 804_137, 281_448)), (1, (1_359_698, 533_543, 186_741)), (2, (1_309_924, 610_118, 213_542))];
    for (class, wanted) in rows {
        let sums = priced(&book, &of_class(class, 0));
        assert_eq!((sums.cc, sums.ir, sums.nc), wanted, "class {class}");
    }
    // one cent a year from year 0 to the last year
    let cents = |class| Request { distribution_revenue: 1, part_year: vec![10_000], ..of_class(class, 0) };
    assert_eq!([0, 1, 2].map(|class| priced(&Book::slip(), &cents(class)).ir), [31, 16, 16]);
}

/// A book with opex that doesn't charge capacity.
fn uncharged() -> Book {
    let zones = vec![(1, [100, 2_000, 8_500, 38_000, 10_000])];
    Book { capacity_charged: 0, credit_share: 1_500, zones, ..book_with_opex() }
}

/// A request of which every amount is another.
fn distinct(class: u8, ol: u32) -> Request {
    Request {
        ce: 100_000,
        de: 7,
        tw: 99_999,
        hr: 100_000_001,
        added_demands: [1, 20, 300, 0, 50],
        distribution_revenue: 50_000,
        transmission_revenue: 4_321,
        ..of_class(class, ol)
    }
}

#[test]
fn amounts_that_differ() {
    let scaled = price(&uncharged().encode(), &distinct(1, 0).encode()).unwrap();
    let wanted = Reconciliation {
        me: 1_598_500,
        mc: 116_400,
        ce: 100_000,
        cc2: 30_901,
        tw: 99_999,
        hr: 100_000_001,
        ol: 0,
        ic: 101_945_801,
        ir: 720_690,
        cc: 101_690_397,
        nic: 101_225_111,
        nc: 465_286,
    };
    assert_eq!(scaled.reconciliation, wanted);
    assert_eq!((scaled.x, scaled.entered, scaled.borne), (1_590_397, 101_945_808, 255_411));
    let special = price(&uncharged().encode(), &distinct(2, 250_000).encode()).unwrap();
    let (ol, ic, ir, cc) = (250_000, 102_195_801, 814_815, 101_926_278);
    assert_eq!(special.reconciliation, Reconciliation { ol, ic, ir, cc, nic: 101_380_986, nc: 545_292, ..wanted });
    assert_eq!((special.x, special.entered, special.borne), (1_576_278, 102_195_808, 269_530));
}

/// The book of document 000's examples, which has opex.
fn examples_book() -> Book {
    Book {
        discount_rate: 463,
        distribution_factors: vec![10_000, 11_000, 12_000, 13_200, 14_400],
        transmission_factors: vec![10_000, 11_500, 11_600, 11_900, 12_100, 12_400, 12_000],
        credit_share: 0,
        zones: vec![(1, [24_000, 60_000, 8_500, 38_000, 14_000])],
        ..book_with_opex()
    }
}

/// A request of example 3: it has demands at the zone substation and at sub-transmission alone.
fn example(me: u32, demands: [u32; 2]) -> Request {
    let tier = |demand| Tier { mode: 0, demand, bespoke_rate: 0 };
    Request {
        me,
        tiers: [tier(0), tier(0), tier(0), tier(demands[0]), tier(demands[1])],
        distribution_revenue: 13_020_000,
        transmission_revenue: 8_000_000,
        part_year: vec![2_500, 10_000],
        capacity: 500_000,
        ..of_class(2, 11_112_100)
    }
}

/// Document 000's examples 3a to 3d print IC, IR and NIC in dollars: 2,255,121, 2,981,335 and -726,214 (3a), 6,619,823,
/// 6,774,890 and -155,067 (3b), 1,995,121, 2,923,023 and -927,902 (3c), 2,275,121, 2,981,335 and -706,214 (3d).
#[test]
fn worked_examples_of_special_pricing() {
    let mut b = Request {
        tw: 190_784_000,
        ol: 166_158_326,
        distribution_revenue: 27_252_000,
        transmission_tariffs: vec![10_000, 19_783, 19_708, 19_490, 19_351, 29_232, 29_837],
        ..example(305_040_000, [400_000, 300_000])
    };
    (b.tiers[3].mode, b.tiers[4].mode) = (1, 1);
    let c = Request { distribution_tariffs: vec![9_700], ..example(20_400_000, [350_000, 250_000]) };
    let rows = [
        ("3a", example(20_400_000, [400_000, 300_000]), (225_512_100, 298_133_438, -72_621_338)),
        ("3b", b, (661_982_326, 677_489_111, -15_506_785)),
        ("3c", c, (199_512_100, 292_302_287, -92_790_187)),
        ("3d", example(22_400_000, [400_000, 300_000]), (227_512_100, 298_133_438, -70_621_338)),
    ];
    for (name, request, wanted) in rows {
        let sums = priced(&examples_book(), &request);
        assert_eq!((sums.ic, sums.ir, sums.nic), wanted, "{name}");
        assert_eq!(sums.cc, sums.ic, "{name}: nothing is credited, and CC holds OL");
    }
}
