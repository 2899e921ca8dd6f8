//! Document 02, E10: quotient and remainder beside each rounded percentage, in the bill and on the slip.

use generate::request::{pair, Tier};
use generate::{Book, Random, Request};
use reference::{price, slip, Percentage};

/// Rounded, quotient and remainder of RELIANCE, UPFRONT and NCRATIO.
type Percentages = [Option<(i64, i64, u64)>; 3];

fn percentages(book: &Book, request: &Request) -> Percentages {
    let bill = price(&book.encode(), &request.encode()).unwrap();
    let parts = |percentage: Percentage| (percentage.rounded, percentage.quotient, percentage.remainder);
    [bill.reliance, bill.upfront, bill.nc_ratio].map(|percentage| percentage.map(parts))
}

/// The slip's last six lines.
fn last_lines(book: &Book, request: &Request) -> String {
    let text = String::from_utf8(slip(&book.encode(), &request.encode())).unwrap();
    assert_eq!(text.lines().count(), 11);
    text.split_inclusive('\n').skip(5).collect()
}

/// The slip's book without a credit, of one zone whose LV mains cost 1 cent for each hundredth of a kVA.
fn cents(capacity_charged: u8) -> Book {
    Book { capacity_charged, credit_share: 0, zones: vec![(1, [100, 0, 0, 0, 0])], ..Book::slip() }
}

/// An extension ME and a capacity cost of so many cents.
fn extension_and_capacity(me: u32, mc: u32) -> Request {
    let mut request = Request::extension(me);
    request.tiers[0] = Tier { mode: 0, demand: mc, bespoke_rate: 0 };
    request
}

#[test]
fn the_documents_slip() {
    let wanted = [Some((67, 67, 427_500)), Some((57, 57, 339_490)), Some((15, 14, 1_988_980))];
    assert_eq!(percentages(&Book::slip(), &Request::slip()), wanted);
}

/// "Applicants' advisers add up rounded percentages and get 101": 51 and 50, but 50 and 49 and the remainders of one.
#[test]
fn rounded_percentages_that_come_to_101() {
    let request = Request { distribution_revenue: 99, part_year: vec![10_000, 0], ..Request::extension(101) };
    let wanted = [Some((100, 100, 0)), Some((51, 50, 100)), Some((50, 49, 100))];
    assert_eq!(percentages(&cents(1), &request), wanted);
    let wanted = "RELIANCE 100\nUPFRONT 51\nNCRATIO 50\nRELIANCE-R 100 0\nUPFRONT-R 50 100\nNCRATIO-R 49 100\n";
    assert_eq!(last_lines(&cents(1), &request), wanted);
}

/// A negative NC: the quotient is rounded down, away from zero, and the remainder isn't negative.
#[test]
fn negative_contributions() {
    let rows = [(200, 1, (-1, -1, 100)), (201, 1, (0, -1, 101)), (200, 3, (-2, -2, 100)), (200, 2, (-1, -1, 0))];
    for (me, mc, wanted) in rows {
        let found = percentages(&cents(0), &extension_and_capacity(me, mc));
        assert_eq!(found[2], Some(wanted), "ME {me}, MC {mc}");
        assert_eq!(found[1], Some((100, 100, 0)), "ME {me}, MC {mc}");
    }
    let wanted = "RELIANCE 99\nUPFRONT 100\nNCRATIO -2\nRELIANCE-R 98 106\nUPFRONT-R 100 0\nNCRATIO-R -2 100\n";
    assert_eq!(last_lines(&cents(0), &extension_and_capacity(200, 3)), wanted);
}

#[test]
fn divisors_of_nothing_and_of_one() {
    let uncharged = Book { capacity_charged: 0, ..Book::slip() };
    let capacity_alone = Request { me: 0, distribution_revenue: 0, ..Request::slip() };
    let wanted = "RELIANCE 0\nUPFRONT -\nNCRATIO -\nRELIANCE-R 0 0\nUPFRONT-R -\nNCRATIO-R -\n";
    assert_eq!(last_lines(&uncharged, &capacity_alone), wanted);
    assert_eq!(percentages(&uncharged, &Request::of_nothing()), [None; 3]);
    let dashes = "RELIANCE -\nUPFRONT -\nNCRATIO -\nRELIANCE-R -\nUPFRONT-R -\nNCRATIO-R -\n";
    assert_eq!(last_lines(&uncharged, &Request::of_nothing()), dashes);
    let one_cent = Request { distribution_revenue: 1, part_year: vec![10_000, 0], ..capacity_alone };
    assert_eq!(price(&uncharged.encode(), &one_cent.encode()).unwrap().reconciliation.nc, -107_999);
    let wanted = [Some((0, 0, 0)), Some((0, 0, 0)), Some((-10_799_900, -10_799_900, 0))];
    assert_eq!(percentages(&uncharged, &one_cent), wanted);
}

/// MC + CC2 of 10^12 cents that aren't charged.
#[test]
fn the_lowest_contribution() {
    let book = Book { zones: vec![(1, [10_000_000; 5])], ..cents(0) };
    let tiers = [Tier { mode: 0, demand: 1_000_000, bespoke_rate: 0 }; 5];
    let request = |ce| Request { ce, tiers, added_demands: [1_000_000; 5], ..Request::of_nothing() };
    let rows =
        [(1, (-100_000_000_000_000, -100_000_000_000_000, 0)), (10_000_001, (-9_999_999, -10_000_000, 10_000_000))];
    for (ce, wanted) in rows {
        assert_eq!(percentages(&book, &request(ce))[2], Some(wanted), "CE {ce}");
    }
    assert!(last_lines(&book, &request(1)).ends_with("\nNCRATIO-R -100000000000000 0\n"));
}

/// A whole number as it is written: a minus where negative, no leading zero, no sign of 0.
fn read_number(text: &str) -> Option<i128> {
    let number: i128 = text.parse().ok()?;
    (number.to_string() == text).then_some(number)
}

/// The numbers of a line of this name: none for `-`.
fn read_line(line: &str, name: &str) -> Option<Vec<i128>> {
    let rest = line.strip_prefix(name)?.strip_prefix(' ')?;
    if rest == "-" {
        return Some(Vec::new());
    }
    rest.split(' ').map(read_number).collect()
}

/// Numerator, divisor and the numbers of the line hold together.
fn adds_up(numerator: i128, divisor: i128, line: &[i128]) -> bool {
    match *line {
        [] => divisor == 0,
        [quotient, remainder] => 100 * numerator == quotient * divisor + remainder && (0..divisor).contains(&remainder),
        _ => false,
    }
}

/// What the slip says adds up, by its own CC, IC, IR and NC.
#[test]
fn slips_add_up() {
    const NAMES: [&str; 11] =
        ["CC", "IC", "IR", "NIC", "NC", "RELIANCE", "UPFRONT", "NCRATIO", "RELIANCE-R", "UPFRONT-R", "NCRATIO-R"];
    let mut random = Random::new(14);
    for _ in 0..3_000 {
        let (book, request) = pair(&mut random);
        let text = String::from_utf8(slip(&book.encode(), &request.encode())).unwrap();
        assert!(text.len() <= 236 && text.ends_with('\n'), "{text}");
        let lines: Vec<Vec<i128>> =
            text.lines().zip(NAMES).map(|(line, name)| read_line(line, name).expect("a line of this name")).collect();
        let [cc, ic, ir, nc] = [0, 1, 2, 4].map(|line: usize| lines[line][0]);
        assert_eq!((text.lines().count(), lines.len()), (11, 11));
        assert!(adds_up(cc, ic, &lines[8]) && adds_up(cc, cc + ir, &lines[9]) && adds_up(nc, cc + ir, &lines[10]));
    }
}
