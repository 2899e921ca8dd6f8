//! Pricing held against the formulas of document 01, 'Charge and reconciliation', and document 02, E3, worked out from the
//! plain values in 128 bits.

use generate::request::pair;
use generate::{Book, Random, Request};
use reference::pricing::{next_discount_factor, DISCOUNT_ONE};
use reference::{price, Bill, Percentage};

fn factor(list: &[u16], year: usize) -> i128 {
    i128::from(*list.get(year).or(list.last()).unwrap())
}

fn incremental_revenue(book: &Book, request: &Request) -> i128 {
    let opex: i128 = book.pairs.iter().map(|pair| i128::from(pair.0)).sum();
    let revenue: i128 = book.pairs.iter().map(|pair| i128::from(pair.1)).sum();
    let life = if request.class == 0 { 30 } else { 15 };
    let opex_factor = if request.class == 2 { 10_000 } else { 10_000 * (revenue - opex) / revenue };
    let kinds = [
        (request.distribution_revenue, opex_factor, &book.distribution_factors, &request.distribution_tariffs),
        (request.transmission_revenue, 10_000, &book.transmission_factors, &request.transmission_tariffs),
    ];
    let mut sum = 0;
    for (first_year, opex_factor, factors, tariffs) in kinds {
        let mut discount = 100_000_000;
        for year in 0..=life {
            let mut amount = i128::from(first_year) * opex_factor / 10_000;
            amount = amount * factor(&request.part_year, year) / 10_000;
            amount = amount * factor(factors, year) / 10_000;
            amount = amount * factor(tariffs, year) / 10_000;
            sum += amount * discount / 100_000_000;
            discount = discount * 10_000 / (10_000 + i128::from(book.discount_rate));
        }
    }
    sum
}

fn percent(numerator: i128, divisor: i128) -> Option<i64> {
    if divisor == 0 {
        return None;
    }
    let whole = numerator.abs() * 100 / divisor;
    let over = numerator.abs() * 100 % divisor;
    let rounded = whole + i128::from(2 * over >= divisor);
    Some((rounded * numerator.signum()) as i64)
}

/// The rounded percentage is the documents', the exact one adds up, and the one follows from the other.
fn compare_percentage(found: Option<Percentage>, numerator: i128, divisor: i128) {
    assert_eq!(found.map(|found| found.rounded), percent(numerator, divisor));
    let Some(Percentage { rounded, quotient, remainder }) = found else {
        return;
    };
    let (quotient, remainder) = (i128::from(quotient), i128::from(remainder));
    assert_eq!(100 * numerator, quotient * divisor + remainder);
    assert!((0..divisor).contains(&remainder));
    let up = 2 * remainder > divisor || (2 * remainder == divisor && quotient >= 0);
    assert_eq!(i128::from(rounded), quotient + i128::from(up));
}

/// ME MC CE CC2 TW HR OL IC IR CC NIC NC, X, entered, borne.
fn amounts(book: &Book, request: &Request) -> [i128; 15] {
    let rates = book.rates(request.zone).unwrap();
    let cost = |demand: &dyn Fn(usize) -> u32| -> i128 {
        (0..5)
            .map(|tier| match request.tiers[tier].mode {
                0 => i128::from(rates[tier]) * i128::from(demand(tier)) / 100,
                1 => 0,
                _ => i128::from(request.tiers[tier].bespoke_rate) * i128::from(demand(tier)) / 100,
            })
            .sum()
    };
    let mc = cost(&|tier| request.tiers[tier].demand);
    let cc2 = cost(&|tier| request.added_demands[tier]);
    let [me, ce, de, tw, hr, ol] =
        [request.me, request.ce, request.de, request.tw, request.hr, request.ol].map(i128::from);
    let a = i128::from(book.capacity_charged);
    let ir = incremental_revenue(book, request);
    let credit = ir * i128::from(book.credit_share) / 10_000;
    let m = me + a * mc;
    let used = m.min(credit);
    let ic = me + mc + ce + cc2 + tw + hr + ol;
    let cc = m - used + ce + a * cc2 + tw + hr + ol;
    let nc = ir - used - (1 - a) * (mc + cc2);
    let borne = used + (1 - a) * (mc + cc2) + de;
    [me, mc, ce, cc2, tw, hr, ol, ic, ir, cc, ic - ir, nc, me - me.min(credit) + ce, ic + de, borne]
}

fn of_bill(bill: &Bill) -> [i128; 15] {
    let r = bill.reconciliation;
    let [me, mc, ce, cc2, tw, hr, ol, ic, ir, cc] =
        [r.me, r.mc, r.ce, r.cc2, r.tw, r.hr, r.ol, r.ic, r.ir, r.cc].map(i128::from);
    let (x, entered, borne) = (bill.x.into(), bill.entered.into(), bill.borne.into());
    [me, mc, ce, cc2, tw, hr, ol, ic, ir, cc, r.nic.into(), r.nc.into(), x, entered, borne]
}

fn compare(book: &Book, request: &Request) {
    let bill =
        price(&book.encode(), &request.encode()).unwrap_or_else(|refusal| panic!("{refusal}: {book:?} {request:?}"));
    let wanted = amounts(book, request);
    assert_eq!(of_bill(&bill), wanted, "{book:?} {request:?}");
    let [.., ic, ir, cc, _, nc, _, _, _] = wanted;
    compare_percentage(bill.reliance, cc, ic);
    compare_percentage(bill.upfront, cc, cc + ir);
    compare_percentage(bill.nc_ratio, nc, cc + ir);
    assert_eq!(i128::from(bill.entered), cc + i128::from(bill.borne), "cost entered = charged + borne");
    let sums = bill.reconciliation;
    assert_eq!(i128::from(sums.cc) - i128::from(sums.nc), sums.nic.into(), "CC − NC = NIC");
    assert_eq!(
        (bill.threshold, bill.fee, bill.minimum, bill.term),
        (book.threshold, book.fee, book.minimum, book.term)
    );
    assert_eq!(
        (bill.person, bill.month, bill.capacity, bill.scheme, bill.mark),
        (request.person, request.month, request.capacity, request.scheme, request.mark)
    );
}

#[test]
fn random_pairs() {
    let mut random = Random::new(1);
    for _ in 0..4_000 {
        let (book, request) = pair(&mut random);
        for class in [0, 1, 2] {
            let ol = if class == 2 { request.ol } else { 0 };
            compare(&book, &Request { class, ol, ..request.clone() });
        }
    }
}

/// Every value at its highest: no sum and no product leaves its width.
#[test]
fn highest_values() {
    let highest = vec![40_000; 8];
    let most = 1_000_000_000;
    for (capacity_charged, class, ol, credit_share) in
        [(0, 0, 0, 0), (1, 0, 0, 0), (0, 0, 0, 10_000), (1, 1, 0, 10_000), (1, 2, most, 10_000), (0, 2, most, 0)]
    {
        let book = Book {
            pairs: [(0, u32::MAX); 5],
            distribution_factors: highest.clone(),
            transmission_factors: highest.clone(),
            capacity_charged,
            credit_share,
            zones: vec![(255, [10_000_000; 5])],
            ..Book::slip()
        };
        let tier = generate::request::Tier { mode: 0, demand: 1_000_000, bespoke_rate: 10_000_000 };
        let request = Request {
            class,
            zone: 255,
            me: most,
            ce: most,
            de: most,
            tw: most,
            hr: most,
            ol,
            tiers: [tier; 5],
            added_demands: [1_000_000; 5],
            distribution_revenue: most,
            transmission_revenue: most,
            part_year: highest.clone(),
            distribution_tariffs: highest.clone(),
            transmission_tariffs: highest.clone(),
            ..Request::slip()
        };
        compare(&book, &request);
        compare(&book, &Request { distribution_revenue: 0, transmission_revenue: 0, ..request });
    }
}

/// The bench mistakes: capacity stays in IC though it isn't charged, DE isn't charged, five roundings.
#[test]
fn bench_mistakes() {
    let book = Book { capacity_charged: 0, ..Book::slip() };
    let bill = price(&book.encode(), &Request { de: 777, ..Request::slip() }.encode()).unwrap();
    assert_eq!((bill.reconciliation.ic, bill.reconciliation.cc), (1_706_500, 1_598_500 - 558_870));
    assert_eq!((bill.entered, bill.borne), (1_706_500 + 777, 558_870 + 108_000 + 777));
    let request = Request {
        distribution_revenue: 3,
        part_year: vec![5_000, 0],
        distribution_tariffs: vec![20_000],
        ..Request::slip()
    };
    assert_eq!(price(&book.encode(), &request.encode()).unwrap().reconciliation.ir, 2);
}

/// A natural number of any size: limbs of 32 bits, the lowest first.
#[derive(Clone)]
struct Natural([u32; 20]);

impl Natural {
    fn times(mut self, factor: u64) -> Natural {
        let mut carry = 0;
        for limb in &mut self.0 {
            carry += u128::from(*limb) * u128::from(factor);
            *limb = carry as u32;
            carry >>= 32;
        }
        assert_eq!(carry, 0);
        self
    }

    fn above(&self, other: &Natural) -> bool {
        self.0.iter().rev().gt(other.0.iter().rev())
    }
}

/// Demand 2: the discount factor of year n is never above its exact value, and for n of 1 or more less than n
/// hundred-millionths below it; for every rate and year, exactly.
#[test]
fn discount_factors_stay_by_their_exact_value() {
    let mut one = [0; 20];
    one[0] = 1;
    for b in 0..=10_000 {
        let (mut factor, mut exact, mut divisor) = (DISCOUNT_ONE, Natural(one).times(DISCOUNT_ONE), Natural(one));
        for n in 1..=30 {
            factor = next_discount_factor(factor, b);
            exact = exact.times(10_000);
            divisor = divisor.times(10_000 + u64::from(b));
            assert!(!divisor.clone().times(factor).above(&exact), "b {b}, year {n}: above");
            assert!(divisor.clone().times(factor + n).above(&exact), "b {b}, year {n}: n hundred-millionths below");
        }
    }
}
