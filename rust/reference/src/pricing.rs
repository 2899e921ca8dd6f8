//! The charge and its reconciliation. Document 01, 'Charge and reconciliation'.

use crate::rate_book::{RateBook, ONE, TIERS};
use crate::refusal::{self, Refusal};
use crate::request::{Class, Mode, Request, Tier};

/// A factor of one.
const WHOLE: u64 = ONE as u64;
/// F(0), the discount factor of year 0.
pub const DISCOUNT_ONE: u64 = 100_000_000;

/// The reconciliation's twelve amounts.
#[derive(Debug, Clone, Copy, PartialEq, Eq)]
pub struct Reconciliation {
    /// minimum scheme extension ME
    pub me: u64,
    /// MC sums the tiers of field 06
    pub mc: u64,
    /// customer enhancement extension CE
    pub ce: u64,
    /// CC2 sums the demands of field 07 at the same rates and modes
    pub cc2: u64,
    /// transmission works TW
    pub tw: u64,
    /// historical cost recovery HR
    pub hr: u64,
    /// operating loading OL
    pub ol: u64,
    /// IC = ME + MC + CE + CC2 + TW + HR + OL
    pub ic: u64,
    /// IR sums all years, distribution and transmission
    pub ir: u64,
    /// CC = M − used + CE + a × CC2 + TW + HR + OL
    pub cc: u64,
    /// NIC = IC − IR
    pub nic: i64,
    /// NC = IR − used − (1 − a) × (MC + CC2)
    pub nc: i64,
}

/// A percentage, rounded and exact.
#[derive(Debug, Clone, Copy, PartialEq, Eq)]
pub struct Percentage {
    /// "nearest whole, halves away from zero"
    pub rounded: i64,
    /// Document 02, E10: "the whole percent rounded down and the exact remainder: 100 × numerator = quotient × divisor +
    /// remainder, remainder from 0 to divisor − 1, also where NC is negative".
    pub quotient: i64,
    pub remainder: u64,
}

/// What pricing a request by a book comes to, with what the ledger needs of the two.
#[derive(Debug, Clone, Copy, PartialEq, Eq)]
pub struct Bill {
    pub reconciliation: Reconciliation,
    /// X = ME − (smaller of ME and credit) + CE
    pub x: u32,
    /// Cost entered = IC + DE
    pub entered: u64,
    /// borne by the company = used + (1 − a) × (MC + CC2) + DE
    pub borne: u64,
    /// CC/IC; none where the divisor is 0
    pub reliance: Option<Percentage>,
    /// CC/(CC+IR)
    pub upfront: Option<Percentage>,
    /// NC/(CC+IR)
    pub nc_ratio: Option<Percentage>,
    /// The book's threshold, fee, minimum and term.
    pub threshold: u32,
    pub fee: u32,
    pub minimum: u32,
    pub term: u16,
    /// The request's person, month, capacity, scheme joined and mark.
    pub person: u32,
    pub month: u16,
    pub capacity: u32,
    pub scheme: u16,
    pub mark: u8,
}

/// A book and a request that it prices, and the rate at which each tier is charged.
pub(crate) struct Priceable {
    book: RateBook,
    pub(crate) request: Request,
    rates: [u32; TIERS],
}

impl Priceable {
    /// "book, request, 4, 5"
    pub(crate) fn read(book: &[u8], request: &[u8]) -> Result<Priceable, Refusal> {
        let book = RateBook::read(book)?;
        let request = Request::read(request)?;
        let zone_refused = Refusal { number: refusal::ZONE_NOT_IN_BOOK, file: refusal::REQUEST, place: 0 };
        let posted = book.zones.posted_rates(request.zone).ok_or(zone_refused)?;
        let rates = tier_rates(posted, &request.tiers)?;
        Ok(Priceable { book, request, rates })
    }

    pub(crate) fn bill(&self) -> Bill {
        bill(&self.book, &self.request, &self.rates)
    }
}

/// Prices a request by a book. "Pricing (slip): book, request, 4, 5."
pub fn price(book: &[u8], request: &[u8]) -> Result<Bill, Refusal> {
    Ok(Priceable::read(book, request)?.bill())
}

/// The rate at which each tier is charged, 0 where it costs nothing.
fn tier_rates(posted: &[u32; TIERS], tiers: &[Tier; TIERS]) -> Result<[u32; TIERS], Refusal> {
    let mut rates = *posted;
    for (index, (rate, tier)) in rates.iter_mut().zip(tiers).enumerate() {
        match tier.mode {
            Mode::Posted => {}
            Mode::ExtensionLike => *rate = 0,
            Mode::Bespoke if bespoke_allowed(*rate, tier.bespoke_rate) => *rate = tier.bespoke_rate,
            Mode::Bespoke => {
                return Err(Refusal { number: refusal::BESPOKE_NOT_ALLOWED, file: refusal::REQUEST, place: index + 1 });
            }
        }
    }
    Ok(rates)
}

/// "A bespoke rate is allowed only where the posted rate isn't 0 and the bespoke is above 150% or below 80% of it."
pub fn bespoke_allowed(posted: u32, bespoke: u32) -> bool {
    let (posted, bespoke) = (u64::from(posted), u64::from(bespoke));
    posted != 0 && (bespoke * 100 > posted * 150 || bespoke * 100 < posted * 80)
}

/// "A tier costs ⌊rate × demand / 100⌋."
pub fn tier_cost(rate: u32, demand: u32) -> u64 {
    u64::from(rate) * u64::from(demand) / 100
}

/// Opex factor O = ⌊10,000 × (revenue sum − opex sum) / revenue sum⌋, for sums as in field 03.
pub fn opex_factor(opex_sum: u64, revenue_sum: u64) -> u64 {
    WHOLE * (revenue_sum - opex_sum) / revenue_sum
}

/// The opex factor of distribution revenue; document 02, E3, for special pricing: "O taken as 10,000 for distribution
/// too".
fn distribution_opex_factor(book: &RateBook, class: Class) -> u64 {
    match class {
        Class::Residential | Class::NonResidential => opex_factor(book.opex_sum, book.revenue_sum),
        Class::SpecialPricing => WHOLE,
    }
}

/// F(n+1) = ⌊F(n) × 10,000 / (10,000 + b)⌋
pub fn next_discount_factor(factor: u64, discount_rate: u16) -> u64 {
    factor * WHOLE / (WHOLE + u64::from(discount_rate))
}

/// Year n's revenue of one kind, "rounded down after each division"; `factors` are the opex factor, then the part-year,
/// revenue and tariff factor of year n.
pub fn year_revenue(revenue: u32, factors: [u64; 4], discount_factor: u64) -> u64 {
    let before_discount = factors.iter().fold(u64::from(revenue), |amount, factor| amount * factor / WHOLE);
    before_discount * discount_factor / DISCOUNT_ONE
}

/// "IR sums all years, distribution and transmission", for n from 0 to life inclusive.
pub fn incremental_revenue(book: &RateBook, request: &Request) -> u64 {
    let opex_factor = distribution_opex_factor(book, request.class);
    let mut discount_factor = DISCOUNT_ONE;
    let mut sum = 0;
    for year in 0..=request.class.life() {
        let part_year = request.part_year_factors.of_year(year);
        let distribution = [
            opex_factor,
            part_year,
            book.distribution_revenue_factors.of_year(year),
            request.distribution_tariff_factors.of_year(year),
        ];
        let transmission = [
            WHOLE,
            part_year,
            book.transmission_revenue_factors.of_year(year),
            request.transmission_tariff_factors.of_year(year),
        ];
        sum += year_revenue(request.distribution_revenue, distribution, discount_factor);
        sum += year_revenue(request.transmission_revenue, transmission, discount_factor);
        discount_factor = next_discount_factor(discount_factor, book.discount_rate);
    }
    sum
}

/// A percentage: "nearest whole, halves away from zero; none where the divisor is 0".
pub fn percent(numerator: i64, divisor: u64) -> Option<i64> {
    let rounded = (200 * numerator.unsigned_abs() + divisor).checked_div(2 * divisor)? as i64;
    Some(if numerator < 0 { -rounded } else { rounded })
}

/// A percentage with its quotient and remainder; none where the divisor is 0.
pub fn percentage(numerator: i64, divisor: u64) -> Option<Percentage> {
    let rounded = percent(numerator, divisor)?;
    // 100 × numerator is within 10^15 of 0 for every bill, and its divisors are below 10^13
    let (hundredfold, divisor) = (100 * numerator, divisor as i64);
    let quotient = hundredfold.div_euclid(divisor);
    let remainder = hundredfold.rem_euclid(divisor) as u64;
    Some(Percentage { rounded, quotient, remainder })
}

/// The bill, with the tiers charged at `rates`.
fn bill(book: &RateBook, request: &Request, rates: &[u32; TIERS]) -> Bill {
    let amounts = request.amounts;
    let [me, ce, de, tw, hr, ol] =
        [amounts.me, amounts.ce, amounts.de, amounts.tw, amounts.hr, amounts.ol].map(u64::from);
    let mc: u64 = rates.iter().zip(&request.tiers).map(|(&rate, tier)| tier_cost(rate, tier.demand)).sum();
    let cc2: u64 = rates.iter().zip(&request.added_demands).map(|(&rate, &demand)| tier_cost(rate, demand)).sum();
    let ir = incremental_revenue(book, request);
    // a × MC and a × CC2; (1 − a) × (MC + CC2)
    let (charged_mc, charged_cc2, uncharged) = if book.capacity_charged { (mc, cc2, 0) } else { (0, 0, mc + cc2) };
    let m = me + charged_mc;
    let credit = ir * u64::from(book.credit_share) / WHOLE;
    let used = m.min(credit);
    let ic = me + mc + ce + cc2 + tw + hr + ol;
    let cc = m - used + ce + charged_cc2 + tw + hr + ol;
    let nic = ic as i64 - ir as i64;
    let nc = ir as i64 - used as i64 - uncharged as i64;
    Bill {
        reconciliation: Reconciliation { me, mc, ce, cc2, tw, hr, ol, ic, ir, cc, nic, nc },
        x: (me - me.min(credit) + ce) as u32,
        entered: ic + de,
        borne: used + uncharged + de,
        reliance: percentage(cc as i64, ic),
        upfront: percentage(cc as i64, cc + ir),
        nc_ratio: percentage(nc, cc + ir),
        threshold: book.scheme_terms.threshold,
        fee: book.scheme_terms.fee,
        minimum: book.scheme_terms.minimum,
        term: book.scheme_terms.term,
        person: request.person,
        month: request.joining.month,
        capacity: request.joining.capacity,
        scheme: request.joining.scheme,
        mark: request.joining.mark,
    }
}

#[cfg(test)]
mod tests {
    use super::*;

    #[test]
    fn m2_discount_factors() {
        let first = next_discount_factor(DISCOUNT_ONE, 463);
        assert_eq!(first, 95_574_882);
        assert_eq!(next_discount_factor(first, 463), 91_345_581);
    }

    #[test]
    fn m3_opex_factor() {
        assert_eq!(opex_factor(5 * 19_300, 5 * 153_800), 8_745);
    }

    #[test]
    fn m5_bespoke_rates() {
        assert_eq!([12_751, 6_799, 12_750, 6_800].map(|rate| bespoke_allowed(8_500, rate)), [true, true, false, false]);
        assert!(!bespoke_allowed(0, 0) && !bespoke_allowed(0, 10_000_000) && bespoke_allowed(1, 0));
    }

    #[test]
    fn m9_percentages() {
        assert_eq!(percent(-1, 200), Some(-1));
        assert_eq!(percent(1, 200), Some(1));
        assert_eq!(percent(-1, 201), Some(0));
        assert_eq!(percent(1, 201), Some(0));
        assert_eq!(percent(3, 200), Some(2));
        assert_eq!(percent(0, 0), None);
        assert_eq!(percent(-1_000_000_000_000, 1), Some(-100_000_000_000_000));
    }

    #[test]
    fn exact_percentages() {
        let exact = |numerator, divisor| percentage(numerator, divisor).map(|exact| (exact.quotient, exact.remainder));
        assert_eq!(
            [(1, 2), (1, 3), (0, 3), (7, 7)].map(|(n, d)| exact(n, d).unwrap()),
            [(50, 0), (33, 1), (0, 0), (100, 0)]
        );
        assert_eq!([-1, -2, -3].map(|numerator| exact(numerator, 200).unwrap()), [(-1, 100), (-1, 0), (-2, 100)]);
        assert_eq!(exact(-1, 201), Some((-1, 101)));
        assert_eq!(exact(-1_000_000_000_000, 10_000_001), Some((-10_000_000, 10_000_000)));
        assert_eq!([exact(0, 0), exact(1, 0), exact(-1, 0)], [None; 3]);
    }
}
