//! Document 01, 'Rate book'.

use crate::file::{self, Factors, Form, Row, Value};
use crate::refusal::{Refusal, BOOK};

/// The tiers: LV mains, distribution substation, HV feeder, zone substation, sub-transmission.
pub const TIERS: usize = 5;
/// The most zones in a book.
pub const MOST_ZONES: usize = 8;
/// The highest rate, "cents per kVA".
pub const HIGHEST_RATE: u32 = 10_000_000;
/// The highest threshold.
pub const HIGHEST_THRESHOLD: u32 = 5_000_000;
/// The highest minimum.
pub const HIGHEST_MINIMUM: u32 = 1_000_000_000;
/// The lowest term in months.
pub const LOWEST_TERM: u16 = 84;
/// A factor of one, and a share of all.
pub const ONE: u16 = 10_000;

/// A zone with a one-byte number.
const NARROW_ZONE_TAG: u8 = 0x08;
/// Document 02, E6: "22 bytes, two-byte zone number, else as 08".
const WIDE_ZONE_TAG: u8 = 0x09;

/// The permitted lengths of a rate book.
pub const ROWS: [Row; 9] = [
    Row::once(0x01, 4),
    Row::once(0x02, 2),
    Row::once(0x03, 40),
    Row::factors(0x04),
    Row::factors(0x05),
    Row::once(0x06, 14),
    Row::once(0x07, 3),
    Row::times(NARROW_ZONE_TAG, 21, 1, MOST_ZONES).in_form(Form::Narrow),
    Row::times(WIDE_ZONE_TAG, 22, 1, MOST_ZONES).in_form(Form::Wide),
];

/// A rate book whose values are within their limits.
#[derive(Debug, Clone, PartialEq, Eq)]
pub struct RateBook {
    /// "discount rate b, hundredths of a percent"
    pub discount_rate: u16,
    /// The sum of the five selected opex figures.
    pub opex_sum: u64,
    /// The sum of the five distribution revenue figures.
    pub revenue_sum: u64,
    pub distribution_revenue_factors: Factors,
    pub transmission_revenue_factors: Factors,
    pub scheme_terms: SchemeTerms,
    pub capacity_charged: bool,
    pub credit_share: u16,
    pub zones: Zones,
}

/// Field 06: threshold, fee, minimum and term in months.
#[derive(Debug, Clone, Copy, PartialEq, Eq)]
pub struct SchemeTerms {
    pub threshold: u32,
    pub fee: u32,
    pub minimum: u32,
    pub term: u16,
}

/// "The rates are held as a row of five tiers for each zone."
#[derive(Debug, Clone, Copy, PartialEq, Eq)]
pub struct Zones {
    count: usize,
    numbers: [u16; MOST_ZONES],
    rates: [[u32; TIERS]; MOST_ZONES],
}

impl RateBook {
    /// Reads a rate book: the file's order, then 3 in byte order.
    pub fn read(bytes: &[u8]) -> Result<RateBook, Refusal> {
        let mut fields = file::open(bytes, &ROWS, BOOK)?;
        fields.due().letters(b"RATE")?;
        let discount_rate = fields.due().u16_within(0..=ONE)?;
        let (opex_sum, revenue_sum) = sums(fields.due())?;
        let distribution_revenue_factors = fields.due().factors()?;
        let transmission_revenue_factors = fields.due().factors()?;
        let scheme_terms = SchemeTerms::read(fields.due())?;
        let mut charging = fields.due();
        Ok(RateBook {
            discount_rate,
            opex_sum,
            revenue_sum,
            distribution_revenue_factors,
            transmission_revenue_factors,
            scheme_terms,
            capacity_charged: charging.u8_within(0..=1)? == 1,
            credit_share: charging.u16_within(0..=ONE)?,
            zones: Zones::read(fields)?,
        })
    }
}

/// "five pairs of 4-byte figures": "The opex sum is at most the revenue sum, which isn't 0".
fn sums(mut pairs: Value<'_>) -> Result<(u64, u64), Refusal> {
    let refused = pairs.refused();
    let (mut opex_sum, mut revenue_sum) = (0, 0);
    for _ in 0..5 {
        opex_sum += u64::from(pairs.u32());
        revenue_sum += u64::from(pairs.u32());
    }
    if opex_sum > revenue_sum || revenue_sum == 0 {
        return Err(refused);
    }
    Ok((opex_sum, revenue_sum))
}

impl SchemeTerms {
    fn read(mut value: Value<'_>) -> Result<SchemeTerms, Refusal> {
        let threshold = value.u32_within(0..=HIGHEST_THRESHOLD)?;
        let fee_above_minimum = value.refused();
        let fee = value.u32();
        let minimum = value.clone().u32();
        if fee > minimum {
            return Err(fee_above_minimum);
        }
        value.u32_within(0..=HIGHEST_MINIMUM)?;
        let term = value.u16_within(LOWEST_TERM..=u16::MAX)?;
        Ok(SchemeTerms { threshold, fee, minimum, term })
    }
}

impl Zones {
    /// "zone number (1), each above the last; five 4-byte rates", or document 02's two-byte number
    fn read<'a>(fields: impl Iterator<Item = (u8, Value<'a>)>) -> Result<Zones, Refusal> {
        let mut zones = Zones { count: 0, numbers: [0; MOST_ZONES], rates: [[0; TIERS]; MOST_ZONES] };
        let mut last = None;
        for (tag, mut value) in fields {
            let refused = value.refused();
            let number = if tag == WIDE_ZONE_TAG { value.u16() } else { u16::from(value.u8()) };
            if last.is_some_and(|last| number <= last) {
                return Err(refused);
            }
            last = Some(number);
            for rate in &mut zones.rates[zones.count] {
                *rate = value.u32_within(0..=HIGHEST_RATE)?;
            }
            zones.numbers[zones.count] = number;
            zones.count += 1;
        }
        Ok(zones)
    }

    /// The posted rates of a zone, if it is in the book.
    pub fn posted_rates(&self, zone: u16) -> Option<&[u32; TIERS]> {
        let index = self.numbers[..self.count].iter().position(|&number| number == zone)?;
        Some(&self.rates[index])
    }
}
