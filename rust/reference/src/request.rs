//! Document 01, 'Request'.

use crate::file::{self, Factors, Form, Row, Value};
use crate::rate_book::{HIGHEST_RATE, TIERS};
use crate::refusal::{Refusal, REQUEST};

/// The highest amount of field 05 and the highest year-one revenue.
pub const HIGHEST_AMOUNT: u32 = 1_000_000_000;
/// "A demand is at most 1,000,000."
pub const HIGHEST_DEMAND: u32 = 1_000_000;
/// "capacity (4), 1 to 1,000,000"
pub const HIGHEST_CAPACITY: u32 = 1_000_000;

/// The zone by a one-byte number.
const NARROW_ZONE_TAG: u8 = 0x04;
/// Document 02, E6: "0D (2 bytes) in place of 04".
const WIDE_ZONE_TAG: u8 = 0x0D;

/// The permitted lengths of a request.
pub const ROWS: [Row; 13] = [
    Row::once(0x01, 4),
    Row::once(0x02, 4),
    Row::once(0x03, 1),
    Row::once(NARROW_ZONE_TAG, 1).in_form(Form::Narrow),
    Row::once(0x05, 24),
    Row::once(0x06, 45),
    Row::once(0x07, 20),
    Row::once(0x08, 8),
    Row::factors(0x09),
    Row::factors(0x0A),
    Row::factors(0x0B),
    Row::once(0x0C, 9),
    Row::once(WIDE_ZONE_TAG, 2).in_form(Form::Wide),
];

/// A request whose values are within their limits.
#[derive(Debug, Clone, PartialEq, Eq)]
pub struct Request {
    pub person: u32,
    pub class: Class,
    /// One of one byte is the zone of the same number in two bytes.
    pub zone: u16,
    pub amounts: Amounts,
    pub tiers: [Tier; TIERS],
    /// "five added demands of the customer's enhancement"
    pub added_demands: [u32; TIERS],
    /// Year-one distribution and transmission revenue.
    pub distribution_revenue: u32,
    pub transmission_revenue: u32,
    pub part_year_factors: Factors,
    pub distribution_tariff_factors: Factors,
    pub transmission_tariff_factors: Factors,
    pub joining: Joining,
}

/// Field 03: "0 residential, life 30; 1 non-residential, life 15"; document 02, E3: "the value 2: special pricing, life
/// 15".
#[derive(Debug, Clone, Copy, PartialEq, Eq)]
pub enum Class {
    Residential,
    NonResidential,
    SpecialPricing,
}

/// Field 05: "six 4-byte amounts".
#[derive(Debug, Clone, Copy, PartialEq, Eq)]
pub struct Amounts {
    /// minimum scheme extension ME
    pub me: u32,
    /// customer enhancement extension CE
    pub ce: u32,
    /// distributor enhancement DE
    pub de: u32,
    /// transmission works TW
    pub tw: u32,
    /// historical cost recovery HR
    pub hr: u32,
    /// operating loading OL
    pub ol: u32,
}

/// How a tier is charged: "0 posted, 1 extension-like, 2 bespoke".
#[derive(Debug, Clone, Copy, PartialEq, Eq)]
pub enum Mode {
    Posted,
    ExtensionLike,
    Bespoke,
}

/// A tier of field 06.
#[derive(Debug, Clone, Copy, PartialEq, Eq)]
pub struct Tier {
    pub mode: Mode,
    pub demand: u32,
    pub bespoke_rate: u32,
}

/// Field 0C.
#[derive(Debug, Clone, Copy, PartialEq, Eq)]
pub struct Joining {
    pub month: u16,
    pub capacity: u32,
    /// "scheme joined (2, 0 for none)"
    pub scheme: u16,
    /// "0 none, 1 opted out in writing, 2 real estate"
    pub mark: u8,
}

impl Request {
    /// Reads a request: the file's order, then 3 in byte order.
    pub fn read(bytes: &[u8]) -> Result<Request, Refusal> {
        let mut fields = file::open(bytes, &ROWS, REQUEST)?;
        fields.due().letters(b"CONN")?;
        let person = fields.due().u32();
        let class = Class::read(fields.due())?;
        let narrow_zone = fields.due_if(NARROW_ZONE_TAG).map(|mut zone| u16::from(zone.u8()));
        let amounts = Amounts::read(fields.due(), class)?;
        let tiers = tiers(fields.due())?;
        let mut added_demands = [0; TIERS];
        let mut added = fields.due();
        for demand in &mut added_demands {
            *demand = added.u32_within(0..=HIGHEST_DEMAND)?;
        }
        let mut revenue = fields.due();
        Ok(Request {
            person,
            class,
            amounts,
            tiers,
            added_demands,
            distribution_revenue: revenue.u32_within(0..=HIGHEST_AMOUNT)?,
            transmission_revenue: revenue.u32_within(0..=HIGHEST_AMOUNT)?,
            part_year_factors: fields.due().factors()?,
            distribution_tariff_factors: fields.due().factors()?,
            transmission_tariff_factors: fields.due().factors()?,
            joining: Joining::read(fields.due())?,
            zone: narrow_zone.unwrap_or_else(|| fields.due().u16()),
        })
    }
}

impl Class {
    fn read(mut value: Value<'_>) -> Result<Class, Refusal> {
        Ok(match value.u8_within(0..=2)? {
            0 => Class::Residential,
            1 => Class::NonResidential,
            _ => Class::SpecialPricing,
        })
    }

    /// The last of the years that revenue is counted for.
    pub fn life(self) -> usize {
        match self {
            Class::Residential => 30,
            Class::NonResidential | Class::SpecialPricing => 15,
        }
    }

    /// "Classes 0 and 1 must now have OL 0."
    fn highest_operating_loading(self) -> u32 {
        match self {
            Class::Residential | Class::NonResidential => 0,
            Class::SpecialPricing => HIGHEST_AMOUNT,
        }
    }
}

impl Amounts {
    fn read(mut value: Value<'_>, class: Class) -> Result<Amounts, Refusal> {
        let mut amount = |highest| value.u32_within(0..=highest);
        Ok(Amounts {
            me: amount(HIGHEST_AMOUNT)?,
            ce: amount(HIGHEST_AMOUNT)?,
            de: amount(HIGHEST_AMOUNT)?,
            tw: amount(HIGHEST_AMOUNT)?,
            hr: amount(HIGHEST_AMOUNT)?,
            ol: amount(class.highest_operating_loading())?,
        })
    }
}

/// "for each tier a mode .., demand (4), bespoke rate (4, limited as in 08 in every mode; unused in modes 0 and 1)",
/// 08 of the rate book
fn tiers(mut value: Value<'_>) -> Result<[Tier; TIERS], Refusal> {
    let mut tiers = [Tier { mode: Mode::Posted, demand: 0, bespoke_rate: 0 }; TIERS];
    for tier in &mut tiers {
        tier.mode = match value.u8_within(0..=2)? {
            0 => Mode::Posted,
            1 => Mode::ExtensionLike,
            _ => Mode::Bespoke,
        };
        tier.demand = value.u32_within(0..=HIGHEST_DEMAND)?;
        tier.bespoke_rate = value.u32_within(0..=HIGHEST_RATE)?;
    }
    Ok(tiers)
}

impl Joining {
    fn read(mut value: Value<'_>) -> Result<Joining, Refusal> {
        Ok(Joining {
            month: value.u16(),
            capacity: value.u32_within(1..=HIGHEST_CAPACITY)?,
            scheme: value.u16(),
            mark: value.u8_within(0..=2)?,
        })
    }
}
