//! Year-one revenue known only between two figures, and what a request comes to between them.

use crate::file;
use crate::table::{Limits, REQUEST};
use crate::unit::{dollars, Unit};
use fikrem::{Bands, PriceBand, Reason, Refusal};

const DISTRIBUTION: &str = "year-one distribution revenue";
const TRANSMISSION: &str = "year-one transmission revenue";

/// The band of two amounts for distribution, or of four, the last two for transmission. Where there are two, transmission
/// is what the request has.
pub fn bands(amounts: &[u64], request: &[u8]) -> Bands {
    let found = file::values(&REQUEST, request).into_iter().find(|found| found.slot.name() == TRANSMISSION);
    let own = found.map_or(0, |found| found.number);
    let amount = |place: usize| amounts.get(place).copied();
    Bands {
        distribution_low: amount(0).unwrap_or(0),
        distribution_high: amount(1).unwrap_or(0),
        transmission_low: amount(2).unwrap_or(own),
        transmission_high: amount(3).unwrap_or(own),
    }
}

/// Each kind of revenue with its low and its high.
fn revenues(bands: Bands) -> [(&'static str, u64, u64); 2] {
    [
        (DISTRIBUTION, bands.distribution_low, bands.distribution_high),
        (TRANSMISSION, bands.transmission_low, bands.transmission_high),
    ]
}

/// The band in a line.
pub fn named(bands: Bands) -> String {
    let range =
        |(name, low, high)| format!("{name} {} to {} dollars", Unit::Dollars.said(low), Unit::Dollars.said(high));
    format!("band: {}\n", revenues(bands).map(range).join(", "))
}

/// The lowest and the highest figures in dollars.
pub fn lines(band: PriceBand) -> String {
    let lines = [
        ("IR", band.lowest_ir as i64, band.highest_ir as i64),
        ("CC", band.lowest_cc as i64, band.highest_cc as i64),
        ("NC", band.lowest_nc, band.highest_nc),
    ];
    lines.map(|(name, low, high)| format!("{name} {} to {} dollars\n", dollars(low), dollars(high))).concat()
}

/// A refusal of the band itself: 3 for an amount past field 08's limit, 15 for a low above its high.
pub fn refused(bands: Bands, refusal: Refusal) -> Option<String> {
    let words = match (refusal.reason, refusal.file) {
        (Reason::ValueNotListed, 0) => revenues(bands).into_iter().find_map(|(name, low, high)| {
            let Limits::Within(_, most) = REQUEST.slots().into_iter().find(|slot| slot.name() == name)?.value.limits
            else {
                return None;
            };
            let past = [low, high].into_iter().find(|&amount| amount > most)?;
            let (past, most) = (Unit::Dollars.said(past), Unit::Dollars.said(most));
            Some(format!("{name} is {past} dollars, allowed are 0.00 to {most}"))
        }),
        (Reason::LowAboveHigh, _) => {
            revenues(bands).into_iter().find(|(_, low, high)| low > high).map(|(name, low, high)| {
                let (low, high) = (Unit::Dollars.said(low), Unit::Dollars.said(high));
                format!("{name} is {low} to {high} dollars, allowed are a low and a high that isn't below it")
            })
        }
        _ => return None,
    };
    let words = words.unwrap_or_else(|| refusal.reason.to_string());
    Some(format!("refused, number {}: the band: {words}", refusal.number()))
}
