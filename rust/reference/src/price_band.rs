//! Usage known only between two figures. Document 02, E5.

use crate::pricing::{Priceable, Reconciliation};
use crate::refusal::{self, Refusal};
use crate::request::HIGHEST_AMOUNT;

/// "lowest and highest IR, CC and NC", each lowest first
#[derive(Debug, Clone, Copy, PartialEq, Eq)]
pub struct PriceBand {
    pub ir: [u64; 2],
    pub cc: [u64; 2],
    pub nc: [i64; 2],
}

/// Prices a request by a book with a band of distribution and one of transmission revenue in the place of its field 08.
///
/// Pricing's refusals in their order. "After 5, a figure past field 08's limit is 3 with file and place 0. Then 15: a low
/// above its high, file and place 0."
pub fn price_band(
    book: &[u8],
    request: &[u8],
    low_distribution: u64,
    high_distribution: u64,
    low_transmission: u64,
    high_transmission: u64,
) -> Result<PriceBand, Refusal> {
    let mut priceable = Priceable::read(book, request)?;
    let distribution = [revenue(low_distribution)?, revenue(high_distribution)?];
    let transmission = [revenue(low_transmission)?, revenue(high_transmission)?];
    if distribution[0] > distribution[1] || transmission[0] > transmission[1] {
        return Err(Refusal::of_call(refusal::LOW_ABOVE_HIGH));
    }
    let ends = [(0, 0), (0, 1), (1, 0), (1, 1)].map(|(of_distribution, of_transmission)| {
        priceable.request.distribution_revenue = distribution[of_distribution];
        priceable.request.transmission_revenue = transmission[of_transmission];
        priceable.bill().reconciliation
    });
    Ok(PriceBand {
        ir: lowest_and_highest(ends, |priced| priced.ir),
        cc: lowest_and_highest(ends, |priced| priced.cc),
        nc: lowest_and_highest(ends, |priced| priced.nc),
    })
}

/// A figure within field 08's limit, or 3.
fn revenue(figure: u64) -> Result<u32, Refusal> {
    u32::try_from(figure)
        .ok()
        .filter(|&revenue| revenue <= HIGHEST_AMOUNT)
        .ok_or(Refusal::of_call(refusal::VALUE_NOT_LISTED))
}

/// Every year's revenue rises or stays with the first year's, IR with it, and CC and NC move one way with IR; so the
/// lowest and the highest stand at ends of the bands.
fn lowest_and_highest<T: Copy + Ord>(ends: [Reconciliation; 4], figure: impl Fn(&Reconciliation) -> T) -> [T; 2] {
    let mut figures = ends.map(|priced| figure(&priced));
    figures.sort_unstable();
    [figures[0], figures[3]]
}
