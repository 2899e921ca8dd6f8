//! Pricing, the price band, the slip and the page.

use crate::raw::{self, ANSWER, BAND, FIGURES};
use crate::refusal::Refusal;

/// The most bytes that a slip has.
pub const LONGEST_SLIP: usize = raw::TEXT_SIZE;

/// The bytes of a page: 12 lines of 64.
pub const PAGE: usize = raw::PAGE_SIZE;

/// A percentage, in whole percent: "100 × numerator = quotient × divisor + remainder, remainder from 0 to divisor − 1".
#[derive(Debug, Clone, Copy, PartialEq, Eq)]
pub struct Percentage {
    /// nearest whole, halves away from zero
    pub rounded: i64,
    /// rounded down, below 0 too
    pub quotient: i64,
    /// what the quotient leaves of 100 times the numerator
    pub remainder: u64,
}

/// What pricing a request by a book comes to, in cents and whole percent.
#[derive(Debug, Clone, Copy, PartialEq, Eq)]
pub struct Bill {
    /// minimum scheme extension ME
    pub me: u64,
    /// MC sums the tiers of field 06
    pub mc: u64,
    /// customer enhancement extension CE
    pub ce: u64,
    /// CC2 sums the demands of field 07 at the same rates and modes
    pub cc2: u64,
    /// transmission works TW
    pub tw: u64,
    /// historical cost recovery HR
    pub hr: u64,
    /// operating loading OL, 0 but for special pricing
    pub ol: u64,
    /// IC = ME + MC + CE + CC2 + TW + HR + OL
    pub ic: u64,
    /// IR sums all years, distribution and transmission
    pub ir: u64,
    /// the connection charge CC, which holds no pioneer contribution: a joiner owes it and what was collected
    pub cc: u64,
    /// NIC = IC − IR
    pub nic: i64,
    /// NC = IR − used − (1 − a) × (MC + CC2)
    pub nc: i64,
    /// X = ME − (smaller of ME and credit) + CE
    pub x: u64,
    /// Cost entered = IC + DE
    pub entered: u64,
    /// borne by the company
    pub borne: u64,
    /// CC/IC; none where the divisor is 0
    pub reliance: Option<Percentage>,
    /// CC/(CC+IR)
    pub upfront: Option<Percentage>,
    /// NC/(CC+IR)
    pub nc_ratio: Option<Percentage>,
}

impl Bill {
    pub(crate) fn of(figures: &[i64; FIGURES]) -> Bill {
        // only NIC, NC, percentages and quotients are ever below 0
        let amount = |place: usize| figures[place] as u64;
        let percentage = |told: usize, quotient: usize| {
            let (rounded, remainder) = (figures[told + 1], figures[quotient + 1] as u64);
            (figures[told] == 1).then_some(Percentage { rounded, quotient: figures[quotient], remainder })
        };
        Bill {
            me: amount(raw::ME),
            mc: amount(raw::MC),
            ce: amount(raw::CE),
            cc2: amount(raw::CC2),
            tw: amount(raw::TW),
            hr: amount(raw::HR),
            ol: amount(raw::OL),
            ic: amount(raw::IC),
            ir: amount(raw::IR),
            cc: amount(raw::CC),
            nic: figures[raw::NIC],
            nc: figures[raw::NC],
            x: amount(raw::X),
            entered: amount(raw::ENTERED),
            borne: amount(raw::BORNE),
            reliance: percentage(raw::HAS_RELIANCE, raw::RELIANCE_QUOTIENT),
            upfront: percentage(raw::HAS_UPFRONT, raw::UPFRONT_QUOTIENT),
            nc_ratio: percentage(raw::HAS_NCRATIO, raw::NCRATIO_QUOTIENT),
        }
    }
}

/// Prices a request by a book.
pub fn price(book: &[u8], request: &[u8]) -> Result<Bill, Refusal> {
    let mut figures = [0; FIGURES];
    match raw::price(book, request, &mut figures) {
        raw::DONE => Ok(Bill::of(&figures)),
        result => Err(Refusal::of(result)),
    }
}

/// Year-one revenue known only between two figures, in cents: what stands in for the request's field 08.
#[derive(Debug, Clone, Copy, PartialEq, Eq)]
pub struct Bands {
    pub distribution_low: u64,
    pub distribution_high: u64,
    pub transmission_low: u64,
    pub transmission_high: u64,
}

/// Lowest and highest IR, CC and NC, in cents.
#[derive(Debug, Clone, Copy, PartialEq, Eq)]
pub struct PriceBand {
    pub lowest_ir: u64,
    pub highest_ir: u64,
    pub lowest_cc: u64,
    pub highest_cc: u64,
    pub lowest_nc: i64,
    pub highest_nc: i64,
}

/// What pricing a request by a book comes to at least and at most, for any revenues inside the bands; refused after 5 by
/// 3, file and place 0, where a figure is above 1,000,000,000, then by 15 where a low is above its high.
pub fn price_band(book: &[u8], request: &[u8], bands: Bands) -> Result<PriceBand, Refusal> {
    let Bands { distribution_low, distribution_high, transmission_low, transmission_high } = bands;
    let revenues = [distribution_low, distribution_high, transmission_low, transmission_high];
    let mut figures = [0; BAND];
    match raw::price_band(book, request, revenues, &mut figures) {
        raw::DONE => Ok(PriceBand {
            // IR and CC are never below 0
            lowest_ir: figures[raw::LOWEST_IR] as u64,
            highest_ir: figures[raw::HIGHEST_IR] as u64,
            lowest_cc: figures[raw::LOWEST_CC] as u64,
            highest_cc: figures[raw::HIGHEST_CC] as u64,
            lowest_nc: figures[raw::LOWEST_NC],
            highest_nc: figures[raw::HIGHEST_NC],
        }),
        result => Err(Refusal::of(result)),
    }
}

/// The slip's lines; of a request that isn't priced, "the one line `REFUSED n file place`".
pub fn slip_text(book: &[u8], request: &[u8]) -> String {
    let (mut text, mut answer) = (vec![0; LONGEST_SLIP], [0; ANSWER]);
    // always done: there is room for the longest slip
    raw::slip_text(book, request, &mut text, &mut answer);
    text.truncate(answer[raw::WRITTEN] as usize);
    String::from_utf8_lossy(&text).into_owned()
}

/// Writes the slip's lines and says how many bytes they have; refused by 14 where there is no room for them.
pub fn slip_text_into(book: &[u8], request: &[u8], text: &mut [u8]) -> Result<usize, Refusal> {
    let mut answer = [0; ANSWER];
    match raw::slip_text(book, request, text, &mut answer) {
        raw::DONE => Ok(answer[raw::WRITTEN] as usize),
        result => Err(Refusal::of(result)),
    }
}

/// The reconciliation as a page: "12 lines of 64 bytes, byte 0A last on each".
pub fn page(book: &[u8], request: &[u8]) -> Result<[u8; PAGE], Refusal> {
    let mut page = [0; PAGE];
    page_into(book, request, &mut page)?;
    Ok(page)
}

/// Writes the page at the start of the output; refused by 14, after 5, where that is shorter.
pub fn page_into(book: &[u8], request: &[u8], out: &mut [u8]) -> Result<(), Refusal> {
    match raw::page(book, request, out) {
        raw::DONE => Ok(()),
        result => Err(Refusal::of(result)),
    }
}
