//! The reconciliation as a page. Document 02, E1.

use crate::pricing::{price, Reconciliation};
use crate::refusal::{self, Refusal};
use crate::slip::refused;

/// "12 lines of 64 bytes, byte 0A last on each"
pub const LINES: usize = 12;
/// The bytes of a line.
pub const LINE_SIZE: usize = 64;
/// "A line has a label of 32 bytes padded with blanks"
pub const LABEL_SIZE: usize = 32;
/// "then 31 bytes of amount, right-aligned"
pub const AMOUNT_SIZE: usize = 31;
/// The bytes of a page.
pub const PAGE_SIZE: usize = LINES * LINE_SIZE;

/// Writes the page of a rate book and a request and leaves output past it alone. Pricing's refusals in their order, and
/// "An output under 768 bytes is 14, after 5".
pub fn page(book: &[u8], request: &[u8], output: &mut [u8]) -> Result<(), Refusal> {
    let bill = price(book, request)?;
    let place = output.get_mut(..PAGE_SIZE).ok_or(Refusal::of_call(refusal::OUTPUT_TOO_SHORT))?;
    let text: String = lines(&bill.reconciliation).iter().map(|(label, cents)| line(label, *cents)).collect();
    place.copy_from_slice(text.as_bytes());
    Ok(())
}

/// What the program `page` prints: the page, or a refusal's line as the slip has it.
pub fn printed(book: &[u8], request: &[u8]) -> Vec<u8> {
    let mut output = vec![0; PAGE_SIZE];
    match page(book, request, &mut output) {
        Ok(()) => output,
        Err(refusal) => refused(&refusal).into_bytes(),
    }
}

/// "The lines are ME, MC, CE, CC2, TW, HR, OL, IC, IR, CC, NIC, NC, under the names of document 01."
pub fn lines(amounts: &Reconciliation) -> [(&'static str, i64); LINES] {
    // each is far below 2^63: IC is at most 1,005,000,000,000 and IR at most 3,968,000,000,000
    let whole = |cents: u64| cents as i64;
    [
        ("ME", whole(amounts.me)),
        ("MC", whole(amounts.mc)),
        ("CE", whole(amounts.ce)),
        ("CC2", whole(amounts.cc2)),
        ("TW", whole(amounts.tw)),
        ("HR", whole(amounts.hr)),
        ("OL", whole(amounts.ol)),
        ("IC", whole(amounts.ic)),
        ("IR", whole(amounts.ir)),
        ("CC", whole(amounts.cc)),
        ("NIC", amounts.nic),
        ("NC", amounts.nc),
    ]
}

/// A line: the label from the left, the amount from the right, byte 0A.
pub fn line(label: &str, cents: i64) -> String {
    format!("{label:<LABEL_SIZE$}{:>AMOUNT_SIZE$}\n", amount(cents))
}

/// "as dollars with two decimals, a comma between thousands and a leading minus where negative"
pub fn amount(cents: i64) -> String {
    let minus = if cents < 0 { "-" } else { "" };
    let magnitude = cents.unsigned_abs();
    format!("{minus}{}.{:02}", thousands(magnitude / 100), magnitude % 100)
}

/// The number with a comma before each three digits that others precede.
fn thousands(number: u64) -> String {
    if number < 1_000 {
        return number.to_string();
    }
    format!("{},{:03}", thousands(number / 1_000), number % 1_000)
}
