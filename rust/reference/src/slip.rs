//! The slip's text. Document 01, 'The slip', and document 02, E10.

use crate::pricing::{price, Bill, Percentage, Reconciliation};
use crate::refusal::Refusal;

/// The slip for a rate book and a request: the figures, or "the one line `REFUSED n file place`".
pub fn slip(book: &[u8], request: &[u8]) -> Vec<u8> {
    match price(book, request) {
        Ok(bill) => figures(&bill),
        Err(refusal) => refused(&refusal),
    }
    .into_bytes()
}

/// "each line ended by byte 0A, cents, then the three percentages"; document 02, E10: "three lines after NCRATIO, named
/// RELIANCE-R, UPFRONT-R and NCRATIO-R".
fn figures(bill: &Bill) -> String {
    let Reconciliation { cc, ic, ir, nic, nc, .. } = bill.reconciliation;
    let amounts = format!("CC {cc}\nIC {ic}\nIR {ir}\nNIC {nic}\nNC {nc}\n");
    let percentages = [("RELIANCE", bill.reliance), ("UPFRONT", bill.upfront), ("NCRATIO", bill.nc_ratio)];
    let rounded = percentages.map(|(name, percentage)| format!("{name} {}\n", rounded(percentage)));
    let exact = percentages.map(|(name, percentage)| format!("{name}-R {}\n", exact(percentage)));
    amounts + &rounded.concat() + &exact.concat()
}

/// "none" is written `-`.
fn rounded(percentage: Option<Percentage>) -> String {
    percentage.map_or("-".to_string(), |percentage| percentage.rounded.to_string())
}

/// "each with quotient, a blank, remainder; `-` where the divisor is 0"
fn exact(percentage: Option<Percentage>) -> String {
    percentage.map_or("-".to_string(), |percentage| format!("{} {}", percentage.quotient, percentage.remainder))
}

/// "A refusal is the one line `REFUSED n file place`."
pub(crate) fn refused(refusal: &Refusal) -> String {
    format!("REFUSED {} {} {}\n", refusal.number, refusal.file, refusal.place)
}
