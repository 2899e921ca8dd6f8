//! What a page says, by the grammar of its lines alone. Document 02, E1: "For each line, the amount can be read off the
//! page in one way only, and it is that of the charge."

/// The label's columns, the amount's and the byte that ends a line.
const LABEL: usize = 32;
const AMOUNT: usize = 31;
const END: u8 = 0x0A;

/// A line as it reads: its label, and its amount in cents.
#[derive(Debug, Clone, PartialEq, Eq)]
pub struct Line {
    pub label: String,
    pub cents: i128,
}

/// The page's lines, if each reads as one.
pub fn read_page(page: &[u8]) -> Option<Vec<Line>> {
    let lines = page.chunks_exact(LABEL + AMOUNT + 1);
    if !lines.remainder().is_empty() {
        return None;
    }
    lines.map(read_line).collect()
}

/// A label from the left, blanks up to the amount's columns, the amount, byte 0A.
fn read_line(line: &[u8]) -> Option<Line> {
    let (label, rest) = line.split_at_checked(LABEL)?;
    let (amount, end) = rest.split_first_chunk()?;
    let label = std::str::from_utf8(label).ok()?.trim_end_matches(' ');
    let letters = label.chars().all(|letter| letter.is_ascii_uppercase() || letter.is_ascii_digit());
    if end != [END] || label.is_empty() || !letters {
        return None;
    }
    Some(Line { label: label.to_string(), cents: read_amount(amount)? })
}

/// The amount in cents that all 31 columns together say: blanks, then one amount that ends in the last column. It is a
/// minus where it is negative, a first group of one to three digits, further groups of a comma and three digits, a point
/// and two digits. The first group has a leading zero only where it is 0 and the only group, and 0 has no minus.
pub fn read_amount(columns: &[u8; AMOUNT]) -> Option<i128> {
    let blanks = columns.iter().take_while(|&&byte| byte == b' ').count();
    let (negative, rest) = match &columns[blanks..] {
        [b'-', rest @ ..] => (true, rest),
        rest => (false, rest),
    };
    let (dollars, rest) = read_dollars(rest)?;
    let [b'.', tens, ones] = *rest else {
        return None;
    };
    let cents = dollars * 100 + digit(tens)? * 10 + digit(ones)?;
    match (negative, cents) {
        (true, 0) => None,
        (true, cents) => Some(-cents),
        (false, cents) => Some(cents),
    }
}

/// The whole dollars that the bytes begin with, and the bytes after them.
fn read_dollars(bytes: &[u8]) -> Option<(i128, &[u8])> {
    let digits = bytes.iter().take_while(|byte| byte.is_ascii_digit()).count();
    let (first, mut rest) = bytes.split_at(digits);
    let leading_zero = first.first() == Some(&b'0');
    if !(1..=3).contains(&digits) || (leading_zero && digits > 1) {
        return None;
    }
    let mut dollars = first.iter().try_fold(0, |number, &byte| Some(number * 10 + digit(byte)?))?;
    while let [b',', hundreds, tens, ones, after @ ..] = rest {
        if leading_zero {
            return None;
        }
        dollars = dollars * 1_000 + digit(*hundreds)? * 100 + digit(*tens)? * 10 + digit(*ones)?;
        rest = after;
    }
    Some((dollars, rest))
}

fn digit(byte: u8) -> Option<i128> {
    byte.is_ascii_digit().then(|| i128::from(byte - b'0'))
}
