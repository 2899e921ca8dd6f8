//! Figures in people's units. A figure is a whole number of its unit's last decimal all the way: nothing is rounded.

/// What a value is counted in.
#[derive(Debug, Clone, Copy, PartialEq, Eq)]
pub enum Unit {
    Number,
    Dollars,
    DollarsPerKva,
    ThousandDollars,
    Kva,
    Percent,
    Factor,
    /// Year × 12 + (month − 1), written `2026-04`.
    Month,
    /// One of these words, numbered from 0.
    Choice(&'static [&'static str]),
}

/// Why a text is no figure of a unit.
#[derive(Debug, Clone, Copy, PartialEq, Eq)]
pub enum Unread {
    NoFigure,
    /// It has more decimals than the unit.
    Decimals,
    /// It has commas, and not all of the unit's decimals: the comma may stand for the point.
    Commas,
}

impl Unit {
    pub fn decimals(self) -> usize {
        match self {
            Unit::Dollars | Unit::DollarsPerKva | Unit::Kva | Unit::Percent => 2,
            Unit::Factor => 4,
            Unit::Number | Unit::ThousandDollars | Unit::Month | Unit::Choice(_) => 0,
        }
    }

    /// The unit's name after a figure, with a blank before it.
    pub fn suffix(self) -> &'static str {
        match self {
            Unit::Dollars => " dollars",
            Unit::DollarsPerKva => " dollars per kVA",
            Unit::ThousandDollars => " thousand dollars",
            Unit::Kva => " kVA",
            Unit::Percent => " percent",
            Unit::Number | Unit::Factor | Unit::Month | Unit::Choice(_) => "",
        }
    }

    /// The number that a text says; the highest there is where it is past all bounds.
    pub fn read(self, text: &str) -> Result<u64, Unread> {
        match self {
            Unit::Month => month(text).ok_or(Unread::NoFigure),
            Unit::Choice(words) => {
                let found = words.iter().position(|word| word.eq_ignore_ascii_case(text));
                found.map(|place| place as u64).ok_or(Unread::NoFigure)
            }
            Unit::Dollars | Unit::DollarsPerKva => {
                figure(text.strip_prefix('$').unwrap_or(text).trim_start(), self.decimals())
            }
            Unit::Percent => figure(text.strip_suffix('%').unwrap_or(text).trim_end(), self.decimals()),
            Unit::Number | Unit::ThousandDollars | Unit::Kva | Unit::Factor => figure(text, self.decimals()),
        }
    }

    /// The number as a text has it, which `read` reads; of a choice that there isn't, its number.
    pub fn written(self, number: u64) -> String {
        match self {
            Unit::Month => format!("{:04}-{:02}", number / 12, number % 12 + 1),
            Unit::Choice(words) => match usize::try_from(number).ok().and_then(|place| words.get(place)) {
                Some(word) => word.to_string(),
                None => number.to_string(),
            },
            _ => pointed(&number.to_string(), self.decimals()),
        }
    }

    /// The number as a sentence has it: where there are decimals, with commas between thousands.
    pub fn said(self, number: u64) -> String {
        let text = self.written(number);
        match text.split_once('.') {
            Some((whole, decimals)) => format!("{}.{decimals}", grouped(whole)),
            None => text,
        }
    }
}

/// An amount of cents in dollars, as a sentence has it.
pub fn dollars(cents: i64) -> String {
    let sign = if cents < 0 { "-" } else { "" };
    format!("{sign}{}", Unit::Dollars.said(cents.unsigned_abs()))
}

/// The digits with a point before so many of them.
fn pointed(digits: &str, decimals: usize) -> String {
    if decimals == 0 {
        return digits.to_string();
    }
    let digits = format!("{digits:0>width$}", width = decimals + 1);
    let (whole, fraction) = digits.split_at(digits.len() - decimals);
    format!("{whole}.{fraction}")
}

/// The digits with a comma between thousands.
fn grouped(digits: &str) -> String {
    let mut text = String::new();
    for (place, digit) in digits.chars().enumerate() {
        if place > 0 && (digits.len() - place).is_multiple_of(3) {
            text.push(',');
        }
        text.push(digit);
    }
    text
}

fn is_digits(text: &str) -> bool {
    !text.is_empty() && text.bytes().all(|byte| byte.is_ascii_digit())
}

/// `1234.5` or `1,234.50` as a number of the last of so many decimals.
fn figure(text: &str, decimals: usize) -> Result<u64, Unread> {
    let (whole, fraction) = text.split_once('.').map_or((text, None), |(whole, fraction)| (whole, Some(fraction)));
    let groups: Vec<&str> = whole.split(',').collect();
    let rightly_grouped = groups.iter().skip(1).all(|group| group.len() == 3);
    if !groups.iter().all(|group| is_digits(group)) || !rightly_grouped || fraction.is_some_and(|f| !is_digits(f)) {
        return Err(Unread::NoFigure);
    }
    let (fraction, commas) = (fraction.unwrap_or(""), groups.len() > 1);
    if commas && groups.first().is_some_and(|group| group.len() > 3) {
        return Err(Unread::NoFigure);
    }
    if fraction.len() > decimals {
        return Err(Unread::Decimals);
    }
    if commas && fraction.len() < decimals {
        return Err(Unread::Commas);
    }
    let digits = groups.concat() + &format!("{fraction:0<decimals$}");
    let digit = |byte: u8| u64::from(byte.saturating_sub(b'0'));
    Ok(digits.bytes().fold(0u64, |number, byte| number.saturating_mul(10).saturating_add(digit(byte))))
}

/// `2026-04` as year × 12 + (month − 1).
fn month(text: &str) -> Option<u64> {
    let (year, month) = text.split_once('-')?;
    if year.len() != 4 || month.len() != 2 || !is_digits(year) || !is_digits(month) {
        return None;
    }
    let (year, month): (u64, u64) = (year.parse().ok()?, month.parse().ok()?);
    (1..=12).contains(&month).then(|| year * 12 + month - 1)
}
