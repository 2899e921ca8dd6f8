//! Document 01, 'Tagged fields': the check, the walk over a file's fields, and the values in them. Document 02, E6: the
//! two forms of zone numbers.

use crate::refusal::{self, Refusal};
use std::ops::RangeInclusive;

/// "A field is a one-byte tag, a two-byte length, then the value": the bytes before the value.
pub const HEAD_SIZE: usize = 3;
/// The size of the last field, the check.
pub const TAIL_SIZE: usize = 5;
/// Tag and length of the check.
pub const CHECK_HEAD: [u8; HEAD_SIZE] = [0xFF, 0, 2];
/// The most factors that a list holds.
pub const MOST_FACTORS: usize = 8;
/// The highest factor.
pub const HIGHEST_FACTOR: u16 = 40_000;

/// The forms in which a file may give its zone numbers, each in place of the other.
#[derive(Debug, Clone, Copy, PartialEq, Eq)]
pub enum Form {
    /// One-byte numbers: 08 of a book, 04 of a request.
    Narrow,
    /// Two-byte numbers: 09 of a book, 0D of a request.
    Wide,
}

/// "Its permitted lengths stand in one constant table for each kind of file": a row of that table.
#[derive(Debug, Clone, Copy)]
pub struct Row {
    pub tag: u8,
    /// Lowest, highest and step of length.
    pub lowest: usize,
    pub highest: usize,
    pub step: usize,
    /// Least and most times that the field occurs.
    pub least: usize,
    pub most: usize,
    /// The form that the field belongs to, if it isn't in every file.
    pub form: Option<Form>,
}

impl Row {
    /// A field of one length that occurs once.
    pub const fn once(tag: u8, length: usize) -> Row {
        Row::times(tag, length, 1, 1)
    }

    /// A field of one length that occurs `least` to `most` times.
    pub const fn times(tag: u8, length: usize, least: usize, most: usize) -> Row {
        Row { tag, lowest: length, highest: length, step: 1, least, most, form: None }
    }

    /// A list of 1 to 8 factors of 2 bytes.
    pub const fn factors(tag: u8) -> Row {
        Row { tag, lowest: 2, highest: 2 * MOST_FACTORS, step: 2, least: 1, most: 1, form: None }
    }

    /// The row in the files of one form alone.
    pub const fn in_form(self, form: Form) -> Row {
        Row { form: Some(form), ..self }
    }

    /// Where the field at `place` ends, if this row permits it and it ends within `body`.
    fn end_of_field(&self, body: &[u8], place: usize) -> Option<usize> {
        let length = body.get(place + 1..place + HEAD_SIZE)?;
        let length = usize::from(u16::from_be_bytes([length[0], length[1]]));
        let permitted =
            (self.lowest..=self.highest).contains(&length) && (length - self.lowest).is_multiple_of(self.step);
        let end = place + HEAD_SIZE + length;
        (permitted && end <= body.len()).then_some(end)
    }
}

/// The check: "h starts at 0, and each byte makes it (h × 257 + byte + 1) mod 65,521".
pub fn check(bytes: &[u8]) -> u16 {
    bytes.iter().fold(0, |h, &byte| (h * 257 + u32::from(byte) + 1) % 65_521) as u16
}

/// The fields of a file that walks by `rows` and has the right check.
///
/// "Order for a file: 1 for its last five bytes, 2, 1 for the rest."
pub fn open<'a>(bytes: &'a [u8], rows: &[Row], file: u8) -> Result<Fields<'a>, Refusal> {
    let refused = |number, place| Refusal { number, file, place };
    let (body, tail) = bytes.split_last_chunk::<TAIL_SIZE>().ok_or(refused(refusal::FILE_DOES_NOT_WALK, 0))?;
    if !tail.starts_with(&CHECK_HEAD) {
        return Err(refused(refusal::FILE_DOES_NOT_WALK, 0));
    }
    let check_place = bytes.len() - 2;
    if check(&bytes[..check_place]) != u16::from_be_bytes([tail[3], tail[4]]) {
        return Err(refused(refusal::CHECK_DIFFERS, check_place));
    }
    walk(body, rows).map_err(|place| refused(refusal::FILE_DOES_NOT_WALK, place))?;
    Ok(Fields { file, place: 0, rest: body })
}

/// Walks the fields before the check; the offset of the first that can't stand there otherwise.
///
/// A field stands if it does in one of the forms, so the form that goes further has the place. "Both forms in one file, or
/// neither, is 1, at the second form or at the place where the first was due if the rest walks."
fn walk(body: &[u8], rows: &[Row]) -> Result<(), usize> {
    let by = |form| walk_rows(body, rows.iter().filter(|row| row.form.is_none() || row.form == form));
    match (by(Some(Form::Narrow)), by(Some(Form::Wide))) {
        (Ok(()), _) | (_, Ok(())) => Ok(()),
        (Err(first_due), Err(_)) if by(None).is_ok() => Err(first_due),
        (Err(narrow), Err(wide)) => Err(narrow.max(wide)),
    }
}

/// Walks the fields before the check by these rows; the offset of the first that can't stand by them otherwise.
fn walk_rows<'a>(body: &[u8], rows: impl Iterator<Item = &'a Row>) -> Result<(), usize> {
    let mut place = 0;
    for row in rows {
        let mut times = 0;
        while times < row.most && body.get(place) == Some(&row.tag) {
            place = row.end_of_field(body, place).ok_or(place)?;
            times += 1;
        }
        if times < row.least {
            return Err(place);
        }
    }
    if place == body.len() {
        Ok(())
    } else {
        Err(place)
    }
}

/// The fields of a file that walks, one after the other.
#[derive(Debug, Clone)]
pub struct Fields<'a> {
    file: u8,
    place: usize,
    rest: &'a [u8],
}

impl<'a> Fields<'a> {
    /// The value of the next field.
    ///
    /// # Panics
    /// If no field is left; a file that walks has every field that is due.
    pub fn due(&mut self) -> Value<'a> {
        self.next().expect("the file walks").1
    }

    /// The value of the next field, if it has this tag.
    pub fn due_if(&mut self, tag: u8) -> Option<Value<'a>> {
        (self.rest.first() == Some(&tag)).then(|| self.due())
    }
}

impl<'a> Iterator for Fields<'a> {
    /// The field's tag and its value.
    type Item = (u8, Value<'a>);

    fn next(&mut self) -> Option<Self::Item> {
        let (&[tag, high, low], rest) = self.rest.split_first_chunk::<HEAD_SIZE>()?;
        let (value, rest) = rest.split_at(usize::from(u16::from_be_bytes([high, low])));
        let place = self.place + HEAD_SIZE;
        self.place = place + value.len();
        self.rest = rest;
        Some((tag, Value { file: self.file, place, rest: value }))
    }
}

/// A field's value, "that very part of the file and no copy", read from front to back.
#[derive(Debug, Clone)]
pub struct Value<'a> {
    file: u8,
    place: usize,
    rest: &'a [u8],
}

impl Value<'_> {
    /// Refusal 3 at the next byte.
    pub fn refused(&self) -> Refusal {
        Refusal { number: refusal::VALUE_NOT_LISTED, file: self.file, place: self.place }
    }

    /// The next `N` bytes.
    ///
    /// # Panics
    /// If fewer are left; the table of permitted lengths has them all.
    fn take<const N: usize>(&mut self) -> [u8; N] {
        let (taken, rest) = self.rest.split_first_chunk::<N>().expect("the length is permitted");
        self.rest = rest;
        self.place += N;
        *taken
    }

    pub fn u8(&mut self) -> u8 {
        u8::from_be_bytes(self.take())
    }

    pub fn u16(&mut self) -> u16 {
        u16::from_be_bytes(self.take())
    }

    pub fn u32(&mut self) -> u32 {
        u32::from_be_bytes(self.take())
    }

    pub fn u64(&mut self) -> u64 {
        u64::from_be_bytes(self.take())
    }

    pub fn u8_within(&mut self, limits: RangeInclusive<u8>) -> Result<u8, Refusal> {
        let refused = self.refused();
        Some(self.u8()).filter(|number| limits.contains(number)).ok_or(refused)
    }

    pub fn u16_within(&mut self, limits: RangeInclusive<u16>) -> Result<u16, Refusal> {
        let refused = self.refused();
        Some(self.u16()).filter(|number| limits.contains(number)).ok_or(refused)
    }

    pub fn u32_within(&mut self, limits: RangeInclusive<u32>) -> Result<u32, Refusal> {
        let refused = self.refused();
        Some(self.u32()).filter(|number| limits.contains(number)).ok_or(refused)
    }

    /// The letters that tell the kind of file.
    pub fn letters(&mut self, letters: &[u8; 4]) -> Result<(), Refusal> {
        let refused = self.refused();
        if self.take() == *letters {
            Ok(())
        } else {
            Err(refused)
        }
    }

    /// A list of factors, "each 0 to 40,000".
    pub fn factors(&mut self) -> Result<Factors, Refusal> {
        let count = self.rest.len() / 2;
        let mut list = [0; MOST_FACTORS];
        for factor in &mut list[..count] {
            *factor = self.u16_within(0..=HIGHEST_FACTOR)?;
        }
        Ok(Factors { list, last: count - 1 })
    }
}

/// "A list's first factor is year 0's, its last holds for all later years."
#[derive(Debug, Clone, Copy, PartialEq, Eq)]
pub struct Factors {
    list: [u16; MOST_FACTORS],
    last: usize,
}

impl Factors {
    /// The factor of year n.
    pub fn of_year(&self, year: usize) -> u64 {
        u64::from(self.list[year.min(self.last)])
    }
}

#[cfg(test)]
mod tests {
    use super::*;

    #[test]
    fn m1_checks() {
        assert_eq!(check(&[]), 0);
        assert_eq!(check(&[1, 2]), 517);
        assert_eq!(check(&[0xFF, 0xFF]), 527);
    }

    #[test]
    fn factors_hold_from_the_last_on() {
        let mut value = Value { file: 1, place: 0, rest: &[0, 7, 0, 9] };
        let factors = value.factors().unwrap();
        assert_eq!([0, 1, 2, 30].map(|year| factors.of_year(year)), [7, 9, 9, 9]);
    }
}
