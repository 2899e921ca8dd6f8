//! The values of a file, found by the table of fields. Nothing is judged here: of a file that doesn't walk, what can be
//! found is found.

use crate::table::{Field, Form, Kind, Slot, KINDS};

/// A field's tag and length.
pub const HEAD_SIZE: usize = 3;
/// The last field, FF of length 2.
pub const CHECK_HEAD: [u8; HEAD_SIZE] = [0xFF, 0, 2];
pub const TAIL_SIZE: usize = 5;

/// A value of a file: where it stands, and its number.
pub struct Found {
    pub slot: Slot,
    pub offset: usize,
    pub number: u64,
}

/// A field of a file as its tag and length say: where it starts, its tag, its length.
pub struct Part {
    pub start: usize,
    pub tag: u8,
    pub length: usize,
}

impl Part {
    pub fn value(&self) -> usize {
        self.start + HEAD_SIZE
    }

    pub fn end(&self) -> usize {
        self.value() + self.length
    }
}

/// The big-endian number of so many bytes at an offset.
fn number_at(file: &[u8], offset: usize, width: usize) -> Option<u64> {
    let bytes = file.get(offset..offset.checked_add(width)?)?;
    Some(bytes.iter().fold(0, |number, &byte| number << 8 | u64::from(byte)))
}

/// The field that starts at an offset, whether or not the file has all of it.
pub fn part_at(file: &[u8], start: usize) -> Option<Part> {
    let tag = *file.get(start)?;
    Some(Part { start, tag, length: number_at(file, start + 1, 2)? as usize })
}

/// The fields before the check, as far as the file is made of whole ones.
pub fn parts(file: &[u8]) -> Vec<Part> {
    let end = file.len().saturating_sub(TAIL_SIZE);
    let (mut parts, mut start) = (Vec::new(), 0);
    while let Some(part) = part_at(file, start).filter(|part| part.end() <= end) {
        start = part.end();
        parts.push(part);
    }
    parts
}

/// The kind of file that the letters are of.
pub fn kind_of(file: &[u8]) -> Option<&'static Kind> {
    KINDS.into_iter().find(|kind| has_letters(file, kind.letters))
}

/// Whether field 01 has these letters.
pub fn has_letters(file: &[u8], letters: &str) -> bool {
    let field = [&[1, 0, 4], letters.as_bytes()].concat();
    file.starts_with(&field)
}

/// The form of a file: two bytes where a field has its tag of that form.
pub fn form_of(kind: &Kind, file: &[u8]) -> Form {
    let is_wide = |part: &Part| kind.field_of(part.tag).is_some_and(|(_, form)| form == Form::TwoBytes);
    if parts(file).iter().any(is_wide) {
        Form::TwoBytes
    } else {
        Form::OneByte
    }
}

/// Every value of a file that a field of the kind holds, in the order of the file.
pub fn values(kind: &Kind, file: &[u8]) -> Vec<Found> {
    let mut found = Vec::new();
    let mut last: Option<(u8, usize)> = None;
    for part in parts(file) {
        let time = match last {
            Some((tag, time)) if tag == part.tag => time + 1,
            _ => 0,
        };
        last = Some((part.tag, time));
        if let Some((field, form)) = kind.field_of(part.tag) {
            values_of(field, form, time, file, &part, &mut found);
        }
    }
    found
}

fn values_of(field: &'static Field, form: Form, time: usize, file: &[u8], part: &Part, found: &mut Vec<Found>) {
    let mut offset = part.value();
    for round in 0..field.rounds().1 {
        for value in field.values {
            let width = value.width(form);
            match number_at(file, offset, width) {
                Some(number) if offset + width <= part.end() && time < field.times() => {
                    found.push(Found { slot: Slot { field, time, round, value }, offset, number });
                }
                _ => return,
            }
            offset += width;
        }
    }
}

/// Puts a number as so many bytes; none where it is too large for them.
pub fn put(bytes: &mut Vec<u8>, number: u64, width: usize) -> Option<()> {
    let all = number.to_be_bytes();
    let (front, back) = all.split_at_checked(all.len().checked_sub(width)?)?;
    front.iter().all(|&byte| byte == 0).then(|| bytes.extend(back))
}

/// The bytes, closed by the field of their check.
pub fn closed(mut bytes: Vec<u8>) -> Vec<u8> {
    bytes.extend(CHECK_HEAD);
    bytes.extend(fikrem::check(&bytes).to_be_bytes());
    bytes
}
