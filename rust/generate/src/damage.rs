//! Damaged files.

use crate::book::Book;
use crate::fields::{closed, parts};
use crate::random::Random;
use crate::request::{highest_loading, Request};
use reference::file::{check, HEAD_SIZE, TAIL_SIZE};

/// Sets the last two bytes to the check of those before them, if there are so many.
pub fn recheck(file: &mut [u8]) {
    if let Some(place) = file.len().checked_sub(2) {
        let check = check(&file[..place]);
        file[place..].copy_from_slice(&check.to_be_bytes());
    }
}

/// The file with another value of one byte.
pub fn alter_byte(file: &[u8], place: usize, value: u8) -> Vec<u8> {
    let mut altered = file.to_vec();
    altered[place] = value;
    altered
}

/// The file with another value of one byte, and the check that goes with it.
pub fn alter_byte_and_check(file: &[u8], place: usize, value: u8) -> Vec<u8> {
    let mut altered = alter_byte(file, place, value);
    recheck(&mut altered);
    altered
}

/// The file's first bytes.
pub fn truncate(file: &[u8], size: usize) -> Vec<u8> {
    file[..size].to_vec()
}

/// The file's first bytes, without the check, closed by a check of their own.
pub fn truncate_and_close(file: &[u8], size: usize) -> Vec<u8> {
    closed(file[..size.min(file.len().saturating_sub(TAIL_SIZE))].to_vec())
}

/// The file and more bytes after it.
pub fn extend(file: &[u8], more: &[u8]) -> Vec<u8> {
    [file, more].concat()
}

/// The file with more bytes before its check, and the check that goes with them.
pub fn extend_and_close(file: &[u8], more: &[u8]) -> Vec<u8> {
    let end = file.len().saturating_sub(TAIL_SIZE);
    closed([&file[..end], more].concat())
}

/// The file without its field of this index, from 0.
pub fn without_field(file: &[u8], index: usize) -> Vec<u8> {
    let part = parts(file)[index].clone();
    let end = file.len() - TAIL_SIZE;
    closed([&file[..part.start], &file[part.end..end]].concat())
}

/// The file with its field of this index twice.
pub fn field_twice(file: &[u8], index: usize) -> Vec<u8> {
    let part = parts(file)[index].clone();
    let end = file.len() - TAIL_SIZE;
    closed([&file[..part.end], &file[part.start..end]].concat())
}

/// The file with its field of this index and the next one exchanged.
pub fn fields_exchanged(file: &[u8], index: usize) -> Vec<u8> {
    let parts = parts(file);
    let (first, second) = (parts[index].clone(), parts[index + 1].clone());
    let end = file.len() - TAIL_SIZE;
    closed([&file[..first.start], &file[second.clone()], &file[first], &file[second.end..end]].concat())
}

/// The file damaged in one of these ways.
pub fn damaged(random: &mut Random, file: &[u8]) -> Vec<u8> {
    let place = random.index(file.len());
    let value = random.next_u64() as u8;
    let more: Vec<u8> = (0..random.edge(1, 40)).map(|_| random.next_u64() as u8).collect();
    let fields = parts(file).len();
    match random.within(0, 9) {
        0 => alter_byte(file, place, value),
        1 => truncate(file, place),
        2 => truncate_and_close(file, place),
        3 => extend(file, &more),
        4 => extend_and_close(file, &more),
        5 if fields > 0 => without_field(file, random.index(fields)),
        6 if fields > 0 => field_twice(file, random.index(fields)),
        7 if fields > 1 => fields_exchanged(file, random.index(fields - 1)),
        _ => alter_byte_and_check(file, place, value),
    }
}

/// A file with one value past its limit and a right check, and the place at which that is refused by 3.
#[derive(Debug, Clone)]
pub struct PastLimit {
    pub file: Vec<u8>,
    pub place: usize,
}

/// Collects the files with one value past its limit.
struct Limits {
    file: Vec<u8>,
    values: Vec<usize>,
    past: Vec<PastLimit>,
}

impl Limits {
    fn of(file: Vec<u8>) -> Limits {
        let values = parts(&file).iter().map(|part| part.start + HEAD_SIZE).collect();
        Limits { file, values, past: Vec::new() }
    }

    /// The bytes stand at `offset` of the value of the field of this index.
    fn bytes(&mut self, field: usize, offset: usize, bytes: &[u8]) {
        let place = self.values[field] + offset;
        self.bytes_refused_at(place, place, bytes);
    }

    fn bytes_refused_at(&mut self, place: usize, refused_at: usize, bytes: &[u8]) {
        let mut file = self.file.clone();
        file[place..place + bytes.len()].copy_from_slice(bytes);
        recheck(&mut file);
        self.past.push(PastLimit { file, place: refused_at });
    }

    fn u8_above(&mut self, field: usize, offset: usize, limit: u8) {
        self.bytes(field, offset, &[limit + 1]);
        self.bytes(field, offset, &[u8::MAX]);
    }

    fn u16_above(&mut self, field: usize, offset: usize, limit: u16) {
        self.bytes(field, offset, &(limit + 1).to_be_bytes());
        self.bytes(field, offset, &u16::MAX.to_be_bytes());
    }

    fn u32_above(&mut self, field: usize, offset: usize, limit: u32) {
        self.bytes(field, offset, &(limit + 1).to_be_bytes());
        self.bytes(field, offset, &u32::MAX.to_be_bytes());
    }

    fn u32s_above(&mut self, field: usize, offset: usize, count: usize, limit: u32) {
        (0..count).for_each(|index| self.u32_above(field, offset + 4 * index, limit));
    }

    fn factors_above(&mut self, field: usize, count: usize) {
        (0..count).for_each(|index| self.u16_above(field, 2 * index, 40_000));
    }

    /// Each letter is another.
    fn letters(&mut self) {
        let value = self.values[0];
        for letter in 0..4 {
            let other = self.file[value + letter] ^ 0x20;
            self.bytes_refused_at(value + letter, value, &[other]);
        }
    }
}

/// Every value of a book within its limits, put past its limit.
pub fn book_past_limits(book: &Book) -> Vec<PastLimit> {
    let mut limits = Limits::of(book.encode());
    limits.letters();
    limits.u16_above(1, 0, 10_000);
    for pairs in [[0u32, 0].repeat(5), [7, 6, 0, 0, 3, 3, 0, 0, 0, 0].to_vec(), [u32::MAX, u32::MAX - 1].repeat(5)] {
        let bytes: Vec<u8> = pairs.iter().flat_map(|figure| figure.to_be_bytes()).collect();
        limits.bytes(2, 0, &bytes);
    }
    limits.factors_above(3, book.distribution_factors.len());
    limits.factors_above(4, book.transmission_factors.len());
    limits.u32_above(5, 0, 5_000_000);
    limits.u32_above(5, 4, book.minimum);
    if book.fee > 0 {
        // a minimum below the fee is refused at the fee
        let fee = limits.values[5] + 4;
        limits.bytes_refused_at(fee + 4, fee, &(book.fee - 1).to_be_bytes());
    }
    limits.u32_above(5, 8, 1_000_000_000);
    limits.bytes(5, 12, &83u16.to_be_bytes());
    limits.bytes(5, 12, &0u16.to_be_bytes());
    limits.u8_above(6, 0, 1);
    limits.u16_above(6, 1, 10_000);
    for (index, _) in book.zones.iter().enumerate() {
        if index > 0 {
            let last = book.zones[index - 1].0;
            limits.bytes(7 + index, 0, &[last]);
            limits.bytes(7 + index, 0, &[last.saturating_sub(1)]);
        }
        limits.u32s_above(7 + index, 1, 5, 10_000_000);
    }
    limits.past
}

/// Every value of a request within its limits, put past its limit.
pub fn request_past_limits(request: &Request) -> Vec<PastLimit> {
    let mut limits = Limits::of(request.encode());
    limits.letters();
    limits.u8_above(2, 0, 2);
    limits.u32s_above(4, 0, 5, 1_000_000_000);
    limits.u32_above(4, 20, highest_loading(request.class));
    if request.ol > 0 {
        // another class is refused at the operating loading
        let (class, loading) = (limits.values[2], limits.values[4] + 20);
        limits.bytes_refused_at(class, loading, &[0]);
        limits.bytes_refused_at(class, loading, &[1]);
    }
    for tier in 0..5 {
        limits.u8_above(5, 9 * tier, 2);
        limits.u32_above(5, 9 * tier + 1, 1_000_000);
        limits.u32_above(5, 9 * tier + 5, 10_000_000);
    }
    limits.u32s_above(6, 0, 5, 1_000_000);
    limits.u32s_above(7, 0, 2, 1_000_000_000);
    limits.factors_above(8, request.part_year.len());
    limits.factors_above(9, request.distribution_tariffs.len());
    limits.factors_above(10, request.transmission_tariffs.len());
    limits.bytes(11, 2, &0u32.to_be_bytes());
    limits.u32_above(11, 2, 1_000_000);
    limits.u8_above(11, 8, 2);
    limits.past
}
