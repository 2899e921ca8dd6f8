//! How a file is put together from its fields.

use reference::file::{check, CHECK_HEAD, HEAD_SIZE, TAIL_SIZE};
use std::ops::Range;

/// A file in the making: fields are added, then it is closed by the check.
#[derive(Debug, Default)]
pub struct File {
    bytes: Vec<u8>,
    value: usize,
}

impl File {
    pub fn new() -> File {
        File::default()
    }

    /// Begins a field; what is put from here on is its value.
    pub fn field(mut self, tag: u8) -> File {
        self.end_value();
        self.bytes.extend([tag, 0, 0]);
        self.value = self.bytes.len();
        self
    }

    pub fn bytes(mut self, bytes: &[u8]) -> File {
        self.bytes.extend(bytes);
        self
    }

    pub fn u8(self, number: u8) -> File {
        self.bytes(&[number])
    }

    pub fn u16(self, number: u16) -> File {
        self.bytes(&number.to_be_bytes())
    }

    pub fn u32(self, number: u32) -> File {
        self.bytes(&number.to_be_bytes())
    }

    pub fn u64(self, number: u64) -> File {
        self.bytes(&number.to_be_bytes())
    }

    pub fn u16s(self, numbers: &[u16]) -> File {
        numbers.iter().fold(self, |file, &number| file.u16(number))
    }

    pub fn u32s(self, numbers: &[u32]) -> File {
        numbers.iter().fold(self, |file, &number| file.u32(number))
    }

    /// Sets the length of the last field.
    fn end_value(&mut self) {
        if self.value > 0 {
            let length = (self.bytes.len() - self.value) as u16;
            self.bytes[self.value - 2..self.value].copy_from_slice(&length.to_be_bytes());
        }
    }

    /// The file, with its check.
    pub fn close(mut self) -> Vec<u8> {
        self.end_value();
        closed(self.bytes)
    }
}

/// The bytes, followed by the field of their check.
pub fn closed(mut bytes: Vec<u8>) -> Vec<u8> {
    bytes.extend(CHECK_HEAD);
    bytes.extend(check(&bytes).to_be_bytes());
    bytes
}

/// The parts of a file that hold its fields, without the check; as far as it is made of whole fields.
pub fn parts(file: &[u8]) -> Vec<Range<usize>> {
    let end = file.len().saturating_sub(TAIL_SIZE);
    let mut parts = Vec::new();
    let mut start = 0;
    while start + HEAD_SIZE <= end {
        let next = start + HEAD_SIZE + usize::from(u16::from_be_bytes([file[start + 1], file[start + 2]]));
        if next > end {
            break;
        }
        parts.push(start..next);
        start = next;
    }
    parts
}
