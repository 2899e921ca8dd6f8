//! The files that the programs read.

use std::fs::File;
use std::io::Read;

/// "An unreadable file counts as empty, one past 4,096 bytes as its first 4,096."
pub fn first_part(name: &str) -> Vec<u8> {
    let mut part = Vec::new();
    match File::open(name).and_then(|file| file.take(4_096).read_to_end(&mut part)) {
        Ok(_) => part,
        Err(_) => Vec::new(),
    }
}
