//! What a rate book and a request come to, in words a clerk can act on.

use crate::file::{self, Found};
use crate::table::{Kind, Over, BOOK, REQUEST};
use crate::words;
use fikrem::{Reason, Refusal};

/// The values that a quote repeats of what it read, a line each.
const READ_OF_BOOK: &[&[&str]] = &[&["discount rate", "capacity charged", "credit share"]];
const READ_OF_REQUEST: &[&[&str]] = &[
    &["person number", "class", "zone number", "month", "capacity", "scheme joined", "mark"],
    &["year-one distribution revenue", "year-one transmission revenue"],
];

/// The numbers of a book's zones.
fn zones(book: &[u8]) -> String {
    let of_zone = |found: &Found| found.slot.field.over == Over::Zones && found.slot.value.name == "number";
    let found = file::values(&BOOK, book).into_iter().filter(of_zone);
    found.map(|found| found.slot.value.unit.said(found.number)).collect::<Vec<_>>().join(", ")
}

fn lines(kind: &Kind, file: &[u8], wanted: &[&[&str]]) -> Vec<String> {
    let found = file::values(kind, file);
    let of_name = |name: &&str| found.iter().find(|found| found.slot.name() == *name).map(words::named);
    wanted.iter().map(|names| names.iter().filter_map(of_name).collect::<Vec<_>>().join(", ")).collect()
}

/// What was read, in a few lines.
pub fn what_was_read(book: &[u8], request: &[u8]) -> String {
    let of_book = lines(&BOOK, book, READ_OF_BOOK).join("");
    let of_request = lines(&REQUEST, request, READ_OF_REQUEST);
    let mut text = format!("{}: {of_book}, zones {}\n", BOOK.name, zones(book));
    for line in of_request {
        text += &format!("{}: {line}\n", REQUEST.name);
    }
    text
}

/// A refusal of a file itself: `refused, number 3: the request: capacity is ..`, and for 3 the tag of the field.
pub fn refused_file(kind: &Kind, bytes: &[u8], refusal: Refusal) -> (String, Option<u8>) {
    let (words, tag) = match file::kind_of(bytes) {
        Some(other) if other.letters != kind.letters => (format!("this file is a {}", other.name), None),
        None if file::has_letters(bytes, "PIO2") => ("this file is a stored ledger".to_string(), None),
        None if file::has_letters(bytes, "PION") => ("this file is a stored ledger of the old form".to_string(), None),
        _ => words::of_file(kind, bytes, refusal),
    };
    (format!("refused, number {}: the {}: {words}", refusal.number(), kind.name), tag)
}

/// A refusal of a pricing.
pub fn refused(book: &[u8], request: &[u8], refusal: Refusal) -> String {
    let number = refusal.number();
    match (refusal.reason, refusal.file) {
        (Reason::FileDoesNotWalk | Reason::CheckDiffers | Reason::ValueNotListed, 1) => {
            refused_file(&BOOK, book, refusal).0
        }
        (Reason::FileDoesNotWalk | Reason::CheckDiffers | Reason::ValueNotListed, 2) => {
            refused_file(&REQUEST, request, refusal).0
        }
        (Reason::ZoneNotInBook, _) => {
            let zone = lines(&REQUEST, request, &[&["zone number"]]).join("");
            format!("refused, number {number}: the request: {zone} isn't in the rate book, allowed are {}", zones(book))
        }
        (Reason::BespokeNotAllowed, _) => format!("refused, number {number}: {}", words::not_allowed(refusal.place)),
        (reason, _) => format!("refused, number {number}: {reason}"),
    }
}
