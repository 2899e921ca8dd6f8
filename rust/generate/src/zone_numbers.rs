//! Document 02, E6: zone numbers of two bytes, 09 in place of 08 in a book and 0D in place of 04 in a request.

use crate::book::Book;
use crate::fields::{closed, parts};
use crate::random::Random;
use crate::request::Request;

/// A field's bytes.
fn field(tag: u8, value: &[u8]) -> Vec<u8> {
    [&[tag], (value.len() as u16).to_be_bytes().as_slice(), value].concat()
}

/// The fields of a file, without its check.
fn fields_of(file: &[u8]) -> Vec<Vec<u8>> {
    parts(file).into_iter().map(|part| file[part].to_vec()).collect()
}

/// The book's fields 01 to 07, then a field 09 for each zone: these numbers, with its rates.
pub fn wide_book(book: &Book, numbers: &[u16]) -> Vec<u8> {
    let mut fields = fields_of(&Book { zones: Vec::new(), ..book.clone() }.encode());
    for (number, (_, rates)) in numbers.iter().zip(&book.zones) {
        let rates: Vec<u8> = rates.iter().flat_map(|rate| rate.to_be_bytes()).collect();
        fields.push(field(0x09, &[&number.to_be_bytes(), rates.as_slice()].concat()));
    }
    closed(fields.concat())
}

/// The book with the same zone numbers in two bytes.
pub fn widened_book(book: &Book) -> Vec<u8> {
    let numbers: Vec<u16> = book.zones.iter().map(|(number, _)| u16::from(*number)).collect();
    wide_book(book, &numbers)
}

/// The request with this zone number in 0D in place of 04.
pub fn wide_request(request: &Request, zone: u16) -> Vec<u8> {
    let mut fields = fields_of(&request.encode());
    fields.remove(3);
    fields.push(field(0x0D, &zone.to_be_bytes()));
    closed(fields.concat())
}

/// The book in one of its forms.
pub fn book_in_either_form(random: &mut Random, book: &Book) -> Vec<u8> {
    if random.once_in(2) {
        book.encode()
    } else {
        widened_book(book)
    }
}

/// The request in one of its forms.
pub fn request_in_either_form(random: &mut Random, request: &Request) -> Vec<u8> {
    if random.once_in(2) {
        request.encode()
    } else {
        wide_request(request, request.zone.into())
    }
}

/// A number of two bytes: any, one about 255, 1,400 or 65,535, or one that has its low byte in common with another.
pub fn zone_number(random: &mut Random) -> u16 {
    match random.within(0, 3) {
        0 => random.edge_u16(0, u16::MAX),
        1 => random.edge_u16(250, 260),
        2 => random.choose(&[7, 263, 519, 1_399, 1_400, 1_401, 65_287, 65_535]),
        _ => random.edge_u16(0, u16::MAX) & 0xFF07,
    }
}

/// So many of them, each above the last.
pub fn rising_numbers(random: &mut Random, count: usize) -> Vec<u16> {
    let mut numbers = Vec::new();
    while numbers.len() < count {
        let number = zone_number(random);
        if !numbers.contains(&number) {
            numbers.push(number);
        }
    }
    numbers.sort_unstable();
    numbers
}

/// A file of fields of both forms: those of one form, from which fields were taken and between which fields of either
/// were put, with a right check.
pub fn mixture(random: &mut Random, forms: [&[u8]; 2]) -> Vec<u8> {
    let pool = forms.map(fields_of).concat();
    let mut fields = fields_of(forms[random.index(2)]);
    for _ in 0..random.within(1, 3) {
        let place = random.index(fields.len());
        match random.within(0, 4) {
            0 if fields.len() > 1 => drop(fields.remove(place)),
            1 => fields.insert(place, pool[random.index(pool.len())].clone()),
            2 => fields.push(pool[random.index(pool.len())].clone()),
            3 => {
                let other = random.index(fields.len());
                fields.swap(place, other);
            }
            _ => fields.insert(place, fields[place].clone()),
        }
    }
    closed(fields.concat())
}
