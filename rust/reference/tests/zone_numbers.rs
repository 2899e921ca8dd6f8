//! Document 02, E6: zone numbers of two bytes, 09 in place of 08 in a book and 0D in place of 04 in a request.

use generate::damage::alter_byte;
use generate::fields::{closed, parts};
use generate::request::pair;
use generate::{Book, Random, Request};
use reference::{price, Refusal};

/// The slip's rates.
const RATES: [u32; 5] = [0, 0, 8_500, 38_000, 10_000];

fn field(tag: u8, value: &[u8]) -> Vec<u8> {
    [&[tag], (value.len() as u16).to_be_bytes().as_slice(), value].concat()
}

/// A book's field 08 or 09: the number's bytes, then the rates.
fn zone(tag: u8, number: &[u8], rates: [u32; 5]) -> Vec<u8> {
    let rates: Vec<u8> = rates.iter().flat_map(|rate| rate.to_be_bytes()).collect();
    field(tag, &[number, &rates].concat())
}

fn narrow(number: u8) -> Vec<u8> {
    zone(0x08, &[number], RATES)
}

fn wide_with(number: u16, rates: [u32; 5]) -> Vec<u8> {
    zone(0x09, &number.to_be_bytes(), rates)
}

fn wide(number: u16) -> Vec<u8> {
    wide_with(number, RATES)
}

/// The book's fields 01 to 07, then these.
fn book_of(book: &Book, fields: &[Vec<u8>]) -> Vec<u8> {
    let first = Book { zones: Vec::new(), ..book.clone() }.encode();
    closed([&first[..first.len() - 5], &fields.concat()].concat())
}

/// The slip's fields 01 to 07, then these.
fn slip_book(fields: &[Vec<u8>]) -> Vec<u8> {
    book_of(&Book::slip(), fields)
}

/// The same book with two-byte numbers.
fn wide_book(book: &Book) -> Vec<u8> {
    let zones: Vec<Vec<u8>> = book.zones.iter().map(|&(number, rates)| wide_with(number.into(), rates)).collect();
    book_of(book, &zones)
}

/// A request's fields 01 to 0C, each with its tag.
fn fields_of(request: &Request) -> Vec<(u8, Vec<u8>)> {
    let file = request.encode();
    parts(&file).into_iter().map(|part| (file[part.start], file[part].to_vec())).collect()
}

/// The same request with this two-byte number.
fn wide_request(request: &Request, zone: u16) -> Vec<u8> {
    let mut fields = fields_of(request);
    fields.retain(|(tag, _)| *tag != 0x04);
    fields.push((0x0D, field(0x0D, &zone.to_be_bytes())));
    closed(fields.into_iter().flat_map(|(_, field)| field).collect())
}

/// The slip's request of these fields: its own by their tags, 0D of zone 1, and one of no bytes for any other tag.
fn slip_request(tags: &[u8]) -> Vec<u8> {
    let own = fields_of(&Request::slip());
    let of_tag = |tag| match own.iter().find(|(other, _)| *other == tag) {
        Some((_, field)) => field.clone(),
        None if tag == 0x0D => field(0x0D, &[0, 1]),
        None => field(tag, &[]),
    };
    closed(tags.iter().flat_map(|&tag| of_tag(tag)).collect())
}

fn refused(book: &[u8], request: &[u8]) -> Option<(u8, u8, usize)> {
    price(book, request).err().map(|refused| (refused.number, refused.file, refused.place))
}

fn book_refused(book: &[u8]) -> Option<(u8, u8, usize)> {
    refused(book, &Request::slip().encode())
}

fn request_refused(request: &[u8]) -> Option<(u8, u8, usize)> {
    refused(&Book::slip().encode(), request)
}

#[test]
fn the_helpers_write_the_slips_files() {
    assert_eq!(slip_book(&[narrow(1)]), Book::slip().encode());
    assert_eq!(slip_request(&[1, 2, 3, 4, 5, 6, 7, 8, 9, 10, 11, 12]), Request::slip().encode());
    assert_eq!(wide_book(&Book::slip()), slip_book(&[wide(1)]));
    assert_eq!(wide_request(&Request::slip(), 1), slip_request(&[1, 2, 3, 5, 6, 7, 8, 9, 10, 11, 12, 13]));
}

/// The places of 1 in a book, whose zones begin at 88.
#[test]
fn books_that_do_not_walk() {
    let narrows = |count: u8| (0..count).map(narrow).collect::<Vec<_>>();
    let wides = |count: u16| (0..count).map(wide).collect::<Vec<_>>();
    let early_end = vec![0xFF, 0, 2, 0, 0];
    let rows = [
        (vec![], 88),
        (vec![narrow(1), wide(2)], 112),
        (vec![narrow(1), wide(2), narrow(3)], 112),
        (vec![narrow(1), wide(2), field(0x0A, &[])], 112),
        (vec![narrow(1), field(0x09, &[0; 21])], 112),
        (vec![wide(1), narrow(2)], 113),
        (vec![wide(1), narrow(2), wide(3)], 113),
        ([narrows(8), wides(1)].concat(), 280),
        (narrows(9), 280),
        ([wides(8), narrows(1)].concat(), 288),
        (wides(9), 288),
        (vec![early_end.clone()], 88),
        (vec![early_end, wide(1)], 88),
        (vec![field(0x08, &[0; 22])], 88),
        (vec![field(0x09, &[0; 21])], 88),
        (vec![wide(1), field(0x09, &[0; 23])], 113),
        (vec![wide(1), vec![0x09, 0]], 113),
        (vec![field(0x0A, &[0; 22])], 88),
    ];
    for (zones, place) in rows {
        assert_eq!(book_refused(&slip_book(&zones)), Some((1, 1, place)), "{zones:?}");
    }
    for zones in [narrows(8), wides(8), wides(2)] {
        assert_eq!(book_refused(&slip_book(&zones)), None, "{zones:?}");
    }
}

/// The places of 1 in a request, in which 04 is due at 18 and 0D at 156.
#[test]
fn requests_that_do_not_walk() {
    let rows: [(&[u8], usize); 21] = [
        (&[1, 2, 3, 5, 6, 7, 8, 9, 10, 11, 12], 18),
        (&[1, 2, 3, 6, 7, 8, 9, 10, 11, 12], 18),
        (&[1, 2, 3, 6, 7, 8, 9, 10, 11, 12, 13], 18),
        (&[1, 2, 3], 18),
        (&[1, 2, 3, 4, 5, 6, 7, 8, 9, 10, 11, 12, 13], 160),
        (&[1, 2, 3, 4, 5, 6, 7, 8, 9, 10, 11, 12, 13, 13], 160),
        (&[1, 2, 3, 4, 5, 6, 7, 8, 9, 10, 11, 12, 14], 160),
        (&[1, 2, 3, 13, 5, 6, 7, 8, 9, 10, 11, 12], 18),
        (&[1, 2, 3, 5, 4, 6, 7, 8, 9, 10, 11, 12], 45),
        (&[1, 2, 3, 5], 45),
        (&[1, 2, 3, 5, 6, 7, 8, 9, 10, 11, 12, 13, 13], 161),
        (&[1, 2, 3, 5, 6, 7, 8, 9, 10, 11, 12, 13, 4], 161),
        (&[1, 2, 3, 5, 6, 7, 8, 9, 10, 11, 12, 14], 156),
        (&[1, 2, 3, 5, 6, 7, 8, 9, 10, 11, 12, 0xFF], 156),
        (&[1, 2, 3, 5, 6, 7, 8, 9, 10, 11, 12, 4], 156),
        (&[1, 2, 3, 5, 6, 7, 8, 9, 10, 11, 12, 12], 156),
        (&[1, 2, 3, 5, 6, 7, 8, 9, 10, 11], 144),
        (&[1, 2, 3, 5, 6, 7, 8, 9, 10, 11, 13, 12], 144),
        (&[1, 2, 3, 4, 5, 6, 7, 8, 9, 10, 11, 13], 148),
        (&[1, 2, 3, 4, 4, 5, 6, 7, 8, 9, 10, 11, 12], 22),
        (&[1, 2, 5, 6, 7, 8, 9, 10, 11, 12, 13], 14),
    ];
    for (tags, place) in rows {
        assert_eq!(request_refused(&slip_request(tags)), Some((1, 2, place)), "{tags:?}");
    }
}

/// Lengths, and fields that are cut off, in a request with 0D, with both and with neither.
#[test]
fn lengths_that_are_not_permitted() {
    let without = |file: Vec<u8>| file[..file.len() - 5].to_vec();
    let both = without(slip_request(&[1, 2, 3, 4, 5, 6, 7, 8, 9, 10, 11, 12]));
    let neither = without(slip_request(&[1, 2, 3, 5, 6, 7, 8, 9, 10, 11, 12]));
    let rest = without(slip_request(&[7, 8, 9, 10, 11, 12]));
    let rows = [
        ([both.clone(), field(0x0D, &[1])].concat(), 160),
        ([neither.clone(), field(0x0D, &[1])].concat(), 156),
        ([neither.clone(), field(0x0D, &[0, 0, 1])].concat(), 156),
        ([neither.clone(), field(0x0D, &[])].concat(), 156),
        ([neither.clone(), vec![0x0D]].concat(), 156),
        ([neither.clone(), vec![0x0D, 0, 2, 0]].concat(), 156),
        ([neither.clone(), vec![0]].concat(), 156),
        ([without(slip_request(&[1, 2, 3, 5])), field(0x06, &[0; 46]), rest].concat(), 45),
    ];
    for (body, place) in rows {
        assert_eq!(request_refused(&closed(body)), Some((1, 2, place)));
    }
    assert_eq!(request_refused(&closed([neither, field(0x0D, &[0, 1])].concat())), None);
}

/// Values of wide zones: the number at o + 3, the rates at o + 5, 9, 13, 17 and 21, in byte order.
#[test]
fn values_of_wide_zones() {
    let over = |tier: usize| {
        let mut rates = RATES;
        rates[tier] = 10_000_001;
        rates
    };
    let rows = [
        (vec![wide(1), wide(1)], 116),
        (vec![wide(256), wide(255)], 116),
        (vec![wide(65_535), wide(0)], 116),
        (vec![wide(1), wide(2), wide(2)], 141),
        (vec![wide_with(1, over(0)), wide(0)], 93),
        (vec![wide_with(1, over(4)), wide(0)], 109),
        (vec![wide(1), wide_with(2, over(4))], 134),
        (vec![wide(1), wide_with(2, over(0))], 118),
        (vec![wide(1), wide_with(1, over(0))], 116),
    ];
    for (zones, place) in rows {
        assert_eq!(book_refused(&slip_book(&zones)), Some((3, 1, place)));
    }
    for tier in 0..5 {
        assert_eq!(book_refused(&slip_book(&[wide_with(1, over(tier))])), Some((3, 1, 93 + 4 * tier)));
    }
    let highest = slip_book(&[wide(0), wide(1), wide(255), wide(256), wide_with(65_535, [10_000_000; 5])]);
    assert_eq!(book_refused(&highest), None);
}

/// A request's values after 03 stand 4 bytes lower with 0D.
#[test]
fn values_of_wide_requests() {
    let rows = [
        (Request { class: 255, ..Request::slip() }, 17),
        (Request { me: 1_000_000_001, ..Request::slip() }, 21),
        (Request { hr: 1_000_000_001, mark: 3, ..Request::slip() }, 37),
        (Request { ol: 1_000_000_001, ..Request::slip() }, 41),
        (Request { distribution_revenue: 1_000_000_001, ..Request::slip() }, 119),
        (Request { capacity: 0, ..Request::slip() }, 149),
        (Request { mark: 3, ..Request::slip() }, 155),
    ];
    for (request, place) in rows {
        assert_eq!(request_refused(&wide_request(&request, 1)), Some((3, 2, place)));
        assert_eq!(request_refused(&wide_request(&request, 9)), Some((3, 2, place)), "3 comes before 4");
    }
}

/// A zone is known by its whole number, whatever form it is written in.
#[test]
fn zones_by_their_whole_number() {
    let with_rate = |number, rate| wide_with(number, [rate, 0, 0, 0, 0]);
    let book = slip_book(&[with_rate(0, 100), with_rate(7, 200), with_rate(255, 300), with_rate(263, 400)]);
    let mut request = Request { zone: 0, ..Request::of_nothing() };
    request.tiers[0].demand = 1;
    let mc = |request: &[u8]| price(&book, request).map(|bill| bill.reconciliation.mc);
    for (number, wanted) in [(0, 1), (7, 2), (255, 3), (263, 4)] {
        assert_eq!(mc(&wide_request(&request, number)), Ok(wanted), "zone {number}");
        if let Ok(zone) = u8::try_from(number) {
            assert_eq!(mc(&Request { zone, ..request.clone() }.encode()), Ok(wanted), "zone {number}");
        }
    }
    let missing = Err(Refusal { number: 4, file: 2, place: 0 });
    for number in [1, 6, 8, 254, 256, 262, 264, 1_792, 65_535] {
        assert_eq!(mc(&wide_request(&request, number)), missing, "zone {number}");
    }
    assert_eq!(refused(&slip_book(&[wide(263)]), &Request { zone: 7, ..request.clone() }.encode()), Some((4, 2, 0)));
    assert_eq!(refused(&slip_book(&[narrow(7)]), &wide_request(&request, 263)), Some((4, 2, 0)));
    assert_eq!(refused(&slip_book(&[wide(65_535)]), &wide_request(&request, 65_535)), None);
}

/// Numbers up to 255 written either way price alike, in all four pairs of forms.
#[test]
fn either_form_prices_alike() {
    let mut random = Random::new(16);
    for _ in 0..2_000 {
        let (book, request) = pair(&mut random);
        let books = [book.encode(), wide_book(&book)];
        let requests = [request.encode(), wide_request(&request, request.zone.into())];
        let bill = price(&books[0], &requests[0]).unwrap();
        for book in &books {
            assert!(requests.iter().all(|request| price(book, request) == Ok(bill)));
        }
        let other = book.missing_zone(&mut random);
        for file in &books {
            assert_eq!(refused(file, &wide_request(&request, other.into())), Some((4, 2, 0)));
            assert_eq!(refused(file, &wide_request(&request, 256 + u16::from(request.zone))), Some((4, 2, 0)));
        }
    }
}

/// Demand 1 for the new forms: one altered byte is refused by 2, in the tail by 1.
#[test]
fn one_altered_byte_is_refused() {
    let book = slip_book(&[wide(1), wide(1_400)]);
    let request = wide_request(&Request::slip(), 1_400);
    assert_eq!(refused(&book, &request), None);
    for (file, whole) in [(1, &book), (2, &request)] {
        for place in 0..whole.len() {
            for value in (0..=255).filter(|&value| value != whole[place]) {
                let altered = alter_byte(whole, place, value);
                let found = if file == 1 { refused(&altered, &request) } else { refused(&book, &altered) };
                let in_tail = (whole.len() - 5..whole.len() - 2).contains(&place);
                let wanted = if in_tail { (1, file, 0) } else { (2, file, whole.len() - 2) };
                assert_eq!(found, Some(wanted));
            }
        }
    }
}

/// The place of 1 for fields of these tags, each of a permitted length: the offset of the first with which they don't
/// begin one of the permitted files, `end` if there is none, or where the first form was due if that is all they lack.
fn place_of_one(tags: &[u8], starts: &[usize], end: usize, permitted: &[Vec<u8>], first_due: usize) -> Option<usize> {
    if permitted.iter().any(|file| file == tags) {
        return None;
    }
    let begins = |count: usize| permitted.iter().any(|file| file.starts_with(&tags[..count]));
    let without_forms: Vec<u8> = permitted[0].iter().copied().filter(|tag| permitted[1].contains(tag)).collect();
    if tags == without_forms {
        return Some(starts.get(first_due).copied().unwrap_or(end));
    }
    let first = (1..=tags.len()).find(|&count| !begins(count));
    Some(first.map_or(end, |count| starts[count - 1]))
}

/// Any fields of permitted lengths, in any order: "A field stands where the fields so far, with it, begin a permitted
/// file".
#[test]
fn fields_in_any_order() {
    let mut random = Random::new(17);
    let request_forms = [(1..=12).collect::<Vec<u8>>(), vec![1, 2, 3, 5, 6, 7, 8, 9, 10, 11, 12, 13]];
    let book_forms: Vec<Vec<u8>> = (1..=8)
        .flat_map(|count| [8u8, 9].map(|tag| [(1..=7).collect::<Vec<u8>>(), vec![tag; count]].concat()))
        .collect();
    let (mut walks, mut refusals) = ([0; 2], [0; 2]);
    for _ in 0..20_000 {
        let of_book = random.once_in(2);
        let permitted: &[Vec<u8>] = if of_book { &book_forms } else { &request_forms };
        let mut tags = permitted[random.index(permitted.len())].clone();
        for _ in 0..random.within(0, 3) {
            let (from, to) = (random.index(tags.len()), random.index(tags.len()));
            match random.within(0, 3) {
                0 if tags.len() > 1 => drop(tags.remove(from)),
                1 => tags.swap(from, to),
                2 => tags.insert(from, tags[to]),
                _ => tags.insert(from, random.choose(&[4, 8, 9, 13])),
            }
        }
        let file = if of_book { book_of_tags(&tags) } else { slip_request(&tags) };
        let starts: Vec<usize> = parts(&file).iter().map(|part| part.start).collect();
        let first_due = if of_book { 7 } else { 3 };
        let wanted = place_of_one(&tags, &starts, file.len() - 5, permitted, first_due);
        let found = if of_book { book_refused(&file) } else { request_refused(&file) };
        assert_eq!(found.filter(|refused| refused.0 == 1).map(|refused| refused.2), wanted, "{tags:?}");
        let times = if wanted.is_none() { &mut walks } else { &mut refusals };
        times[usize::from(of_book)] += 1;
    }
    assert!(walks.iter().chain(&refusals).all(|&times| times > 1_000), "{walks:?} {refusals:?}");
}

/// The slip's book of these fields, and one of no bytes for any other tag.
fn book_of_tags(tags: &[u8]) -> Vec<u8> {
    let slip = Book::slip().encode();
    let own: Vec<Vec<u8>> = parts(&slip).into_iter().map(|part| slip[part].to_vec()).collect();
    let of_tag = |tag: u8| match tag {
        1..=8 => own[usize::from(tag) - 1].clone(),
        9 => wide(1),
        _ => field(tag, &[]),
    };
    closed(tags.iter().flat_map(|&tag| of_tag(tag)).collect())
}
