//! The page: its bytes, the order of its refusals, and the places that it leaves alone.

use generate::damage::alter_byte;
use generate::request::Tier;
use generate::{Book, Request};
use reference::page::{printed, PAGE_SIZE};
use reference::page_reader::read_page;
use reference::{page, Refusal};

/// The slip's book with fee, minimum and threshold 0.
fn book() -> Book {
    Book { threshold: 0, fee: 0, minimum: 0, ..Book::slip() }
}

/// The page on an output of its own length.
fn written(book: &Book, request: &Request) -> Vec<u8> {
    let mut output = vec![0xEE; 768];
    assert_eq!(page(&book.encode(), &request.encode(), &mut output), Ok(()));
    output
}

/// The page's lines, the byte 0A of each taken off.
fn lines(book: &Book, request: &Request) -> Vec<String> {
    let text = String::from_utf8(written(book, request)).unwrap();
    assert_eq!(
        text.match_indices('\n').map(|(place, _)| place).collect::<Vec<_>>(),
        [63, 127, 191, 255, 319, 383, 447, 511, 575, 639, 703, 767]
    );
    text.lines().map(str::to_string).collect()
}

/// The amount's columns of a line without their blanks.
fn amount(line: &str) -> &str {
    line[32..].trim_start_matches(' ')
}

#[test]
fn the_slips_page_byte_for_byte() {
    let wanted = [
        "ME                                                    15,985.00\n",
        "MC                                                     1,080.00\n",
        "CE                                                         0.00\n",
        "CC2                                                        0.00\n",
        "TW                                                         0.00\n",
        "HR                                                         0.00\n",
        "OL                                                         0.00\n",
        "IC                                                    17,065.00\n",
        "IR                                                     8,598.00\n",
        "CC                                                    11,476.30\n",
        "NIC                                                    8,467.00\n",
        "NC                                                     3,009.30\n",
    ]
    .concat();
    assert_eq!(wanted.len(), 768);
    let page = written(&book(), &Request::slip());
    assert_eq!(page, wanted.as_bytes());
    assert_eq!(page[448..512], [b"IC".as_slice(), &[b' '; 52], b"17,065.00", &[0x0A]].concat());
    // fee, minimum and threshold play no part in it
    assert_eq!(written(&Book::slip(), &Request::slip()), page);
}

#[test]
fn revenue_above_the_cost() {
    let request = Request { distribution_revenue: 200_000, ..Request::slip() };
    let page = written(&book(), &request);
    assert_eq!(page[640..704], [b"NIC".as_slice(), &[b' '; 50], b"-12,935.00", &[0x0A]].concat());
    assert_eq!(amount(&lines(&book(), &request)[9]), "0.00");
}

#[test]
fn twelve_amounts_that_differ() {
    let zones = vec![(1, [100, 2_000, 8_500, 38_000, 10_000])];
    let book = Book { capacity_charged: 0, credit_share: 1_500, zones, ..book() };
    let request = Request {
        ce: 100_000,
        de: 7,
        tw: 99_999,
        hr: 100_000_001,
        added_demands: [1, 20, 300, 0, 50],
        distribution_revenue: 50_000,
        transmission_revenue: 4_321,
        ..Request::slip()
    };
    let wanted = [
        "ME                                                    15,985.00",
        "MC                                                     1,164.00",
        "CE                                                     1,000.00",
        "CC2                                                      309.01",
        "TW                                                       999.99",
        "HR                                                 1,000,000.01",
        "OL                                                         0.00",
        "IC                                                 1,019,458.01",
        "IR                                                     8,148.15",
        "CC                                                 1,016,762.78",
        "NIC                                                1,011,309.86",
        "NC                                                     5,452.92",
    ];
    assert_eq!(lines(&book, &request), wanted);
    for (index, line) in wanted.iter().enumerate() {
        assert!(wanted[..index].iter().all(|other| amount(other) != amount(line)), "two lines have the same amount");
    }
}

#[test]
fn the_highest_revenue() {
    let highest = vec![40_000; 8];
    let book = Book { distribution_factors: highest.clone(), transmission_factors: highest.clone(), ..book() };
    let request = Request {
        class: 0,
        distribution_revenue: 1_000_000_000,
        transmission_revenue: 1_000_000_000,
        part_year: highest.clone(),
        distribution_tariffs: highest.clone(),
        transmission_tariffs: highest,
        ..Request::of_nothing()
    };
    let lines = lines(&book, &request);
    assert_eq!(amount(&lines[8]), "39,680,000,000.00");
    assert_eq!(lines[10], "NIC                                          -39,680,000,000.00");
    assert_eq!([7, 9].map(|line| amount(&lines[line])), ["0.00"; 2]);
}

#[test]
fn five_cents_and_five_cents_below_nothing() {
    let book = Book { capacity_charged: 0, zones: vec![(1, [100, 0, 0, 0, 0])], ..book() };
    let mut request = Request::of_nothing();
    request.tiers[0] = Tier { mode: 0, demand: 5, bespoke_rate: 0 };
    let lines = lines(&book, &request);
    assert_eq!(lines[1], "MC                                                         0.05");
    assert_eq!(lines[11], "NC                                                        -0.05");
    assert_eq!([0, 2, 8, 9].map(|line| amount(&lines[line])), ["0.00"; 4]);
    assert_eq!([7, 10].map(|line| amount(&lines[line])), ["0.05"; 2]);
}

#[test]
fn outputs_of_every_length() {
    let (book_file, request_file) = (book().encode(), Request::slip().encode());
    let wanted = written(&book(), &Request::slip());
    assert_eq!(PAGE_SIZE, 768);
    for length in 0..=1_600 {
        let mut output = vec![0xEE; length];
        let result = page(&book_file, &request_file, &mut output);
        if length < 768 {
            assert_eq!(result, Err(Refusal { number: 14, file: 0, place: 0 }), "an output of {length}");
            assert!(output.iter().all(|&byte| byte == 0xEE), "a refusal writes nothing");
        } else {
            assert_eq!(result, Ok(()), "an output of {length}");
            assert_eq!(output[..768], wanted);
            assert!(output[768..].iter().all(|&byte| byte == 0xEE), "output past the page is left alone");
        }
    }
}

/// "An output under 768 bytes is 14, after 5": book, request, 4, 5, 14.
#[test]
fn order_of_refusals() {
    let mut request = Request { zone: 2, ..Request::slip() };
    request.tiers[2] = Tier { mode: 2, demand: 200, bespoke_rate: 12_750 };
    let (bad_book, bad_request) = (alter_byte(&book().encode(), 3, 0), alter_byte(&request.encode(), 3, 0));
    let refused = |book: &[u8], request: &[u8], length: usize| {
        let mut output = vec![0xEE; length];
        let refused = page(book, request, &mut output).unwrap_err();
        assert!(output.iter().all(|&byte| byte == 0xEE), "a refusal writes nothing");
        (refused.number, refused.file, refused.place)
    };
    let book_file = book().encode();
    for length in [0, 1, 767, 768, 769, 2_000] {
        assert_eq!(refused(&[], &[], length), (1, 1, 0));
        assert_eq!(refused(&bad_book, &bad_request, length), (2, 1, book_file.len() - 2));
        let past_limit = Book { term: 83, ..book() }.encode();
        assert_eq!(refused(&past_limit, &bad_request, length), (3, 1, 80));
        assert_eq!(refused(&book_file, &[], length), (1, 2, 0));
        assert_eq!(refused(&book_file, &bad_request, length), (2, 2, bad_request.len() - 2));
        assert_eq!(refused(&book_file, &request.encode(), length), (4, 2, 0));
        let bespoke = Request { zone: 1, ..request.clone() };
        assert_eq!(refused(&book_file, &bespoke.encode(), length), (5, 2, 3));
    }
    assert_eq!(refused(&book_file, &Request::slip().encode(), 767), (14, 0, 0));
}

#[test]
fn the_program_prints_the_page_or_the_refusal() {
    let (book_file, request_file) = (book().encode(), Request::slip().encode());
    assert_eq!(printed(&book_file, &request_file), written(&book(), &Request::slip()));
    assert_eq!(printed(&[], &[]), b"REFUSED 1 1 0\n");
    assert_eq!(printed(&book_file, &[]), b"REFUSED 1 2 0\n");
    assert_eq!(printed(&book_file, &Request { zone: 2, ..Request::slip() }.encode()), b"REFUSED 4 2 0\n");
}

/// Each label is the listed one, in the listed order.
#[test]
fn labels() {
    let page = written(&book(), &Request::slip());
    let labels: Vec<String> = read_page(&page).unwrap().into_iter().map(|line| line.label).collect();
    assert_eq!(labels, ["ME", "MC", "CE", "CC2", "TW", "HR", "OL", "IC", "IR", "CC", "NIC", "NC"]);
}
