//! The reader of a page: it finds the charge's amounts, each amount has one text, and each text one amount.

use generate::request::pair;
use generate::{Book, Random, Request};
use reference::page::{amount, line};
use reference::page_reader::{read_amount, read_page};
use reference::{page, price, Reconciliation};

/// The 31 columns that end with the text.
fn columns(text: &str) -> [u8; 31] {
    format!("{text:>31}").into_bytes().try_into().expect("31 columns hold the text")
}

fn read(text: &str) -> Option<i128> {
    read_amount(&columns(text))
}

/// The charge's amounts in the page's order.
fn amounts(sums: &Reconciliation) -> [i128; 12] {
    let [me, mc, ce, cc2, tw, hr] = [sums.me, sums.mc, sums.ce, sums.cc2, sums.tw, sums.hr].map(i128::from);
    let [ol, ic, ir, cc] = [sums.ol, sums.ic, sums.ir, sums.cc].map(i128::from);
    [me, mc, ce, cc2, tw, hr, ol, ic, ir, cc, sums.nic.into(), sums.nc.into()]
}

fn reads_back(book: &Book, request: &Request) {
    let (book, request) = (book.encode(), request.encode());
    let mut output = [0xEE; 768];
    page(&book, &request, &mut output).unwrap();
    let lines = read_page(&output).expect("a page reads");
    let read: Vec<i128> = lines.iter().map(|line| line.cents).collect();
    assert_eq!(read, amounts(&price(&book, &request).unwrap().reconciliation));
}

#[test]
fn the_charges_twelve_amounts() {
    let mut output = [0; 768];
    page(&Book::slip().encode(), &Request::slip().encode(), &mut output).unwrap();
    let read: Vec<i128> = read_page(&output).unwrap().iter().map(|line| line.cents).collect();
    let wanted = [1_598_500, 108_000, 0, 0, 0, 0, 0, 1_706_500, 859_800, 1_147_630, 846_700, 300_930];
    assert_eq!(read, wanted);
    let mut random = Random::new(9);
    for _ in 0..2_000 {
        let (book, request) = pair(&mut random);
        // the class that may have an OL
        reads_back(&book, &Request { class: 2, ..request });
    }
}

#[test]
fn texts_of_amounts() {
    let texts = [
        (0, "0.00"),
        (-5, "-0.05"),
        (5, "0.05"),
        (99, "0.99"),
        (100, "1.00"),
        (-100, "-1.00"),
        (99_999, "999.99"),
        (100_000, "1,000.00"),
        (-99_999, "-999.99"),
        (-100_000, "-1,000.00"),
        (100_001, "1,000.01"),
        (1_000_000, "10,000.00"),
        (99_999_999, "999,999.99"),
        (100_000_000, "1,000,000.00"),
        (-100_000_000, "-1,000,000.00"),
        (100_200_305, "1,002,003.05"),
        (i64::MAX, "92,233,720,368,547,758.07"),
        (i64::MIN, "-92,233,720,368,547,758.08"),
    ];
    for (cents, text) in texts {
        assert_eq!(amount(cents), text);
        assert_eq!(read(text), Some(cents.into()), "{text}");
    }
    assert_eq!(line("NIC", i64::MIN), "NIC                                  -92,233,720,368,547,758.08\n");
    assert_eq!(line("NIC", i64::MIN).len(), 64);
}

/// Amounts about 0, about every power of ten and about every power of two, and any: each is read as itself.
#[test]
fn written_amounts_are_read() {
    let powers = (0..19).map(|power| 10i64.pow(power)).chain((0..63).map(|power| 1 << power));
    let about = powers.flat_map(|power| [power.saturating_sub(1), power, power.saturating_add(1)]);
    let mut random = Random::new(10);
    let any: Vec<i64> = (0..20_000).map(|_| (random.next_u64() as i64) >> random.within(0, 63)).collect();
    for cents in (0..=250_000).chain(about).chain(any).chain([i64::MIN, i64::MAX]) {
        for cents in [cents, cents.wrapping_neg()] {
            assert_eq!(read(&amount(cents)), Some(cents.into()), "{cents}");
        }
    }
}

#[test]
fn what_is_no_amount() {
    let without_blanks =
        "0 1 - . -. .05 -.05 0.5 0. 0.005 00.00 01.00 001.00 0,001.00 1000.00 1,00.00 10,00.00 1,0000.00 \
        1,000,00.00 ,100.00 1,,000.00 1,000,.00 -0.00 --1.00 +1.00 1.00- 1.000.00 $1.00 1,000 1.0a 1.a0 a.00 1,00a.00";
    let with_blanks =
        ["", "- 1.00", "-          12,935.00", "1.00 ", "1 000.00", "1.00 1.00", "0.00 0.05", "1.00\n", "\t1.00"];
    for text in without_blanks.split(' ').chain(with_blanks) {
        assert_eq!(read(text), None, "'{text}'");
    }
    assert_eq!(read_amount(&[b'0'; 31]), None);
}

/// All 31 columns count: the longest amount fills them, and what stands before an amount is no blank of it.
#[test]
fn all_columns_count() {
    assert_eq!(read("-123,456,789,012,345,678,901.23"), Some(-12_345_678_901_234_567_890_123));
    assert_eq!(read("1,234,567,890,123,456,789,012.3"), None);
    for column in 0..26 {
        for byte in (0..=u8::MAX).filter(|byte| !b" -123456789".contains(byte)) {
            let mut altered = columns("-5.00");
            altered[column] = byte;
            assert_eq!(read_amount(&altered), None, "byte {byte} in column {column}");
        }
    }
}

/// Columns that read as an amount are those that are written for it; so no other columns have it.
fn one_text(columns: &[u8; 31]) -> bool {
    let Some(cents) = read_amount(columns).and_then(|cents| i64::try_from(cents).ok()) else {
        return false;
    };
    assert_eq!(format!("{:>31}", amount(cents)).as_bytes(), columns, "{cents} has two texts");
    true
}

#[test]
fn an_amount_has_one_text() {
    let texts = ["0.00", "-0.05", "999.99", "1,000.00", "-12,935.00", "1,019,458.01", "-92,233,720,368,547,758.08"];
    for text in texts {
        assert!(one_text(&columns(text)));
        for column in 0..31 {
            for byte in 0..=u8::MAX {
                let mut altered = columns(text);
                altered[column] = byte;
                one_text(&altered);
            }
        }
    }
    // every text of eight columns over these bytes
    let bytes = b" -,.01";
    let mut read = 0;
    for number in 0..6u32.pow(8) {
        let mut short = columns("");
        for place in 0..8 {
            short[23 + place as usize] = bytes[(number / 6u32.pow(place) % 6) as usize];
        }
        read += u32::from(one_text(&short));
    }
    // dollars of one to four digits, 2 + 2 + 4 + 8, each with four sums of cents; below 0 of one to three, and not 0
    assert_eq!(read, 4 * 16 + 4 * 8 - 1);
}

/// The bench mistakes: a page with one of them doesn't read, or not as the charge.
#[test]
fn mistakes_show() {
    let mistaken = |wrong: &str| {
        let mut output = [0; 768];
        page(
            &Book::slip().encode(),
            &Request { distribution_revenue: 200_000, ..Request::slip() }.encode(),
            &mut output,
        )
        .unwrap();
        assert_eq!(read_page(&output).unwrap()[10].cents, -1_293_500);
        output[672..703].copy_from_slice(wrong.as_bytes());
        read_page(&output).map(|lines| lines[10].cents)
    };
    // a comma one place off, the minus before the blanks, cents without the leading zero, the highest digit dropped
    assert_eq!(mistaken("                     -1,2935.00"), None);
    assert_eq!(mistaken("-                     12,935.00"), None);
    assert_eq!(mistaken("                      -12,935.0"), None);
    assert_eq!(mistaken("                      -2,935.00"), Some(-293_500));
}

#[test]
fn pages_that_do_not_read() {
    let mut output = [0; 768];
    page(&Book::slip().encode(), &Request::slip().encode(), &mut output).unwrap();
    assert_eq!(read_page(&output[..767]), None);
    assert_eq!(read_page(&output[1..]), None);
    assert_eq!(read_page(&output[..704]).unwrap().len(), 11);
    for (place, byte) in [(0, b' '), (31, 0x0A), (63, b' '), (127, 0x0D), (40, b'-'), (5, b'x')] {
        let mut altered = output;
        altered[place] = byte;
        assert_eq!(read_page(&altered), None, "byte {byte} at {place}");
    }
}
