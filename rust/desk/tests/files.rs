//! Texts and files: each is the other, whatever the values; the table's limits are the library's.

use desk::command::shown;
use desk::file::{closed, form_of, put, values, Found};
use desk::pack::packed;
use desk::table::{Form, Kind, Limits, BOOK, KINDS, REQUEST};
use desk::text::{of_file, Fault};
use fikrem::Reason;
use generate::damage::{book_past_limits, damaged, request_past_limits};
use generate::fields::parts;
use generate::request::Tier;
use generate::zone_numbers::{mixture, rising_numbers, wide_book, wide_request, widened_book, zone_number};
use generate::{Book, Random, Request};

/// A book with all that a book can have, no two values alike in a unit.
fn full_book() -> Book {
    Book {
        discount_rate: 463,
        pairs: [(1, 11), (2, 12), (3, 13), (4, 14), (5, 15)],
        distribution_factors: (1..=8).map(|year| 9_000 + year).collect(),
        transmission_factors: (1..=8).map(|year| 11_000 + year).collect(),
        threshold: 4_000_001,
        fee: 20_002,
        minimum: 30_003,
        term: 120,
        capacity_charged: 1,
        credit_share: 6_504,
        zones: (1u8..=8).map(|zone| (10 * zone, [1, 2, 3, 4, 5].map(|tier| 100 * u32::from(zone) + tier))).collect(),
    }
}

fn full_request() -> Request {
    Request {
        person: 4_711,
        class: 2,
        zone: 30,
        me: 101,
        ce: 202,
        de: 303,
        tw: 404,
        hr: 505,
        ol: 606,
        tiers: [(0, 1_001, 11), (1, 1_002, 12), (2, 1_003, 13), (0, 1_004, 14), (1, 1_005, 15)]
            .map(|(mode, demand, bespoke_rate)| Tier { mode, demand, bespoke_rate }),
        added_demands: [2_001, 2_002, 2_003, 2_004, 2_005],
        distribution_revenue: 707_070,
        transmission_revenue: 80_808,
        part_year: (1..=8).map(|year| 5_000 + year).collect(),
        distribution_tariffs: (1..=8).map(|year| 6_000 + year).collect(),
        transmission_tariffs: (1..=8).map(|year| 7_000 + year).collect(),
        month: 24_315,
        capacity: 15_001,
        scheme: 9,
        mark: 2,
    }
}

/// The zone numbers of a full book with two-byte numbers.
const WIDE_NUMBERS: [u16; 8] = [0, 10, 255, 256, 1_399, 1_400, 65_534, 65_535];

/// A full book and a full request, with zone numbers of one byte and of two.
fn full_files() -> [(&'static Kind, Vec<u8>); 4] {
    [
        (&BOOK, full_book().encode()),
        (&BOOK, wide_book(&full_book(), &WIDE_NUMBERS)),
        (&REQUEST, full_request().encode()),
        (&REQUEST, wide_request(&full_request(), 1_400)),
    ]
}

/// A text's lines without its notes.
fn lines(text: &str) -> Vec<&str> {
    text.lines().filter(|line| !line.starts_with('#')).collect()
}

fn shown_lines(file: &[u8]) -> Vec<String> {
    let text = shown(file).unwrap_or_else(|refusal| panic!("{refusal}"));
    lines(&text).into_iter().map(str::to_string).collect()
}

/// The file with another number in the place of a value.
fn with(kind: &Kind, file: &[u8], found: &Found, number: u64) -> Option<Vec<u8>> {
    let mut value = Vec::new();
    put(&mut value, number, found.slot.value.width(form_of(kind, file)))?;
    let mut bytes = file[..file.len() - 5].to_vec();
    bytes[found.offset..found.offset + value.len()].copy_from_slice(&value);
    Some(closed(bytes))
}

fn packed_from(text: &str) -> Result<Vec<u8>, Vec<Fault>> {
    packed(text).map(|(_, file)| file)
}

/// A text with other lines in the place of some.
fn with_lines(text: &str, lines: &[(&str, &str)]) -> String {
    lines.iter().fold(text.to_string(), |text, (line, other)| {
        assert!(text.contains(&format!("\n{line}\n")), "{line}");
        text.replace(&format!("\n{line}\n"), &format!("\n{other}\n"))
    })
}

/// Every name beside its value, written by hand: packing and showing could be wrong alike.
#[test]
fn each_value_has_its_own_name() {
    assert_eq!(shown_lines(&full_book().encode()), lines(include_str!("full_book.csv")));
    assert_eq!(shown_lines(&full_request().encode()), lines(include_str!("full_request.csv")));
}

/// The same texts with two-byte zone numbers: past 255, where nothing is said of their bytes, and up to 255, where it is.
#[test]
fn each_value_has_its_own_name_in_two_bytes() {
    let book = with_lines(
        include_str!("full_book.csv"),
        &[
            ("first zone number,10", "first zone number,0"),
            ("second zone number,20", "second zone number,10"),
            ("third zone number,30", "third zone number,255"),
            ("fourth zone number,40", "fourth zone number,256"),
            ("fifth zone number,50", "fifth zone number,1399"),
            ("sixth zone number,60", "sixth zone number,1400"),
            ("seventh zone number,70", "seventh zone number,65534"),
            ("eighth zone number,80", "eighth zone number,65535"),
        ],
    );
    let request = with_lines(include_str!("full_request.csv"), &[("zone number,30", "zone number,1400")]);
    let small_book = with_lines(
        include_str!("full_book.csv"),
        &[("first zone number,10", "zone number bytes,2\nfirst zone number,10")],
    );
    let small_request =
        with_lines(include_str!("full_request.csv"), &[("zone number,30", "zone number bytes,2\nzone number,30")]);
    for (file, text) in [
        (wide_book(&full_book(), &WIDE_NUMBERS), book),
        (wide_request(&full_request(), 1_400), request),
        (widened_book(&full_book()), small_book),
        (wide_request(&full_request(), 30), small_request),
    ] {
        assert_eq!(shown_lines(&file), lines(&text));
        assert_eq!(packed_from(&text), Ok(file));
    }
}

/// Two values of the same width beside each other, exchanged: both lines have the other's number, and no other line moves.
#[test]
fn neighbours_exchanged_show() {
    let exchanged = full_files().map(|(kind, file)| {
        let (found, before) = (values(kind, &file), shown_lines(&file));
        let mut exchanged = 0;
        for pair in found.windows(2) {
            let [one, next] = pair else { panic!("two") };
            let Some(half) = with(kind, &file, one, next.number) else { continue };
            let Some(both) = with(kind, &half, next, one.number) else { continue };
            let Ok(after) = shown(&both) else { continue };
            let after = lines(&after);
            let moved: Vec<&str> =
                after.iter().zip(&before).filter(|(after, before)| after != before).map(|(after, _)| *after).collect();
            let line = |at: &Found, number| format!("{},{}", at.slot.name(), at.slot.value.unit.written(number));
            assert_eq!(moved, [line(one, next.number), line(next, one.number)]);
            assert_eq!(before.len(), after.len());
            exchanged += 1;
        }
        exchanged
    });
    assert_eq!(exchanged, [57, 64, 44, 43]);
}

/// The library takes the number in this value's place, or refuses it there; then name, field and place are told.
fn judged(kind: &Kind, file: &[u8], found: &Found, number: u64, stands: bool) {
    let name = found.slot.name();
    let Some(file) = with(kind, file, found, number) else {
        assert!(!stands, "{name} can't be {number}");
        return;
    };
    match (kind.judge)(&file) {
        Ok(()) => assert!(stands, "{name} may be {number}"),
        Err(refusal) => {
            assert!(!stands, "{name} may not be {number}");
            assert_eq!((refusal.number(), refusal.file, refusal.place), (3, 1, found.offset), "{name} is {number}");
            let words = shown(&file).expect_err("it is refused");
            let field = parts(&file).into_iter().find(|part| part.contains(&found.offset)).expect("its field");
            assert!(words.contains(&format!(": {} ", name_told(found))), "{words}");
            assert!(
                words.ends_with(&format!(" (field {:02X}, offset {})\n", file[field.start], found.offset)),
                "{words}"
            );
        }
    }
}

/// What a refused value is called: where all is past the sum, the sum is named.
fn name_told(found: &Found) -> String {
    match found.slot.value.limits {
        Limits::Sums(_) => found.slot.value.name.to_string(),
        _ => found.slot.name(),
    }
}

/// A text's line with this number for a value: packed, or refused on that line with the words that the table has.
fn told(text: &str, found: &Found, number: u64, allowed: &str) {
    let (name, unit) = (found.slot.name(), found.slot.value.unit);
    let line = |number| format!("{name},{}", unit.written(number));
    let at = text.lines().position(|one| one == line(found.number)).expect("the value's line");
    let text = text.replace(&format!("{}\n", line(found.number)), &format!("{}\n", line(number)));
    let faults = packed_from(&text).expect_err(&name);
    let [fault] = faults.as_slice() else { panic!("{faults:?}") };
    assert_eq!(fault.line, Some(at + 1), "{fault:?}");
    assert!(fault.words.starts_with(&format!("{name} is ")), "{fault:?}");
    assert!(fault.words.ends_with(&format!(", allowed are {allowed}")), "{fault:?}");
}

/// A value's lowest and highest number, where no other value binds it.
fn limits_of(found: &Found, form: Form) -> Option<(u64, u64)> {
    match found.slot.value.limits {
        Limits::Within(low, high) => Some((low, high)),
        Limits::Any => Some((0, found.slot.value.highest(form))),
        _ => None,
    }
}

#[test]
fn each_limit_is_the_librarys() {
    // the fee is at most the minimum, and an operating loading has one class: both at 0 bind no other value
    let (book, request) = (Book { fee: 0, ..full_book() }, Request { ol: 0, ..full_request() });
    let files = [
        (&BOOK, book.encode()),
        (&BOOK, wide_book(&book, &WIDE_NUMBERS)),
        (&REQUEST, request.encode()),
        (&REQUEST, wide_request(&request, 1_400)),
    ];
    let limits = files.map(|(kind, file)| {
        let (text, form) = (of_file(kind, &file), form_of(kind, &file));
        let mut limits = 0;
        for found in values(kind, &file) {
            let Some((low, high)) = limits_of(&found, form) else { continue };
            judged(kind, &file, &found, low, true);
            judged(kind, &file, &found, high, true);
            judged(kind, &file, &found, high + 1, false);
            limits += 1;
            // of a text, in which a number past one byte has two
            let (low, high) = limits_of(&found, Form::TwoBytes).expect("as before");
            let allowed = desk::words::allowed(found.slot.value, Form::TwoBytes);
            told(&text, &found, high + 1, &allowed);
            if low > 0 {
                judged(kind, &file, &found, low - 1, false);
                told(&text, &found, low - 1, &allowed);
            }
        }
        limits
    });
    assert_eq!(limits, [67, 67, 58, 58]);
}

/// A text's zone numbers: in as few bytes as they fit, in as many as it says, and never past these.
#[test]
fn zone_numbers_take_the_bytes_they_need() {
    let (book, request) = (of_file(&BOOK, &full_book().encode()), of_file(&REQUEST, &full_request().encode()));
    let of_book = |number: u16| wide_book(&full_book(), &[10, 20, 30, 40, 50, 60, 70, number]);
    let narrow_book = |number: u8| {
        let mut book = full_book();
        book.zones[7].0 = number;
        book.encode()
    };
    let narrow_request = |zone: u8| Request { zone, ..full_request() }.encode();
    let of_request = |zone: u16| wide_request(&full_request(), zone);
    let rows = [
        ("255", "", Ok((narrow_book(255), narrow_request(255)))),
        ("256", "", Ok((of_book(256), of_request(256)))),
        ("65535", "", Ok((of_book(65_535), of_request(65_535)))),
        ("65536", "", Err("65535")),
        ("255", "zone number bytes,1", Ok((narrow_book(255), narrow_request(255)))),
        ("256", "zone number bytes,1", Err("255")),
        ("65536", "zone number bytes,1", Err("255")),
        ("80", "zone number bytes,2", Ok((of_book(80), of_request(80)))),
        ("256", "zone number bytes,2", Ok((of_book(256), of_request(256)))),
        ("65535", "zone number bytes,2", Ok((of_book(65_535), of_request(65_535)))),
        ("65536", "zone number bytes,2", Err("65535")),
    ];
    for (number, said, wanted) in rows {
        let (book_line, request_line) = (format!("eighth zone number,{number}"), format!("zone number,{number}"));
        let book = with_lines(&book, &[("eighth zone number,80", &book_line)]) + said;
        let request = with_lines(&request, &[("zone number,30", &request_line)]) + said;
        let reason = if said.ends_with('1') { ", where zone number bytes is 1" } else { "" };
        let fault = |text: &str, name: &str, allowed: String| {
            let line = text.lines().position(|line| line.starts_with(&format!("{name},"))).map(|line| line + 1);
            Err(vec![Fault { line, words: format!("{name} is {number}, allowed are {allowed}{reason}") }])
        };
        let (of_book, of_request) = match wanted {
            Ok((book, request)) => (Ok(book), Ok(request)),
            Err(highest) => (
                fault(&book, "eighth zone number", format!("0 to {highest}, above that of the zone before")),
                fault(&request, "zone number", format!("0 to {highest}")),
            ),
        };
        assert_eq!(packed_from(&book), of_book, "{number} {said}");
        assert_eq!(packed_from(&request), of_request, "{number} {said}");
    }
}

/// Zone numbers rise as whole numbers, past 255 too; what is allowed is said of all that the text may have.
#[test]
fn zone_numbers_rise() {
    let text = of_file(&BOOK, &Book { zones: full_book().zones[..2].to_vec(), ..full_book() }.encode());
    let rows = [
        ("255", "256", "", None),
        ("254", "255", "", None),
        ("0", "1", "", None),
        ("65534", "65535", "", None),
        ("256", "255", "", Some("257 to 65535, above the first zone number")),
        ("255", "255", "", Some("256 to 65535, above the first zone number")),
        ("263", "7", "", Some("264 to 65535, above the first zone number")),
        ("20", "20", "", Some("21 to 65535, above the first zone number")),
        ("65534", "0", "", Some("65535 to 65535, above the first zone number")),
        ("65535", "65535", "", Some("none above the first zone number, 65535")),
        ("254", "255", "zone number bytes,1", None),
        ("255", "255", "zone number bytes,1", Some("none above the first zone number, 255")),
        ("20", "20", "zone number bytes,1", Some("21 to 255, above the first zone number")),
        ("20", "20", "zone number bytes,2", Some("21 to 65535, above the first zone number")),
    ];
    for (first, second, said, allowed) in rows {
        let lines = [format!("first zone number,{first}"), format!("second zone number,{second}")];
        let text =
            with_lines(&text, &[("first zone number,10", &lines[0]), ("second zone number,20", &lines[1])]) + said;
        let faults = allowed.map(|allowed| {
            let line = text.lines().position(|line| line == lines[1]).map(|line| line + 1);
            vec![Fault { line, words: format!("second zone number is {second}, allowed are {allowed}") }]
        });
        assert_eq!(packed_from(&text).err(), faults, "{first} {second} {said}");
    }
}

fn find<'a>(found: &'a [Found], name: &str) -> &'a Found {
    found.iter().find(|found| found.slot.name() == name).unwrap_or_else(|| panic!("no {name}"))
}

#[test]
fn limits_by_other_values_are_the_librarys() {
    for file in [full_book().encode(), wide_book(&full_book(), &WIDE_NUMBERS)] {
        let (found, text) = (values(&BOOK, &file), of_file(&BOOK, &file));
        let fee = find(&found, "fee");
        judged(&BOOK, &file, fee, 30_003, true);
        judged(&BOOK, &file, fee, 30_004, false);
        told(&text, fee, 30_004, "0.00 to 300.03, the minimum");
        let opex = find(&found, "selected opex 1");
        judged(&BOOK, &file, opex, 65 - 14, true);
        judged(&BOOK, &file, opex, 65 - 13, false);
        let text = text.replace("selected opex 1,1\n", "selected opex 1,52\n");
        let words = "selected opex together is 66 thousand dollars, allowed are 0 to the distribution revenue together, 65 thousand dollars, which isn't 0";
        assert_eq!(packed_from(&text), Err(vec![Fault { line: Some(7), words: words.to_string() }]));
    }
    let none = Book { pairs: [(0, 0); 5], ..full_book() }.encode();
    assert_eq!(fikrem::judge_book(&none).map_err(|refusal| (refusal.number(), refusal.place)), Err((3, 15)));
}

#[test]
fn limits_of_rising_zone_numbers_are_the_librarys() {
    let (narrow, wide) = (full_book().encode(), wide_book(&full_book(), &WIDE_NUMBERS));
    for (file, name, number, stands) in [
        (&narrow, "third zone number", 0, false),
        (&narrow, "third zone number", 20, false),
        (&narrow, "third zone number", 21, true),
        (&narrow, "eighth zone number", 70, false),
        (&narrow, "eighth zone number", 71, true),
        (&narrow, "eighth zone number", 255, true),
        (&narrow, "eighth zone number", 256, false),
        (&wide, "fourth zone number", 0, false),
        (&wide, "fourth zone number", 255, false),
        (&wide, "fourth zone number", 256, true),
        (&wide, "fourth zone number", 1_398, true),
        (&wide, "eighth zone number", 0, false),
        (&wide, "eighth zone number", 65_534, false),
        (&wide, "eighth zone number", 65_535, true),
        (&wide, "eighth zone number", 65_536, false),
    ] {
        judged(&BOOK, file, find(&values(&BOOK, file), name), number, stands);
    }
}

/// Operating loading: up to its limit in special pricing, 0 in every other class.
#[test]
fn limits_of_the_operating_loading_are_the_librarys() {
    for (class, most, allowed) in [
        (0, 0, "0.00 where class is residential"),
        (1, 0, "0.00 where class is non-residential"),
        (2, 1_000_000_000, "0.00 to 10,000,000.00"),
    ] {
        let request = Request { class, ol: 0, ..full_request() };
        for file in [request.encode(), wide_request(&request, 1_400)] {
            let (found, text) = (values(&REQUEST, &file), of_file(&REQUEST, &file));
            let loading = find(&found, "operating loading OL");
            judged(&REQUEST, &file, loading, most, true);
            judged(&REQUEST, &file, loading, most + 1, false);
            told(&text, loading, most + 1, allowed);
        }
    }
}

/// Books and requests of a seed, with zone numbers of one byte, the same in two, and others in two; and whether a text
/// must say how many bytes they have.
fn files(random: &mut Random) -> [(Vec<u8>, bool); 7] {
    let book = Book::random(random);
    let (request, loose) = (Request::random(random, &book), Request::loose(random));
    let (zone, numbers) = (zone_number(random), rising_numbers(random, book.zones.len()));
    [
        (request.encode(), false),
        (wide_request(&request, request.zone.into()), true),
        (wide_request(&request, zone), zone <= 255),
        (loose.encode(), false),
        (book.encode(), false),
        (widened_book(&book), true),
        (wide_book(&book, &numbers), numbers.iter().all(|&number| number <= 255)),
    ]
}

#[test]
fn what_is_shown_packs_to_the_same_bytes() {
    let mut random = Random::new(200);
    for _ in 0..1_000 {
        for (file, says) in files(&mut random) {
            let text = shown(&file).unwrap_or_else(|refusal| panic!("{refusal}"));
            assert_eq!(packed_from(&text).as_ref(), Ok(&file), "{text}");
            let said: Vec<&str> = text.lines().filter(|line| line.starts_with("zone number bytes")).collect();
            assert_eq!(said, if says { vec!["zone number bytes,2"] } else { vec![] }, "{text}");
        }
    }
}

/// Damaged files and any bytes: shown where the library takes them, otherwise refused with the number that it says.
#[test]
fn damaged_files_are_refused_in_words() {
    let mut random = Random::new(201);
    let mut numbers = [0; 4];
    for _ in 0..2_000 {
        for (mut file, _) in files(&mut random) {
            for _ in 0..random.within(1, 3) {
                file = match random.within(0, 9) {
                    0 => (0..random.edge(0, 300)).map(|_| random.next_u64() as u8).collect(),
                    _ if file.is_empty() => file,
                    _ => damaged(&mut random, &file),
                };
            }
            match shown(&file) {
                Ok(text) => assert_eq!(packed_from(&text).as_ref(), Ok(&file), "{text}"),
                Err(words) => numbers[number_told(&file, &words)] += 1,
            }
        }
    }
    assert!(numbers[1..].iter().all(|&times| times > 100), "{numbers:?}");
}

/// Fields of both forms, of neither, once too often and out of order.
#[test]
fn mixtures_of_both_forms_are_refused_in_words() {
    let mut random = Random::new(204);
    let mut times = [[0; 3]; 2];
    for _ in 0..10_000 {
        let book = Book::random(&mut random);
        let request = Request::random(&mut random, &book);
        let books = [book.encode(), widened_book(&book)];
        let requests = [request.encode(), wide_request(&request, request.zone.into())];
        for (place, (kind, [one, other])) in [(&BOOK, books), (&REQUEST, requests)].into_iter().enumerate() {
            let file = mixture(&mut random, [&one, &other]);
            match shown(&file) {
                Ok(text) => {
                    assert_eq!(packed_from(&text).as_ref(), Ok(&file), "{text}");
                    times[place][0] += 1;
                }
                Err(words) => {
                    number_told(&file, &words);
                    let [both, neither] = both_or_neither(kind, &file);
                    let not_both = format!(": a {} has one of the two, not both\n", kind.name);
                    assert_eq!(words.ends_with(&not_both), both, "{words}");
                    assert_eq!(words.contains(" is missing, "), neither, "{words}");
                    times[place][1] += usize::from(both);
                    times[place][2] += usize::from(neither);
                }
            }
        }
    }
    assert!(times.concat().iter().all(|&times| times > 20), "{times:?}");
}

/// Whether a refused file has a field of the second form where it is refused, and whether it has all fields but those of
/// either form.
fn both_or_neither(kind: &Kind, file: &[u8]) -> [bool; 2] {
    let (forms, others): ([u8; 2], Vec<u8>) = match kind.letters {
        "RATE" => ([8, 9], (1..=7).collect()),
        _ => ([4, 13], (1..=12).filter(|tag| *tag != 4).collect()),
    };
    let refusal = (kind.judge)(file).expect_err("it is refused");
    let starts: Vec<usize> = parts(file).into_iter().map(|part| part.start).collect();
    let of_form = |tag: u8| starts.iter().any(|&start| start < refusal.place && file[start] == tag);
    let second = (file[refusal.place] == forms[0] && of_form(forms[1]))
        || (file[refusal.place] == forms[1] && of_form(forms[0]));
    let tags: Vec<u8> = starts.iter().map(|&start| file[start]).collect();
    [refusal.reason == Reason::FileDoesNotWalk && second, tags == others]
}

/// The number that a refusal's words begin with, which the library gives a file of the kind that they name; for 1 they
/// have the library's place too, but of a bad tail.
fn number_told(file: &[u8], words: &str) -> usize {
    let refusals: Vec<_> = KINDS.iter().filter_map(|kind| Some((kind.name, (kind.judge)(file).err()?))).collect();
    let told = |(name, number): (&str, u8)| words.starts_with(&format!("refused, number {number}: the {name}: "));
    let refusal = refusals.iter().find(|(name, refusal)| told((name, refusal.number())));
    let (_, refusal) = refusal.unwrap_or_else(|| panic!("{words}, but {refusals:?}"));
    assert!(words.ends_with('\n') && words.lines().count() == 1, "{words:?}");
    if refusal.reason == Reason::FileDoesNotWalk && !words.contains(" bytes don't end in a check") {
        let place = format!(" at offset {}", refusal.place);
        let rest = words.split_once(&place).unwrap_or_else(|| panic!("{words}, but {refusal:?}")).1;
        assert!(!rest.starts_with(|letter: char| letter.is_ascii_digit()), "{words}, but {refusal:?}");
    }
    usize::from(refusal.number())
}

/// Each value past its limit: its name and its place are told.
#[test]
fn values_past_their_limits_are_named() {
    let mut random = Random::new(202);
    for _ in 0..30 {
        let book = Book::random(&mut random);
        let request = Request::random(&mut random, &book);
        let past = book_past_limits(&book).into_iter().map(|past| (&BOOK, past));
        for (kind, past) in past.chain(request_past_limits(&request).into_iter().map(|past| (&REQUEST, past))) {
            let words = shown(&past.file).expect_err("past its limit");
            let letters = past.place == 3;
            let name = values(kind, &past.file).into_iter().find(|found| found.offset == past.place);
            assert_eq!(name.is_none(), letters, "{words}");
            let name = name.map_or("its letters".to_string(), |found| name_told(&found));
            assert!(words.starts_with(&format!("refused, number 3: the {}: {name} ", kind.name)), "{words}");
            assert!(words.contains(", allowed are "), "{words}");
            assert!(words.ends_with(&format!(", offset {})\n", past.place)), "{words}");
        }
    }
}
