//! The program as it is called: what it prints, the exit status, and what stands on disk after it.

use desk::file::closed;
use generate::damage::damaged;
use generate::zone_numbers::{mixture, rising_numbers, wide_book, wide_request, widened_book, zone_number};
use generate::{Book, Random, Request};
use std::fs;
use std::path::{Path, PathBuf};
use std::process::{Command, Output};

/// A folder of a test's own, removed with it.
struct Folder(PathBuf);

impl Folder {
    fn new(name: &str) -> Folder {
        let folder = std::env::temp_dir().join(format!("fikrem-desk-{}-{name}", std::process::id()));
        fs::create_dir_all(&folder).expect("a folder for the test");
        Folder(folder)
    }

    /// With the template's texts, packed.
    fn packed(name: &str) -> Folder {
        let folder = Folder::new(name);
        for (kind, text, file) in [("book", "rates.csv", "rates.bin"), ("request", "job.csv", "job.bin")] {
            let template = folder.run(&["template", kind]);
            assert_eq!(status(&template), 0);
            folder.write(text, &template.stdout);
            assert_eq!(status(&folder.run(&["pack", text, file])), 0);
        }
        folder
    }

    fn write(&self, name: &str, bytes: &[u8]) {
        fs::write(self.0.join(name), bytes).expect("written");
    }

    fn read(&self, name: &str) -> Vec<u8> {
        fs::read(self.0.join(name)).unwrap_or_else(|error| panic!("{name}: {error}"))
    }

    fn names(&self) -> Vec<String> {
        let entries = fs::read_dir(&self.0).expect("the folder").map(|entry| entry.expect("an entry").file_name());
        let mut names: Vec<String> = entries.map(|name| name.to_string_lossy().into_owned()).collect();
        names.sort();
        names
    }

    fn run(&self, arguments: &[&str]) -> Output {
        let program = Path::new(env!("CARGO_BIN_EXE_fikrem"));
        Command::new(program).args(arguments).current_dir(&self.0).output().expect("it runs")
    }

    /// The status and what stands on standard error, where nothing stands on standard output.
    fn fails(&self, arguments: &[&str]) -> (i32, String) {
        let output = self.run(arguments);
        assert_eq!(text(&output.stdout), "", "{arguments:?}");
        (status(&output), text(&output.stderr))
    }

    /// What is printed by a run that is done.
    fn done(&self, arguments: &[&str]) -> String {
        let output = self.run(arguments);
        assert_eq!((status(&output), text(&output.stderr)), (0, String::new()), "{arguments:?}");
        text(&output.stdout)
    }
}

impl Drop for Folder {
    fn drop(&mut self) {
        let _ = fs::remove_dir_all(&self.0);
    }
}

fn status(output: &Output) -> i32 {
    output.status.code().expect("it ends by itself")
}

fn text(bytes: &[u8]) -> String {
    String::from_utf8(bytes.to_vec()).expect("UTF-8")
}

fn repository(name: &str) -> Vec<u8> {
    let path = Path::new(env!("CARGO_MANIFEST_DIR")).join("../..").join(name);
    fs::read(&path).unwrap_or_else(|error| panic!("{}: {error}", path.display()))
}

#[test]
fn templates_are_the_slips_files() {
    let folder = Folder::packed("templates");
    assert_eq!(folder.read("rates.bin"), repository("crates/slip/data/rates.bin"));
    assert_eq!(folder.read("job.bin"), repository("crates/slip/data/job.bin"));
    assert_eq!(folder.done(&["show", "rates.bin"]), text(&folder.read("rates.csv")));
    assert_eq!(folder.done(&["show", "job.bin"]), text(&folder.read("job.csv")));
}

#[test]
fn quotes() {
    let folder = Folder::packed("quotes");
    let read = "\
rate book: discount rate 0.00 percent, capacity charged yes, credit share 65.00 percent, zones 1
request: person number 4711, class non-residential, zone number 1, month 2026-04, capacity 150.00 kVA, scheme joined 0, mark none
request: year-one distribution revenue 573.20 dollars, year-one transmission revenue 0.00 dollars
";
    let slip = text(&repository("crates/slip/stdout"));
    assert_eq!(folder.done(&["quote", "rates.bin", "job.bin"]), format!("{read}\n{slip}"));
    let page = repository("crates/page/stdout");
    assert_eq!(folder.done(&["quote", "--page", "rates.bin", "job.bin"]), text(&page));
    assert_eq!(folder.done(&["quote", "rates.bin", "job.bin", "--page"]), text(&page));
}

/// Zone numbers of one byte and of two, in the book and in the request: the same quote.
#[test]
fn quotes_with_zone_numbers_of_either_form() {
    let folder = Folder::packed("either-form");
    for (from, to, file) in [
        ("rates.csv", "wide_rates.bin", widened_book(&Book::slip())),
        ("job.csv", "wide_job.bin", wide_request(&Request::slip(), 1)),
    ] {
        folder.write("wide.csv", format!("{}zone number bytes = 2\n", text(&folder.read(from))).as_bytes());
        folder.done(&["pack", "wide.csv", to]);
        assert_eq!(folder.read(to), file);
    }
    for what in [&[][..], &["--page"], &["--band", "500", "573.20"]] {
        let quote = |book, request| folder.done(&[&["quote", book, request], what].concat());
        let quoted = quote("rates.bin", "job.bin");
        assert_eq!(quote("wide_rates.bin", "job.bin"), quoted);
        assert_eq!(quote("rates.bin", "wide_job.bin"), quoted);
        assert_eq!(quote("wide_rates.bin", "wide_job.bin"), quoted);
    }
}

/// Zones 7, 256 and 1,400, which is 120 in its low byte.
#[test]
fn quotes_with_zone_numbers_past_255() {
    let folder = Folder::packed("past-255");
    let rates = text(&folder.read("rates.csv"));
    let zone = |place: &str, number: &str| {
        let own = rates.lines().filter(|line| line.starts_with("first zone "));
        let lines =
            own.map(|line| line.replace("first", place).replace(" number,1", &format!(" number,{number}")) + "\n");
        lines.collect::<String>()
    };
    let rates = rates.replace("first zone number,1\n", "first zone number,7\n");
    let rates = rates + &zone("second", "256") + &zone("third", "1400");
    folder.write("rates.csv", rates.as_bytes());
    assert_eq!(folder.done(&["pack", "rates.csv", "rates.bin"]), "rates.bin: a rate book of 168 bytes\n");
    let (_, rates_of_zone) = Book::slip().zones[0];
    let book = Book { zones: vec![(0, rates_of_zone); 3], ..Book::slip() };
    assert_eq!(folder.read("rates.bin"), wide_book(&book, &[7, 256, 1_400]));
    let job = text(&folder.read("job.csv"));
    let slip = text(&repository("crates/slip/stdout"));
    for (zone, size, there) in
        [(0, 165, false), (7, 165, true), (120, 165, false), (256, 166, true), (263, 166, false), (1_400, 166, true)]
    {
        folder.write("job.csv", job.replace("\nzone number,1\n", &format!("\nzone number,{zone}\n")).as_bytes());
        assert_eq!(folder.done(&["pack", "job.csv", "job.bin"]), format!("job.bin: a request of {size} bytes\n"));
        if there {
            let quoted = folder.done(&["quote", "rates.bin", "job.bin"]);
            assert!(quoted.contains("credit share 65.00 percent, zones 7, 256, 1400\n"), "{quoted}");
            assert!(
                quoted.contains(&format!("class non-residential, zone number {zone}, month 2026-04, ")),
                "{quoted}"
            );
            assert!(quoted.ends_with(&format!("\n\n{slip}")), "{quoted}");
        } else {
            let words = format!("zone number {zone} isn't in the rate book, allowed are 7, 256, 1400");
            let refused = (1, format!("refused, number 4: the request: {words}\n"));
            assert_eq!(folder.fails(&["quote", "rates.bin", "job.bin"]), refused);
        }
    }
}

/// Distribution revenue between two figures, and transmission's; without these it is the request's own.
#[test]
fn bands() {
    let folder = Folder::packed("bands");
    let band = |arguments: &[&str]| {
        let printed = folder.done(&[&["quote", "rates.bin"], arguments].concat());
        let lines: Vec<String> = printed.lines().skip(3).map(str::to_string).collect();
        lines.join("\n")
    };
    let narrow = "\
band: year-one distribution revenue 573.20 to 2,000.00 dollars, year-one transmission revenue 0.00 to 0.00 dollars

IR 8,598.00 to 30,000.00 dollars
CC 0.00 to 11,476.30 dollars
NC 3,009.30 to 12,935.00 dollars";
    assert_eq!(band(&["job.bin", "--band", "573.20", "2000"]), narrow);
    assert_eq!(band(&["--band", "$573.20", "2,000.00", "job.bin"]), narrow);
    let both = "\
band: year-one distribution revenue 500.00 to 573.20 dollars, year-one transmission revenue 10.00 to 20.00 dollars

IR 7,650.00 to 8,898.00 dollars
CC 11,281.30 to 12,092.50 dollars
NC 2,677.50 to 3,114.30 dollars";
    assert_eq!(band(&["--band", "500", "573.20", "10", "20", "job.bin"]), both);
    let own = Request { transmission_revenue: 1_000, ..Request::slip() };
    folder.write("own.bin", &own.encode());
    assert!(band(&["--band", "500", "573.20", "own.bin"])
        .contains("transmission revenue 10.00 to 10.00 dollars\n\nIR 7,650.00 to 8,748.00"));
    folder.write("rates.bin", &Book { capacity_charged: 0, ..Book::slip() }.encode());
    assert!(band(&["--band", "0", "573.20", "job.bin"]).ends_with("NC -1,080.00 to 1,929.30 dollars"));
}

#[test]
fn refused_bands() {
    let folder = Folder::packed("refused-bands");
    let refused = |amounts: &[&str]| {
        let (status, words) = folder.fails(&[&["quote", "--band"], amounts, &["rates.bin", "job.bin"]].concat());
        assert_eq!(status, 1);
        words
    };
    let past = |name: &str, amount: &str| {
        format!("refused, number 3: the band: {name} is {amount} dollars, allowed are 0.00 to 10,000,000.00\n")
    };
    let [distribution, transmission] = ["year-one distribution revenue", "year-one transmission revenue"];
    assert_eq!(refused(&["10000000.01", "0"]), past(distribution, "10,000,000.01"));
    // one cent past 2^32
    assert_eq!(refused(&["0", "42949672.97"]), past(distribution, "42,949,672.97"));
    assert_eq!(refused(&["1", "0", "0", "10000000.01"]), past(transmission, "10,000,000.01"));
    let crossed = |name: &str| {
        let words = format!("{name} is 0.01 to 0.00 dollars, allowed are a low and a high that isn't below it");
        format!("refused, number 15: the band: {words}\n")
    };
    assert_eq!(refused(&["0.01", "0"]), crossed(distribution));
    assert_eq!(refused(&["0", "0", "0.01", "0"]), crossed(transmission));
    folder.write("job.bin", &Request { zone: 2, ..Request::slip() }.encode());
    assert!(refused(&["0.01", "0"]).starts_with("refused, number 4: "));
}

/// The refusals' own words: each says what to do about it.
#[test]
fn refusals_in_words() {
    let folder = Folder::packed("refusals");
    let request = |request: Request| {
        folder.write("other.bin", &request.encode());
        let (status, words) = folder.fails(&["quote", "rates.bin", "other.bin"]);
        assert_eq!(status, 1);
        assert_eq!(folder.fails(&["quote", "--page", "rates.bin", "other.bin"]), (1, words.clone()));
        words
    };
    assert_eq!(
        request(Request { capacity: 0, ..Request::slip() }),
        "refused, number 3: the request: capacity is 0.00 kVA, allowed are 0.01 to 10,000.00\n"
    );
    assert_eq!(
        folder.fails(&["show", "other.bin"]).1,
        "refused, number 3: the request: capacity is 0.00 kVA, allowed are 0.01 to 10,000.00 (field 0C, offset 153)\n"
    );
    let mut bespoke = Request::slip();
    (bespoke.tiers[2].mode, bespoke.tiers[2].bespoke_rate) = (2, 12_750);
    assert_eq!(
        request(bespoke),
        "refused, number 5: tier 3 (HV feeder): the bespoke rate lies within 80% to 150% of the posted one, or none is posted\n"
    );
    assert_eq!(
        request(Request { zone: 2, ..Request::slip() }),
        "refused, number 4: the request: zone number 2 isn't in the rate book, allowed are 1\n"
    );
    assert_eq!(
        request(Request { mark: 3, ..Request::slip() }),
        "refused, number 3: the request: mark is 3, allowed are none, opted out in writing or real estate\n"
    );
}

#[test]
fn files_of_another_kind_are_called_that() {
    let folder = Folder::packed("kinds");
    let refused = |arguments: &[&str]| folder.fails(arguments).1;
    assert_eq!(
        refused(&["quote", "rates.bin", "rates.bin"]),
        "refused, number 1: the request: this file is a rate book\n"
    );
    assert_eq!(
        refused(&["quote", "job.bin", "rates.bin"]),
        "refused, number 1: the rate book: this file is a request\n"
    );
    let ledger = fikrem::new_ledger();
    folder.write("ledger.bin", &ledger);
    assert_eq!(refused(&["show", "ledger.bin"]), "refused, number 1: the rate book: this file is a stored ledger\n");
    folder.write("old.bin", &fikrem::move_back(&ledger).expect("nothing was cleared"));
    assert_eq!(
        refused(&["show", "old.bin"]),
        "refused, number 1: the rate book: this file is a stored ledger of the old form\n"
    );
}

/// Files that don't walk, or whose check differs.
#[test]
fn damage_in_words() {
    let folder = Folder::packed("damage");
    let refused = |file: &[u8]| {
        folder.write("damaged.bin", file);
        let (status, words) = folder.fails(&["show", "damaged.bin"]);
        assert_eq!(status, 1);
        words
    };
    let job = folder.read("job.bin");
    assert_eq!(
        refused(&[]),
        "refused, number 1: the rate book: its 0 bytes don't end in a check, FF 00 02 and two bytes: it is cut short, or no packed file\n"
    );
    let mut altered = job.clone();
    altered[10] ^= 1;
    assert_eq!(
        refused(&altered),
        "refused, number 2: the request: its check at offset 163 is 76 FB, its other bytes give 5E 9D: it was changed after it was packed\n"
    );
    let field = |index: usize| generate::damage::without_field(&job, index);
    assert_eq!(
        refused(&field(5)),
        "refused, number 1: the request: field 07 at offset 49 stands where field 06 is due\n"
    );
    assert_eq!(refused(&field(11)), "refused, number 1: the request: it ends at offset 148, where field 0C is due\n");
    let mut longer = job[..160].to_vec();
    longer.splice(51..52, [46]);
    longer.insert(52, 0);
    let longer = desk::file::closed(longer);
    assert_eq!(
        refused(&longer),
        "refused, number 1: the request: field 06 at offset 49 has length 46, allowed are 45\n"
    );
    let early = generate::damage::extend_and_close(&folder.read("rates.bin"), &[0xFF, 0, 2, 0, 0]);
    assert_eq!(
        refused(&early),
        "refused, number 1: the rate book: field FF at offset 112 stands before the file's end\n"
    );
}

/// A field's bytes.
fn field(tag: u8, value: &[u8]) -> Vec<u8> {
    [&[tag, 0, value.len() as u8], value].concat()
}

/// Books with both forms of zones, with neither, and with fields that are due in neither form.
#[test]
fn zones_of_both_forms_in_words() {
    let folder = Folder::packed("both-forms");
    let (slip, wide_slip) = (Book::slip().encode(), widened_book(&Book::slip()));
    let (narrow, wide) = (slip[88..112].to_vec(), wide_slip[88..113].to_vec());
    let rows = [
        (vec![], "field 08 or 09 with the first zone number is missing, 08 is due at offset 88"),
        (vec![narrow.clone(), wide.clone()], "field 09 at offset 112 stands after field 08: BOTH"),
        (vec![narrow.clone(), wide.clone(), narrow.clone()], "field 09 at offset 112 stands after field 08: BOTH"),
        (vec![narrow.clone(), field(9, &[0; 21])], "field 09 at offset 112 stands after field 08: BOTH"),
        (vec![wide.clone(), narrow.clone()], "field 08 at offset 113 stands after field 09: BOTH"),
        ([vec![narrow.clone(); 8], vec![wide.clone()]].concat(), "field 09 at offset 280 stands after field 08: BOTH"),
        ([vec![wide.clone(); 8], vec![narrow.clone()]].concat(), "field 08 at offset 288 stands after field 09: BOTH"),
        (vec![narrow.clone(); 9], "field 08 at offset 280 stands where field FF is due"),
        (vec![wide.clone(); 9], "field 09 at offset 288 stands where field FF is due"),
        (vec![field(8, &[0; 22])], "field 08 at offset 88 has length 22, allowed are 21"),
        (vec![field(9, &[0; 21])], "field 09 at offset 88 has length 21, allowed are 22"),
        (vec![wide.clone(), field(9, &[0; 23])], "field 09 at offset 113 has length 23, allowed are 22"),
        (vec![field(10, &[0; 22])], "field 0A at offset 88 stands where field 08 or 09 is due"),
        (vec![narrow.clone(), field(10, &[])], "field 0A at offset 112 stands where field 08 or FF is due"),
        (vec![wide.clone(), field(10, &[])], "field 0A at offset 113 stands where field 09 or FF is due"),
        (vec![wide[..24].to_vec()], "field 09 at offset 88 has length 22 and goes past the check at offset 112"),
        (vec![field(0xFF, &[0; 2]), wide.clone()], "field FF at offset 88 stands where field 08 or 09 is due"),
    ];
    for (zones, words) in rows {
        folder.write("rates.bin", &closed([&slip[..88], &zones.concat()].concat()));
        let words = words.replace("BOTH", "a rate book has one of the two, not both");
        let refused = (1, format!("refused, number 1: the rate book: {words}\n"));
        assert_eq!(folder.fails(&["show", "rates.bin"]), refused);
        assert_eq!(folder.fails(&["quote", "rates.bin", "job.bin"]), refused);
    }
}

/// Requests with both forms of the zone number, with neither, and with fields that are due in neither form.
#[test]
fn zone_numbers_of_both_forms_in_words() {
    let folder = Folder::packed("both-numbers");
    let (slip, wide_slip) = (Request::slip().encode(), wide_request(&Request::slip(), 1));
    let own = |tag: u8| {
        let file = if tag == 13 { &wide_slip } else { &slip };
        let found = generate::fields::parts(file).into_iter().find(|part| file[part.start] == tag);
        found.map_or(field(tag, &[]), |part| file[part].to_vec())
    };
    let rows: [(&[u8], &str); 18] = [
        (
            &[1, 2, 3, 5, 6, 7, 8, 9, 10, 11, 12],
            "field 04 or 0D with the zone number is missing, 04 is due at offset 18",
        ),
        (&[1, 2, 3, 6, 7, 8, 9, 10, 11, 12], "field 06 at offset 18 stands where field 04 or 05 is due"),
        (&[1, 2, 3, 6, 7, 8, 9, 10, 11, 12, 13], "field 06 at offset 18 stands where field 04 or 05 is due"),
        (&[1, 2, 3], "it ends at offset 18, where field 04 or 05 is due"),
        (&[1, 2, 3, 4, 5, 6, 7, 8, 9, 10, 11, 12, 13], "field 0D at offset 160 stands after field 04: BOTH"),
        (&[1, 2, 3, 4, 5, 6, 7, 8, 9, 10, 11, 13], "field 0D at offset 148 stands after field 04: BOTH"),
        (&[1, 2, 3, 4, 5, 6, 7, 8, 9, 10, 11, 12, 14], "field 0E at offset 160 stands where field FF is due"),
        (&[1, 2, 3, 13, 5, 6, 7, 8, 9, 10, 11, 12], "field 0D at offset 18 stands where field 04 or 05 is due"),
        (&[1, 2, 3, 5, 4, 6, 7, 8, 9, 10, 11, 12], "field 04 at offset 45 stands where field 06 is due"),
        (&[1, 2, 3, 5], "it ends at offset 45, where field 06 is due"),
        (&[1, 2, 3, 5, 6, 7, 8, 9, 10, 11, 12, 13, 13], "field 0D at offset 161 stands where field FF is due"),
        (&[1, 2, 3, 5, 6, 7, 8, 9, 10, 11, 12, 13, 4], "field 04 at offset 161 stands after field 0D: BOTH"),
        (&[1, 2, 3, 5, 6, 7, 8, 9, 10, 11, 12, 14], "field 0E at offset 156 stands where field 0D is due"),
        (&[1, 2, 3, 5, 6, 7, 8, 9, 10, 11, 12, 12], "field 0C at offset 156 stands where field 0D is due"),
        (&[1, 2, 3, 5, 6, 7, 8, 9, 10, 11], "it ends at offset 144, where field 0C is due"),
        (&[1, 2, 3, 5, 6, 7, 8, 9, 10, 11, 13, 12], "field 0D at offset 144 stands where field 0C is due"),
        (&[1, 2, 3, 4, 4, 5, 6, 7, 8, 9, 10, 11, 12], "field 04 at offset 22 stands where field 05 is due"),
        (&[1, 2, 5, 6, 7, 8, 9, 10, 11, 12, 13], "field 05 at offset 14 stands where field 03 is due"),
    ];
    let of_tags = |tags: &[u8]| tags.iter().flat_map(|&tag| own(tag)).collect::<Vec<u8>>();
    let mut files: Vec<(Vec<u8>, &str)> = rows.iter().map(|(tags, words)| (of_tags(tags), *words)).collect();
    let (neither, start) = (of_tags(&[1, 2, 3, 5, 6, 7, 8, 9, 10, 11, 12]), of_tags(&[1, 2, 3]));
    files.push(([neither, field(13, &[1])].concat(), "field 0D at offset 156 has length 1, allowed are 2"));
    files.push(([start, field(5, &[0; 23])].concat(), "field 05 at offset 18 has length 23, allowed are 24"));
    for (bytes, words) in files {
        folder.write("job.bin", &closed(bytes));
        let words = words.replace("BOTH", "a request has one of the two, not both");
        let refused = (1, format!("refused, number 1: the request: {words}\n"));
        assert_eq!(folder.fails(&["show", "job.bin"]), refused);
        assert_eq!(folder.fails(&["quote", "rates.bin", "job.bin"]), refused);
    }
}

/// What spreadsheets export and what people type: all of it packs to the same bytes.
#[test]
fn forms_of_a_text() {
    let folder = Folder::packed("forms");
    let text = text(&folder.read("job.csv"));
    let plain: String = text.lines().filter(|line| !line.starts_with('#')).map(|line| format!("{line}\n")).collect();
    let quoted: String = plain.lines().map(|line| format!("\"{}\"\n", line.replace(',', "\",\""))).collect();
    let forms = [
        plain.replace(',', ";"),
        plain.replace(',', "\t"),
        plain.replace(',', " = "),
        plain.replace('\n', "\r\n"),
        format!("\u{FEFF}name,value\n{plain}"),
        plain.replace('\n', ",,\n\n,\n"),
        plain.to_uppercase(),
        plain.lines().rev().map(|line| format!("  {line}\n")).collect(),
        quoted.replace("15985.00", "$15,985.00"),
        plain.replace("15985.00", "15985").replace("150.00", "150").replace("1.0000", "1.0"),
        format!("\"# a comment, in quotes\"\n{plain}"),
        plain.trim_end().to_string(),
        format!("Zone  Number Bytes = 1\n{plain}"),
    ];
    for (index, form) in forms.iter().enumerate() {
        folder.write("form.csv", form.as_bytes());
        assert_eq!(folder.done(&["pack", "form.csv", "form.bin"]), "form.bin: a request of 165 bytes\n", "{index}");
        assert_eq!(folder.read("form.bin"), folder.read("job.bin"), "{index}");
    }
}

/// Every fault of a text names its line, its name and what is allowed; nothing is rounded.
#[test]
fn faults_of_a_text() {
    let folder = Folder::packed("faults");
    let old = folder.read("job.bin");
    let text = text(&folder.read("job.csv"));
    let cases = [
        ("capacity,150.00", "capacity,0", "LINE: capacity is 0.00 kVA, allowed are 0.01 to 10,000.00"),
        ("capacity,150.00", "capacity,150.005", "LINE: capacity is 150.005, allowed are at most 2 decimals"),
        ("capacity,150.00", "capacity,150.000", "LINE: capacity is 150.000, allowed are at most 2 decimals"),
        ("capacity,150.00", "capacity,-1", "LINE: capacity is -1, allowed are 0.01 to 10,000.00"),
        ("capacity,150.00", "capacity,1e3", "LINE: capacity is 1e3, allowed are 0.01 to 10,000.00"),
        ("capacity,150.00", "capacity,", "LINE: capacity has no value, allowed are 0.01 to 10,000.00"),
        (
            "capacity,150.00",
            "capacity;1,250",
            "LINE: capacity is 1,250, allowed are commas where all 2 decimals follow, or none",
        ),
        (
            "capacity,150.00",
            "capacity,99999999999999999999999",
            "LINE: capacity is 99999999999999999999999, allowed are 0.01 to 10,000.00",
        ),
        (
            "ME,15985.00",
            "ME,15,985.00",
            "LINE: there are more than two columns, allowed are a name and its value; a value with commas stands in quotes",
        ),
        ("month,2026-04", "month,2026-13", "LINE: month is 2026-13, allowed are 0000-01 to 5461-04"),
        ("month,2026-04", "month,5461-05", "LINE: month is 5461-05, allowed are 0000-01 to 5461-04"),
        ("mark,none", "mark,3", "LINE: mark is 3, allowed are none, opted out in writing or real estate"),
        ("mark,none", "mark,\"none", "LINE: a quote isn't closed"),
        ("mark,none", "marc,none", "LINE: marc is no name of a request, allowed are those of `fikrem template`"),
        ("mark,none", "month,2026-05", "LINE: month stands on line MONTH already, allowed is once"),
        ("zone number,1", "zone number,65536", "LINE: zone number is 65536, allowed are 0 to 65535"),
        (
            "zone number,1",
            "zone number,256\nzone number bytes = 1",
            "LINE: zone number is 256, allowed are 0 to 255, where zone number bytes is 1",
        ),
        ("zone number,1", "zone number bytes,3\nzone number,1", "LINE: zone number bytes is 3, allowed are 1 or 2"),
        ("zone number,1", "zone number bytes,0\nzone number,1", "LINE: zone number bytes is 0, allowed are 1 or 2"),
        ("zone number,1", "zone number bytes,two\nzone number,1", "LINE: zone number bytes is two, allowed are 1 or 2"),
        ("zone number,1", "zone number bytes\nzone number,1", "LINE: zone number bytes has no value, allowed are 1 or 2"),
        ("zone number,1", "zone number bytes,2", ": zone number is missing, allowed are 0 to 65535"),
        (
            "zone number,1",
            "zone number bytes,1",
            ": zone number is missing, allowed are 0 to 255, where zone number bytes is 1",
        ),
        ("mark,none", "first zone number,1", "LINE: first zone number is no name of a request, allowed are those of `fikrem template`"),
        ("file,request", "file,letter", "LINE: file is letter, allowed are rate book or request"),
        (
            "part-year factor year 1,",
            "part-year factor year 2,",
            ": part-year factor year 1 is missing, allowed are 0.0000 to 4.0000",
        ),
    ];
    for (value, other, words) in cases {
        folder.write("other.csv", text.replace(value, other).as_bytes());
        let (status, errors) = folder.fails(&["pack", "other.csv", "job.bin"]);
        let line = format!(", line {}: ", line_of(&text, value));
        let words = words.replace("MONTH", &line_of(&text, "month,").to_string()).replace("LINE: ", &line);
        assert!(errors.lines().any(|line| line == format!("other.csv{words}")), "{errors}, wanted {words}");
        assert_eq!((status, folder.read("job.bin") == old), (1, true), "{other}");
    }
    folder.write("other.csv", b"capacity,1\n");
    assert_eq!(
        folder.fails(&["pack", "other.csv", "job.bin"]),
        (1, "other.csv: file is missing, allowed are rate book or request\n".to_string())
    );
    let rates = folder.done(&["template", "book"]).replace("term months,84", "term months,83");
    folder.write("rates.csv", rates.as_bytes());
    let line = line_of(&rates, "term months,83");
    let words = format!("rates.csv, line {line}: term months is 83, allowed are 84 to 65535\n");
    assert_eq!(folder.fails(&["pack", "rates.csv", "rates.bin"]), (1, words));
    let rates = folder.done(&["template", "book"]).replace("number,1\n", "number,256\nzone number bytes,1\n");
    folder.write("rates.csv", rates.as_bytes());
    let line = line_of(&rates, "first zone number,256");
    let words =
        "first zone number is 256, allowed are 0 to 255, above that of the zone before, where zone number bytes is 1";
    let told = format!("rates.csv, line {line}: {words}\n");
    assert_eq!(folder.fails(&["pack", "rates.csv", "rates.bin"]), (1, told));
    let words = "job.bin: this is no text in UTF-8\n";
    assert_eq!(folder.fails(&["pack", "job.bin", "new.bin"]), (1, words.to_string()));
    assert_eq!(folder.names(), ["job.bin", "job.csv", "other.csv", "rates.bin", "rates.csv"]);
}

/// The number of the line that has this.
fn line_of(text: &str, part: &str) -> usize {
    text.lines().position(|line| line.contains(part)).unwrap_or_else(|| panic!("no {part}")) + 1
}

/// A run that can't write leaves what stood there, and nothing beside it.
#[test]
fn no_half_file_is_ever_there() {
    let folder = Folder::packed("half");
    folder.write("rates.bin", b"as it was");
    let limited =
        format!("trap '' XFSZ; ulimit -f 0; exec '{}' pack rates.csv rates.bin", env!("CARGO_BIN_EXE_fikrem"));
    let output = Command::new("sh").args(["-c", &limited]).current_dir(&folder.0).output().expect("it runs");
    assert_eq!(status(&output), 2);
    assert!(text(&output.stderr).starts_with("fikrem: rates.bin can't be written: "), "{}", text(&output.stderr));
    assert_eq!(folder.read("rates.bin"), b"as it was");
    fs::create_dir(folder.0.join("folder")).expect("a folder");
    assert_eq!(folder.fails(&["pack", "rates.csv", "folder"]).0, 2);
    assert_eq!(folder.fails(&["pack", "rates.csv", "none/rates.bin"]).0, 2);
    assert_eq!(folder.fails(&["pack", "rates.csv", ""]).0, 2);
    assert_eq!(folder.names(), ["folder", "job.bin", "job.csv", "rates.bin", "rates.csv"]);
    assert_eq!(folder.done(&["pack", "rates.csv", "rates.bin"]), "rates.bin: a rate book of 117 bytes\n");
    assert_eq!(folder.read("rates.bin").len(), 117);
}

#[test]
fn wrong_calls() {
    let folder = Folder::packed("calls");
    let calls: [&[&str]; 20] = [
        &[],
        &["price"],
        &["template"],
        &["template", "ledger"],
        &["template", "book", "request"],
        &["pack", "rates.csv"],
        &["pack", "rates.csv", "rates.bin", "more"],
        &["pack", "none.csv", "rates.bin"],
        &["pack", "rates.csv", "./rates.csv"],
        &["show"],
        &["show", "none.bin"],
        &["show", "/dev/zero"],
        &["show", "."],
        &["quote", "rates.bin"],
        &["quote", "rates.bin", "none.bin"],
        &["quote", "--slip", "rates.bin", "job.bin"],
        &["quote", "rates.bin", "job.bin", "--band"],
        &["quote", "--band", "1", "rates.bin", "job.bin"],
        &["quote", "--band", "1", "2.005", "rates.bin", "job.bin"],
        &["quote", "--page", "--band", "1", "2", "rates.bin", "job.bin"],
    ];
    for call in calls {
        let (status, words) = folder.fails(call);
        assert_eq!(status, 2, "{call:?}");
        assert!(words.starts_with("fikrem: "), "{call:?}: {words}");
    }
    assert_eq!(folder.names(), ["job.bin", "job.csv", "rates.bin", "rates.csv"]);
}

#[test]
fn help_and_version() {
    let folder = Folder::new("help");
    for command in ["template", "pack", "show", "quote"] {
        assert!(folder.done(&[command, "--help"]).starts_with(&format!("fikrem {command} ")));
        assert!(folder.done(&["--help"]).contains(&format!("fikrem {command} ")));
    }
    for command in ["pack", "show"] {
        assert!(folder.done(&[command, "--help"]).contains("`zone number bytes"));
    }
    let note =
        "# zone number bytes: 1 or 2, may be left out: then 1 where every zone number is at most 255, otherwise 2";
    for (kind, limits) in
        [("book", "# number: 0 to 65535, above that of the zone before"), ("request", "# zone number: 0 to 65535")]
    {
        let template = folder.done(&["template", kind]);
        assert!([limits, note].iter().all(|note| template.lines().any(|line| line == *note)), "{template}");
    }
    assert_eq!(folder.done(&["--version"]), "fikrem 0.1.0, interface 5\n");
}

/// The program on generated files of both forms: `show` is done with what packs to them.
#[test]
fn generated_files() {
    let folder = Folder::new("generated");
    let mut random = Random::new(203);
    for _ in 0..40 {
        let book = Book::random(&mut random);
        let request = Request::random(&mut random, &book);
        let numbers = rising_numbers(&mut random, book.zones.len());
        for file in [
            book.encode(),
            widened_book(&book),
            wide_book(&book, &numbers),
            request.encode(),
            wide_request(&request, request.zone.into()),
            wide_request(&request, zone_number(&mut random)),
        ] {
            folder.write("file.bin", &file);
            folder.write("file.csv", folder.done(&["show", "file.bin"]).as_bytes());
            folder.done(&["pack", "file.csv", "again.bin"]);
            assert_eq!(folder.read("again.bin"), file);
        }
    }
}

/// The program on damaged files and on mixtures of both forms: it ends with 1 where the library refuses them.
#[test]
fn generated_files_that_are_refused() {
    let folder = Folder::new("refused");
    let mut random = Random::new(205);
    let mut times = [0; 2];
    for _ in 0..40 {
        let book = Book::random(&mut random);
        let request = Request::random(&mut random, &book);
        let books = [book.encode(), widened_book(&book)];
        let requests = [request.encode(), wide_request(&request, request.zone.into())];
        for ([one, other], judge) in [(books, fikrem::judge_book as fn(&[u8]) -> _), (requests, fikrem::judge_request)]
        {
            let mixed = [(); 2].map(|_| mixture(&mut random, [&one, &other]));
            for file in [damaged(&mut random, &one), damaged(&mut random, &other)].iter().chain(&mixed) {
                folder.write("file.bin", file);
                let output = folder.run(&["show", "file.bin"]);
                let refused = judge(file).is_err();
                assert_eq!((status(&output) == 1, output.stdout.is_empty()), (refused, refused));
                assert_eq!(text(&output.stderr).starts_with("refused, number "), refused, "{}", text(&output.stderr));
                times[usize::from(refused)] += 1;
            }
        }
    }
    assert!(times[0] > 10 && times[1] > 250, "{times:?}");
}
