//! The library's times beside the reference implementation's: the same machine, input and run, both built for release.
//!
//! A run times short batches of calls on one side and on the other in turn, so that both meet the same load, and takes
//! the lowest of each side, which the machine's other work disturbed least. On both sides a stored call takes stored
//! bytes and writes stored bytes: it reads the ledger onto a table of 512 records, makes the call and writes. Output
//! buffers are lent once and not cleared between calls; tables are cleared for each.

use fikrem::raw::{self, ANSWER, FIGURES};
use fikrem::{LONGEST_FORM, LONGEST_TABLE};
use generate::books::stored_form;
use generate::calls::{after, filling};
use generate::{Book, Call, Random, Request};
use reference::ledger::MOST_ENTRIES;
use reference::{read_ledger, write_ledger, Ledger, Party};
use std::hint::black_box;
use std::time::{Duration, Instant};

/// So many runs give the spread.
const RUNS: usize = 9;
/// So many batches of each side are in a run.
const BATCHES: usize = 30;
/// A batch takes about so long.
const BATCH: Duration = Duration::from_millis(2);

/// Nanoseconds a call, by run.
struct Times {
    library: Vec<f64>,
    reference: Vec<f64>,
}

/// Nanoseconds a call over a batch.
fn batch(calls: u32, call: &mut dyn FnMut()) -> f64 {
    let start = Instant::now();
    for _ in 0..calls {
        call();
    }
    start.elapsed().as_nanos() as f64 / f64::from(calls)
}

/// How many calls take about the time of a batch.
fn calls_of_batch(call: &mut dyn FnMut()) -> u32 {
    let nanoseconds = (0..5).map(|_| batch(1, call)).fold(f64::MAX, f64::min);
    (BATCH.as_nanos() as f64 / nanoseconds.max(1.0)).clamp(1.0, 1_000_000.0) as u32
}

fn measure(library: &mut dyn FnMut(), reference: &mut dyn FnMut()) -> Times {
    let (library_calls, reference_calls) = (calls_of_batch(library), calls_of_batch(reference));
    let mut times = Times { library: Vec::new(), reference: Vec::new() };
    for _ in 0..RUNS {
        let (mut library_lowest, mut reference_lowest) = (f64::MAX, f64::MAX);
        for _ in 0..BATCHES {
            library_lowest = library_lowest.min(batch(library_calls, library));
            reference_lowest = reference_lowest.min(batch(reference_calls, reference));
        }
        times.library.push(library_lowest);
        times.reference.push(reference_lowest);
    }
    times
}

/// Lowest, median and highest.
fn spread(values: &[f64]) -> [f64; 3] {
    let mut values = values.to_vec();
    values.sort_by(f64::total_cmp);
    [values[0], values[values.len() / 2], values[values.len() - 1]]
}

impl Times {
    fn ratios(&self) -> Vec<f64> {
        self.library.iter().zip(&self.reference).map(|(library, reference)| library / reference).collect()
    }

    /// The lowest times of all runs: the library's, then the reference's.
    fn lowest(&self) -> [f64; 2] {
        [spread(&self.library)[0], spread(&self.reference)[0]]
    }

    /// The lowest times of all runs, and the median ratio.
    fn in_short(&self) -> String {
        let ([library, reference], [_, ratio, _]) = (self.lowest(), spread(&self.ratios()));
        format!("{library:.0} / {reference:.0}, {ratio:.2}")
    }

    fn print(&self, name: &str) {
        let [library, reference] = self.lowest();
        let [low, middle, high] = spread(&self.ratios());
        println!("{name:<60} {library:>8.0} {reference:>9.0}   {middle:.2} ({low:.2} to {high:.2})");
    }
}

/// "h starts at 0, and each byte makes it (h × 257 + byte + 1) mod 65,521": one byte and one remainder a step.
fn byte_by_byte(bytes: &[u8]) -> u32 {
    bytes.iter().fold(0, |h, &byte| (h * 257 + u32::from(byte) + 1) % 65_521)
}

/// Rates of the table of discount factors and outside it, and the classes with the shorter and the longer life.
const TABLE_RATE: u16 = 475;
const OTHER_RATE: u16 = 476;
const CLASSES: [(u8, &str); 2] = [(1, "16 years"), (0, "31 years")];

/// A book at the rate and a request of the class, the slip's in all else.
fn slip_at(discount_rate: u16, class: u8) -> (Vec<u8>, Vec<u8>) {
    (Book { discount_rate, ..Book::slip() }.encode(), Request { class, ..Request::slip() }.encode())
}

/// Pricing at a rate of the table, beside the library's own pricing at a rate outside it.
fn table_beside_recurrence(class: u8) -> Times {
    let ((table_book, request), (other_book, _)) = (slip_at(TABLE_RATE, class), slip_at(OTHER_RATE, class));
    let (mut table_figures, mut other_figures) = ([0; FIGURES], [0; FIGURES]);
    let mut table = || assert_eq!(raw::price(black_box(&table_book), black_box(&request), &mut table_figures), 0);
    let mut other = || assert_eq!(raw::price(black_box(&other_book), black_box(&request), &mut other_figures), 0);
    measure(&mut table, &mut other)
}

/// A stored ledger, the calls that are measured on it, and the buffers.
struct Bench {
    stored: Vec<u8>,
    book: Vec<u8>,
    request: Vec<u8>,
}

impl Bench {
    /// A ledger of so many schemes and entries, and a request that joins scheme 1.
    fn of(schemes: usize, entries: usize) -> Bench {
        let (ledger, parties) = after(&filling(&mut Random::new(9), schemes, entries), MOST_ENTRIES);
        Bench::on(stored_form(&ledger, &parties))
    }

    /// The same, with all credit of every other scheme paid out, the first one's too, so that a clearing removes these.
    fn paid_out(schemes: usize, entries: usize) -> Bench {
        let (ledger, mut parties) = after(&filling(&mut Random::new(9), schemes, entries), MOST_ENTRIES);
        for party in parties.iter_mut().filter(|party| party.scheme % 2 == 1) {
            party.paid_out = party.credited;
        }
        Bench::on(stored_form(&ledger, &parties))
    }

    fn on(stored: Vec<u8>) -> Bench {
        let book = Book { threshold: 0, fee: 5, minimum: 5, ..Book::slip() }.encode();
        // its mark keeps it from opening a scheme
        let request = Request { scheme: 1, mark: 1, ..Request::slip() }.encode();
        Bench { stored, book, request }
    }

    /// The slip's request of a class, at a rate.
    fn at_rate(discount_rate: u16, class: u8) -> Bench {
        let (book, request) = slip_at(discount_rate, class);
        Bench { book, request, ..Bench::of(1, 1) }
    }

    fn price(&self) -> Times {
        let mut figures = [0; FIGURES];
        let mut library = || {
            let result = raw::price(black_box(&self.book), black_box(&self.request), &mut figures);
            assert_eq!(black_box(result), 0);
        };
        let mut reference = || {
            let bill = reference::price(black_box(&self.book), black_box(&self.request));
            assert!(black_box(bill).is_ok());
        };
        measure(&mut library, &mut reference)
    }

    fn joining(&self) -> Times {
        let mut out = vec![0; LONGEST_FORM];
        let (mut figures, mut answer) = ([0; FIGURES], [0; ANSWER]);
        let mut library = || {
            let (stored, book, request) = black_box((&self.stored, &self.book, &self.request));
            let result = raw::accept(stored, LONGEST_TABLE, book, request, &mut out, &mut figures, &mut answer);
            assert_eq!((black_box(result), answer[raw::JOINING]), (0, raw::JOINED));
        };
        let joining = Call::Accept { book: self.book.clone(), request: self.request.clone() };
        self.beside(&mut library, &joining)
    }

    fn hand_over(&self) -> Times {
        let mut out = vec![0; LONGEST_FORM];
        let mut answer = [0; ANSWER];
        let mut library = || {
            let result = raw::hand_over(black_box(&self.stored), LONGEST_TABLE, 1, 7, &mut out, &mut answer);
            assert_eq!(black_box(result), 0);
        };
        self.beside(&mut library, &Call::HandOver { entry: 1, person: 7 })
    }

    /// Of a cent to the entry that every later one has credited.
    fn pay_out(&self) -> Times {
        let mut out = vec![0; LONGEST_FORM];
        let mut answer = [0; ANSWER];
        let mut library = || {
            let result = raw::pay_out(black_box(&self.stored), LONGEST_TABLE, 1, 1, &mut out, &mut answer);
            assert_eq!(black_box(result), 0);
        };
        self.beside(&mut library, &Call::PayOut { entry: 1, amount: 1 })
    }

    /// In the month in which every scheme has ended.
    fn clearing(&self) -> Times {
        let mut out = vec![0; LONGEST_FORM];
        let (mut answer, month) = ([0; ANSWER], 24_399);
        let mut library = || {
            let result = raw::clear(black_box(&self.stored), LONGEST_TABLE, month, &mut out, &mut answer);
            assert_eq!((black_box(result), answer[raw::WRITTEN] < self.stored.len() as u64), (0, true));
        };
        self.beside(&mut library, &Call::Clear { month })
    }

    /// The library's call beside the reference implementation's on the same stored bytes.
    fn beside(&self, library: &mut dyn FnMut(), call: &Call) -> Times {
        let mut out = vec![0; LONGEST_FORM];
        let mut reference = || {
            let (mut ledger, mut parties) = (Ledger::new(), [Party::default(); MOST_ENTRIES]);
            read_ledger(&mut ledger, &mut parties, black_box(&self.stored)).expect("it reads");
            call.run(&mut ledger, &mut parties).expect("it is done");
            black_box(write_ledger(&ledger, &parties, &mut out)).expect("it is written");
        };
        measure(library, &mut reference)
    }

    /// The check alone, beside byte by byte.
    fn check_of_bytes(&self) -> Times {
        let (bytes, kept) = self.stored.split_at(self.stored.len() - 2);
        let kept = 256 * u32::from(kept[0]) + u32::from(kept[1]);
        let mut library = || assert_eq!(raw::check(black_box(bytes)), kept);
        let mut each = || assert_eq!(byte_by_byte(black_box(bytes)), kept);
        measure(&mut library, &mut each)
    }

    fn judging(&self) -> Times {
        let mut answer = [0; ANSWER];
        let mut library = || {
            let result = raw::judge_ledger(black_box(&self.stored), LONGEST_TABLE, &mut answer);
            assert_eq!(black_box(result), 0);
        };
        let mut reference = || {
            let (mut ledger, mut parties) = (Ledger::new(), [Party::default(); MOST_ENTRIES]);
            read_ledger(&mut ledger, &mut parties, black_box(&self.stored)).expect("it reads");
            black_box((&ledger, &parties));
        };
        measure(&mut library, &mut reference)
    }
}

fn beside() {
    println!(
        "Nanoseconds a call, the lowest of {RUNS} runs, and library / reference by run: median (lowest to highest)."
    );
    println!("{:<60} {:>8} {:>9}   ratio", "", "library", "reference");
    Bench::of(1, 1).price().print("pricing (the slip's request)");
    for (class, years) in CLASSES {
        let name = |rate: &str| format!("pricing at a rate {rate}, {years}");
        Bench::at_rate(TABLE_RATE, class).price().print(&name("of the table"));
        Bench::at_rate(OTHER_RATE, class).price().print(&name("outside the table"));
        table_beside_recurrence(class).print(&name("of the table, beside the library's outside it"));
    }
    Bench::of(1, 511).joining().print("accept: the 512th party joins its scheme, stored in and out");
    Bench::of(64, 512).judging().print("check of a stored ledger of 64 schemes, 512 entries");
    Bench::of(64, 512).hand_over().print("read, hand-over and write of the same");
    Bench::of(64, 512).pay_out().print("read, pay-out and write of the same");
    Bench::paid_out(64, 512).clearing().print("read, clearing of every other scheme and write of the same");
    Bench::of(64, 512).check_of_bytes().print("the check alone of the same, beside byte by byte");
}

/// From 2 to 512 entries of one scheme; where the cost is linear, one more entry costs about the same all along.
fn growth() {
    println!(
        "\nGrowth: nanoseconds a call, library / reference and the median ratio, by the entries that one scheme has after it."
    );
    println!(
        "{:>7} {:>27} {:>27} {:>27} {:>27} {:>27}   the library's for one more entry",
        "entries", "joining", "check", "hand-over", "pay-out", "clearing"
    );
    let mut last: Option<(usize, [f64; 5])> = None;
    for entries in [2, 4, 8, 12, 16, 24, 32, 64, 128, 256, 512] {
        let (before, bench) = (Bench::of(1, entries - 1), Bench::of(1, entries));
        let clearing = Bench::paid_out(1, entries).clearing();
        let times = [before.joining(), bench.judging(), bench.hand_over(), bench.pay_out(), clearing];
        print!("{entries:>7}");
        times.each_ref().map(Times::in_short).iter().for_each(|time| print!(" {time:>27}"));
        let library = times.each_ref().map(|times| times.lowest()[0]);
        if let Some((fewer, cost)) = last {
            for (library, cost) in library.iter().zip(cost) {
                print!(" {:>6.0}", (library - cost) / (entries - fewer) as f64);
            }
        }
        println!();
        last = Some((entries, library));
    }
}

fn main() {
    assert_eq!(fikrem::linked(), Ok(()));
    beside();
    growth();
}

/// Document 02, E2: "a test shows the check of a full ledger at least twice as fast as byte by byte".
#[test]
fn check_twice_as_fast_as_byte_by_byte() {
    let full = Bench::of(64, 512);
    assert_eq!(full.stored.len(), LONGEST_FORM);
    let [library, each] = full.check_of_bytes().lowest();
    println!("the check of a full ledger: {library:.0} ns, byte by byte {each:.0} ns, {:.2} times", each / library);
    assert!(each >= 2.0 * library, "the check takes {library:.0} ns, byte by byte {each:.0} ns");
}

/// Pricing at a rate of the table of discount factors isn't slower than outside it.
#[test]
fn table_of_factors_no_slower_than_the_recurrence() {
    for (class, years) in CLASSES {
        let [table, other] = table_beside_recurrence(class).lowest();
        println!("pricing over {years}: {table:.0} ns at a rate of the table, {other:.0} ns outside it");
        assert!(
            table <= other,
            "pricing over {years} takes {table:.0} ns at a rate of the table, {other:.0} ns outside it"
        );
    }
}

/// A joining, the judging, a hand-over and a clearing take at most 0.8 of the reference's time on 2 entries, 0.4 on 512.
#[test]
fn stored_calls_within_a_part_of_the_references_time() {
    for (entries, most) in [(2, 0.8), (512, 0.4)] {
        let (before, bench) = (Bench::of(1, entries - 1), Bench::of(1, entries));
        let clearing = Bench::paid_out(1, entries).clearing();
        let times = [before.joining(), bench.judging(), bench.hand_over(), clearing];
        for (name, times) in ["joining", "judging", "hand-over", "clearing"].into_iter().zip(times) {
            let [library, reference] = times.lowest();
            println!("{name} on {entries} entries: {library:.0} ns, the reference {reference:.0} ns");
            assert!(library <= most * reference, "{name} on {entries} entries takes {library:.0} of {reference:.0} ns");
        }
    }
}
