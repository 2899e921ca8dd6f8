//! Seeded cases on both sides. FIKREM_CASES multiplies their number.

mod alterations;
mod bands;
mod buffers;
mod damage;
mod faults;
mod ledgers;
mod lists;
mod page;
mod pricing;
mod tables;
mod wrapper;
mod zone_numbers;

use differential::Tally;

/// So many cases, times FIKREM_CASES.
fn cases(count: u64) -> u64 {
    let times = std::env::var("FIKREM_CASES").ok().map_or(1, |times| times.parse().expect("FIKREM_CASES is a number"));
    count * times
}

fn main() {
    assert_eq!(fikrem::linked(), Ok(()));
    let mut tally = Tally::default();
    tally.section("books and requests within their limits", pricing::random_pairs);
    tally.section("percentages of small amounts", pricing::small_percentages);
    tally.section("percentages of the lowest NC", pricing::lowest_percentages);
    tally.section("values past their limits", pricing::past_limits);
    tally.section("zone numbers of one byte and of two", zone_numbers::forms);
    tally.section("fields of both forms and of neither", zone_numbers::mixtures);
    tally.section("damaged files with two-byte zone numbers", zone_numbers::damage);
    tally.section("every byte altered", alterations::every_byte);
    tally.section("damaged books and requests", damage::books_and_requests);
    tally.section("truncated and extended files", damage::every_size);
    tally.section("damaged stored ledgers", damage::stored_ledgers);
    tally.section("stored ledgers altered in a figure", ledgers::altered_figures);
    tally.section("stored ledgers of the old form altered in a figure", ledgers::altered_old_figures);
    tally.section("stored ledgers at their limits", ledgers::limits);
    tally.section("next numbers and cleared sums at their limits", ledgers::limits_of_numbers);
    tally.section("the last scheme numbers", ledgers::last_scheme_numbers);
    tally.section("several faults at once", faults::faults_at_once);
    tally.section("files of both forms with several faults at once", faults::faults_of_files);
    tally.section("lists of calls", lists::random_lists);
    tally.section("lists of calls on full ledgers", lists::full_ledgers);
    tally.section("lists of calls on tables of every small length", lists::small_tables);
    tally.section("lists of calls on tables about the longest", lists::long_tables);
    tally.section("stored ledgers read with tables of every length", tables::every_length);
    tally.section("buffers of every length", buffers::every_length);
    tally.section("the safe wrapper", wrapper::wrapper);
    tally.section("pages of books and requests within their limits", page::random_pairs);
    tally.section("pages of every small amount", page::small_amounts);
    tally.section("pages of amounts about the powers of ten", page::powers_of_ten);
    tally.section("pages of damaged books and requests", page::damaged_files);
    tally.section("pages of values past their limits", page::past_limits);
    tally.section("pages with several faults at once", page::faults_at_once);
    tally.section("pages on outputs of every length", page::every_length);
    tally.section("bands of books and requests within their limits", bands::random_bands);
    tally.section("bands at and past their limits", bands::about_limits);
    tally.section("bands with several faults at once", bands::faults_at_once);
    tally.section("bands on figures of every length", bands::every_length);
    tally.finish();
}
