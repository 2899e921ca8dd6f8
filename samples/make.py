#!/usr/bin/env python3
"""Writes the sample files that the programs read: document 01's slip as rate book and request, stored
ledgers, and damaged copies of them; document 000's examples.

make.py          writes them into each program's data folder
make.py --check  says which of them differ from what it would write, and fails if one does
"""
import sys
from pathlib import Path

sys.dont_write_bytecode = True

import ledgers
import worked_examples
from fields import altered, closed, field, number, numbers

ROOT = Path(__file__).resolve().parent.parent


SLIP_RATES = [0, 0, 8_500, 38_000, 10_000]


def slip_book(term=84, charged=1, pair=(0, 1), share=6_500, rates=SLIP_RATES):
    return [
        field(0x01, b"RATE"),
        field(0x02, number(2, 0)),
        field(0x03, numbers(4, pair * 5)),
        field(0x04, number(2, 10_000)),
        field(0x05, number(2, 10_000)),
        field(0x06, numbers(4, [5_000_000, 20_000, 20_000]) + number(2, term)),
        field(0x07, number(1, charged) + number(2, share)),
        field(0x08, number(1, 1) + numbers(4, rates)),
    ]


POSTED_TIERS = [(0, 400, 0), (0, 400, 0), (0, 200, 0), (0, 200, 0), (0, 150, 0)]


def slip_request(
    class_=1, zone=1, extension=1_598_500, enhancement=0, loading=0, tiers=POSTED_TIERS, added=0, revenue=57_320, part_year=(0, 10_000), capacity=15_000
):
    return [
        field(0x01, b"CONN"),
        field(0x02, number(4, 4_711)),
        field(0x03, number(1, class_)),
        field(0x04, number(1, zone)),
        field(0x05, numbers(4, [extension, enhancement, 0, 0, 0, loading])),
        field(0x06, b"".join(number(1, mode) + numbers(4, [demand, rate]) for mode, demand, rate in tiers)),
        field(0x07, numbers(4, [added] * 5)),
        field(0x08, numbers(4, [revenue, 0])),
        field(0x09, numbers(2, part_year)),
        field(0x0A, number(2, 10_000)),
        field(0x0B, number(2, 10_000)),
        field(0x0C, number(2, 24_315) + number(4, capacity) + number(2, 0) + number(1, 0)),
    ]


def wide_book():
    """Zones 1 and 1,400 in fields 09."""
    rates = numbers(4, [0, 0, 8_500, 38_000, 10_000])
    return slip_book()[:7] + [field(0x09, number(2, zone) + rates) for zone in (1, 1_400)]


def wide_request(zone=1_400):
    """The slip's request with 0D in place of 04."""
    fields = slip_request()
    return fields[:3] + fields[4:] + [field(0x0D, number(2, zone))]


def listed_files():
    """What the program list_fields walks. Every damaged file but three has a right check, so that the walk is what refuses it."""
    book, request, ledger = slip_book(), slip_request(), ledgers.new_form(*ledgers.one_scheme())
    whole = closed(book)
    return {
        "book.bin": whole,
        "request.bin": closed(request),
        "ledger.bin": closed(ledger),
        "old_ledger.bin": closed(ledgers.old_form(*ledgers.one_scheme())),
        "empty.bin": b"",
        "one_byte.bin": b"\xff",
        "five_times_ff.bin": b"\xff" * 5,
        "altered_byte.bin": altered(whole, 20, 1),
        "altered_check.bin": altered(whole, len(whole) - 1, whole[-1] ^ 1),
        "altered_tail.bin": altered(whole, len(whole) - 3, 3),
        "book_without_02.bin": closed(book[:1] + book[2:]),
        "book_02_twice.bin": closed(book[:2] + book[1:]),
        "book_ends_early.bin": closed(book[:7]),
        "book_ff_early.bin": closed(book[:3] + [field(0xFF, b"\x00\x00")] + book[3:]),
        "book_nine_zones.bin": closed(book + book[7:] * 8),
        "book_odd_factors.bin": closed(book[:3] + [field(0x04, b"\x27\x10\x00")] + book[4:]),
        "book_long_factors.bin": closed(book[:3] + [field(0x04, number(2, 10_000) * 9)] + book[4:]),
        "book_past_end.bin": closed(book[:7] + [b"\x08\x00\x15" + bytes(20)]),
        "book_two_bytes_over.bin": closed(book + [b"\x08\x00"]),
        "book_wide.bin": closed(wide_book()),
        "request_wide.bin": closed(wide_request()),
        "book_both_forms.bin": closed(book + wide_book()[8:]),
        "request_both_forms.bin": closed(request + wide_request()[11:]),
        "request_neither_form.bin": closed(wide_request()[:11]),
        "request_as_book.bin": closed(request),
        "ledger_as_new.bin": closed(ledger[:2]),
    }


def slip_files():
    """Document 01's slip."""
    return {"rates.bin": closed(slip_book()), "job.bin": closed(slip_request())}


def past_4096(fields, more):
    """So many bytes past 4,096. The first 4,096 end in a right check and have a field that isn't due, so that they are refused at its
    offset; the whole file has no tail and would be refused at 0."""
    used = len(b"".join(fields)) + 3 + 5
    return closed(fields + [field(0x0D, bytes(4_096 - used))]) + bytes(more)


def refused_slip_files():
    files = slip_files()
    rates, job = files["rates.bin"], files["job.bin"]
    bespoke = POSTED_TIERS[:2] + [(2, 200, 12_750)] + POSTED_TIERS[3:]
    return files | {
        "long_rates.bin": past_4096(slip_book(), 5_000),
        "long_job.bin": past_4096(slip_request(), 1),
        "altered_rates.bin": altered(rates, 20, 1),
        "altered_job.bin": altered(job, 30, 1),
        "rates_term_83.bin": closed(slip_book(term=83)),
        "rates_not_charged.bin": closed(slip_book(charged=0)),
        "rates_with_opex.bin": closed(slip_book(pair=(19_300, 153_800))),
        "job_class_3.bin": closed(slip_request(class_=3)),
        "job_loading_in_class_1.bin": closed(slip_request(loading=1)),
        "job_special_pricing.bin": closed(slip_request(class_=2, loading=50_000)),
        "job_capacity_0.bin": closed(slip_request(capacity=0)),
        "job_zone_2.bin": closed(slip_request(zone=2)),
        "job_at_150_percent.bin": closed(slip_request(tiers=bespoke)),
        "job_of_nothing.bin": closed(slip_request(extension=0, tiers=[(0, 0, 0)] * 5, revenue=0)),
        "job_no_revenue.bin": closed(slip_request(revenue=0)),
    }


def percentage_files():
    """Pairs whose percentages are rounded up, negative or none, for the lines of quotient and remainder. Capacity isn't charged but for
    the pair that adds up to 101 percent."""

    def tiers(*demands):
        return [(0, demand, 0) for demand in demands]

    nothing = tiers(0, 0, 0, 0, 0)
    full = dict(tiers=tiers(*[1_000_000] * 5), added=1_000_000, extension=0, revenue=0)
    return {
        "rates_share_0.bin": closed(slip_book(share=0)),
        "rates_of_a_cent.bin": closed(slip_book(charged=0, rates=[100, 0, 0, 0, 0])),
        "rates_highest.bin": closed(slip_book(charged=0, rates=[10_000_000] * 5)),
        "job_of_101_percent.bin": closed(slip_request(extension=101, tiers=nothing, revenue=99, part_year=(10_000, 0))),
        "job_at_minus_half.bin": closed(slip_request(extension=200, tiers=tiers(1, 0, 0, 0, 0), revenue=0)),
        "job_past_minus_half.bin": closed(slip_request(extension=201, tiers=tiers(1, 0, 0, 0, 0), revenue=0)),
        "job_at_minus_one_and_half.bin": closed(slip_request(extension=200, tiers=tiers(3, 0, 0, 0, 0), revenue=0)),
        "job_of_demands_alone.bin": closed(slip_request(extension=0, revenue=0)),
        "job_with_revenue_1.bin": closed(slip_request(extension=0, revenue=1, part_year=(10_000, 0))),
        "job_of_lowest_ratio.bin": closed(slip_request(enhancement=1, **full)),
        "job_of_low_ratio.bin": closed(slip_request(enhancement=10_000_001, **full)),
    }


def scenario_files():
    """A pioneer ledger's life: books, requests, and ledgers with one place left or unsound. A request that isn't told otherwise is
    the slip's, whose credit is 558,870: so ME 6,558,870 makes X 6,000,000."""

    def book(terms=(5_000_000, 20_000, 20_000), term=84, charged=1):
        fields = slip_book(charged=charged)
        return fields[:5] + [field(0x06, numbers(4, terms) + number(2, term))] + fields[6:]

    def request(person, month, capacity, scheme=0, mark=0, **values):
        fields = slip_request(**values)
        applicant = number(2, month) + number(4, capacity) + number(2, scheme) + number(1, mark)
        return fields[:1] + [field(0x02, number(4, person))] + fields[2:11] + [field(0x0C, applicant)]

    def opening(person, month, capacity, cost, **values):
        return request(person, month, capacity, extension=cost + 558_870, **values)

    def shareless(terms, term):
        """A book of credit share 0, so that a request's X is ME and CE."""
        fields = book(terms, term)
        return fields[:6] + [field(0x07, number(1, 1) + number(2, 0))] + fields[7:]

    def builder(person, month, capacity, scheme, extension, mark=0):
        """A request of an extension alone."""
        return request(person, month, capacity, scheme, mark, extension=extension, tiers=[(0, 0, 0)] * 5, revenue=0)

    def ledger(connections, schemes, entries):
        schemes, entries = [ledgers.scheme(*scheme) for scheme in schemes], [ledgers.entry(*entry) for entry in entries]
        return ledgers.new_form(ledgers.totals(connections, 0, 0), schemes, entries)

    bespoke = POSTED_TIERS[:2] + [(2, 200, 12_750)] + POSTED_TIERS[3:]
    # 510 joined a scheme of 6,000,000 with 30,000 each; after the fees the rest is the first entry's credit
    joined = [(1, 5_000 + i, 100, 30_000, 0) for i in range(1, 511)]
    files = {
        "book.bin": book(),
        "other_book.bin": book((4_000_000, 50_000, 2_000_000), term=120, charged=0),
        "book_without_02.bin": book()[:1] + book()[2:],
        "book_term_83.bin": book(term=83),
        "at_threshold.bin": opening(4_701, 24_315, 10_000, 5_000_000),
        "opening.bin": opening(4_711, 24_315, 10_000, 6_000_000),
        "opted_out.bin": opening(4_712, 24_316, 10_000, 6_000_000, mark=1),
        "real_estate.bin": opening(4_713, 24_316, 10_000, 6_000_000, mark=2),
        "first_joining.bin": request(4_714, 24_320, 5_000, scheme=1),
        "below_minimum.bin": request(4_715, 24_320, 50, scheme=1),
        "second_joining.bin": request(4_716, 24_330, 5_000, scheme=1),
        "one_over_threshold.bin": opening(4_717, 24_340, 8_000, 5_000_001),
        "other_opening.bin": opening(4_718, 24_350, 1_000_000, 4_000_001),
        "one_below_minimum.bin": request(4_719, 24_351, 999_999, scheme=3),
        "at_minimum.bin": request(4_711, 24_351, 1_000_000, scheme=3),
        "last_month.bin": request(4_720, 24_398, 10_000, scheme=1),
        "first_month_after.bin": request(4_721, 24_399, 10_000, scheme=1),
        "request_capacity_0.bin": request(4_722, 24_399, 0),
        "request_zone_2.bin": request(4_722, 24_399, 10_000, zone=2),
        "request_at_150_percent.bin": request(4_722, 24_399, 10_000, tiers=bespoke),
        "never_opened.bin": request(4_722, 24_399, 10_000, scheme=4),
        "plain.bin": request(4_723, 24_399, 10_000),
        "late_opening.bin": opening(4_724, 24_399, 10_000, 6_000_000),
        "book_share_0.bin": shareless((5_000_000, 20_000, 20_000), 84),
        "book_fee_7.bin": shareless((5_000_000, 7, 9), 100),
        "extension.bin": builder(4_731, 24_315, 10_000, 0, 6_000_000),
        "building_on.bin": builder(4_732, 24_315, 5_000, 1, 5_000_001),
        "joining_the_first.bin": builder(4_733, 24_315, 5_000, 1, 0),
        "joining_the_second.bin": builder(4_734, 24_315, 5_000, 2, 0),
        "joining_at_threshold.bin": builder(4_732, 24_315, 5_000, 1, 5_000_000),
        "opted_out_building_on.bin": builder(4_732, 24_315, 5_000, 1, 5_000_001, mark=1),
        "real_estate_building_on.bin": builder(4_732, 24_315, 5_000, 1, 5_000_001, mark=2),
        "small_building_on.bin": builder(4_732, 24_315, 33, 1, 5_000_001),
        "least_building_on.bin": builder(4_732, 24_315, 34, 1, 5_000_001),
        "building_on_last_month.bin": builder(4_732, 24_398, 5_000, 1, 5_000_001),
        "building_on_after_term.bin": builder(4_732, 24_399, 5_000, 1, 5_000_001),
        "building_on_never_opened.bin": builder(4_732, 24_315, 5_000, 2, 5_000_001),
        "ledger_63_schemes.bin": ledger(63, [(6_000_000, 0)] * 63, [(n, 5_000 + n, 10_000, 6_000_000, 0) for n in range(1, 64)]),
        "ledger_511_entries.bin": ledger(511, [(6_000_000, 10_200_000)], [(1, 5_000, 100_000, 6_000_000, 5_100_000)] + joined),
        "ledger_999999.bin": ledger(999_999, [], []),
        "ledger_unsound.bin": ledger(2, [(6_000_000, 20_000)], [(1, 4_711, 10_000, 6_000_000, 1_980_001), (1, 4_712, 5_000, 2_000_000, 0)]),
    }
    files = {name: closed(fields) for name, fields in files.items()}
    return files | {
        "altered_book.bin": altered(files["book.bin"], 20, 1),
        "altered_request.bin": altered(files["opening.bin"], 30, 1),
    }


def wanted():
    programs = {
        "list_fields": listed_files(),
        "slip": slip_files(),
        "page": slip_files(),
        "page_refusals": refused_slip_files(),
        "slip_refusals": refused_slip_files() | percentage_files(),
        "stored_ledgers": ledgers.files(),
        "scenario": scenario_files(),
        "worked_examples": worked_examples.files(),
    }
    return {ROOT / "crates" / program / "data" / name: data for program, files in programs.items() for name, data in files.items()}


def main():
    files = wanted()
    if sys.argv[1:] == ["--check"]:
        wrong = [path for path, data in files.items() if not path.is_file() or path.read_bytes() != data]
        for folder in {path.parent for path in files}:
            wrong += [path for path in folder.glob("*.bin") if path not in files]
        for path in sorted(wrong):
            print(f"samples: {path.relative_to(ROOT)} is not what samples/make.py writes")
        sys.exit(1 if wrong else 0)
    for path, data in files.items():
        path.parent.mkdir(parents=True, exist_ok=True)
        path.write_bytes(data)


if __name__ == "__main__":
    main()
