#!/usr/bin/env python3
"""The annotated dumps of four sample files, as docs/FORMAT.md has them: offset, bytes, and what they say.

dump.py          prints them
dump.py --check  fails where docs/FORMAT.md has another
"""
import sys
from pathlib import Path

ROOT = Path(__file__).resolve().parent.parent

PAIRS = [value for pair in range(1, 6) for value in ((4, f"pair {pair}, selected opex"), (4, f"pair {pair}, distribution revenue"))]
TIERS = ["LV mains", "distribution substation", "HV feeder", "zone substation", "sub-transmission"]
FACTOR = (2, "factor")

# Each field's values in order: width and name. A field of factors repeats its one value to its end.
BOOK = {
    0x01: ("identity", [(4, None)]),
    0x02: ("discount rate", [(2, "discount rate b")]),
    0x03: ("opex and revenue", PAIRS),
    0x04: ("distribution revenue factors", [FACTOR]),
    0x05: ("transmission revenue factors", [FACTOR]),
    0x06: ("pioneer terms", [(4, "threshold"), (4, "fee"), (4, "minimum"), (2, "term")]),
    0x07: ("charging", [(1, "capacity charged"), (2, "credit share")]),
    0x08: ("zone", [(1, "zone number")] + [(4, f"{tier}, rate") for tier in TIERS]),
    0x09: ("zone", [(2, "zone number")] + [(4, f"{tier}, rate") for tier in TIERS]),
}
REQUEST = {
    0x01: ("identity", [(4, None)]),
    0x02: ("person", [(4, "person number")]),
    0x03: ("class", [(1, "class")]),
    0x04: ("zone", [(1, "zone number")]),
    0x05: ("amounts", [(4, name) for name in ("ME", "CE", "DE", "TW", "HR", "OL")]),
    0x06: ("tiers", [value for tier in TIERS for value in ((1, f"{tier}, mode"), (4, f"{tier}, demand"), (4, f"{tier}, bespoke rate"))]),
    0x07: ("added demands", [(4, f"{tier}, added demand") for tier in TIERS]),
    0x08: ("year-one revenue", [(4, "distribution"), (4, "transmission")]),
    0x09: ("part-year factors", [FACTOR]),
    0x0A: ("distribution tariff factors", [FACTOR]),
    0x0B: ("transmission tariff factors", [FACTOR]),
    0x0C: ("connection", [(2, "month"), (4, "capacity"), (2, "scheme joined"), (1, "mark")]),
    0x0D: ("zone", [(2, "zone number")]),
}
OLD_LEDGER = {
    0x01: ("identity", [(4, None)]),
    0x02: ("counts and sums", [(2, "last accepted month"), (4, "connections"), (8, "charged"), (8, "borne")]),
    0x03: ("scheme", [(4, "cost"), (4, "fee"), (4, "minimum"), (2, "opening"), (2, "term"), (8, "fees")]),
    0x04: ("entry", [(2, "scheme"), (4, "person"), (4, "capacity"), (4, "put in"), (8, "credited"), (8, "paid out")]),
}
NUMBERS = [(4, "next scheme"), (4, "next entry"), (8, "cleared collected"), (8, "cleared paid out"), (8, "cleared fees")]
# Field 02 of the new form adds these at its end; a scheme and an entry begin with their number.
LEDGER = {tag: (name, ([(4, "number")] if tag > 0x02 else []) + layout) for tag, (name, layout) in OLD_LEDGER.items()}
LEDGER[0x02] = ("counts and sums", OLD_LEDGER[0x02][1] + NUMBERS)
DUMPED = [
    ("crates/slip/data/rates.bin", BOOK),
    ("crates/slip/data/job.bin", REQUEST),
    ("crates/stored_ledgers/data/one_scheme.bin", LEDGER),
    ("crates/stored_ledgers/data/old_one_scheme.bin", OLD_LEDGER),
]


def line(offset, data, words):
    return f"{offset:4}  {data.hex(' ').upper():24}{words}".rstrip()


def values(offset, data, layout):
    at = 0
    while at < len(data):
        for width, name in layout:
            part = data[at : at + width]
            number = int.from_bytes(part, "big")
            yield line(offset + at, part, f"  the letters {part.decode()}" if name is None else f"  {name}: {number:,}")
            at += width


def dump(data, kind):
    at = 0
    while at < len(data) - 5:
        tag, length = data[at], int.from_bytes(data[at + 1 : at + 3], "big")
        name, layout = kind[tag]
        yield line(at, data[at : at + 3], f"field {tag:02X}, length {length}: {name}")
        yield from values(at + 3, data[at + 3 : at + 3 + length], layout)
        at += 3 + length
    yield line(at, data[at : at + 3], "field FF, length 2: the check")
    yield line(at + 3, data[at + 3 :], f"  check: {int.from_bytes(data[at + 3 :], 'big'):,}")


def main():
    page = (ROOT / "docs/FORMAT.md").read_text()
    for path, kind in DUMPED:
        text = "\n".join(dump((ROOT / path).read_bytes(), kind))
        if sys.argv[1:] != ["--check"]:
            print(f"{path}\n{text}\n")
        elif f"```\n{text}\n```" not in page:
            sys.exit(f"docs/FORMAT.md: the dump of {path} is another")


main()
