"""The rate book and the request of each example of document 000 (docs/WORKED_EXAMPLES.md) that the program worked_examples prices.

Numbers in brackets are document 000's paragraphs. Factors are in ten-thousandths, money in cents, rates in
cents per kVA, demands in hundredths of a kVA.
"""
from fields import closed, field, number, numbers

URBAN, RURAL, REMOTE, RECAST = 1, 2, 3, 4
RATES = {
    URBAN: [24_000, 60_000, 8_500, 38_000, 14_000],
    RURAL: [0, 0, 8_500, 38_000, 10_000],
    REMOTE: [17_000, 53_000, 8_500, 38_000, 10_000],
}
RESIDENTIAL, NON_RESIDENTIAL, SPECIAL_PRICING = 0, 1, 2
POSTED, EXTENSION_LIKE, BESPOKE = 0, 1, 2


def book(charged, share, recast_rate=None):
    """The distributor's book."""
    rates = dict(RATES)
    if recast_rate is not None:
        rates[RECAST] = [recast_rate, 0, 0, 0, 0]
    return closed([
        field(0x01, b"RATE"),
        field(0x02, number(2, 463)),
        field(0x03, numbers(4, [19_300, 153_800] * 5)),
        field(0x04, numbers(2, [10_000, 11_000, 12_000, 13_200, 14_400])),
        field(0x05, numbers(2, [10_000, 11_500, 11_600, 11_900, 12_100, 12_400, 12_000])),
        field(0x06, numbers(4, [5_000_000, 25_000, 125_000]) + number(2, 84)),
        field(0x07, number(1, charged) + number(2, share)),
        *(field(0x08, number(1, zone) + numbers(4, row)) for zone, row in rates.items()),
    ])


NO_CHANGE = [10_000]
NOTHING = dict(
    ce=0, tw=0, hr=0, ol=0, modes=[POSTED] * 5, bespoke=[0] * 5, added=[0] * 5, distribution=0, transmission=0,
    distribution_tariff=NO_CHANGE, transmission_tariff=NO_CHANGE, scheme=0,
)


def request(r):
    tiers = zip(r["modes"], r["demands"], r["bespoke"])
    return closed([
        field(0x01, b"CONN"),
        field(0x02, number(4, 4_711)),
        field(0x03, number(1, r["class_"])),
        field(0x04, number(1, r["zone"])),
        field(0x05, numbers(4, [r["me"], r["ce"], 0, r["tw"], r["hr"], r["ol"]])),
        field(0x06, b"".join(number(1, mode) + numbers(4, [demand, rate]) for mode, demand, rate in tiers)),
        field(0x07, numbers(4, r["added"])),
        field(0x08, numbers(4, [r["distribution"], r["transmission"]])),
        field(0x09, numbers(2, r["part_year"])),
        field(0x0A, numbers(2, r["distribution_tariff"])),
        field(0x0B, numbers(2, r["transmission_tariff"])),
        field(0x0C, number(2, 24_315) + number(4, r["capacity"]) + number(2, r["scheme"]) + number(1, 0)),
    ])


HALF_YEAR = [5_000, 10_000]
QUARTER_YEAR = [2_500, 10_000]
# Table 5.6, and its inverse for non-residential connections (note 49), to the nearest ten-thousandth
FALLING = [10_000, 9_700, 9_400, 9_000, 8_700, 8_400]
RISING = [10_000, 10_309, 10_638, 11_111, 11_494, 11_905]

# year-one revenue: 64.5% of $131.2m and 61% of $58.8m, each over 159,201 connections
EXAMPLE_1A = NOTHING | dict(
    class_=RESIDENTIAL, zone=URBAN, me=190_000, demands=[500, 250, 250, 200, 150], distribution=53_155, transmission=22_530,
    part_year=HALF_YEAR, transmission_tariff=FALLING, capacity=1_500,
)
EXAMPLE_1B = EXAMPLE_1A | dict(ce=100_000, added=[300, 50, 50, 50, 50], capacity=3_000)
EXAMPLE_1D = NOTHING | dict(
    class_=RESIDENTIAL, zone=URBAN, me=140_000, demands=[300, 50, 50, 50, 50], part_year=HALF_YEAR,
    transmission_tariff=FALLING, capacity=3_000,
)
# year-one revenue: $1.86m and $1.30m, each over 5,171 connections
EXAMPLE_1E = NOTHING | dict(
    class_=NON_RESIDENTIAL, zone=RURAL, me=1_598_500, demands=[400, 400, 200, 200, 150], distribution=35_970, transmission=25_140,
    part_year=HALF_YEAR, transmission_tariff=RISING, capacity=1_500,
)
# the connection joins a pioneer scheme; its contribution is no part of the charge (5.123)
EXAMPLE_1F = EXAMPLE_1E | dict(scheme=1)
EXAMPLE_1G = EXAMPLE_1E | dict(hr=2_000_000)
# Year-one revenue: 365 × $8.6226 + 295,650 kWh × $0.014, and 365 × $13.5051. From year 2 on the energy doubles, so
# distribution revenue is 1.568062 times that; document 01 has one part-year list, so the tariff list takes it.
EXAMPLE_2A = NOTHING | dict(
    class_=NON_RESIDENTIAL, zone=REMOTE, me=14_520_000, modes=[EXTENSION_LIKE, EXTENSION_LIKE, BESPOKE, POSTED, POSTED],
    demands=[0, 0, 10_000, 8_000, 6_000], bespoke=[0, 0, 15_300, 0, 0], distribution=728_635, transmission=492_936,
    part_year=QUARTER_YEAR, distribution_tariff=[10_000, 10_000, 15_681], transmission_tariff=RISING, capacity=22_500,
)
EXAMPLE_2B = EXAMPLE_2A | dict(
    me=2_320_000, modes=[POSTED, POSTED, BESPOKE, POSTED, POSTED], demands=[0, 5_000, 5_000, 200, 200],
)
# the year's charge: $200,000, 60% of it distribution, which also holds the loading of $10,200 a year
EXAMPLE_3A = NOTHING | dict(
    class_=SPECIAL_PRICING, zone=URBAN, me=20_400_000, demands=[0, 0, 0, 400_000, 300_000], ol=11_112_100, distribution=13_020_000,
    transmission=8_000_000, part_year=QUARTER_YEAR, capacity=500_000,
)
# the transmission tariff list blends the charge with the yearly transmission costs of Figure 7.4
EXAMPLE_3B = EXAMPLE_3A | dict(
    me=305_040_000, modes=[POSTED, POSTED, POSTED, EXTENSION_LIKE, EXTENSION_LIKE], tw=190_784_000, ol=166_158_326,
    distribution=27_252_000, transmission_tariff=[10_000, 19_783, 19_708, 19_490, 19_351, 29_232, 29_837],
)
# the credit of $260,000 stands as 500 kVA less demand at two tiers
EXAMPLE_3C = EXAMPLE_3A | dict(demands=[0, 0, 0, 350_000, 250_000], distribution_tariff=[9_700])
EXAMPLE_3D = EXAMPLE_3A | dict(me=22_400_000)


def recast(example, me, demand, **others):
    """What document 000 recovers by yearly charges stands as capacity that isn't charged, in the first tier."""
    return example | dict(zone=RECAST, me=me, ol=0, demands=[demand, 0, 0, 0, 0], modes=[POSTED] * 5) | others


POSTED_CHARGE = book(charged=0, share=393)
NO_CREDIT = book(charged=1, share=0)
LOADING_NOT_CHARGED = book(charged=0, share=0, recast_rate=1_111_210)
EXAMPLES = {
    "1a": (POSTED_CHARGE, EXAMPLE_1A),
    "1b": (POSTED_CHARGE, EXAMPLE_1B),
    "1c": (book(charged=1, share=3_072), EXAMPLE_1B),
    "1d": (book(charged=1, share=6_500), EXAMPLE_1D),
    "1e": (book(charged=1, share=6_500), EXAMPLE_1E),
    "1f": (book(charged=1, share=6_500), EXAMPLE_1F),
    "1g": (book(charged=1, share=6_500), EXAMPLE_1G),
    "2a": (book(charged=1, share=1_500), EXAMPLE_2A),
    "2b": (book(charged=1, share=1_500), EXAMPLE_2B),
    "3a": (NO_CREDIT, EXAMPLE_3A),
    "3b": (NO_CREDIT, EXAMPLE_3B),
    "3c": (NO_CREDIT, EXAMPLE_3C),
    "3d": (NO_CREDIT, EXAMPLE_3D),
    "3a_recast": (LOADING_NOT_CHARGED, recast(EXAMPLE_3A, 214_400_000, 1_000)),
    "3b_recast": (
        book(charged=0, share=0, recast_rate=3_330_486),
        recast(EXAMPLE_3B, 305_040_000, 10_000, tw=23_893_700),
    ),
    "3c_recast": (LOADING_NOT_CHARGED, recast(EXAMPLE_3C, 188_400_000, 1_000)),
    "3d_recast": (LOADING_NOT_CHARGED, recast(EXAMPLE_3D, 216_400_000, 1_000)),
}
# the examples for which document 000 prints the revenue of each kind
TWO_KINDS = ["1a", "1e", "2a"]


def files():
    """A book and a request for each example; where it is asked for, the request with one kind of revenue alone."""
    wanted = {}
    for name, (rates, example) in EXAMPLES.items():
        wanted[f"{name}_rates.bin"] = rates
        wanted[f"{name}_job.bin"] = request(example)
    for name in TWO_KINDS:
        example = EXAMPLES[name][1]
        wanted[f"{name}_distribution.bin"] = request(example | dict(transmission=0))
        wanted[f"{name}_transmission.bin"] = request(example | dict(distribution=0))
    return wanted
