"""Stored ledgers in both forms: a new one, document 01's M7 after its first joining, a full one and one of which a scheme was
cleared; damaged copies of them."""
from fields import altered, closed, field, number, numbers

FEE = 20_000
SCHEMES, PARTIES = 64, 8


def totals(connections, charged, borne, month=24_320):
    return number(2, month) + number(4, connections) + numbers(8, [charged, borne])


def scheme(cost, fees, fee=FEE, minimum=FEE, term=84):
    return numbers(4, [cost, fee, minimum]) + numbers(2, [24_315, term]) + number(8, fees)


def entry(scheme, person, capacity, put_in, credited, paid_out=0):
    return number(2, scheme) + numbers(4, [person, capacity, put_in]) + numbers(8, [credited, paid_out])


def old_form(totals, schemes, entries):
    """The fields of a file that starts PION."""
    return [field(0x01, b"PION"), field(0x02, totals), *(field(0x03, value) for value in schemes), *(field(0x04, value) for value in entries)]


def numbered(tag, first, values):
    return [field(tag, number(4, first + place) + value) for place, value in enumerate(values)]


def new_form(totals, schemes, entries, first_numbers=(1, 1), cleared=(0, 0, 0)):
    """The fields of a file that starts PIO2, its schemes and entries numbered from these on."""
    next_numbers = [first_numbers[0] + len(schemes), first_numbers[1] + len(entries)]
    return [
        field(0x01, b"PIO2"),
        field(0x02, totals + numbers(4, next_numbers) + numbers(8, cleared)),
        *numbered(0x03, first_numbers[0], schemes),
        *numbered(0x04, first_numbers[1], entries),
    ]


def new():
    return totals(0, 0, 0, month=0), [], []


def one_scheme(fees=FEE):
    """Cost 6,000,000; a second party of half the first one's capacity joined: G 2,000,000, fee 20,000."""
    entries = [entry(1, 4_711, 10_000, 6_000_000, 1_980_000), entry(1, 4_712, 5_000, 2_000_000, 0)]
    return totals(2, 7_500_000, 900_000), [scheme(6_000_000, fees)], entries


def cleared(paid_out=1_980_000):
    """The second party built on: scheme 2 stands with entry 3. Scheme 1 with entries 1 and 2 was cleared."""
    schemes, entries = [scheme(5_000_001, 0, 7, 9, 100)], [entry(2, 1, 5_000, 5_000_001, 0)]
    return new_form(totals(2, 11_000_001, 0, month=24_399), schemes, entries, (2, 3), (2_000_000, paid_out, FEE))


def accounts(cost, capacities):
    """What each party of a scheme put in and was credited, once all of them joined in turn."""
    put_in, credited = [cost], [0] * len(capacities)
    for joiner in range(1, len(capacities)):
        total = sum(capacities[:joiner])
        collected = cost * capacities[joiner] // (total + capacities[joiner])
        up_to = [(collected - FEE) * sum(capacities[:count]) // total for count in range(joiner + 1)]
        for party in range(joiner):
            credited[party] += up_to[party + 1] - up_to[party]
        put_in.append(collected)
    return list(zip(capacities, put_in, credited))


def full():
    """64 schemes of eight parties: all open, then each has a second party, a third and so on. Half of each credit is paid out."""
    costs = [6_000_000 + 7_001 * place for place in range(SCHEMES)]
    parties = [accounts(cost, [10_000 - 1_000 * turn + place for turn in range(PARTIES)]) for place, cost in enumerate(costs)]
    entries = [
        entry(place + 1, 5_000 + turn * SCHEMES + place, capacity, put_in, credited, credited // 2)
        for turn in range(PARTIES)
        for place in range(SCHEMES)
        for capacity, put_in, credited in [parties[place][turn]]
    ]
    return totals(SCHEMES * PARTIES, 700_000_000, 90_000_000), [scheme(cost, FEE * (PARTIES - 1)) for cost in costs], entries


def files():
    """What the program stored_ledgers reads and moves."""
    whole = closed(new_form(*one_scheme()))
    return {
        "new.bin": closed(new_form(*new())),
        "one_scheme.bin": whole,
        "full.bin": closed(new_form(*full())),
        "cleared.bin": closed(cleared()),
        "truncated.bin": whole[:-1],
        "altered_byte.bin": altered(whole, 45, 1),
        "wrong_check.bin": altered(whole, len(whole) - 1, whole[-1] ^ 1),
        "wrong_letter.bin": closed([field(0x01, b"PIOM"), *new_form(*one_scheme())[1:]]),
        "old_letters.bin": closed([field(0x01, b"PION"), *new_form(*one_scheme())[1:]]),
        "fees_off_by_one.bin": closed(new_form(*one_scheme(fees=FEE + 1))),
        "cleared_off_by_one.bin": closed(cleared(paid_out=1_980_001)),
        "old_new.bin": closed(old_form(*new())),
        "old_one_scheme.bin": closed(old_form(*one_scheme())),
        "old_full.bin": closed(old_form(*full())),
        "old_fees_off_by_one.bin": closed(old_form(*one_scheme(fees=FEE + 1))),
    }
