//! Each condition of a sound ledger, at its limit and past it. Every call refuses an unsound one by 13 and changes
//! nothing.

use generate::calls::{after, calls};
use generate::ledgers::altered;
use generate::{Book, Random, Request};
use reference::ledger::is_sound;
use reference::*;

/// Two schemes in turn: scheme 1 of cost 6,000,000 with two entries, scheme 2 of cost 1,000 with one.
fn sample() -> (Ledger, Vec<Party>) {
    let (next_scheme, next_entry) = (3, 4);
    let mut ledger =
        Ledger { month: 500, connections: 3, next_scheme, next_entry, standing: 2, entries: 3, ..Ledger::new() };
    let first =
        Scheme { number: 1, cost: 6_000_000, fee: 20_000, minimum: 30_000, opening: 400, term: 84, fees: 20_000 };
    ledger.schemes[0] = first;
    ledger.schemes[1] = Scheme { number: 2, cost: 1_000, fee: 0, minimum: 0, opening: 500, term: 90, fees: 0 };
    let party = |number, scheme, put_in, credited| Party {
        number,
        scheme,
        person: 9,
        capacity: 10,
        put_in,
        credited,
        paid_out: 0,
    };
    (ledger, vec![party(1, 1, 6_000_000, 1_980_000), party(2, 2, 1_000, 0), party(3, 1, 2_000_000, 0)])
}

type Edit = fn(&mut Ledger, &mut Vec<Party>);

/// The sample after an edit is sound or not; if not, every call refuses it.
fn judge(name: &str, sound: bool, edit: Edit) {
    let (mut ledger, mut parties) = sample();
    edit(&mut ledger, &mut parties);
    assert_eq!(is_sound(&ledger, &parties), sound, "{name}");
    if sound {
        return;
    }
    let before = (ledger.clone(), parties.clone());
    let refused = Refusal { number: 13, file: 0, place: 0 };
    assert_eq!(accept(&mut ledger, &mut parties, &[], &[]).err(), Some(refused), "{name}");
    assert_eq!(pay_out(&ledger, &mut parties, 0, u64::MAX).err(), Some(refused), "{name}");
    assert_eq!(hand_over(&ledger, &mut parties, 0, 1).err(), Some(refused), "{name}");
    assert_eq!(clear(&mut ledger, &mut parties, 0).err(), Some(refused), "{name}");
    assert_eq!(write_ledger(&ledger, &parties, &mut []).err(), Some(refused), "{name}");
    assert_eq!((ledger, parties), before, "{name}");
}

#[test]
fn counts() {
    judge("as it is", true, |_, _| {});
    judge("1,000,000 connections", true, |ledger, _| ledger.connections = 1_000_000);
    judge("1,000,001 connections", false, |ledger, _| ledger.connections = 1_000_001);
    judge("65 schemes", false, |ledger, _| ledger.standing = 65);
    judge("65,535 schemes", false, |ledger, _| ledger.standing = u16::MAX);
    judge("a scheme without an entry", false, |ledger, parties| {
        parties.pop();
        parties.remove(1);
        ledger.entries = 1;
    });
    judge("table longer", true, |_, parties| parties.push(Party { scheme: 9, ..Party::default() }));
    judge("table shorter", false, |_, parties| parties.truncate(2));
    judge("more entries than any table", false, |ledger, _| ledger.entries = u32::MAX);
    judge("512 entries", true, |ledger, parties| fill(ledger, parties, 512));
    judge("513 entries", false, |ledger, parties| fill(ledger, parties, 513));
}

/// So many entries, those past the third of scheme 2, which takes no fee and has put in nothing.
fn fill(ledger: &mut Ledger, parties: &mut Vec<Party>, entries: u32) {
    (ledger.entries, ledger.next_entry) = (entries, entries + 1);
    parties.resize(entries as usize, Party { scheme: 2, capacity: 1, ..Party::default() });
    number_anew(parties);
}

fn number_anew(parties: &mut [Party]) {
    for (party, number) in parties.iter_mut().zip(1..) {
        party.number = number;
    }
}

fn exchange(parties: &mut [Party], first: usize, second: usize) {
    parties.swap(first, second);
    number_anew(parties);
}

#[test]
fn sums() {
    let most = 3_300_000_000_000;
    judge("charged at its limit", true, |ledger, _| ledger.charged = 3_300_000_000_000);
    judge("charged past it", false, |ledger, _| ledger.charged = 3_300_000_000_001);
    judge("borne at its limit", true, |ledger, _| ledger.borne = 3_300_000_000_000);
    judge("borne past it", false, |ledger, _| ledger.borne = 3_300_000_000_001);
    judge("borne highest", false, |ledger, _| ledger.borne = u64::MAX);
    judge("charged 1 without a connection", false, |ledger, _| (ledger.connections, ledger.charged) = (0, 1));
    judge("no connections", true, |ledger, _| ledger.connections = 0);
    assert_eq!(most, 3 * reference::ledger::HIGHEST_SUM_PER_CONNECTION);
}

#[test]
fn schemes() {
    judge("opening in the last month", true, |ledger, _| ledger.schemes[0].opening = 500);
    judge("opening after it", false, |ledger, _| ledger.schemes[0].opening = 501);
    judge("term 84", true, |ledger, _| ledger.schemes[1].term = 84);
    judge("term 83", false, |ledger, _| ledger.schemes[1].term = 83);
    judge("fee at the minimum", true, |ledger, _| ledger.schemes[0].minimum = 20_000);
    judge("fee above the minimum", false, |ledger, _| ledger.schemes[0].minimum = 19_999);
    judge("minimum at its limit", true, |ledger, _| ledger.schemes[0].minimum = 1_000_000_000);
    judge("minimum past it", false, |ledger, _| ledger.schemes[0].minimum = 1_000_000_001);
    judge("fees a cent more", false, |ledger, parties| {
        ledger.schemes[0].fees += 1;
        parties[0].credited -= 1;
    });
    judge("fees highest", false, |ledger, _| ledger.schemes[0].fees = u64::MAX);
    judge("cost a cent more", false, |ledger, _| ledger.schemes[0].cost += 1);
    judge("cost and first put in a cent more", false, |ledger, parties| {
        ledger.schemes[1].cost += 1;
        parties[1].put_in += 1;
        parties[1].credited += 1;
    });
    judge("cost, first put in and nothing else a cent more", true, |ledger, parties| {
        ledger.schemes[1].cost += 1;
        parties[1].put_in += 1;
    });
    judge("cost 0", true, |ledger, parties| {
        ledger.schemes[1].cost = 0;
        parties[1].put_in = 0;
    });
    judge("a place past the last scheme", false, |ledger, _| ledger.schemes[2].term = 84);
    judge("a number alone past the last scheme", false, |ledger, _| ledger.schemes[2].number = 3);
    judge("the last place", false, |ledger, _| ledger.schemes[63].fees = 1);
}

#[test]
fn entries() {
    judge("scheme 0", false, |_, parties| parties[2].scheme = 0);
    judge("scheme 3", false, |_, parties| parties[2].scheme = 3);
    judge("scheme highest", false, |_, parties| parties[2].scheme = u16::MAX);
    judge("capacity 0", false, |_, parties| parties[2].capacity = 0);
    judge("capacity 1", true, |_, parties| parties[2].capacity = 1);
    judge("capacity at its limit", true, |_, parties| parties[2].capacity = 1_000_000);
    judge("capacity past it", false, |_, parties| parties[2].capacity = 1_000_001);
    judge("paid out all", true, |_, parties| parties[0].paid_out = 1_980_000);
    judge("paid out a cent more", false, |_, parties| parties[0].paid_out = 1_980_001);
    judge("credited a cent more", false, |_, parties| parties[0].credited += 1);
    judge("credited elsewhere", true, |_, parties| {
        parties[0].credited -= 5;
        parties[2].credited += 5;
    });
    judge("put in at its limit", true, |ledger, parties| {
        (ledger.schemes[1].cost, parties[1].put_in) = (2_000_000_000, 2_000_000_000);
    });
    judge("put in past it", false, |ledger, parties| {
        (ledger.schemes[1].cost, parties[1].put_in) = (2_000_000_001, 2_000_000_001);
    });
    judge("the first of two exchanged", false, |_, parties| exchange(parties, 0, 2));
    judge("two schemes' entries exchanged", true, |_, parties| exchange(parties, 0, 1));
}

/// A ledger without schemes and entries, of so many connections.
fn empty(connections: u32) -> Ledger {
    Ledger { month: 500, connections, ..Ledger::new() }
}

#[test]
fn next_numbers() {
    let next_entry = |connections, next_entry| is_sound(&Ledger { next_entry, ..empty(connections) }, &[]);
    for (connections, highest) in [(0, 513), (1, 515), (1_000_000, 2_000_513)] {
        assert_eq!([0, 1, highest, highest + 1].map(|next| next_entry(connections, next)), [false, true, true, false]);
        assert!(!next_entry(connections, u32::MAX));
    }
    let next_scheme = |next_scheme| is_sound(&Ledger { next_scheme, ..empty(1) }, &[]);
    assert_eq!([0, 1, 65_536, 65_537, u32::MAX].map(next_scheme), [false, true, true, false, false]);
}

#[test]
fn numbers_rise() {
    let schemes = |first, second, next| {
        let (mut ledger, mut parties) = sample();
        (ledger.schemes[0].number, ledger.schemes[1].number, ledger.next_scheme) = (first, second, next);
        for (party, scheme) in parties.iter_mut().zip([first, second, first]) {
            party.scheme = scheme as u16;
        }
        is_sound(&ledger, &parties)
    };
    let rows = [
        (1, 2, 3, true),
        (1, 2, 65_536, true),
        (7, 9, 10, true),
        (65_534, 65_535, 65_536, true),
        (2, 1, 3, false),
        (1, 1, 3, false),
        (0, 2, 3, false),
        (1, 2, 2, false),
        (1, 2, 1, false),
        (1, 2, 0, false),
        // cut to 16 bits these are 1 and 2
        (65_537, 65_538, 65_539, false),
    ];
    for (first, second, next, sound) in rows {
        assert_eq!(schemes(first, second, next), sound, "schemes {first}, {second}, next {next}");
    }
    let entries = |numbers: [u32; 3], next_entry| {
        let (mut ledger, mut parties) = sample();
        ledger.next_entry = next_entry;
        parties.iter_mut().zip(numbers).for_each(|(party, number)| party.number = number);
        is_sound(&ledger, &parties)
    };
    let rows = [
        ([1, 2, 3], 4, true),
        ([1, 2, 3], 519, true),
        ([5, 7, 518], 519, true),
        ([1, 2, 3], 520, false),
        ([2, 1, 3], 4, false),
        ([1, 3, 2], 4, false),
        ([1, 2, 2], 4, false),
        ([0, 2, 3], 4, false),
        ([1, 2, 3], 3, false),
        ([1, 2, 4], 4, false),
        ([1, 2, 3], 0, false),
    ];
    for (numbers, next, sound) in rows {
        assert_eq!(entries(numbers, next), sound, "entries {numbers:?}, next {next}");
    }
}

/// An entry's scheme is a number and no place.
#[test]
fn an_entrys_scheme_is_a_number() {
    let (mut ledger, parties) = sample();
    (ledger.schemes[0].number, ledger.schemes[1].number, ledger.next_scheme) = (2, 5, 6);
    let with = |schemes: [u16; 3]| {
        let mut parties = parties.clone();
        parties.iter_mut().zip(schemes).for_each(|(party, scheme)| party.scheme = scheme);
        is_sound(&ledger, &parties)
    };
    assert!(with([2, 5, 2]));
    assert!([[1, 2, 1], [2, 5, 1], [2, 5, 3], [5, 2, 5]].into_iter().all(|schemes| !with(schemes)));
    ledger.schemes[0].number = 65_537;
    assert!(!is_sound(&ledger, &parties), "65,537 is never scheme 1");
}

#[test]
fn cleared_sums() {
    let cleared = |next_entry, [cleared_collected, cleared_paid_out, cleared_fees]: [u64; 3]| {
        is_sound(&Ledger { next_entry, cleared_collected, cleared_paid_out, cleared_fees, ..empty(1) }, &[])
    };
    let half = 1 << 63;
    let rows = [
        (1, [0, 0, 0], true),
        (1, [1, 1, 0], false),
        (2, [2_000_000_000, 2_000_000_000, 0], true),
        (2, [2_000_000_001, 2_000_000_001, 0], false),
        (2, [5, 3, 2], true),
        (2, [5, 3, 3], false),
        (2, [5, 3, 1], false),
        (2, [0, half, half], false),
        (515, [514 * 2_000_000_000, 0, 514 * 2_000_000_000], true),
        (515, [514 * 2_000_000_000 + 1, 0, 514 * 2_000_000_000 + 1], false),
    ];
    for (next_entry, sums, sound) in rows {
        assert_eq!(cleared(next_entry, sums), sound, "{sums:?}, next entry {next_entry}");
    }
    // the entries that stand have put in nothing of it
    let stands = |next_entry| {
        let (mut ledger, parties) = sample();
        (ledger.next_entry, ledger.cleared_collected, ledger.cleared_fees) = (next_entry, 1, 1);
        is_sound(&ledger, &parties)
    };
    assert_eq!([4, 5].map(stands), [false, true]);
}

/// A ledger stays sound through accept even where the next connection is the last.
#[test]
fn the_last_connection() {
    let (mut ledger, mut parties) = sample();
    (ledger.connections, ledger.charged) = (999_999, 1_100_000_000_000 * 999_999);
    let request = Request { month: 500, ..Request::slip() }.encode();
    accept(&mut ledger, &mut parties, &Book::slip().encode(), &request).unwrap();
    assert!(is_sound(&ledger, &parties));
    let refused = accept(&mut ledger, &mut parties, &Book::slip().encode(), &request).unwrap_err();
    assert_eq!(refused, Refusal { number: 10, file: 0, place: 0 });
}

/// Document 01, 'Soundness', condition by condition, in 128 bits.
fn sound_by_the_document(ledger: &Ledger, parties: &[Party]) -> bool {
    let (standing, entries) = (usize::from(ledger.standing), ledger.entries as usize);
    if standing > 64 || entries > 512 || ledger.connections > 1_000_000 || entries > parties.len() {
        return false;
    }
    let most = 1_100_000_000_000 * i128::from(ledger.connections);
    let sums = i128::from(ledger.charged) <= most && i128::from(ledger.borne) <= most;
    let past = ledger.schemes.iter().skip(standing).all(|scheme| *scheme == Scheme::default());
    let entries = &parties[..entries];
    let each = entries.iter().all(|entry| {
        entry.put_in <= 2_000_000_000
            && entry.credited <= 2_000_000_000_000
            && (1..=1_000_000).contains(&entry.capacity)
            && ledger.schemes[..standing].iter().any(|scheme| scheme.number == entry.scheme.into())
            && entry.paid_out <= entry.credited
    });
    let schemes = ledger.schemes.iter().take(standing).all(|scheme| {
        let of_scheme: Vec<&Party> = entries.iter().filter(|entry| u32::from(entry.scheme) == scheme.number).collect();
        let parts: i128 = of_scheme.iter().map(|entry| i128::from(entry.put_in) - i128::from(entry.credited)).sum();
        scheme.fee <= scheme.minimum
            && scheme.minimum <= 1_000_000_000
            && scheme.term >= 84
            && scheme.opening <= ledger.month
            && of_scheme.first().is_some_and(|first| first.put_in == scheme.cost)
            && i128::from(scheme.fees) == i128::from(scheme.fee) * (of_scheme.len() as i128 - 1)
            && i128::from(scheme.cost) + i128::from(scheme.fees) == parts
    });
    let numbers = ledger.schemes[..standing].iter().map(|scheme| scheme.number).collect();
    sums && past && each && schemes && rise(numbers, ledger.next_scheme) && cleared_by_the_document(ledger, entries)
}

/// "numbers rise from 1 or more and stay below the next ones, which are above 0"
fn rise(mut numbers: Vec<u32>, next: u32) -> bool {
    numbers.push(next);
    numbers[0] >= 1 && numbers.windows(2).all(|pair| pair[0] < pair[1])
}

/// Document 02, E8, but for the numbers of schemes, in 128 bits.
fn cleared_by_the_document(ledger: &Ledger, entries: &[Party]) -> bool {
    let cleared_entries = i128::from(ledger.next_entry) - 1 - entries.len() as i128;
    let sums = [ledger.cleared_collected, ledger.cleared_paid_out, ledger.cleared_fees].map(i128::from);
    rise(entries.iter().map(|entry| entry.number).collect(), ledger.next_entry)
        && ledger.next_scheme <= 65_536
        && i128::from(ledger.next_entry) <= 513 + 2 * i128::from(ledger.connections)
        && sums[0] == sums[1] + sums[2]
        && sums[0] <= 2_000_000_000 * cleared_entries
}

/// Any ledger that can be handed over is judged as the document says, and each call answers it.
#[test]
fn altered_ledgers() {
    let mut random = Random::new(8);
    let (mut sound, mut unsound) = (0, 0);
    for _ in 0..40 {
        let table_length = random.choose(&[1, 3, 20, 70, 512, 520]);
        let (ledger, parties) = after(&calls(&mut random, table_length, 120), table_length);
        for _ in 0..100 {
            let (mut ledger, mut parties) = altered(&mut random, &ledger, &parties);
            if random.once_in(3) {
                (ledger, parties) = altered(&mut random, &ledger, &parties);
            }
            let judged = sound_by_the_document(&ledger, &parties);
            assert_eq!(is_sound(&ledger, &parties), judged, "{ledger:?} {parties:?}");
            *(if judged { &mut sound } else { &mut unsound }) += 1;
            let request = Request { month: ledger.month, scheme: 1, ..Request::of_nothing() }.encode();
            let refused = accept(&mut ledger, &mut parties, &Book::slip().encode(), &request).err();
            assert_eq!(refused.is_some_and(|refused| refused.number == 13), !judged);
            assert_eq!(is_sound(&ledger, &parties), judged, "accept keeps a ledger sound");
        }
    }
    assert!(sound > 200 && unsound > 200, "{sound} sound, {unsound} not");
}
