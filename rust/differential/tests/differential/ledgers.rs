use super::cases;
use differential::{LibraryCall, Tally};
use fikrem::LONGEST_TABLE;
use generate::books::stored_form;
use generate::calls::{after, calls, filling};
use generate::damage::alter_byte_and_check;
use generate::ledgers::{altered, encode, encode_old, renumbered, table_size};
use generate::{Book, Call, Random, Request};
use reference::{Ledger, Party, Scheme};

/// Puts schemes and entries of a ledger into a stored form.
type Encode = fn(&Ledger, &[Scheme], &[Party]) -> Vec<u8>;

/// A stored form, as it is or with another number of schemes or entries.
fn encoded(by: Encode, ledger: &Ledger, parties: &[Party]) -> Vec<u8> {
    let schemes = usize::from(ledger.standing).min(ledger.schemes.len());
    let entries = (ledger.entries as usize).min(parties.len());
    by(ledger, &ledger.schemes[..schemes], &parties[..entries])
}

fn accept_call(month: u16, scheme: u16) -> Call {
    let request = Request { month, scheme, ..Request::of_nothing() }.encode();
    Call::Accept { book: Book::slip().encode(), request }
}

/// By each call on a table of this length.
fn by_each_call(tally: &mut Tally, random: &mut Random, stored: &[u8], table_size: usize, ledger: &Ledger) {
    tally.compare(&LibraryCall::JudgeLedger { stored, table_size });
    let highest = u16::try_from(ledger.next_scheme).unwrap_or(u16::MAX);
    let accept = accept_call(ledger.month, random.edge_u16(0, highest));
    tally.compare(&LibraryCall::on(stored, table_size, &accept));
    let entry = random.edge_u32(0, ledger.next_entry);
    tally.compare(&LibraryCall::PayOut { stored, table_size, entry, amount: random.edge(0, 1_000_000) });
    tally.compare(&LibraryCall::HandOver { stored, table_size, entry, person: random.edge_u32(0, u32::MAX) });
    tally.compare(&LibraryCall::Clear { stored, table_size, month: ending_month(random, ledger) });
    tally.compare(&LibraryCall::MoveBack { file: stored });
}

/// A month about the one in which a scheme of the ledger ends, or about the last one.
fn ending_month(random: &mut Random, ledger: &Ledger) -> u16 {
    let scheme = random.choose(&ledger.schemes[..usize::from(ledger.standing).clamp(1, ledger.schemes.len())]);
    let month = random.choose(&[ledger.month, scheme.opening.saturating_add(scheme.term)]);
    random.choose(&[month.saturating_sub(1), month, month, month.saturating_add(1), u16::MAX])
}

/// One or two figures of a ledger and its entries.
fn altered_once_or_twice(random: &mut Random, ledger: &Ledger, entries: &[Party]) -> (Ledger, Vec<Party>) {
    let (ledger, parties) = altered(random, ledger, entries);
    if random.once_in(3) {
        altered(random, &ledger, &parties)
    } else {
        (ledger, parties)
    }
}

/// Figures of ledgers made by calls, each of every field, at and past the documents' limits.
pub fn altered_figures(tally: &mut Tally) {
    let mut random = Random::new(130);
    for _ in 0..cases(60) {
        let count = random.choose(&[5, 40, 200, 600]);
        let (ledger, parties) = after(&calls(&mut random, 512, count), 512);
        for _ in 0..40 {
            let entries = &parties[..ledger.entries as usize];
            let (ledger, parties) = altered_once_or_twice(&mut random, &ledger, entries);
            let table_size = table_size(&mut random, ledger.entries);
            by_each_call(tally, &mut random, &encoded(encode, &ledger, &parties), table_size, &ledger);
        }
    }
}

/// The same of ledgers in the old form, which are moved to the new one; and of the two forms with each other's letters.
pub fn altered_old_figures(tally: &mut Tally) {
    let mut random = Random::new(132);
    for _ in 0..cases(60) {
        let count = random.choose(&[5, 40, 200]);
        let (ledger, parties) = after(&calls(&mut random, 512, count), 512);
        let (ledger, parties) = renumbered(&ledger, &parties);
        for _ in 0..40 {
            let (ledger, parties) = altered_once_or_twice(&mut random, &ledger, &parties);
            let old = encoded(encode_old, &ledger, &parties);
            let (result, seen) = tally.compare(&LibraryCall::MoveToNew { file: &old });
            if result == 0 {
                tally.compare(&LibraryCall::MoveBack { file: seen.written() });
            }
        }
        let (old, new) = (encoded(encode_old, &ledger, &parties), encoded(encode, &ledger, &parties));
        for file in [&old, &new, &alter_byte_and_check(&old, 6, b'2'), &alter_byte_and_check(&new, 6, b'N')] {
            tally.compare(&LibraryCall::MoveToNew { file });
            tally.compare(&LibraryCall::MoveBack { file });
            tally.compare(&LibraryCall::JudgeLedger { stored: file, table_size: LONGEST_TABLE });
        }
    }
}

/// Next numbers and cleared sums at their limits, of ledgers that a clearing has emptied or left a scheme.
pub fn limits_of_numbers(tally: &mut Tally) {
    let mut random = Random::new(133);
    let of_one = after(&filling(&mut random, 1, 2), 2);
    for (ledger, parties) in [(Ledger { connections: 1, ..Ledger::new() }, Vec::new()), of_one] {
        let highest = 513 + 2 * ledger.connections;
        let mut compare = |ledger: &Ledger| {
            by_each_call(tally, &mut random, &encoded(encode, ledger, &parties), LONGEST_TABLE, ledger);
        };
        for next_scheme in [0, 1, 2, 3, 65_534, 65_535, 65_536, 65_537, u32::MAX] {
            compare(&Ledger { next_scheme, ..ledger.clone() });
        }
        for next_entry in [0, 1, 2, 3, 4, highest, highest + 1, u32::MAX] {
            let most = 2_000_000_000 * u64::from(next_entry).saturating_sub(1 + u64::from(ledger.entries));
            for [collected, paid_out, fees] in cleared_sums(most) {
                compare(&Ledger {
                    next_entry,
                    cleared_collected: collected,
                    cleared_paid_out: paid_out,
                    cleared_fees: fees,
                    ..ledger.clone()
                });
            }
        }
    }
}

/// Collected, paid out and fees: none, up to the most and past it, agreeing and not, and a sum past 64 bits.
fn cleared_sums(most: u64) -> [[u64; 3]; 8] {
    let half = 1 << 63;
    [[0, 0, 0], [most, most, 0], [most, 0, most], [most + 1, most, 1], [5, 3, 2], [5, 3, 3], [5, 2, 2], [0, half, half]]
}

/// Openings whose schemes take the last numbers: 65,535 and no more; and the numbers between are ended.
pub fn last_scheme_numbers(tally: &mut Tally) {
    let (ledger, parties) = after(&filling(&mut Random::new(134), 2, 3), 3);
    let mut stored = stored_form(&Ledger { next_scheme: 65_534, next_entry: 500, ..ledger }, &parties);
    let opening = |scheme| {
        let request = Request { scheme, ..Request::extension(6_000_000) }.encode();
        Call::Accept { book: Book { credit_share: 0, ..Book::slip() }.encode(), request }
    };
    for (scheme, wanted) in [(0, 0), (65_533, 0), (65_535, 8), (0, 8), (65_534, 8)] {
        let (result, seen) = tally.compare(&LibraryCall::on(&stored, LONGEST_TABLE, &opening(scheme)));
        assert_eq!(result, wanted);
        if wanted == 0 {
            stored = seen.written().to_vec();
        }
    }
    for scheme in [0, 1, 2, 3, 65_533, 65_534, 65_535] {
        let plain = accept_call(24_315, scheme);
        assert_eq!(tally.compare(&LibraryCall::on(&stored, LONGEST_TABLE, &plain)).0, 0);
    }
}

/// 1,000,000 connections, sums at their limits, 64 and 65 schemes, 512 and 513 entries, a scheme without an entry.
pub fn limits(tally: &mut Tally) {
    let mut random = Random::new(131);
    let (ledger, parties) = after(&filling(&mut random, 3, 20), 20);
    for connections in [20, 999_998, 999_999, 1_000_000, 1_000_001, u32::MAX] {
        let most = 1_100_000_000_000 * u64::from(connections.min(1_000_000));
        for (charged, borne) in [(0, 0), (most, most), (most + 1, 0), (0, most + 1), (u64::MAX, u64::MAX)] {
            let ledger = Ledger { connections, charged, borne, ..ledger.clone() };
            by_each_call(tally, &mut random, &encoded(encode, &ledger, &parties), LONGEST_TABLE, &ledger);
        }
    }
    last_connections(tally, &Ledger { connections: 999_998, ..ledger.clone() }, &parties);
    for (schemes, entries) in [(64, 64), (64, 512), (1, 512), (63, 511)] {
        let (ledger, parties) = after(&filling(&mut random, schemes, entries), entries);
        let mut kept = ledger.schemes[..schemes].to_vec();
        by_each_call(tally, &mut random, &encode(&ledger, &kept, &parties), LONGEST_TABLE, &ledger);
        kept.push(Scheme::default());
        by_each_call(tally, &mut random, &encode(&ledger, &kept, &parties), LONGEST_TABLE, &ledger);
        let more = [&parties[..], &parties[parties.len() - 1..]].concat();
        for table_size in [entries, LONGEST_TABLE, usize::MAX] {
            by_each_call(tally, &mut random, &encode(&ledger, &kept[..schemes], &more), table_size, &ledger);
        }
    }
    tally.compare(&LibraryCall::NewLedger);
}

/// The connections 999,999 and 1,000,000 are taken, the next is refused by 10.
fn last_connections(tally: &mut Tally, ledger: &Ledger, parties: &[Party]) {
    let mut stored = stored_form(ledger, parties);
    for wanted in [0, 0, 10] {
        let (result, seen) = tally.compare(&LibraryCall::on(&stored, LONGEST_TABLE, &accept_call(ledger.month, 0)));
        assert_eq!(result, wanted);
        if wanted == 0 {
            stored = seen.written().to_vec();
        }
    }
}
