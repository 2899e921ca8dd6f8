//! Ledgers with one figure altered, most of them unsound, the stored forms of any, and lengths of tables for them.

use crate::fields::File;
use crate::random::Random;
use reference::ledger::{HIGHEST_NEXT_SCHEME, HIGHEST_PUT_IN, MOST_ENTRIES};
use reference::{Ledger, Party, Scheme};

/// The ledger and its table with one figure altered: of the ledger, of a scheme's place or of a record of the table.
pub fn altered(random: &mut Random, ledger: &Ledger, parties: &[Party]) -> (Ledger, Vec<Party>) {
    let (mut ledger, mut parties) = (ledger.clone(), parties.to_vec());
    match random.within(0, 2) {
        0 if !parties.is_empty() => {
            let index = random.index(parties.len());
            alter_party(random, &mut parties[index], ledger.next_entry);
        }
        1 => {
            let places = random.choose(&[usize::from(ledger.standing) + 1, ledger.schemes.len()]);
            let index = random.index(places.min(ledger.schemes.len()));
            let next_scheme = ledger.next_scheme;
            alter_scheme(random, &mut ledger.schemes[index], next_scheme);
        }
        _ => alter_totals(random, &mut ledger),
    }
    (ledger, parties)
}

/// The stored form of a ledger that may be unsound, with as many schemes and entries as are given.
pub fn encode(ledger: &Ledger, schemes: &[Scheme], parties: &[Party]) -> Vec<u8> {
    let totals = totals(b"PIO2", ledger).u32s(&[ledger.next_scheme, ledger.next_entry]);
    let mut file = totals.u64(ledger.cleared_collected).u64(ledger.cleared_paid_out).u64(ledger.cleared_fees);
    for scheme in schemes {
        file = with_scheme(file.field(3).u32(scheme.number), scheme);
    }
    for party in parties {
        file = with_entry(file.field(4).u32(party.number), party);
    }
    file.close()
}

/// The same in the old form, which has no numbers.
pub fn encode_old(ledger: &Ledger, schemes: &[Scheme], parties: &[Party]) -> Vec<u8> {
    let mut file = totals(b"PION", ledger);
    for scheme in schemes {
        file = with_scheme(file.field(3), scheme);
    }
    for party in parties {
        file = with_entry(file.field(4), party);
    }
    file.close()
}

fn totals(letters: &[u8; 4], ledger: &Ledger) -> File {
    let file = File::new().field(1).bytes(letters).field(2).u16(ledger.month).u32(ledger.connections);
    file.u64(ledger.charged).u64(ledger.borne)
}

fn with_scheme(file: File, scheme: &Scheme) -> File {
    let file = file.u32s(&[scheme.cost, scheme.fee, scheme.minimum]);
    file.u16s(&[scheme.opening, scheme.term]).u64(scheme.fees)
}

fn with_entry(file: File, party: &Party) -> File {
    let file = file.u16(party.scheme).u32s(&[party.person, party.capacity, party.put_in]);
    file.u64(party.credited).u64(party.paid_out)
}

/// The ledger as the old form has it, numbered anew from 1 on and with nothing cleared; and its table.
pub fn renumbered(ledger: &Ledger, parties: &[Party]) -> (Ledger, Vec<Party>) {
    let (mut ledger, mut parties) = (ledger.clone(), parties[..ledger.entries as usize].to_vec());
    (ledger.next_scheme, ledger.next_entry) = (u32::from(ledger.standing) + 1, ledger.entries + 1);
    (ledger.cleared_collected, ledger.cleared_paid_out, ledger.cleared_fees) = (0, 0, 0);
    let schemes = &mut ledger.schemes[..usize::from(ledger.standing)];
    for (party, number) in parties.iter_mut().zip(1..) {
        let place = schemes.iter().position(|scheme| scheme.number == u32::from(party.scheme));
        (party.number, party.scheme) = (number, place.map_or(0, |place| place as u16 + 1));
    }
    for (scheme, number) in schemes.iter_mut().zip(1..) {
        scheme.number = number;
    }
    (ledger, parties)
}

/// The length of a table for a ledger of so many entries: in half of the cases the longest, otherwise about the entries or
/// past the longest.
pub fn table_size(random: &mut Random, entries: u32) -> usize {
    let entries = entries as usize;
    match random.within(0, 9) {
        0 => random.choose(&[0, 1, entries / 2]),
        1 => entries.saturating_sub(1),
        2 => entries,
        3 => entries + random.choose(&[1, 2]),
        4 => random.choose(&[MOST_ENTRIES - 1, MOST_ENTRIES + 1, usize::MAX]),
        _ => MOST_ENTRIES,
    }
}

/// Another figure of at most `highest`: one more, one less, none, the highest, one of the document's limits, or any.
fn figure(random: &mut Random, figure: u64, limit: u64, highest: u64) -> u64 {
    let figure = match random.within(0, 6) {
        0 => figure.saturating_add(1),
        1 => figure.saturating_sub(1),
        2 => 0,
        3 => highest,
        4 => limit,
        5 => limit.saturating_add(1),
        _ => random.edge(0, highest),
    };
    figure.min(highest)
}

fn figure_u16(random: &mut Random, place: &mut u16, limit: u16) {
    *place = figure(random, (*place).into(), limit.into(), u16::MAX.into()) as u16;
}

fn figure_u32(random: &mut Random, place: &mut u32, limit: u32) {
    *place = figure(random, (*place).into(), limit.into(), u32::MAX.into()) as u32;
}

fn figure_u64(random: &mut Random, place: &mut u64, limit: u64) {
    *place = figure(random, *place, limit, u64::MAX);
}

fn alter_totals(random: &mut Random, ledger: &mut Ledger) {
    let most = u64::from(ledger.connections).saturating_mul(1_100_000_000_000);
    match random.within(0, 10) {
        0 => figure_u16(random, &mut ledger.month, 0),
        1 => figure_u32(random, &mut ledger.connections, 1_000_000),
        2 => figure_u64(random, &mut ledger.charged, most),
        3 => figure_u64(random, &mut ledger.borne, most),
        4 => figure_u16(random, &mut ledger.standing, 64),
        5 => figure_u32(random, &mut ledger.entries, 512),
        6 => figure_u32(random, &mut ledger.next_scheme, HIGHEST_NEXT_SCHEME),
        7 => {
            let highest = ledger.connections.saturating_mul(2).saturating_add(513);
            figure_u32(random, &mut ledger.next_entry, highest);
        }
        8 => figure_u64(random, &mut ledger.cleared_collected, ledger.cleared_paid_out),
        9 => figure_u64(random, &mut ledger.cleared_paid_out, ledger.cleared_collected),
        _ => alter_cleared(random, ledger),
    }
}

/// Cleared sums that agree, about the most that the entries cleared can have put in, or past 64 bits.
fn alter_cleared(random: &mut Random, ledger: &mut Ledger) {
    let cleared = u64::from(ledger.next_entry).saturating_sub(1 + u64::from(ledger.entries));
    let collected = figure(random, ledger.cleared_collected, cleared * u64::from(HIGHEST_PUT_IN), u64::MAX);
    let fees = random.edge(0, collected);
    let wrapped = random.once_in(4);
    ledger.cleared_collected = collected;
    ledger.cleared_fees = if wrapped { u64::MAX } else { fees };
    ledger.cleared_paid_out = if wrapped { collected.wrapping_add(1) } else { collected - fees };
}

fn alter_scheme(random: &mut Random, scheme: &mut Scheme, next_scheme: u32) {
    match random.within(0, 6) {
        0 => figure_u32(random, &mut scheme.cost, 2_000_000_000),
        1 => figure_u32(random, &mut scheme.fee, scheme.minimum),
        2 => figure_u32(random, &mut scheme.minimum, 1_000_000_000),
        3 => figure_u16(random, &mut scheme.opening, u16::MAX),
        4 => figure_u16(random, &mut scheme.term, 83),
        5 => figure_u64(random, &mut scheme.fees, 0),
        _ => figure_u32(random, &mut scheme.number, next_scheme.saturating_sub(1)),
    }
}

fn alter_party(random: &mut Random, party: &mut Party, next_entry: u32) {
    match random.within(0, 6) {
        0 => figure_u16(random, &mut party.scheme, 64),
        1 => figure_u32(random, &mut party.person, 0),
        2 => figure_u32(random, &mut party.capacity, 1_000_000),
        3 => figure_u32(random, &mut party.put_in, 2_000_000_000),
        4 => figure_u64(random, &mut party.credited, 2_000_000_000_000),
        5 => figure_u64(random, &mut party.paid_out, party.credited),
        _ => figure_u32(random, &mut party.number, next_entry.saturating_sub(1)),
    }
}
