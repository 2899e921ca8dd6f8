//! The stored forms of a ledger. Document 01, 'Stored form', and document 02, E9.

use crate::file::{self, Row, Value, CHECK_HEAD, HEAD_SIZE, TAIL_SIZE};
use crate::ledger::{Ledger, Party, Scheme, MOST_ENTRIES, MOST_SCHEMES};
use crate::refusal::{self, Refusal, BOOK};

const LETTERS_TAG: u8 = 0x01;
const TOTALS_TAG: u8 = 0x02;
const SCHEME_TAG: u8 = 0x03;
const ENTRY_TAG: u8 = 0x04;

/// A stored form: its letters and the lengths of its values.
#[derive(Debug, Clone, Copy, PartialEq, Eq)]
pub struct StoredForm {
    letters: &'static [u8; 4],
    totals: usize,
    scheme: usize,
    entry: usize,
    /// Whether it has the lasting numbers, the next ones and the cleared sums; a scheme's or an entry's number is its
    /// place from 1 on where it hasn't.
    numbered: bool,
}

/// Document 01's, which the moves alone take.
pub const OLD: StoredForm = StoredForm { letters: b"PION", totals: 22, scheme: 24, entry: 30, numbered: false };
/// "Reading and writing take a new form alone, which starts PIO2."
pub const NEW: StoredForm = StoredForm { letters: b"PIO2", totals: 54, scheme: 28, entry: 34, numbered: true };

impl StoredForm {
    /// Its permitted lengths.
    pub const fn rows(&self) -> [Row; 4] {
        [
            Row::once(LETTERS_TAG, self.letters.len()),
            Row::once(TOTALS_TAG, self.totals),
            Row::times(SCHEME_TAG, self.scheme, 0, MOST_SCHEMES),
            Row::times(ENTRY_TAG, self.entry, 0, MOST_ENTRIES),
        ]
    }

    /// Its length with so many schemes and entries.
    pub const fn length(&self, schemes: usize, entries: usize) -> usize {
        HEAD_SIZE
            + self.letters.len()
            + HEAD_SIZE
            + self.totals
            + schemes * (HEAD_SIZE + self.scheme)
            + entries * (HEAD_SIZE + self.entry)
            + TAIL_SIZE
    }

    /// Writes a sound ledger with its entries. "Writing answers the form's length and leaves output past that alone." 14.
    fn write(
        &self,
        ledger: &Ledger,
        entries: impl Iterator<Item = Party>,
        output: &mut [u8],
    ) -> Result<usize, Refusal> {
        let length = self.length(ledger.standing.into(), ledger.entries as usize);
        let rest = output.get_mut(..length).ok_or(Refusal::of_call(refusal::OUTPUT_TOO_SHORT))?;
        let mut writer = Writer { rest, numbered: self.numbered };
        writer.field(LETTERS_TAG, self.letters.len());
        writer.put(*self.letters);
        writer.field(TOTALS_TAG, self.totals);
        writer.totals(ledger);
        for scheme in ledger.standing_schemes() {
            writer.field(SCHEME_TAG, self.scheme);
            writer.scheme(scheme);
        }
        for party in entries {
            writer.field(ENTRY_TAG, self.entry);
            writer.entry(&party);
        }
        writer.put(CHECK_HEAD);
        let (checked, check) = output[..length].split_at_mut(length - 2);
        check.copy_from_slice(&file::check(checked).to_be_bytes());
        Ok(length)
    }

    /// Reads a ledger, sound or not, and its entries. 1, 2, 1, 3.
    fn read<'a>(&self, file: &'a [u8]) -> Result<(Ledger, impl Iterator<Item = Party> + Clone + 'a), Refusal> {
        let mut fields = file::open(file, &self.rows(), BOOK)?;
        fields.due().letters(self.letters)?;
        let numbered = self.numbered;
        let mut ledger = totals(fields.due(), numbered);
        let of_tag =
            move |wanted| fields.clone().filter_map(move |(tag, value)| (tag == wanted).then_some(value)).zip(1u32..);
        for (place, (value, from_1)) in ledger.schemes.iter_mut().zip(of_tag(SCHEME_TAG)) {
            *place = scheme(value, from_1, numbered);
            ledger.standing += 1;
        }
        ledger.entries = of_tag(ENTRY_TAG).count() as u32;
        if !numbered {
            (ledger.next_scheme, ledger.next_entry) = (u32::from(ledger.standing) + 1, ledger.entries + 1);
        }
        Ok((ledger, of_tag(ENTRY_TAG).map(move |(value, from_1)| entry(value, from_1, numbered))))
    }

    /// Reads a sound ledger and its entries. 1, 2, 1, 3, 13.
    fn read_sound<'a>(&self, file: &'a [u8]) -> Result<(Ledger, impl Iterator<Item = Party> + Clone + 'a), Refusal> {
        let (ledger, entries) = self.read(file)?;
        judge(&ledger, entries.clone())?;
        Ok((ledger, entries))
    }
}

/// 13 where a ledger with these entries isn't sound. Of one in the old form that is document 01's soundness: its numbers
/// rise, are below the next ones, and nothing was cleared.
fn judge(ledger: &Ledger, entries: impl Iterator<Item = Party>) -> Result<(), Refusal> {
    ledger.sums(entries).map(|_| ()).ok_or(Refusal::of_call(refusal::LEDGER_UNSOUND))
}

/// Writes the stored form of a ledger. 13, 14.
pub fn write_ledger(ledger: &Ledger, parties: &[Party], output: &mut [u8]) -> Result<usize, Refusal> {
    ledger.sums_on(parties)?;
    NEW.write(ledger, parties[..ledger.entries as usize].iter().copied(), output)
}

/// Reads a stored ledger in the place of `ledger` and of the table's first records.
/// "Reading: file order, 9 where the table is too short, 13."
pub fn read_ledger(ledger: &mut Ledger, parties: &mut [Party], file: &[u8]) -> Result<(), Refusal> {
    let (stored, entries) = NEW.read(file)?;
    let table = parties.get_mut(..stored.entries as usize).ok_or(Refusal::of_call(refusal::NO_ENTRY_LEFT))?;
    judge(&stored, entries.clone())?;
    for (place, party) in table.iter_mut().zip(entries) {
        *place = party;
    }
    *ledger = stored;
    Ok(())
}

/// "One call moves an old file to the new form": places become numbers. 1, 2, 1, 3, 13, 14.
pub fn move_to_new(file: &[u8], output: &mut [u8]) -> Result<usize, Refusal> {
    let (ledger, entries) = OLD.read_sound(file)?;
    NEW.write(&ledger, entries, output)
}

/// "Another moves back where both next numbers are the counts plus one": a sound ledger's numbers are then its places, and
/// nothing was cleared. 1, 2, 1, 3, 13, 16, 14.
pub fn move_back(file: &[u8], output: &mut [u8]) -> Result<usize, Refusal> {
    let (ledger, entries) = NEW.read_sound(file)?;
    if (ledger.next_scheme, ledger.next_entry) != (u32::from(ledger.standing) + 1, ledger.entries + 1) {
        return Err(Refusal::of_call(refusal::NUMBERS_NOT_COUNTS));
    }
    OLD.write(&ledger, entries, output)
}

/// Fills an output from front to back.
struct Writer<'a> {
    rest: &'a mut [u8],
    numbered: bool,
}

impl Writer<'_> {
    fn put<const N: usize>(&mut self, bytes: [u8; N]) {
        let (place, rest) = std::mem::take(&mut self.rest).split_at_mut(N);
        place.copy_from_slice(&bytes);
        self.rest = rest;
    }

    /// Tag and length of a field.
    fn field(&mut self, tag: u8, length: usize) {
        self.put([tag]);
        self.put((length as u16).to_be_bytes());
    }

    /// The number at the beginning of a scheme or an entry.
    fn number(&mut self, number: u32) {
        if self.numbered {
            self.put(number.to_be_bytes());
        }
    }

    fn totals(&mut self, ledger: &Ledger) {
        self.put(ledger.month.to_be_bytes());
        self.put(ledger.connections.to_be_bytes());
        self.put(ledger.charged.to_be_bytes());
        self.put(ledger.borne.to_be_bytes());
        if self.numbered {
            self.put(ledger.next_scheme.to_be_bytes());
            self.put(ledger.next_entry.to_be_bytes());
            self.put(ledger.cleared_collected.to_be_bytes());
            self.put(ledger.cleared_paid_out.to_be_bytes());
            self.put(ledger.cleared_fees.to_be_bytes());
        }
    }

    fn scheme(&mut self, scheme: &Scheme) {
        self.number(scheme.number);
        self.put(scheme.cost.to_be_bytes());
        self.put(scheme.fee.to_be_bytes());
        self.put(scheme.minimum.to_be_bytes());
        self.put(scheme.opening.to_be_bytes());
        self.put(scheme.term.to_be_bytes());
        self.put(scheme.fees.to_be_bytes());
    }

    fn entry(&mut self, party: &Party) {
        self.number(party.number);
        self.put(party.scheme.to_be_bytes());
        self.put(party.person.to_be_bytes());
        self.put(party.capacity.to_be_bytes());
        self.put(party.put_in.to_be_bytes());
        self.put(party.credited.to_be_bytes());
        self.put(party.paid_out.to_be_bytes());
    }
}

/// A ledger of field 02 alone.
fn totals(mut value: Value<'_>, numbered: bool) -> Ledger {
    let of_both = Ledger {
        month: value.u16(),
        connections: value.u32(),
        charged: value.u64(),
        borne: value.u64(),
        ..Ledger::new()
    };
    if !numbered {
        return of_both;
    }
    Ledger {
        next_scheme: value.u32(),
        next_entry: value.u32(),
        cleared_collected: value.u64(),
        cleared_paid_out: value.u64(),
        cleared_fees: value.u64(),
        ..of_both
    }
}

fn scheme(mut value: Value<'_>, from_1: u32, numbered: bool) -> Scheme {
    Scheme {
        number: if numbered { value.u32() } else { from_1 },
        cost: value.u32(),
        fee: value.u32(),
        minimum: value.u32(),
        opening: value.u16(),
        term: value.u16(),
        fees: value.u64(),
    }
}

fn entry(mut value: Value<'_>, from_1: u32, numbered: bool) -> Party {
    Party {
        number: if numbered { value.u32() } else { from_1 },
        scheme: value.u16(),
        person: value.u32(),
        capacity: value.u32(),
        put_in: value.u32(),
        credited: value.u64(),
        paid_out: value.u64(),
    }
}
