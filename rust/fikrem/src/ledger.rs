//! The calls on a stored ledger. Each reads the stored form into a party table of `table_size` records, makes the call and
//! writes the stored form after it. A stored ledger that has more entries than the table has records is refused by 9.
//!
//! They take the form that starts PIO2 alone; a file of the old form, PION, is moved to it first, and can be moved back as
//! long as no scheme was cleared.

use crate::pricing::Bill;
use crate::raw::{self, ANSWER, FIGURES};
use crate::refusal::{Refusal, Refused};

/// The most bytes that a stored ledger has: 64 schemes and 512 entries.
pub const LONGEST_FORM: usize = raw::LEDGER_SIZE;
/// The most bytes that one of the old form has.
pub const LONGEST_OLD_FORM: usize = raw::OLD_LEDGER_SIZE;
/// The records of the longest party table; a longer one counts as this.
pub const LONGEST_TABLE: usize = raw::TABLE_SIZE;

/// What became of the joining that a request asks for.
#[derive(Debug, Clone, Copy, PartialEq, Eq)]
pub enum Joining {
    /// The number of the joiner's entry, and G.
    Joined {
        entry: u32,
        collected: u32,
    },
    Small,
    Ended,
}

/// What accept answers beside the bill; with neither the connection is plain.
#[derive(Debug, Clone, Copy, PartialEq, Eq)]
pub struct Answer {
    /// None where the request names no scheme.
    pub joining: Option<Joining>,
    /// The number of the scheme that opened.
    pub opened: Option<u16>,
}

impl Answer {
    fn of(answer: &[u64; ANSWER]) -> Answer {
        let joining = match answer[raw::JOINING] {
            raw::JOINED => {
                Some(Joining::Joined { entry: answer[raw::ENTRY] as u32, collected: answer[raw::COLLECTED] as u32 })
            }
            raw::SMALL => Some(Joining::Small),
            raw::ENDED => Some(Joining::Ended),
            _ => None,
        };
        let opened = Some(answer[raw::OPENED_SCHEME] as u16).filter(|&scheme| scheme > 0);
        Answer { joining, opened }
    }
}

/// What an accepted request comes to.
#[derive(Debug, Clone, Copy, PartialEq, Eq)]
pub struct Accepted {
    pub bill: Bill,
    pub answer: Answer,
}

/// What a sound stored ledger holds.
#[derive(Debug, Clone, Copy, PartialEq, Eq)]
pub struct Holdings {
    pub schemes: u16,
    pub entries: u32,
    pub connections: u32,
    /// The last accepted month.
    pub month: u16,
}

/// The bytes that a call on a stored ledger has written, or its refusal.
fn written(result: u64, answer: &[u64; ANSWER]) -> Result<usize, Refused> {
    match result {
        raw::DONE => Ok(answer[raw::WRITTEN] as usize),
        _ => Err(Refused::of(result)),
    }
}

/// What a call writes into a buffer of this length.
fn into_buffer<E>(length: usize, call: impl FnOnce(&mut [u8]) -> Result<usize, E>) -> Result<Vec<u8>, E> {
    let mut out = vec![0; length];
    let written = call(&mut out)?;
    out.truncate(written);
    Ok(out)
}

/// A new ledger's stored form.
pub fn new_ledger() -> Vec<u8> {
    let (mut out, mut answer) = (vec![0; LONGEST_FORM], [0; ANSWER]);
    // always done: there is room for the longest form
    raw::new_ledger(&mut out, &mut answer);
    out.truncate(answer[raw::WRITTEN] as usize);
    out
}

/// Writes a new ledger's stored form and says how many bytes it has.
pub fn new_ledger_into(out: &mut [u8]) -> Result<usize, Refusal> {
    let mut answer = [0; ANSWER];
    let result = raw::new_ledger(out, &mut answer);
    written(result, &answer).map_err(|refused| refused.refusal())
}

/// Accepts a request by a book; the new stored form.
pub fn accept(stored: &[u8], table_size: usize, book: &[u8], request: &[u8]) -> Result<(Accepted, Vec<u8>), Refused> {
    let mut out = vec![0; LONGEST_FORM];
    let (accepted, length) = accept_into(stored, table_size, book, request, &mut out)?;
    out.truncate(length);
    Ok((accepted, out))
}

/// Accepts a request by a book, writes the new stored form and says how many bytes it has.
pub fn accept_into(
    stored: &[u8],
    table_size: usize,
    book: &[u8],
    request: &[u8],
    out: &mut [u8],
) -> Result<(Accepted, usize), Refused> {
    let (mut figures, mut answer) = ([0; FIGURES], [0; ANSWER]);
    let result = raw::accept(stored, table_size, book, request, out, &mut figures, &mut answer);
    let length = written(result, &answer)?;
    Ok((Accepted { bill: Bill::of(&figures), answer: Answer::of(&answer) }, length))
}

/// Pays an amount out to an entry; the new stored form.
pub fn pay_out(stored: &[u8], table_size: usize, entry: u32, amount: u64) -> Result<Vec<u8>, Refused> {
    into_buffer(LONGEST_FORM, |out| pay_out_into(stored, table_size, entry, amount, out))
}

/// Pays an amount out to an entry, writes the new stored form and says how many bytes it has.
pub fn pay_out_into(
    stored: &[u8],
    table_size: usize,
    entry: u32,
    amount: u64,
    out: &mut [u8],
) -> Result<usize, Refused> {
    let mut answer = [0; ANSWER];
    let result = raw::pay_out(stored, table_size, entry, amount, out, &mut answer);
    written(result, &answer)
}

/// Hands an entry over to another person; the new stored form.
pub fn hand_over(stored: &[u8], table_size: usize, entry: u32, person: u32) -> Result<Vec<u8>, Refused> {
    into_buffer(LONGEST_FORM, |out| hand_over_into(stored, table_size, entry, person, out))
}

/// Hands an entry over to another person, writes the new stored form and says how many bytes it has.
pub fn hand_over_into(
    stored: &[u8],
    table_size: usize,
    entry: u32,
    person: u32,
    out: &mut [u8],
) -> Result<usize, Refused> {
    let mut answer = [0; ANSWER];
    let result = raw::hand_over(stored, table_size, entry, person, out, &mut answer);
    written(result, &answer)
}

/// Clears every scheme that has ended by a month and whose entries all have standing credit 0; the new stored form. The
/// month becomes the last one.
pub fn clear(stored: &[u8], table_size: usize, month: u16) -> Result<Vec<u8>, Refused> {
    into_buffer(LONGEST_FORM, |out| clear_into(stored, table_size, month, out))
}

/// Clears the schemes that have ended by a month, writes the new stored form and says how many bytes it has.
pub fn clear_into(stored: &[u8], table_size: usize, month: u16, out: &mut [u8]) -> Result<usize, Refused> {
    let mut answer = [0; ANSWER];
    let result = raw::clear(stored, table_size, month, out, &mut answer);
    written(result, &answer)
}

/// What a stored ledger holds, if it reads and is sound.
pub fn judge_ledger(stored: &[u8], table_size: usize) -> Result<Holdings, Refusal> {
    let mut answer = [0; ANSWER];
    match raw::judge_ledger(stored, table_size, &mut answer) {
        raw::DONE => Ok(Holdings {
            schemes: answer[raw::SCHEMES] as u16,
            entries: answer[raw::ENTRIES] as u32,
            connections: answer[raw::CONNECTED] as u32,
            month: answer[raw::LAST_MONTH] as u16,
        }),
        result => Err(Refusal::of(result)),
    }
}

/// A move of a stored ledger from one form to the other, as it stands in `raw`.
type Move = fn(&[u8], &mut [u8], &mut [u64]) -> u64;

fn moved_into(by: Move, file: &[u8], out: &mut [u8]) -> Result<usize, Refusal> {
    let mut answer = [0; ANSWER];
    let result = by(file, out, &mut answer);
    written(result, &answer).map_err(|refused| refused.refusal())
}

/// Moves a file of the old form, PION, to the new one, PIO2; the new file.
pub fn move_to_new(file: &[u8]) -> Result<Vec<u8>, Refusal> {
    into_buffer(LONGEST_FORM, |out| move_to_new_into(file, out))
}

/// Moves a file of the old form to the new one, writes that and says how many bytes it has.
pub fn move_to_new_into(file: &[u8], out: &mut [u8]) -> Result<usize, Refusal> {
    moved_into(raw::move_to_new, file, out)
}

/// Moves a file of the new form, PIO2, back to the old one, PION; the old file. Refused by 16 once a scheme was cleared.
pub fn move_back(file: &[u8]) -> Result<Vec<u8>, Refusal> {
    into_buffer(LONGEST_OLD_FORM, |out| move_back_into(file, out))
}

/// Moves a file of the new form back to the old one, writes that and says how many bytes it has.
pub fn move_back_into(file: &[u8], out: &mut [u8]) -> Result<usize, Refusal> {
    moved_into(raw::move_back, file, out)
}
