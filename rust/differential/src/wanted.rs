//! What a call of the library must come to, by the reference implementation.

use crate::call::{refused, Buffers, LibraryCall};
use fikrem::raw::{ANSWER, BAND, FIGURES};
use generate::{Call, Outcome};
use reference::ledger::MOST_ENTRIES;
use reference::refusal::{NUMBERS_NOT_COUNTS, OUTPUT_TOO_SHORT};
use reference::{move_back, move_to_new, page, price, price_band, read_ledger, slip, write_ledger};
use reference::{Answer, Bill, Joining, Ledger, Party, Percentage, PriceBand, Refusal};

const OUTPUT: Refusal = Refusal::of_call(OUTPUT_TOO_SHORT);

/// A refusal, and whether it is of the stored ledger itself.
struct Refused {
    refusal: Refusal,
    stored: bool,
}

impl From<Refusal> for Refused {
    fn from(refusal: Refusal) -> Refused {
        Refused { refusal, stored: false }
    }
}

impl Refused {
    fn result(&self) -> u64 {
        let Refusal { number, file, place } = self.refusal;
        refused(number, file, self.stored, place)
    }
}

/// The places of an answer.
type Places = [u64; ANSWER];

/// Makes the call by the reference implementation; the result and what stands in the buffers after it. A refusal
/// changes none of them.
pub fn run(call: &LibraryCall, buffers: &mut Buffers) -> u64 {
    let (answered, figures_written) = match call {
        LibraryCall::Price { .. } => (false, FIGURES),
        LibraryCall::PriceBand { .. } => (false, BAND),
        LibraryCall::Page { .. } => (false, 0),
        LibraryCall::Accept { .. } => (true, FIGURES),
        _ => (true, 0),
    };
    if (answered && buffers.answer.len() < ANSWER) || buffers.figures.len() < figures_written {
        return Refused::from(OUTPUT).result();
    }
    match places_of(call, &mut buffers.out, &mut buffers.figures) {
        Ok(places) if answered => buffers.answer[..ANSWER].copy_from_slice(&places),
        Ok(_) => {}
        Err(refused) => return refused.result(),
    }
    0
}

fn places_of(call: &LibraryCall, out: &mut [u8], figures: &mut [i64]) -> Result<Places, Refused> {
    match *call {
        LibraryCall::Price { book, request } => {
            figures[..FIGURES].copy_from_slice(&figures_of(&price(book, request)?));
            Ok([0; ANSWER])
        }
        LibraryCall::PriceBand { book, request, revenues: [low, high, low_transmission, high_transmission] } => {
            let band = price_band(book, request, low, high, low_transmission, high_transmission)?;
            figures[..BAND].copy_from_slice(&figures_of_band(&band));
            Ok([0; ANSWER])
        }
        LibraryCall::SlipText { book, request } => {
            let text = slip(book, request);
            out.get_mut(..text.len()).ok_or(OUTPUT)?.copy_from_slice(&text);
            Ok([0, 0, 0, 0, text.len() as u64])
        }
        LibraryCall::Page { book, request } => {
            page(book, request, out)?;
            Ok([0; ANSWER])
        }
        LibraryCall::NewLedger => Ok([0, 0, 0, 0, write_ledger(&Ledger::new(), &[], out)? as u64]),
        LibraryCall::Accept { stored, table_size, book, request } => {
            let accepted = Call::Accept { book: book.to_vec(), request: request.to_vec() };
            let places = on_stored(stored, table_size, &accepted, out)?;
            figures[..FIGURES].copy_from_slice(&figures_of(&price(book, request)?));
            Ok(places)
        }
        LibraryCall::PayOut { stored, table_size, entry, amount } => {
            on_stored(stored, table_size, &Call::PayOut { entry, amount }, out)
        }
        LibraryCall::HandOver { stored, table_size, entry, person } => {
            on_stored(stored, table_size, &Call::HandOver { entry, person }, out)
        }
        LibraryCall::Clear { stored, table_size, month } => on_stored(stored, table_size, &Call::Clear { month }, out),
        LibraryCall::JudgeLedger { stored, table_size } => {
            let (ledger, _) = read(stored, table_size)?;
            Ok([ledger.standing.into(), ledger.entries.into(), ledger.connections.into(), ledger.month.into(), 0])
        }
        LibraryCall::MoveToNew { file } => moved(move_to_new(file, out)),
        LibraryCall::MoveBack { file } => moved(move_back(file, out)),
    }
}

/// A table of this length. One of more than 512 records shows that no more are used; the longest can't be made, so that
/// 1,024 are enough.
pub fn table(table_size: usize) -> Vec<Party> {
    vec![Party::default(); table_size.min(2 * MOST_ENTRIES)]
}

fn read(stored: &[u8], table_size: usize) -> Result<(Ledger, Vec<Party>), Refused> {
    let (mut ledger, mut parties) = (Ledger::new(), table(table_size));
    match read_ledger(&mut ledger, &mut parties, stored) {
        Ok(()) => Ok((ledger, parties)),
        Err(refusal) => Err(Refused { refusal, stored: true }),
    }
}

/// Reads the stored ledger onto a table of this length, makes the call and writes the ledger.
fn on_stored(stored: &[u8], table_size: usize, call: &Call, out: &mut [u8]) -> Result<Places, Refused> {
    let (mut ledger, mut parties) = read(stored, table_size)?;
    let [kind, entry, collected, scheme] = match call.run(&mut ledger, &mut parties)? {
        Outcome::Done => [0; 4],
        Outcome::Accepted(_, answer) => places_of_answer(answer),
    };
    Ok([kind, entry, collected, scheme, write_ledger(&ledger, &parties, out)? as u64])
}

/// The places of a move, which is refused for the file itself but by 16 and 14.
fn moved(written: Result<usize, Refusal>) -> Result<Places, Refused> {
    match written {
        Ok(length) => Ok([0, 0, 0, 0, length as u64]),
        Err(refusal) => {
            let stored = ![NUMBERS_NOT_COUNTS, OUTPUT_TOO_SHORT].contains(&refusal.number);
            Err(Refused { refusal, stored })
        }
    }
}

/// The places of accept's answer: the joining's kind, entry and G, and the scheme that opened.
pub fn places_of_answer(answer: Answer) -> [u64; 4] {
    let scheme = answer.opened.map_or(0, u64::from);
    match answer.joining {
        None => [0, 0, 0, scheme],
        Some(Joining::Joined { entry, collected }) => [1, entry.into(), collected.into(), scheme],
        Some(Joining::Small) => [2, 0, 0, scheme],
        Some(Joining::Ended) => [3, 0, 0, scheme],
    }
}

/// ME MC CE CC2 TW HR OL IC IR CC NIC NC X entered borne, then reliance, upfront and ncratio, then the quotient and
/// remainder of each.
pub fn figures_of(bill: &Bill) -> [i64; FIGURES] {
    let sums = &bill.reconciliation;
    let amounts = [sums.me, sums.mc, sums.ce, sums.cc2, sums.tw, sums.hr, sums.ol, sums.ic, sums.ir, sums.cc];
    let mut figures = [0; FIGURES];
    for (figure, amount) in figures.iter_mut().zip(amounts) {
        *figure = amount as i64;
    }
    let rest = [sums.nic, sums.nc, bill.x.into(), bill.entered as i64, bill.borne as i64];
    figures[10..15].copy_from_slice(&rest);
    for (index, percentage) in [bill.reliance, bill.upfront, bill.nc_ratio].into_iter().enumerate() {
        figures[15 + 2 * index] = percentage.is_some().into();
        if let Some(Percentage { rounded, quotient, remainder }) = percentage {
            figures[16 + 2 * index] = rounded;
            figures[21 + 2 * index] = quotient;
            figures[22 + 2 * index] = remainder as i64;
        }
    }
    figures
}

/// IR, CC and NC, each lowest then highest.
pub fn figures_of_band(band: &PriceBand) -> [i64; BAND] {
    let ([ir, highest_ir], [cc, highest_cc], [nc, highest_nc]) = (band.ir, band.cc, band.nc);
    [ir as i64, highest_ir as i64, cc as i64, highest_cc as i64, nc, highest_nc]
}
