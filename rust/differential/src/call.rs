//! A call of the library and the buffers that it writes.

use fikrem::raw::{self, ANSWER, FIGURES};
use fikrem::{Refusal, LONGEST_FORM};
use generate::Call;

/// A call of the library. The revenues of a band are low and high, distribution then transmission.
#[derive(Debug, Clone, Copy)]
pub enum LibraryCall<'a> {
    Price { book: &'a [u8], request: &'a [u8] },
    PriceBand { book: &'a [u8], request: &'a [u8], revenues: [u64; 4] },
    SlipText { book: &'a [u8], request: &'a [u8] },
    Page { book: &'a [u8], request: &'a [u8] },
    NewLedger,
    Accept { stored: &'a [u8], table_size: usize, book: &'a [u8], request: &'a [u8] },
    PayOut { stored: &'a [u8], table_size: usize, entry: u32, amount: u64 },
    HandOver { stored: &'a [u8], table_size: usize, entry: u32, person: u32 },
    Clear { stored: &'a [u8], table_size: usize, month: u16 },
    JudgeLedger { stored: &'a [u8], table_size: usize },
    MoveToNew { file: &'a [u8] },
    MoveBack { file: &'a [u8] },
}

impl<'a> LibraryCall<'a> {
    /// The call on a stored ledger and a table of this length.
    pub fn on(stored: &'a [u8], table_size: usize, call: &'a Call) -> LibraryCall<'a> {
        match *call {
            Call::Accept { ref book, ref request } => LibraryCall::Accept { stored, table_size, book, request },
            Call::PayOut { entry, amount } => LibraryCall::PayOut { stored, table_size, entry, amount },
            Call::HandOver { entry, person } => LibraryCall::HandOver { stored, table_size, entry, person },
            Call::Clear { month } => LibraryCall::Clear { stored, table_size, month },
        }
    }

    /// Makes the call of the library; a slip's text and a page are written to `out`.
    pub fn run(&self, buffers: &mut Buffers) -> u64 {
        let Buffers { out, figures, answer } = buffers;
        match *self {
            LibraryCall::Price { book, request } => raw::price(book, request, figures),
            LibraryCall::PriceBand { book, request, revenues } => raw::price_band(book, request, revenues, figures),
            LibraryCall::SlipText { book, request } => raw::slip_text(book, request, out, answer),
            LibraryCall::Page { book, request } => match fikrem::page_into(book, request, out) {
                Ok(()) => raw::DONE,
                Err(Refusal { reason, file, place }) => refused(reason.number(), file, false, place),
            },
            LibraryCall::NewLedger => raw::new_ledger(out, answer),
            LibraryCall::Accept { stored, table_size, book, request } => {
                raw::accept(stored, table_size, book, request, out, figures, answer)
            }
            LibraryCall::PayOut { stored, table_size, entry, amount } => {
                raw::pay_out(stored, table_size, entry, amount, out, answer)
            }
            LibraryCall::HandOver { stored, table_size, entry, person } => {
                raw::hand_over(stored, table_size, entry, person, out, answer)
            }
            LibraryCall::Clear { stored, table_size, month } => raw::clear(stored, table_size, month, out, answer),
            LibraryCall::JudgeLedger { stored, table_size } => raw::judge_ledger(stored, table_size, answer),
            LibraryCall::MoveToNew { file } => raw::move_to_new(file, out, answer),
            LibraryCall::MoveBack { file } => raw::move_back(file, out, answer),
        }
    }

    pub fn name(&self) -> &'static str {
        match self {
            LibraryCall::Price { .. } => "price",
            LibraryCall::PriceBand { .. } => "price band",
            LibraryCall::SlipText { .. } => "slip text",
            LibraryCall::Page { .. } => "page",
            LibraryCall::NewLedger => "new ledger",
            LibraryCall::Accept { .. } => "accept",
            LibraryCall::PayOut { .. } => "pay-out",
            LibraryCall::HandOver { .. } => "hand-over",
            LibraryCall::Clear { .. } => "clear",
            LibraryCall::JudgeLedger { .. } => "judge ledger",
            LibraryCall::MoveToNew { .. } => "move to new",
            LibraryCall::MoveBack { .. } => "move back",
        }
    }
}

/// A refusal as the library's result: number + 32 × file + 128 × whether it is of the stored ledger + 256 × place.
pub fn refused(number: u8, file: u8, stored: bool, place: usize) -> u64 {
    u64::from(number) + 32 * u64::from(file) + 128 * u64::from(stored) + 256 * place as u64
}

/// The buffers that a call writes. They start with marks, so that whatever a call must leave alone shows.
#[derive(Debug, Clone, PartialEq, Eq)]
pub struct Buffers {
    pub out: Vec<u8>,
    pub figures: Vec<i64>,
    pub answer: Vec<u64>,
}

impl Buffers {
    /// Buffers of these lengths, marked.
    pub fn of(out: usize, figures: usize, answer: usize) -> Buffers {
        Buffers { out: vec![0xEE; out], figures: vec![-77; figures], answer: vec![u64::MAX - 5; answer] }
    }

    /// Buffers with room for every call's results and a little more.
    pub fn roomy() -> Buffers {
        Buffers::of(LONGEST_FORM + 3, FIGURES + 2, ANSWER + 2)
    }

    /// The bytes written.
    pub fn written(&self) -> &[u8] {
        &self.out[..self.answer[raw::WRITTEN] as usize]
    }

    /// The first difference from other buffers.
    pub fn difference(&self, other: &Buffers) -> Option<String> {
        fn first<T: PartialEq + std::fmt::Debug>(name: &str, a: &[T], b: &[T]) -> Option<String> {
            let place = a.iter().zip(b).position(|(a, b)| a != b)?;
            Some(format!("{name}[{place}] is {:?}, wanted {:?}", a[place], b[place]))
        }
        first("answer", &self.answer, &other.answer)
            .or_else(|| first("figures", &self.figures, &other.figures))
            .or_else(|| first("out", &self.out, &other.out))
    }
}
