//! A ledger and its table, for calls that are written out.

use crate::calls::{Call, Outcome};
use crate::{Book, Request};
use reference::stored::NEW;
use reference::{write_ledger, Answer, Ledger, Party, Refusal};

/// A ledger and its table.
#[derive(Debug, Clone, PartialEq, Eq)]
pub struct Books {
    pub ledger: Ledger,
    pub parties: Vec<Party>,
}

impl Books {
    /// A new ledger on a table of zeros.
    pub fn new(table_length: usize) -> Books {
        Books { ledger: Ledger::new(), parties: vec![Party::default(); table_length] }
    }

    /// What the call comes to; refused, it has changed nothing.
    ///
    /// # Panics
    /// If it was refused and has changed something.
    pub fn run(&mut self, call: &Call) -> Result<Outcome, Refusal> {
        let before = self.clone();
        let outcome = call.run(&mut self.ledger, &mut self.parties);
        assert!(outcome.is_ok() || *self == before, "a refusal changes nothing");
        outcome
    }

    /// What accept answers.
    ///
    /// # Panics
    /// If the call is done, which is no answer of an accept.
    pub fn accept(&mut self, book: &Book, request: &Request) -> Result<Answer, Refusal> {
        match self.run(&Call::Accept { book: book.encode(), request: request.encode() })? {
            Outcome::Accepted(_, answer) => Ok(answer),
            Outcome::Done => panic!("an accept gives an answer"),
        }
    }

    pub fn pay_out(&mut self, entry: u32, amount: u64) -> Result<Outcome, Refusal> {
        self.run(&Call::PayOut { entry, amount })
    }

    pub fn clear(&mut self, month: u16) -> Result<Outcome, Refusal> {
        self.run(&Call::Clear { month })
    }

    /// The stored form of a sound ledger.
    pub fn stored(&self) -> Vec<u8> {
        stored_form(&self.ledger, &self.parties)
    }
}

/// The stored form.
///
/// # Panics
/// If the ledger isn't sound.
pub fn stored_form(ledger: &Ledger, parties: &[Party]) -> Vec<u8> {
    let mut out = vec![0; NEW.length(ledger.standing.into(), ledger.entries as usize)];
    write_ledger(ledger, parties, &mut out).expect("the ledger is sound");
    out
}
