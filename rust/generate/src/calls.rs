//! Random lists of calls.

use crate::book::Book;
use crate::damage::damaged;
use crate::random::Random;
use crate::request::{refused_bespoke_rate, Request};
use crate::zone_numbers::{book_in_either_form, request_in_either_form};
use reference::{Answer, Ledger, Party, Reconciliation, Refusal};

/// A call on a ledger and its table.
#[derive(Debug, Clone, PartialEq, Eq)]
pub enum Call {
    Accept { book: Vec<u8>, request: Vec<u8> },
    PayOut { entry: u32, amount: u64 },
    HandOver { entry: u32, person: u32 },
    Clear { month: u16 },
}

/// What a call that isn't refused comes to.
#[derive(Debug, Clone, Copy, PartialEq, Eq)]
pub enum Outcome {
    Accepted(Reconciliation, Answer),
    Done,
}

impl Call {
    /// Makes the call on the reference implementation.
    pub fn run(&self, ledger: &mut Ledger, parties: &mut [Party]) -> Result<Outcome, Refusal> {
        match self {
            Call::Accept { book, request } => reference::accept(ledger, parties, book, request)
                .map(|(reconciliation, answer)| Outcome::Accepted(reconciliation, answer)),
            Call::PayOut { entry, amount } => {
                reference::pay_out(ledger, parties, *entry, *amount).map(|()| Outcome::Done)
            }
            Call::HandOver { entry, person } => {
                reference::hand_over(ledger, parties, *entry, *person).map(|()| Outcome::Done)
            }
            Call::Clear { month } => reference::clear(ledger, parties, *month).map(|()| Outcome::Done),
        }
    }
}

/// A list of calls in the making. The reference implementation follows it, so that pay-outs meet standing credits.
struct Maker<'a> {
    random: &'a mut Random,
    books: Vec<Book>,
    ledger: Ledger,
    parties: Vec<Party>,
}

/// A list of `count` calls for a new ledger on a table of this length: accepts by several books, pay-outs, hand-overs and
/// clearings, refused ones among them.
pub fn calls(random: &mut Random, table_length: usize, count: usize) -> Vec<Call> {
    extended(random, Vec::new(), table_length, count)
}

/// The list and `count` calls after it.
pub fn extended(random: &mut Random, mut list: Vec<Call>, table_length: usize, count: usize) -> Vec<Call> {
    let books = (0..random.within(1, 5)).map(|_| book(random)).collect();
    let (ledger, parties) = after(&list, table_length);
    let mut maker = Maker { random, books, ledger, parties };
    for _ in 0..count {
        let call = maker.call();
        let _ = call.run(&mut maker.ledger, &mut maker.parties);
        list.push(call);
    }
    list
}

/// A book whose schemes are joined: thresholds, minimums and terms are at their edges or small.
fn book(random: &mut Random) -> Book {
    let most = random.choose(&[0, 1, 20_000, 20_000, 1_000_000, 1_000_000_000]);
    let minimum = random.edge_u32(0, most);
    Book {
        threshold: random.choose(&[0, 1, 100_000, 5_000_000]),
        fee: random.edge_u32(0, minimum),
        minimum,
        term: random.choose(&[84, 84, 85, 120, u16::MAX]),
        credit_share: random.choose(&[0, 1, 5_000, 10_000]),
        ..Book::random(random)
    }
}

impl Maker<'_> {
    fn call(&mut self) -> Call {
        match self.random.within(0, 19) {
            0..=3 => self.pay_out(),
            4 | 5 => Call::HandOver { entry: self.entry(), person: self.random.edge_u32(0, u32::MAX) },
            6 => Call::Clear { month: self.clearing_month() },
            _ => self.accept(),
        }
    }

    /// The parties of the ledger.
    fn entries(&self) -> &[Party] {
        &self.parties[..self.ledger.entries as usize]
    }

    /// An entry's number, or rarely one that isn't there: it was never given, or was cleared.
    fn entry(&mut self) -> u32 {
        let next = self.ledger.next_entry;
        if self.ledger.entries == 0 || self.random.once_in(12) {
            return self.random.choose(&[0, next - 1, next, u32::MAX]);
        }
        if self.random.once_in(12) {
            return self.random.within(1, next.into()) as u32;
        }
        let index = self.random.index(self.entries().len());
        self.parties[index].number
    }

    /// A pay-out of none, some or all of the standing credit, or of a cent more; in a third of the cases all that the first
    /// entry with any has, so that schemes are cleared.
    fn pay_out(&mut self) -> Call {
        let standing = |party: &Party| party.credited - party.paid_out;
        let first = self.entries().iter().find(|party| standing(party) > 0).copied();
        if let Some(party) = first.filter(|_| self.random.once_in(3)) {
            return Call::PayOut { entry: party.number, amount: standing(&party) };
        }
        let entry = self.entry();
        let standing = self.entries().iter().find(|party| party.number == entry).map_or(0, standing);
        let amount = if self.random.once_in(8) {
            self.random.choose(&[standing + 1, u64::MAX])
        } else {
            self.random.edge(0, standing)
        };
        Call::PayOut { entry, amount }
    }

    /// The last month, one before or after it, or in half of the cases about that in which a scheme ends.
    fn clearing_month(&mut self) -> u16 {
        let Ledger { month, standing, schemes, .. } = &self.ledger;
        if *standing > 0 && self.random.once_in(2) {
            let scheme = schemes[self.random.index(usize::from(*standing).min(3))];
            let end = scheme.opening.saturating_add(scheme.term);
            return self.random.choose(&[end - 1, end, end, end.saturating_add(1)]).max(*month);
        }
        self.random.choose(&[month.saturating_sub(1), *month, *month, month.saturating_add(1)])
    }

    fn accept(&mut self) -> Call {
        let book = &self.books[self.random.index(self.books.len())];
        let mut request = Request::random(self.random, book);
        if self.random.once_in(40) {
            request.zone = book.missing_zone(self.random);
        }
        if self.random.once_in(40) {
            let tier = self.random.index(5);
            let posted = book.rates(request.zone).map_or(0, |rates| rates[tier]);
            request.tiers[tier].mode = 2;
            request.tiers[tier].bespoke_rate = refused_bespoke_rate(self.random, posted);
        }
        if self.random.once_in(40) {
            // refused but for special pricing
            request.ol = self.random.edge_u32(1, 1_000_000_000);
        }
        if self.random.once_in(2) {
            (request.distribution_revenue, request.transmission_revenue) = (0, 0);
        }
        let threshold = book.threshold;
        let mut book = book_in_either_form(self.random, book);
        self.apply_to_ledger(&mut request, threshold);
        let mut request = request_in_either_form(self.random, &request);
        if self.random.once_in(40) {
            book = damaged(self.random, &book);
        }
        if self.random.once_in(40) {
            request = damaged(self.random, &request);
        }
        Call::Accept { book, request }
    }

    /// The number of a scheme that a request joins, 0 for none: most often of one that stands, else one that was given, or
    /// the next one.
    fn scheme(&mut self) -> u16 {
        let Ledger { standing, next_scheme, schemes, .. } = &self.ledger;
        let last = u16::try_from(next_scheme - 1).unwrap_or(u16::MAX);
        let standing = &schemes[..usize::from(*standing)];
        match self.random.within(0, 19) {
            0 => last.saturating_add(1),
            1..=5 => 0,
            6 if last > 0 => self.random.within(1, last.into()) as u16,
            7..=10 => standing.last().map_or(0, |scheme| scheme.number as u16),
            _ if standing.is_empty() => 0,
            _ => standing[self.random.index(standing.len())].number as u16,
        }
    }

    /// Sets month, scheme, mark, capacity and extension so that most requests are accepted, many join, and a part of the
    /// joiners build on.
    fn apply_to_ledger(&mut self, request: &mut Request, threshold: u32) {
        request.scheme = self.scheme();
        let month = self.ledger.month;
        let random = &mut *self.random;
        request.month = match random.within(0, 149) {
            0..=2 => month.saturating_sub(1),
            3 => month.saturating_add(random.choose(&[83, 84, 85, 119, 120])),
            4..=13 => month.saturating_add(1),
            _ => month,
        };
        request.mark = random.choose(&[0, 0, 0, 0, 1, 2]);
        request.capacity = match random.within(0, 3) {
            0 => random.edge_u32(1, 1_000_000),
            1 => random.within(1, 100) as u32,
            _ => random.within(1, 50_000) as u32,
        };
        request.me = match random.within(0, 3) {
            0 => random.within(0, 100) as u32,
            1 => random.edge_u32(0, 1_000_000_000),
            _ => random.within(0, 100_000_000) as u32,
        };
        match random.within(0, 7) {
            // without revenue X is the threshold, or a cent more
            0 => (request.me, request.ce) = (threshold + random.within(0, 1) as u32, 0),
            // so that the 64 schemes aren't taken soon
            1..=5 if request.scheme > 0 => (request.me, request.ce) = (0, 0),
            _ => {}
        }
    }
}

/// The calls that open `schemes` schemes, at least one, and then join them in turn until there are `entries` entries.
/// None is refused on a table that has so many, for at most 64 schemes and 512 entries.
pub fn filling(random: &mut Random, schemes: usize, entries: usize) -> Vec<Call> {
    let book = Book { threshold: 0, fee: 5, minimum: 5, ..Book::slip() }.encode();
    (0..entries)
        .map(|entry| {
            let scheme = if entry < schemes { 0 } else { (entry % schemes + 1) as u16 };
            let capacity = random.within(1_000, 50_000) as u32;
            let person = entry as u32 + 1;
            let me = if scheme == 0 { 1_000_000_000 } else { 0 };
            let request = Request { person, capacity, scheme, ..Request::extension(me) };
            Call::Accept { book: book.clone(), request: request.encode() }
        })
        .collect()
}

/// The ledger and the table that the calls leave, made on a new ledger and a table of zeros of this length.
pub fn after(calls: &[Call], table_length: usize) -> (Ledger, Vec<Party>) {
    let mut ledger = Ledger::new();
    let mut parties = vec![Party::default(); table_length];
    for call in calls {
        let _ = call.run(&mut ledger, &mut parties);
    }
    (ledger, parties)
}
