//! Demand 3: the accounts, the bounds and the sums of a list of calls, worked out from the calls by document 01's
//! rules and document 02's E4 and E8 in 128 bits. Pricing is the reference implementation's.
//!
//! Schemes and entries are kept in the order of their numbers, those that were cleared too, so that a number is a place.

#![forbid(unsafe_code)]

use generate::calls::{Call, Outcome};
use reference::{price, Answer, Bill, Joining, Ledger, Party, Refusal, Scheme};

#[derive(Debug, Default)]
struct Entry {
    scheme: usize,
    person: u32,
    capacity: i128,
    put_in: i128,
    credited: i128,
    paid_out: i128,
}

/// A scheme that was opened.
#[derive(Debug)]
struct OpenScheme {
    cleared: bool,
    cost: i128,
    fee: i128,
    minimum: i128,
    opening: u32,
    term: u32,
    collected: i128,
    joinings: i128,
    credited: i128,
    paid_out: i128,
}

/// What the calls so far come to.
#[derive(Debug, Default)]
pub struct Accounts {
    month: u16,
    connections: u32,
    entered: i128,
    charged: i128,
    borne: i128,
    schemes: Vec<OpenScheme>,
    entries: Vec<Entry>,
    joinings_of_cleared: u64,
}

/// A party of a scheme: its kVA, and what it put in less what it was credited, in cents.
#[derive(Debug, Clone, Copy, PartialEq, Eq)]
pub struct Part {
    pub capacity: i128,
    pub figure: i128,
}

/// What a call comes to.
pub type Wanted = Result<Outcome, Refusal>;

fn refused<T>(number: u8) -> Result<T, Refusal> {
    Err(Refusal { number, file: 0, place: 0 })
}

impl Accounts {
    /// Follows a call on a table of this length, and says what it comes to.
    ///
    /// The 1,000,000 connections of refusal 10 are past any list here.
    pub fn call(&mut self, call: &Call, table_length: usize) -> Wanted {
        match call {
            Call::Accept { book, request } => self.accept(&price(book, request)?, table_length),
            Call::PayOut { entry, amount } => self.pay_out(*entry, i128::from(*amount)),
            Call::HandOver { entry, person } => {
                let entry = self.entry(*entry)?;
                entry.person = *person;
                Ok(Outcome::Done)
            }
            Call::Clear { month } => self.clear(*month),
        }
    }

    /// The number of entries that stand.
    pub fn entries(&self) -> usize {
        self.standing_entries().count()
    }

    /// Whether any scheme was cleared.
    pub fn any_cleared(&self) -> bool {
        self.schemes.iter().any(|scheme| scheme.cleared)
    }

    /// How many accepts named a scheme that was cleared.
    pub fn joinings_of_cleared(&self) -> u64 {
        self.joinings_of_cleared
    }

    /// The schemes that stand, each with its number.
    fn standing_schemes(&self) -> impl Iterator<Item = (usize, &OpenScheme)> {
        (1..).zip(&self.schemes).filter(|(_, scheme)| !scheme.cleared)
    }

    /// The entries that stand, each with its number.
    fn standing_entries(&self) -> impl Iterator<Item = (usize, &Entry)> {
        (1..).zip(&self.entries).filter(|(_, entry)| !self.schemes[entry.scheme].cleared)
    }

    fn entry(&mut self, entry: u32) -> Result<&mut Entry, Refusal> {
        match (entry as usize).checked_sub(1) {
            Some(index) if index < self.entries.len() && !self.schemes[self.entries[index].scheme].cleared => {
                Ok(&mut self.entries[index])
            }
            _ => refused(11),
        }
    }

    fn pay_out(&mut self, entry: u32, amount: i128) -> Wanted {
        let entry = self.entry(entry)?;
        if amount > entry.credited - entry.paid_out {
            return refused(12);
        }
        entry.paid_out += amount;
        let scheme = entry.scheme;
        self.schemes[scheme].paid_out += amount;
        Ok(Outcome::Done)
    }

    /// Clears every scheme "ended by that month whose entries all have standing credit 0".
    fn clear(&mut self, month: u16) -> Wanted {
        if month < self.month {
            return refused(7);
        }
        self.month = month;
        for (number, scheme) in self.schemes.iter_mut().enumerate() {
            let mut entries = self.entries.iter().filter(|entry| entry.scheme == number);
            let ended = u32::from(month) >= scheme.opening + scheme.term;
            scheme.cleared |= ended && entries.all(|entry| entry.credited == entry.paid_out);
        }
        Ok(Outcome::Done)
    }

    fn accept(&mut self, bill: &Bill, table_length: usize) -> Wanted {
        if bill.month < self.month {
            return refused(7);
        }
        if usize::from(bill.scheme) > self.schemes.len() {
            return refused(6);
        }
        let joining = if bill.scheme > 0 { Some(self.joining(bill)) } else { None };
        let opens = bill.mark == 0 && bill.x > bill.threshold;
        if opens && (self.standing_schemes().count() == 64 || self.schemes.len() == 65_535) {
            return refused(8);
        }
        let joins = matches!(joining, Some(Joining::Joined { .. }));
        if table_length.min(512) - self.entries() < usize::from(joins) + usize::from(opens) {
            return refused(9);
        }
        if let Some(Joining::Joined { collected, .. }) = joining {
            self.join(bill, collected.into());
        }
        if opens {
            self.open(bill);
        }
        let answer = Answer { joining, opened: opens.then_some(self.schemes.len() as u16) };
        let named = usize::from(bill.scheme).checked_sub(1);
        self.joinings_of_cleared += u64::from(named.is_some_and(|index| self.schemes[index].cleared));
        self.month = bill.month;
        self.connections += 1;
        self.entered += i128::from(bill.entered);
        self.charged += i128::from(bill.reconciliation.cc);
        self.borne += i128::from(bill.borne);
        Ok(Outcome::Accepted(bill.reconciliation, answer))
    }

    fn open(&mut self, bill: &Bill) {
        self.schemes.push(OpenScheme {
            cleared: false,
            cost: bill.x.into(),
            fee: bill.fee.into(),
            minimum: bill.minimum.into(),
            opening: bill.month.into(),
            term: bill.term.into(),
            collected: 0,
            joinings: 0,
            credited: 0,
            paid_out: 0,
        });
        self.add(bill, self.schemes.len() - 1, bill.x.into());
    }

    /// The capacity of a scheme's parties so far.
    fn capacity(&self, scheme: usize) -> i128 {
        self.entries.iter().filter(|entry| entry.scheme == scheme).map(|entry| entry.capacity).sum()
    }

    /// What becomes of the joining that a bill asks for.
    fn joining(&self, bill: &Bill) -> Joining {
        let number = usize::from(bill.scheme) - 1;
        let scheme = &self.schemes[number];
        if scheme.cleared || u32::from(bill.month) >= scheme.opening + scheme.term {
            return Joining::Ended;
        }
        let k = i128::from(bill.capacity);
        let collected = scheme.cost * k / (self.capacity(number) + k);
        if collected < scheme.minimum {
            return Joining::Small;
        }
        Joining::Joined { entry: self.entries.len() as u32 + 1, collected: collected as u32 }
    }

    fn join(&mut self, bill: &Bill, collected: i128) {
        let number = usize::from(bill.scheme) - 1;
        let all = self.capacity(number);
        let scheme = &mut self.schemes[number];
        let refund = collected - scheme.fee;
        scheme.collected += collected;
        scheme.joinings += 1;
        let mut without = 0;
        for entry in self.entries.iter_mut().filter(|entry| entry.scheme == number) {
            let with = without + entry.capacity;
            let credit = refund * with / all - refund * without / all;
            entry.credited += credit;
            scheme.credited += credit;
            without = with;
        }
        self.add(bill, number, collected);
    }

    fn add(&mut self, bill: &Bill, scheme: usize, put_in: i128) {
        let (person, capacity) = (bill.person, bill.capacity.into());
        self.entries.push(Entry { scheme, person, capacity, put_in, ..Entry::default() });
    }

    /// The parties of a scheme that was opened, in order of joining.
    pub fn parts(&self, scheme: u16) -> Vec<Part> {
        let parties = self.entries.iter().filter(|entry| entry.scheme + 1 == usize::from(scheme));
        parties.map(|party| Part { capacity: party.capacity, figure: party.put_in - party.credited }).collect()
    }

    /// What the schemes that were cleared collected, paid out and took in fees.
    fn cleared_sums(&self) -> [i128; 3] {
        let cleared = self.schemes.iter().filter(|scheme| scheme.cleared);
        cleared.fold([0; 3], |[collected, paid_out, fees], scheme| {
            [collected + scheme.collected, paid_out + scheme.paid_out, fees + scheme.fee * scheme.joinings]
        })
    }

    /// The accounts and bounds of demand 3 hold: of every scheme opened, and "over those sums" of the cleared ones.
    pub fn check_demand(&self) {
        let [collected, paid_out, fees] = self.cleared_sums();
        assert_eq!(collected, paid_out + fees);
        for (number, scheme) in self.schemes.iter().enumerate() {
            let fees = scheme.fee * scheme.joinings;
            let standing = scheme.credited - scheme.paid_out;
            assert_eq!(scheme.collected, scheme.paid_out + standing + fees);
            let parties: Vec<&Entry> = self.entries.iter().filter(|entry| entry.scheme == number).collect();
            let parts: i128 = parties.iter().map(|party| party.put_in - party.credited).sum();
            assert_eq!(scheme.cost + fees, parts);
            let all: i128 = parties.iter().map(|party| party.capacity).sum();
            for party in parties {
                let above = (party.put_in - party.credited) * all - scheme.cost * party.capacity;
                assert!(above >= -scheme.joinings * all, "more than 1 cent a joining below");
                assert!(
                    above <= scheme.joinings * (2 + scheme.fee) * all,
                    "more than 2 cents and the fee a joining above"
                );
            }
        }
        assert_eq!(self.entered, self.charged + self.borne);
    }

    /// "Where the ledger or table keeps such a figure, it is the same, and no other scheme or entry stands there."
    pub fn check_ledger(&self, ledger: &Ledger, parties: &[Party]) {
        assert_eq!((ledger.month, ledger.connections), (self.month, self.connections));
        assert_eq!((i128::from(ledger.charged), i128::from(ledger.borne)), (self.charged, self.borne));
        let next_numbers = [ledger.next_scheme, ledger.next_entry].map(|number| number as usize);
        assert_eq!(next_numbers, [self.schemes.len() + 1, self.entries.len() + 1]);
        let cleared = [ledger.cleared_collected, ledger.cleared_paid_out, ledger.cleared_fees].map(i128::from);
        assert_eq!(cleared, self.cleared_sums());
        let standing = self.standing_schemes().count();
        assert_eq!((usize::from(ledger.standing), ledger.entries as usize), (standing, self.entries()));
        for (kept, (number, scheme)) in ledger.schemes.iter().zip(self.standing_schemes()) {
            let figures = [kept.number, kept.cost, kept.fee, kept.minimum].map(i128::from);
            assert_eq!(figures, [number as i128, scheme.cost, scheme.fee, scheme.minimum]);
            assert_eq!((u32::from(kept.opening), u32::from(kept.term)), (scheme.opening, scheme.term));
            assert_eq!(i128::from(kept.fees), scheme.fee * scheme.joinings);
        }
        assert!(ledger.schemes[standing..].iter().all(|scheme| *scheme == Scheme::default()));
        for (kept, (number, entry)) in parties.iter().zip(self.standing_entries()) {
            assert_eq!((kept.number as usize, kept.person), (number, entry.person));
            assert_eq!(usize::from(kept.scheme), entry.scheme + 1);
            let figures: [i128; 4] =
                [kept.capacity.into(), kept.put_in.into(), kept.credited.into(), kept.paid_out.into()];
            assert_eq!(figures, [entry.capacity, entry.put_in, entry.credited, entry.paid_out]);
        }
    }
}
