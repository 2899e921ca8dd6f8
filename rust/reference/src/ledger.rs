//! The pioneer ledger: soundness, accept, pay-out, hand-over and clearing. Document 01, 'Ledger calls', and document 02,
//! E4 and E8.

use crate::pricing::{price, Bill, Reconciliation};
use crate::rate_book::{HIGHEST_MINIMUM, LOWEST_TERM};
use crate::refusal::{self, Refusal};
use crate::request::HIGHEST_CAPACITY;

/// "A ledger keeps up to 64 schemes."
pub const MOST_SCHEMES: usize = 64;
/// "one entry a party, at most 512"
pub const MOST_ENTRIES: usize = 512;
/// The most connections.
pub const MOST_CONNECTIONS: u32 = 1_000_000;
/// "put in is at most 2,000,000,000"
pub const HIGHEST_PUT_IN: u32 = 2_000_000_000;
/// "credited at most 2,000,000,000,000"
pub const HIGHEST_CREDITED: u64 = 2_000_000_000_000;
/// "each of the two sums at most 1,100,000,000,000 × connections"
pub const HIGHEST_SUM_PER_CONNECTION: u64 = 1_100_000_000_000;
/// "next scheme is at most 65,536"
pub const HIGHEST_NEXT_SCHEME: u32 = 65_536;

/// A scheme, in the stored form's widths.
#[derive(Debug, Clone, Copy, Default, PartialEq, Eq)]
pub struct Scheme {
    /// "a lasting number, given from 1 and never given again"
    pub number: u32,
    pub cost: u32,
    pub fee: u32,
    pub minimum: u32,
    /// The month of its opening.
    pub opening: u16,
    pub term: u16,
    /// The fees taken.
    pub fees: u64,
}

/// A party: an entry of the lent table, in the stored form's widths.
#[derive(Debug, Clone, Copy, Default, PartialEq, Eq)]
pub struct Party {
    /// "a lasting number, given from 1 and never given again"
    pub number: u32,
    /// "calls and an entry's scheme name that number"
    pub scheme: u16,
    pub person: u32,
    pub capacity: u32,
    pub put_in: u32,
    pub credited: u64,
    pub paid_out: u64,
}

/// A ledger, in the stored form's widths.
#[derive(Debug, Clone, PartialEq, Eq)]
pub struct Ledger {
    /// "the last accepted month"
    pub month: u16,
    pub connections: u32,
    /// The sums charged (CC) and borne.
    pub charged: u64,
    pub borne: u64,
    /// The numbers that the next scheme and the next entry get.
    pub next_scheme: u32,
    pub next_entry: u32,
    /// "running sums of what cleared schemes collected, paid out and took in fees"
    pub cleared_collected: u64,
    pub cleared_paid_out: u64,
    pub cleared_fees: u64,
    /// How many schemes stand.
    pub standing: u16,
    /// The number of entries.
    pub entries: u32,
    /// The schemes in order of opening; zeros past the last.
    pub schemes: [Scheme; MOST_SCHEMES],
}

/// What accept answers beside the reconciliation. Document 02, E4: "The answer gives both"; neither is document 01's
/// "plain".
#[derive(Debug, Clone, Copy, Default, PartialEq, Eq)]
pub struct Answer {
    /// What became of the joining; none where the request names no scheme.
    pub joining: Option<Joining>,
    /// "opened (scheme number)"
    pub opened: Option<u16>,
}

/// What became of a joining.
#[derive(Debug, Clone, Copy, PartialEq, Eq)]
pub enum Joining {
    /// "joined (entry number and G)"
    Joined {
        entry: u32,
        collected: u32,
    },
    Small,
    Ended,
}

/// What the entries of one scheme come to.
#[derive(Debug, Clone, Copy, Default)]
pub(crate) struct SchemeSums {
    entries: u64,
    capacity: u64,
    put_in: u64,
    credited: u64,
    paid_out: u64,
}

impl Ledger {
    /// "In a new ledger both next numbers are 1 and all else is zeros."
    pub const fn new() -> Ledger {
        const NO_SCHEME: Scheme = Scheme { number: 0, cost: 0, fee: 0, minimum: 0, opening: 0, term: 0, fees: 0 };
        Ledger {
            month: 0,
            connections: 0,
            charged: 0,
            borne: 0,
            next_scheme: 1,
            next_entry: 1,
            cleared_collected: 0,
            cleared_paid_out: 0,
            cleared_fees: 0,
            standing: 0,
            entries: 0,
            schemes: [NO_SCHEME; MOST_SCHEMES],
        }
    }

    /// The schemes that stand; of a ledger whose count is within its limit.
    pub(crate) fn standing_schemes(&self) -> &[Scheme] {
        &self.schemes[..usize::from(self.standing)]
    }

    /// The index of the scheme of this number, if it stands; of a ledger whose scheme numbers rise.
    fn index_of_scheme(&self, number: u16) -> Option<usize> {
        self.standing_schemes().binary_search_by_key(&number.into(), |scheme| scheme.number).ok()
    }

    /// Counts and sums within their limits, and no scheme past the last.
    fn totals_sound(&self) -> bool {
        usize::from(self.standing) <= MOST_SCHEMES
            && self.entries as usize <= MOST_ENTRIES
            && self.connections <= MOST_CONNECTIONS
            && self.charged.max(self.borne) <= HIGHEST_SUM_PER_CONNECTION * u64::from(self.connections)
            && self.schemes[usize::from(self.standing)..].iter().all(|scheme| *scheme == Scheme::default())
    }

    /// Document 02, E8: "next scheme is at most 65,536, next entry is at most 513 + 2 × connections", and the scheme
    /// numbers "rise from 1 or more and stay below the next" one; of connections within their limit.
    fn numbers_sound(&self) -> bool {
        let mut numbers = self.standing_schemes().iter().map(|scheme| scheme.number).chain([self.next_scheme]);
        self.next_scheme <= HIGHEST_NEXT_SCHEME
            && self.next_entry <= 513 + 2 * self.connections
            && numbers.try_fold(0, |last, number| (number > last).then_some(number)).is_some()
    }

    /// Document 02, E8: "cleared collected = cleared paid out + fees, at most 2,000,000,000 × (next entry − 1 −
    /// entries)"; of a next entry above 0.
    fn cleared_sound(&self) -> bool {
        let most = u64::from(HIGHEST_PUT_IN) * u64::from((self.next_entry - 1).saturating_sub(self.entries));
        self.cleared_paid_out.checked_add(self.cleared_fees) == Some(self.cleared_collected)
            && self.cleared_collected <= most
    }

    /// What each scheme's entries come to, if the ledger is sound with these parties; they are its entries.
    pub(crate) fn sums(&self, parties: impl Iterator<Item = Party>) -> Option<[SchemeSums; MOST_SCHEMES]> {
        if !self.totals_sound() || !self.numbers_sound() {
            return None;
        }
        let schemes = self.standing_schemes();
        let (mut sums, mut last) = ([SchemeSums::default(); MOST_SCHEMES], 0);
        for party in parties {
            let index = self.index_of_scheme(party.scheme)?;
            let first = sums[index].entries == 0;
            if party.number <= last || !party.sound() || (first && party.put_in != schemes[index].cost) {
                return None;
            }
            last = party.number;
            sums[index].add(&party);
        }
        let accounts_sound = schemes.iter().zip(&sums).all(|(scheme, sums)| scheme.sound(self.month, sums));
        (last < self.next_entry && self.cleared_sound() && accounts_sound).then_some(sums)
    }

    /// The sums of a ledger on its table, or 13.
    pub(crate) fn sums_on(&self, parties: &[Party]) -> Result<[SchemeSums; MOST_SCHEMES], Refusal> {
        parties
            .get(..self.entries as usize)
            .and_then(|entries| self.sums(entries.iter().copied()))
            .ok_or(Refusal::of_call(refusal::LEDGER_UNSOUND))
    }

    /// The entry of this number in the table of a sound ledger, or 11.
    fn entry_mut<'a>(&self, parties: &'a mut [Party], number: u32) -> Result<&'a mut Party, Refusal> {
        let entries = &mut parties[..self.entries as usize];
        match entries.binary_search_by_key(&number, |party| party.number) {
            Ok(index) => Ok(&mut entries[index]),
            Err(_) => Err(Refusal::of_call(refusal::NO_SUCH_ENTRY)),
        }
    }

    /// 7 where a month is before the last one.
    fn not_before_last(&self, month: u16) -> Result<(), Refusal> {
        if month < self.month {
            return Err(Refusal::of_call(refusal::MONTH_BEFORE_LAST));
        }
        Ok(())
    }
}

impl Default for Ledger {
    fn default() -> Self {
        Ledger::new()
    }
}

impl Scheme {
    /// The scheme's own limits and its accounts: "fees = fee × (entries − 1), and cost + fees = the sum of put in less
    /// credited".
    fn sound(&self, month: u16, sums: &SchemeSums) -> bool {
        self.fee <= self.minimum
            && self.minimum <= HIGHEST_MINIMUM
            && self.term >= LOWEST_TERM
            && self.opening <= month
            && sums.entries >= 1
            && self.fees == u64::from(self.fee) * (sums.entries - 1)
            && u64::from(self.cost) + self.fees + sums.credited == sums.put_in
    }

    /// Whether it is in force: it has ended from "month ≥ opening + term" on.
    fn in_force(&self, month: u16) -> bool {
        u32::from(month) < u32::from(self.opening) + u32::from(self.term)
    }
}

impl Party {
    fn sound(&self) -> bool {
        (1..=HIGHEST_CAPACITY).contains(&self.capacity)
            && self.put_in <= HIGHEST_PUT_IN
            && self.credited <= HIGHEST_CREDITED
            && self.paid_out <= self.credited
    }
}

impl SchemeSums {
    fn add(&mut self, party: &Party) {
        self.entries += 1;
        self.capacity += u64::from(party.capacity);
        self.put_in += u64::from(party.put_in);
        self.credited += party.credited;
        self.paid_out += party.paid_out;
    }
}

/// Whether a ledger is sound and its table holds its entries; any call refuses one that isn't by 13.
pub fn is_sound(ledger: &Ledger, parties: &[Party]) -> bool {
    ledger.sums_on(parties).is_ok()
}

/// Accepts a request by a book. "Accept: 13, book, request, 4, 5, 10, 7, 6, 8, 9."
pub fn accept(
    ledger: &mut Ledger,
    parties: &mut [Party],
    book: &[u8],
    request: &[u8],
) -> Result<(Reconciliation, Answer), Refusal> {
    let sums = ledger.sums_on(parties)?;
    let bill = price(book, request)?;
    let answer = answer(ledger, parties.len(), &sums, &bill)?;
    // "This comes after its joining is booked": the joiner's entry has the lower number.
    if let (Some(Joining::Joined { collected, .. }), Some(index)) =
        (answer.joining, ledger.index_of_scheme(bill.scheme))
    {
        join(ledger, parties, &bill, collected, index, sums[index].capacity);
    }
    if let Some(number) = answer.opened {
        open(ledger, parties, &bill, number);
    }
    ledger.month = bill.month;
    ledger.connections += 1;
    ledger.charged += bill.reconciliation.cc;
    ledger.borne += bill.borne;
    Ok((bill.reconciliation, answer))
}

/// The answer to a bill, or one of the refusals 10, 7, 6, 8 and 9. "8 and 9 are judged for joining and opening together,
/// before either is booked."
fn answer(
    ledger: &Ledger,
    table_length: usize,
    sums: &[SchemeSums; MOST_SCHEMES],
    bill: &Bill,
) -> Result<Answer, Refusal> {
    if ledger.connections >= MOST_CONNECTIONS {
        return Err(Refusal::of_call(refusal::NO_CONNECTION_LEFT));
    }
    ledger.not_before_last(bill.month)?;
    if u32::from(bill.scheme) >= ledger.next_scheme {
        return Err(Refusal::of_call(refusal::SCHEME_NEVER_OPENED));
    }
    let joining = (bill.scheme > 0).then(|| joining(ledger, sums, bill));
    let opens = bill.mark == 0 && bill.x > bill.threshold;
    // "The 65,536th scheme is 8": the numbers below it fit an entry's scheme.
    let number = u16::try_from(ledger.next_scheme).ok().filter(|_| usize::from(ledger.standing) < MOST_SCHEMES);
    if opens && number.is_none() {
        return Err(Refusal::of_call(refusal::NO_SCHEME_LEFT));
    }
    let joins = matches!(joining, Some(Joining::Joined { .. }));
    let entries_needed = usize::from(joins) + usize::from(opens);
    if ledger.entries as usize + entries_needed > table_length.min(MOST_ENTRIES) {
        return Err(Refusal::of_call(refusal::NO_ENTRY_LEFT));
    }
    Ok(Answer { joining, opened: number.filter(|_| opens) })
}

/// What becomes of a bill's joining. "Joining a cleared scheme gives "ended"."
fn joining(ledger: &Ledger, sums: &[SchemeSums; MOST_SCHEMES], bill: &Bill) -> Joining {
    let index = ledger.index_of_scheme(bill.scheme).filter(|&index| ledger.schemes[index].in_force(bill.month));
    let Some(index) = index else {
        return Joining::Ended;
    };
    let scheme = &ledger.schemes[index];
    let (k, capacity) = (u64::from(bill.capacity), sums[index].capacity);
    let collected = (u64::from(scheme.cost) * k / (capacity + k)) as u32;
    if collected < scheme.minimum {
        Joining::Small
    } else {
        Joining::Joined { entry: ledger.next_entry, collected }
    }
}

/// "a scheme of cost X opens with the book's fee, minimum and term, and the applicant is its first entry with X put in"
fn open(ledger: &mut Ledger, parties: &mut [Party], bill: &Bill, number: u16) {
    ledger.schemes[usize::from(ledger.standing)] = Scheme {
        number: number.into(),
        cost: bill.x,
        fee: bill.fee,
        minimum: bill.minimum,
        opening: bill.month,
        term: bill.term,
        fees: 0,
    };
    ledger.standing += 1;
    ledger.next_scheme += 1;
    add_entry(ledger, parties, bill, number, bill.x);
}

/// "G is collected and the fee taken" by the scheme of this index; the earlier entries, of capacity K in all, are
/// credited. "The joiner becomes an entry with G put in."
fn join(ledger: &mut Ledger, parties: &mut [Party], bill: &Bill, collected: u32, index: usize, capacity: u64) {
    let scheme = &mut ledger.schemes[index];
    scheme.fees += u64::from(scheme.fee);
    let refund = u64::from(collected - scheme.fee);
    credit(&mut parties[..ledger.entries as usize], bill.scheme, refund, capacity);
    add_entry(ledger, parties, bill, bill.scheme, collected);
}

/// "S the running capacity with this entry and S' without it, each is credited
/// ⌊(G − fee) × S / K⌋ − ⌊(G − fee) × S' / K⌋"; `refund` is G − fee and `capacity` K.
fn credit(entries: &mut [Party], scheme: u16, refund: u64, capacity: u64) {
    let (mut running, mut credited) = (0, 0);
    for party in entries.iter_mut().filter(|party| party.scheme == scheme) {
        running += u64::from(party.capacity);
        let credited_with = refund * running / capacity;
        party.credited += credited_with - credited;
        credited = credited_with;
    }
}

/// "Entries are added at the end", each with the next number.
fn add_entry(ledger: &mut Ledger, parties: &mut [Party], bill: &Bill, scheme: u16, put_in: u32) {
    let (number, person, capacity) = (ledger.next_entry, bill.person, bill.capacity);
    parties[ledger.entries as usize] = Party { number, scheme, person, capacity, put_in, credited: 0, paid_out: 0 };
    ledger.entries += 1;
    ledger.next_entry += 1;
}

/// "Pay-out names an entry and an amount up to its standing credit (credited − paid out); 0 is allowed." 13, 11, 12.
pub fn pay_out(ledger: &Ledger, parties: &mut [Party], entry: u32, amount: u64) -> Result<(), Refusal> {
    ledger.sums_on(parties)?;
    let party = ledger.entry_mut(parties, entry)?;
    if amount > party.credited - party.paid_out {
        return Err(Refusal::of_call(refusal::PAY_OUT_ABOVE_CREDIT));
    }
    party.paid_out += amount;
    Ok(())
}

/// "Hand-over gives an entry another person number." 13, 11.
pub fn hand_over(ledger: &Ledger, parties: &mut [Party], entry: u32, person: u32) -> Result<(), Refusal> {
    ledger.sums_on(parties)?;
    ledger.entry_mut(parties, entry)?.person = person;
    Ok(())
}

/// Document 02, E8: a clearing "removes every scheme ended by that month whose entries all have standing credit 0, and
/// those entries". 13, 7.
pub fn clear(ledger: &mut Ledger, parties: &mut [Party], month: u16) -> Result<(), Refusal> {
    let sums = ledger.sums_on(parties)?;
    ledger.not_before_last(month)?;
    ledger.month = month;
    let mut stays = [true; MOST_SCHEMES];
    for ((stays, scheme), sums) in stays.iter_mut().zip(ledger.standing_schemes()).zip(&sums) {
        // no entry is paid out more than it is credited, so that each has standing credit 0 where all together have
        *stays = scheme.in_force(month) || sums.paid_out < sums.credited;
    }
    add_to_cleared(ledger, &sums, &stays);
    let entry_stays = |party: &Party| ledger.index_of_scheme(party.scheme).is_some_and(|index| stays[index]);
    ledger.entries = close_up(&mut parties[..ledger.entries as usize], entry_stays) as u32;
    close_up_schemes(ledger, &stays);
    Ok(())
}

/// Adds what the schemes that don't stay collected, paid out and took in fees to the running sums; a first entry has
/// put in its scheme's cost, and every later one what was collected.
fn add_to_cleared(ledger: &mut Ledger, sums: &[SchemeSums; MOST_SCHEMES], stays: &[bool; MOST_SCHEMES]) {
    for ((scheme, sums), _) in ledger.schemes.iter().zip(sums).zip(stays).filter(|(_, stays)| !**stays) {
        ledger.cleared_collected += sums.put_in - u64::from(scheme.cost);
        ledger.cleared_paid_out += sums.paid_out;
        ledger.cleared_fees += scheme.fees;
    }
}

/// Closes up the schemes that stay; "places past the last scheme hold zeros".
fn close_up_schemes(ledger: &mut Ledger, stays: &[bool; MOST_SCHEMES]) {
    let schemes = &mut ledger.schemes[..usize::from(ledger.standing)];
    let mut stays = stays.iter();
    let standing = close_up(schemes, |_| stays.next() == Some(&true));
    schemes[standing..].fill(Scheme::default());
    ledger.standing = standing as u16;
}

/// "The rest close up in order": those that stay come first, what stands past them is left; how many they are.
fn close_up<T: Copy>(records: &mut [T], mut stays: impl FnMut(&T) -> bool) -> usize {
    let mut count = 0;
    for index in 0..records.len() {
        if stays(&records[index]) {
            records[count] = records[index];
            count += 1;
        }
    }
    count
}
