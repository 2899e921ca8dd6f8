//! Document 02, E14: the same joiners of a scheme with fee 0 and minimum 0 in two orders. Each list goes through the library
//! and the reference implementation, with calls of other schemes, pay-outs, hand-overs, clearings, refused calls and months of
//! its own in between; the two ledgers that the library leaves are held against 3 cents for each joining. FIKREM_CASES
//! multiplies the number of cases.

use accounts::{Accounts, Part};
use differential::wanted::table;
use differential::{Buffers, LibraryCall, Tally};
use fikrem::{raw, LONGEST_TABLE};
use generate::{Book, Call, Random, Request};
use reference::{read_ledger, Ledger, Party};
use std::collections::BTreeMap;

/// A joiner, or a scheme's first party.
#[derive(Debug, Clone, Copy, PartialEq, Eq)]
struct Joiner {
    person: u32,
    capacity: u32,
}

/// The fee of a scheme, which is its minimum too, and its term in months.
#[derive(Debug, Clone, Copy)]
struct Terms {
    fee: u32,
    term: u16,
}

/// The first scheme, which others join in between.
const OTHER: Terms = Terms { fee: 5, term: 600 };
/// A scheme that ends, and may be cleared, while the joiners come.
const ENDING: Terms = Terms { fee: 5, term: 84 };
/// The scheme whose joiners change places; the joinings stay within its term.
const SHARED: Terms = Terms { fee: 0, term: 120 };

/// A list of calls in the making: what the library keeps, and the accounts of the calls.
struct Making {
    stored: Vec<u8>,
    accounts: Accounts,
    month: u16,
    /// The schemes opened, the last of which is the one whose joiners change places.
    schemes: u16,
}

impl Making {
    /// Of a new ledger.
    fn new(tally: &mut Tally, month: u16) -> Making {
        let stored = tally.compare(&LibraryCall::NewLedger).1.written().to_vec();
        Making { stored, accounts: Accounts::default(), month, schemes: 0 }
    }

    /// Makes a call; what the library wrote, unless it is refused.
    fn call(&mut self, tally: &mut Tally, call: &Call) -> Option<Buffers> {
        let wanted = self.accounts.call(call, LONGEST_TABLE);
        let (result, seen) = tally.compare(&LibraryCall::on(&self.stored, LONGEST_TABLE, call));
        assert_eq!(result == raw::DONE, wanted.is_ok());
        if result != raw::DONE {
            return None;
        }
        self.stored = seen.written().to_vec();
        Some(seen)
    }

    /// Opens a scheme of cost `x` by these terms.
    fn open(&mut self, tally: &mut Tally, x: u32, first: Joiner, terms: Terms) {
        let Joiner { person, capacity } = first;
        let request = Request { person, capacity, month: self.month, ..Request::extension(x) };
        let call = Call::Accept { book: book(terms), request: request.encode() };
        let seen = self.call(tally, &call).expect("an opening is accepted");
        self.schemes += 1;
        assert_eq!(seen.answer[raw::OPENED_SCHEME], self.schemes.into());
    }

    /// Joins a scheme, which is answered "joined".
    fn join(&mut self, tally: &mut Tally, scheme: u16, joiner: Joiner) {
        let Joiner { person, capacity } = joiner;
        let request = Request { person, capacity, scheme, month: self.month, ..Request::of_nothing() };
        let call = Call::Accept { book: book(SHARED), request: request.encode() };
        let seen = self.call(tally, &call).expect("a joining is accepted");
        assert_eq!(seen.answer[raw::JOINING], raw::JOINED);
    }

    /// The ledger and the entries that the library keeps.
    fn kept(&self) -> (Ledger, Vec<Party>) {
        let (mut ledger, mut parties) = (Ledger::new(), table(LONGEST_TABLE));
        read_ledger(&mut ledger, &mut parties, &self.stored).expect("the library's stored ledger can be read");
        parties.truncate(ledger.entries as usize);
        (ledger, parties)
    }

    /// Some calls that are no joining of the scheme whose joiners change places.
    fn others(&mut self, tally: &mut Tally, random: &mut Random) {
        for _ in 0..random.within(0, 3) {
            self.other(tally, random);
        }
        self.month += random.within(0, 1) as u16;
    }

    fn other(&mut self, tally: &mut Tally, random: &mut Random) {
        let (_, parties) = self.kept();
        let party = parties[random.index(parties.len())];
        let entry = party.number;
        let joiner = any_joiner(random);
        match random.within(0, 7) {
            0 => {
                // none, all or a cent too many of the standing credit
                let standing = party.credited - party.paid_out;
                let amount = random.choose(&[0, standing / 2, standing, standing + 1]);
                let done = self.call(tally, &Call::PayOut { entry, amount }).is_some();
                assert_eq!(done, amount <= standing);
            }
            1 => {
                let hand_over = Call::HandOver { entry, person: joiner.person };
                self.call(tally, &hand_over).expect("a hand-over of an entry is done");
            }
            2 => {
                // a joining a month before the last accepted one
                let request = Request { month: self.month.min(self.last_month()) - 1, ..Request::of_nothing() };
                assert!(self.call(tally, &Call::Accept { book: book(SHARED), request: request.encode() }).is_none());
            }
            3 => {
                // a plain connection
                let request = Request { month: self.month, ..Request::of_nothing() };
                self.call(tally, &Call::Accept { book: book(OTHER), request: request.encode() })
                    .expect("it is accepted");
            }
            4 | 5 => {
                // the scheme that ends goes once it has
                self.call(tally, &Call::Clear { month: self.month }).expect("a clearing in this month is done");
            }
            _ => self.join(tally, 1, joiner),
        }
    }

    /// The last accepted month.
    fn last_month(&self) -> u16 {
        self.kept().0.month
    }

    /// Each party of a scheme in order of joining, as the library's ledger and table show it; the accounts say the same.
    fn parts(&self, scheme: u16) -> Vec<Part> {
        let (ledger, parties) = self.kept();
        self.accounts.check_ledger(&ledger, &parties);
        self.accounts.check_demand();
        let parts: Vec<Part> = parties
            .iter()
            .filter(|party| party.scheme == scheme)
            .map(|party| Part {
                capacity: party.capacity.into(),
                figure: i128::from(party.put_in) - i128::from(party.credited),
            })
            .collect();
        assert_eq!(parts, self.accounts.parts(scheme));
        parts
    }
}

/// A book of threshold 0 and these terms.
fn book(terms: Terms) -> Vec<u8> {
    let Terms { fee, term } = terms;
    Book { threshold: 0, fee, minimum: fee, term, credit_share: 0, ..Book::slip() }.encode()
}

/// A joiner of few kVA, of many, or of any.
fn any_joiner(random: &mut Random) -> Joiner {
    let most = random.choose(&[3, 100, 1_000_000]);
    Joiner { person: random.next_u64() as u32, capacity: random.within(1, most) as u32 }
}

/// A scheme's cost and parties, the first one and the joiners.
#[derive(Debug)]
struct Scheme {
    x: u32,
    first: Joiner,
    joiners: Vec<Joiner>,
}

impl Scheme {
    fn random(random: &mut Random) -> Scheme {
        let most = random.choose(&[100, 100_000, 1_000_000_000]);
        let x = random.within(1, most) as u32;
        let first = any_joiner(random);
        let count = random.within(1, 12);
        Scheme { x, first, joiners: (0..count).map(|_| any_joiner(random)).collect() }
    }

    /// The calls by which the joiners come in this order, with others in between.
    fn joined(&self, tally: &mut Tally, random: &mut Random, order: &[Joiner]) -> Making {
        let mut making = Making::new(tally, 24_315);
        making.open(tally, 1_000_000_000, any_joiner(random), OTHER);
        making.open(tally, 1_000_000, any_joiner(random), ENDING);
        making.month += ENDING.term - 4;
        making.open(tally, self.x, self.first, SHARED);
        let scheme = making.schemes;
        for joiner in order {
            making.others(tally, random);
            making.join(tally, scheme, *joiner);
        }
        making.others(tally, random);
        making
    }

    /// The figures of its parties after the joiners came in this order.
    fn parts(&self, making: &Making, order: &[Joiner]) -> Vec<Part> {
        let parts = making.parts(making.schemes);
        let wanted = std::iter::once(&self.first).chain(order).map(|joiner| joiner.capacity.into());
        assert!(parts.iter().map(|part| part.capacity).eq(wanted), "a party is missing");
        parts
    }

    /// The two orders of its joiners, compared.
    fn compare(&self, tally: &mut Tally, random: &mut Random, orders: [&[Joiner]; 2]) -> Compared {
        let lists = orders.map(|order| self.joined(tally, random, order));
        let [one, other] = [0, 1].map(|list| self.parts(&lists[list], orders[list]));
        let pairs = one.iter().flat_map(|one| other.iter().map(move |other| (one, other)));
        let distances = pairs.filter(|(one, other)| one.capacity == other.capacity);
        let largest = distances.map(|(one, other)| (one.figure - other.figure).abs()).max();
        let distance = largest.expect("the first party is in both");
        Compared { distance, cleared: lists.iter().any(|list| list.accounts.any_cleared()) }
    }
}

/// The largest distance between two parties of the same kVA, one of each order, in cents; and whether a scheme was cleared
/// in between.
struct Compared {
    distance: i128,
    cleared: bool,
}

/// The same joiners in an order of their own.
fn shuffled(random: &mut Random, joiners: &[Joiner]) -> Vec<Joiner> {
    let mut order = joiners.to_vec();
    for last in (1..order.len()).rev() {
        order.swap(last, random.index(last + 1));
    }
    order
}

/// Joiners of these kVA, each a person of its own.
fn of_capacities(capacities: &[u32]) -> Vec<Joiner> {
    (1..).zip(capacities).map(|(person, &capacity)| Joiner { person, capacity }).collect()
}

/// X, the first party's kVA, two orders of the joiners' and the largest distance between them.
type Known = (u32, u32, &'static [u32], &'static [u32], i128);

/// Orders whose distance is known; that of the third pair is more than 2 cents for each joining.
const KNOWN: [Known; 3] = [
    (3, 3, &[1, 6], &[6, 1], 2),
    (56, 18, &[66, 1, 1], &[1, 1, 66], 4),
    (
        953_383_014,
        2,
        &[430_225, 1, 1, 1, 1, 3, 2, 728_442, 754_689, 131_637],
        &[728_442, 430_225, 131_637, 754_689, 3, 1, 1, 1, 1, 2],
        21,
    ),
];

fn main() {
    assert_eq!(fikrem::linked(), Ok(()));
    let times: u64 = std::env::var("FIKREM_CASES").map_or(1, |times| times.parse().expect("FIKREM_CASES is a number"));
    let mut tally = Tally::default();
    tally.section("orders whose distance is known", |tally| {
        for (x, first, one, other, wanted) in KNOWN {
            let joiners = of_capacities(one);
            let scheme = Scheme { x, first: Joiner { person: 0, capacity: first }, joiners };
            let orders = [&scheme.joiners[..], &of_capacities(other)];
            assert_eq!(scheme.compare(tally, &mut Random::new(6_000), orders).distance, wanted, "{scheme:?}");
        }
    });
    tally.section("two orders of the same joiners", |tally| {
        // by the number of joinings
        let mut largest = BTreeMap::new();
        let mut cleared_between = 0;
        for seed in 0..1_000 * times {
            let mut random = Random::new(6_100 + seed);
            let scheme = Scheme::random(&mut random);
            let other = shuffled(&mut random, &scheme.joiners);
            let Compared { distance, cleared } = scheme.compare(tally, &mut random, [&scheme.joiners, &other]);
            let joinings = scheme.joiners.len();
            assert!(distance <= 3 * joinings as i128, "{distance} cents apart: {scheme:?}, {other:?}");
            cleared_between += u64::from(cleared);
            let most = largest.entry(joinings).or_insert(0);
            *most = distance.max(*most);
        }
        for (joinings, cents) in &largest {
            println!("  joinings {joinings}: at most {cents} cents apart, of {}", 3 * joinings);
        }
        println!("  with a scheme cleared in between: {cleared_between}");
        assert!(cleared_between > 0, "no scheme was cleared in between");
        assert!(largest.values().any(|&cents| cents > 0), "no two orders differ");
    });
}
