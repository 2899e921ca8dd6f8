//! A rate book as plain values.

use crate::fields::File;
use crate::random::Random;

/// A zone: its number and its five rates.
pub type Zone = (u8, [u32; 5]);

/// The values of a rate book; any, also such as are refused.
#[derive(Debug, Clone, PartialEq, Eq)]
pub struct Book {
    pub discount_rate: u16,
    /// Pairs of selected opex and distribution revenue.
    pub pairs: [(u32, u32); 5],
    pub distribution_factors: Vec<u16>,
    pub transmission_factors: Vec<u16>,
    pub threshold: u32,
    pub fee: u32,
    pub minimum: u32,
    pub term: u16,
    pub capacity_charged: u8,
    pub credit_share: u16,
    pub zones: Vec<Zone>,
}

impl Book {
    /// Document 01, 'The slip': its book, with threshold 5,000,000, fee and minimum 20,000 and term 84.
    pub fn slip() -> Book {
        Book {
            discount_rate: 0,
            pairs: [(0, 1); 5],
            distribution_factors: vec![10_000],
            transmission_factors: vec![10_000],
            threshold: 5_000_000,
            fee: 20_000,
            minimum: 20_000,
            term: 84,
            capacity_charged: 1,
            credit_share: 6_500,
            zones: vec![(1, [0, 0, 8_500, 38_000, 10_000])],
        }
    }

    /// A book whose values are within their limits, over all limits and edges.
    pub fn random(random: &mut Random) -> Book {
        let minimum = random.edge_u32(0, 1_000_000_000);
        Book {
            discount_rate: discount_rate(random),
            pairs: pairs(random),
            distribution_factors: random.factors(),
            transmission_factors: random.factors(),
            threshold: random.edge_u32(0, 5_000_000),
            fee: random.edge_u32(0, minimum),
            minimum,
            term: random.edge_u16(84, u16::MAX),
            capacity_charged: random.edge_u8(0, 1),
            credit_share: random.edge_u16(0, 10_000),
            zones: zones(random),
        }
    }

    /// The file, with its check.
    pub fn encode(&self) -> Vec<u8> {
        let mut file = File::new().field(1).bytes(b"RATE").field(2).u16(self.discount_rate).field(3);
        for (opex, revenue) in self.pairs {
            file = file.u32s(&[opex, revenue]);
        }
        file = file.field(4).u16s(&self.distribution_factors).field(5).u16s(&self.transmission_factors);
        file = file.field(6).u32s(&[self.threshold, self.fee, self.minimum]).u16(self.term);
        file = file.field(7).u8(self.capacity_charged).u16(self.credit_share);
        for (number, rates) in &self.zones {
            file = file.field(8).u8(*number).u32s(rates);
        }
        file.close()
    }

    /// The posted rates of a zone.
    pub fn rates(&self, zone: u8) -> Option<[u32; 5]> {
        self.zones.iter().find(|(number, _)| *number == zone).map(|(_, rates)| *rates)
    }

    /// A zone number that isn't in the book.
    pub fn missing_zone(&self, random: &mut Random) -> u8 {
        loop {
            let zone = random.edge_u8(0, u8::MAX);
            if self.rates(zone).is_none() {
                return zone;
            }
        }
    }
}

/// Every other rate is one of the library's table of discount factors or beside one: 300 to 600 in steps of 25, one
/// step before and after these, and one hundredth of a percent to either side.
fn discount_rate(random: &mut Random) -> u16 {
    if random.once_in(2) {
        return random.edge_u16(0, 10_000);
    }
    let step = 275 + 25 * random.edge_u16(0, 14);
    random.choose(&[step - 1, step, step, step + 1])
}

/// Pairs whose opex sum is at most their revenue sum, which isn't 0.
fn pairs(random: &mut Random) -> [(u32, u32); 5] {
    let mut pairs = [(); 5].map(|_| (random.edge_u32(0, u32::MAX), random.edge_u32(0, u32::MAX)));
    if random.once_in(4) {
        pairs = pairs.map(|(opex, revenue)| (opex % 1_000_000, revenue % 1_000_000));
    }
    if random.once_in(8) {
        // the sums are equal
        let opex = pairs.map(|(opex, _)| opex);
        pairs = [0, 1, 2, 3, 4].map(|pair| (opex[pair], opex[(pair + 1) % 5]));
    }
    let opex: u64 = pairs.iter().map(|pair| u64::from(pair.0)).sum();
    let revenue: u64 = pairs.iter().map(|pair| u64::from(pair.1)).sum();
    if opex > revenue {
        pairs = pairs.map(|(opex, revenue)| (revenue, opex));
    }
    if opex == 0 && revenue == 0 {
        pairs[random.index(5)].1 = 1;
    }
    pairs
}

/// 1 to 8 zones, each number above the last.
fn zones(random: &mut Random) -> Vec<Zone> {
    let count = random.edge(1, 8) as usize;
    let mut numbers: Vec<u8> = Vec::new();
    while numbers.len() < count {
        let number = random.edge_u8(0, u8::MAX);
        if !numbers.contains(&number) {
            numbers.push(number);
        }
    }
    numbers.sort_unstable();
    numbers.into_iter().map(|number| (number, [(); 5].map(|_| random.edge_u32(0, 10_000_000)))).collect()
}
