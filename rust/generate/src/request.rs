//! A request as plain values.

use crate::book::Book;
use crate::fields::File;
use crate::random::Random;

/// The class that may have an operating loading.
pub const SPECIAL_PRICING: u8 = 2;

/// The values of a request; any, also such as are refused.
#[derive(Debug, Clone, PartialEq, Eq)]
pub struct Request {
    pub person: u32,
    /// 0 residential, 1 non-residential, 2 special pricing.
    pub class: u8,
    pub zone: u8,
    pub me: u32,
    pub ce: u32,
    pub de: u32,
    pub tw: u32,
    pub hr: u32,
    pub ol: u32,
    pub tiers: [Tier; 5],
    pub added_demands: [u32; 5],
    pub distribution_revenue: u32,
    pub transmission_revenue: u32,
    pub part_year: Vec<u16>,
    pub distribution_tariffs: Vec<u16>,
    pub transmission_tariffs: Vec<u16>,
    pub month: u16,
    pub capacity: u32,
    pub scheme: u16,
    pub mark: u8,
}

/// A tier: 0 posted, 1 extension-like, 2 bespoke.
#[derive(Debug, Clone, Copy, PartialEq, Eq)]
pub struct Tier {
    pub mode: u8,
    pub demand: u32,
    pub bespoke_rate: u32,
}

impl Request {
    /// Document 01, 'The slip': its request, by person 4,711 in April 2026 with 150 kVA.
    pub fn slip() -> Request {
        Request {
            person: 4_711,
            class: 1,
            zone: 1,
            me: 1_598_500,
            ce: 0,
            de: 0,
            tw: 0,
            hr: 0,
            ol: 0,
            tiers: [400, 400, 200, 200, 150].map(|demand| Tier { mode: 0, demand, bespoke_rate: 0 }),
            added_demands: [0; 5],
            distribution_revenue: 57_320,
            transmission_revenue: 0,
            part_year: vec![0, 10_000],
            distribution_tariffs: vec![10_000],
            transmission_tariffs: vec![10_000],
            month: 24_315,
            capacity: 15_000,
            scheme: 0,
            mark: 0,
        }
    }

    /// No amounts, demands or revenue: it costs nothing.
    pub fn of_nothing() -> Request {
        let tiers = [Tier { mode: 0, demand: 0, bespoke_rate: 0 }; 5];
        Request { me: 0, tiers, distribution_revenue: 0, ..Request::slip() }
    }

    /// A request of this extension ME and nothing else, so that its X is ME.
    pub fn extension(me: u32) -> Request {
        Request { me, ..Request::of_nothing() }
    }

    /// A request whose values are within their limits, over all limits and edges; its zone is the book's and its bespoke
    /// rates are allowed.
    pub fn random(random: &mut Random, book: &Book) -> Request {
        let (zone, posted) = random.choose(&book.zones);
        let tiers = posted.map(|rate| tier(random, rate));
        Request { zone, tiers, ..Request::loose(random) }
    }

    /// A request whose values are within their limits; the zone may be missing in a book and bespoke rates not allowed.
    pub fn loose(random: &mut Random) -> Request {
        let class = random.edge_u8(0, 2);
        let [me, ce, de, tw, hr] = [(); 5].map(|_| random.edge_u32(0, 1_000_000_000));
        let ol = random.edge_u32(0, highest_loading(class));
        Request {
            person: random.edge_u32(0, u32::MAX),
            class,
            zone: random.edge_u8(0, u8::MAX),
            me,
            ce,
            de,
            tw,
            hr,
            ol,
            tiers: [(); 5].map(|_| Tier {
                mode: random.edge_u8(0, 2),
                demand: random.edge_u32(0, 1_000_000),
                bespoke_rate: random.edge_u32(0, 10_000_000),
            }),
            added_demands: [(); 5].map(|_| random.edge_u32(0, 1_000_000)),
            distribution_revenue: random.edge_u32(0, 1_000_000_000),
            transmission_revenue: random.edge_u32(0, 1_000_000_000),
            part_year: random.factors(),
            distribution_tariffs: random.factors(),
            transmission_tariffs: random.factors(),
            month: random.edge_u16(0, u16::MAX),
            capacity: random.edge_u32(1, 1_000_000),
            scheme: random.edge_u16(0, u16::MAX),
            mark: random.edge_u8(0, 2),
        }
    }

    /// The file, with its check.
    pub fn encode(&self) -> Vec<u8> {
        let mut file = File::new().field(1).bytes(b"CONN").field(2).u32(self.person);
        file = file.field(3).u8(self.class).field(4).u8(self.zone);
        file = file.field(5).u32s(&[self.me, self.ce, self.de, self.tw, self.hr, self.ol]).field(6);
        for tier in &self.tiers {
            file = file.u8(tier.mode).u32s(&[tier.demand, tier.bespoke_rate]);
        }
        file = file.field(7).u32s(&self.added_demands);
        file = file.field(8).u32s(&[self.distribution_revenue, self.transmission_revenue]);
        file = file.field(9).u16s(&self.part_year);
        file = file.field(10).u16s(&self.distribution_tariffs).field(11).u16s(&self.transmission_tariffs);
        file.field(12).u16(self.month).u32(self.capacity).u16(self.scheme).u8(self.mark).close()
    }
}

/// The highest operating loading of a class.
pub fn highest_loading(class: u8) -> u32 {
    if class == SPECIAL_PRICING {
        1_000_000_000
    } else {
        0
    }
}

/// A tier whose bespoke rate is allowed by the posted one.
fn tier(random: &mut Random, posted: u32) -> Tier {
    let highest_below = (posted * 4).div_ceil(5);
    let lowest_above = posted * 3 / 2 + 1;
    let mode = random.edge_u8(0, if posted == 0 { 1 } else { 2 });
    let bespoke_rate = match mode {
        2 if lowest_above <= 10_000_000 && random.once_in(2) => random.edge_u32(lowest_above, 10_000_000),
        2 => random.edge_u32(0, highest_below - 1),
        _ => random.edge_u32(0, 10_000_000),
    };
    Tier { mode, demand: random.edge_u32(0, 1_000_000), bespoke_rate }
}

/// A bespoke rate that the posted one doesn't allow.
pub fn refused_bespoke_rate(random: &mut Random, posted: u32) -> u32 {
    if posted == 0 {
        return random.edge_u32(0, 10_000_000);
    }
    let (lowest, highest) = ((posted * 4).div_ceil(5), posted * 3 / 2);
    random.edge_u32(lowest, highest.min(10_000_000))
}

/// A book and a request that it prices.
pub fn pair(random: &mut Random) -> (Book, Request) {
    let book = Book::random(random);
    let request = Request::random(random, &book);
    (book, request)
}
