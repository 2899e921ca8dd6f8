//! A seeded generator: xorshift64*.

/// The state of xorshift64*; never 0.
#[derive(Debug, Clone)]
pub struct Random(u64);

impl Random {
    /// The same seed gives the same numbers.
    pub fn new(seed: u64) -> Random {
        let state = seed.wrapping_mul(0x9E37_79B9_7F4A_7C15) ^ 0xD1B5_4A32_D192_ED03;
        Random(if state == 0 { 1 } else { state })
    }

    /// The next 64 bits.
    pub fn next_u64(&mut self) -> u64 {
        self.0 ^= self.0 >> 12;
        self.0 ^= self.0 << 25;
        self.0 ^= self.0 >> 27;
        self.0.wrapping_mul(0x2545_F491_4F6C_DD1D)
    }

    /// A number from `low` to `high`, both included.
    pub fn within(&mut self, low: u64, high: u64) -> u64 {
        assert!(low <= high, "no number from {low} to {high}");
        match (high - low).checked_add(1) {
            Some(count) => low + ((u128::from(self.next_u64()) * u128::from(count)) >> 64) as u64,
            None => self.next_u64(),
        }
    }

    /// A number from `low` to `high`: the lowest, the highest, one beside them, small, or any.
    pub fn edge(&mut self, low: u64, high: u64) -> u64 {
        match self.within(0, 11) {
            0..=2 => low,
            3..=5 => high,
            6 => high.min(low.saturating_add(1)),
            7 => low.max(high.saturating_sub(1)),
            8 => self.within(low, high.min(low.saturating_add(200))),
            _ => self.within(low, high),
        }
    }

    pub fn edge_u8(&mut self, low: u8, high: u8) -> u8 {
        self.edge(low.into(), high.into()) as u8
    }

    pub fn edge_u16(&mut self, low: u16, high: u16) -> u16 {
        self.edge(low.into(), high.into()) as u16
    }

    pub fn edge_u32(&mut self, low: u32, high: u32) -> u32 {
        self.edge(low.into(), high.into()) as u32
    }

    /// True once in `times` times.
    pub fn once_in(&mut self, times: u64) -> bool {
        self.within(1, times) == 1
    }

    /// An index into something of this length, which isn't 0.
    pub fn index(&mut self, length: usize) -> usize {
        self.within(0, length as u64 - 1) as usize
    }

    /// One of the choices.
    pub fn choose<T: Copy>(&mut self, choices: &[T]) -> T {
        choices[self.index(choices.len())]
    }

    /// A list of 1 to 8 factors.
    pub fn factors(&mut self) -> Vec<u16> {
        let count = self.edge(1, 8);
        (0..count).map(|_| self.edge_u16(0, 40_000)).collect()
    }
}
