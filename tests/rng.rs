//! A small deterministic generator of random numbers (splitmix64).

use std::ops::RangeInclusive;

pub struct Rng {
    state: u64,
}

impl Rng {
    pub fn new(seed: u64) -> Self {
        Rng { state: seed }
    }

    /// The seed of stream `index` under `seed`.
    pub fn stream_seed(seed: u64, index: u64) -> u64 {
        Rng::new(seed ^ index.wrapping_mul(0xD1B5_4A32_D192_ED03)).word()
    }

    pub fn word(&mut self) -> u64 {
        self.state = self.state.wrapping_add(0x9E37_79B9_7F4A_7C15);
        let mut z = self.state;
        z = (z ^ (z >> 30)).wrapping_mul(0xBF58_476D_1CE4_E5B9);
        z = (z ^ (z >> 27)).wrapping_mul(0x94D0_49BB_1331_11EB);
        z ^ (z >> 31)
    }

    /// A number below `end`, which is above 0.
    pub fn below(&mut self, end: u64) -> u64 {
        ((u128::from(self.word()) * u128::from(end)) >> 64) as u64
    }

    pub fn within(&mut self, range: RangeInclusive<u64>) -> u64 {
        let (low, high) = (*range.start(), *range.end());
        match (high - low).checked_add(1) {
            Some(span) => low + self.below(span),
            None => self.word(),
        }
    }

    /// An index into something of `length` entries, which is above 0.
    pub fn index(&mut self, length: usize) -> usize {
        self.below(length as u64) as usize
    }

    pub fn one_in(&mut self, n: u64) -> bool {
        self.below(n) == 0
    }

    pub fn pick<T: Copy>(&mut self, items: &[T]) -> T {
        items[self.index(items.len())]
    }

    pub fn bytes(&mut self, length: usize) -> Vec<u8> {
        (0..length).map(|_| self.word() as u8).collect()
    }

    /// A number from 0 to `limit`, often at an end.
    pub fn up_to(&mut self, limit: u64) -> u64 {
        match self.below(8) {
            0 => 0,
            1 => limit,
            2 => limit - limit.min(1),
            3 => self.below(256).min(limit),
            4 => self.within(0..=limit) >> self.below(u64::from(limit.max(1).ilog2()) + 1),
            _ => self.within(0..=limit),
        }
    }

    /// A number above `limit` and up to `top`, often at an end or one bit alone.
    pub fn above(&mut self, limit: u64, top: u64) -> u64 {
        match self.below(5) {
            0 => limit + 1,
            1 => top,
            2 => 1 << self.within(u64::from(limit.ilog2()) + 1..=u64::from(top.ilog2())),
            _ => self.within(limit + 1..=top),
        }
    }
}
