//! Numbers that look random and are the same at every run: splitmix64 from a seed.

/// Where the list's numbers start.
pub const SEED: u64 = 0x6d69_6774_6875_6d6f;

/// The generator's state.
pub struct Random(u64);

impl Random {
    /// The generator at the fixed seed.
    pub fn new() -> Random {
        Random::seeded(SEED)
    }

    /// The generator at any seed.
    pub fn seeded(seed: u64) -> Random {
        Random(seed)
    }

    /// The next 64 bits.
    pub fn bits(&mut self) -> u64 {
        self.0 = self.0.wrapping_add(0x9e37_79b9_7f4a_7c15);
        let mut z = self.0;
        z = (z ^ (z >> 30)).wrapping_mul(0xbf58_476d_1ce4_e5b9);
        z = (z ^ (z >> 27)).wrapping_mul(0x94d0_49bb_1331_11eb);
        z ^ (z >> 31)
    }

    /// A whole number below `n`.
    pub fn below(&mut self, n: u64) -> u64 {
        self.bits() % n
    }

    /// A whole number from `low` to `high`.
    pub fn between(&mut self, low: i64, high: i64) -> i64 {
        low + self.below((high - low + 1) as u64) as i64
    }

    /// One of these.
    pub fn one_of<T: Copy>(&mut self, these: &[T]) -> T {
        these[self.below(these.len() as u64) as usize]
    }
}

impl Default for Random {
    fn default() -> Random {
        Random::new()
    }
}
