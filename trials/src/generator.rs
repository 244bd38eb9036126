//! Random numbers from a seed: the same on every run.

/// A xorshift generator.
pub struct Generator(u64);

impl Generator {
    pub fn seeded(seed: u64) -> Generator {
        // Close seeds are spread apart, and the state must not be zero.
        let mut generator =
            Generator((seed ^ 0x9e37_79b9_7f4a_7c15).wrapping_mul(0xbf58_476d_1ce4_e5b9) | 1);
        for _ in 0..8 {
            generator.word();
        }
        generator
    }

    pub fn word(&mut self) -> u64 {
        self.0 ^= self.0 << 13;
        self.0 ^= self.0 >> 7;
        self.0 ^= self.0 << 17;
        self.0.wrapping_mul(0x2545_f491_4f6c_dd1d)
    }

    pub fn below(&mut self, limit: u64) -> u64 {
        (self.word() >> 11) % limit
    }

    pub fn between(&mut self, least: u64, most: u64) -> u64 {
        least + self.below(most - least + 1)
    }

    /// True once in `many` times.
    pub fn once_in(&mut self, many: u64) -> bool {
        self.below(many) == 0
    }

    pub fn one_of<T: Copy>(&mut self, several: &[T]) -> T {
        several[self.below(several.len() as u64) as usize]
    }

    /// A number that is often near something that matters.
    pub fn wild(&mut self) -> u64 {
        match self.below(8) {
            0 => self.word(),
            1 => self.word() >> self.below(64),
            2 => (1 << 40) + self.below(5) - 2,
            3 => u64::MAX - self.below(3),
            4 => self.below(60_100),
            5 => 1 << self.below(64),
            _ => self.below(70),
        }
    }
}
