//! Numbers that look random and are the same on every run with the same seed.

/// A xorshift generator.
pub struct Generator(u64);

impl Generator {
    /// Each number of a seed has its own run of numbers.
    pub fn seeded(seed: u64, number: u64) -> Generator {
        // Spread close seeds apart; the state must not be zero.
        let spread = (seed ^ 0x9e37_79b9_7f4a_7c15).wrapping_mul(0xbf58_476d_1ce4_e5b9);
        let mut generator = Generator((spread ^ number).wrapping_mul(0x94d0_49bb_1331_11eb) | 1);
        for _ in 0..8 {
            generator.word();
        }
        generator
    }

    fn word(&mut self) -> u64 {
        self.0 ^= self.0 << 13;
        self.0 ^= self.0 >> 7;
        self.0 ^= self.0 << 17;
        self.0.wrapping_mul(0x2545_f491_4f6c_dd1d)
    }

    /// A number from 0 to `limit` - 1.
    pub fn below(&mut self, limit: u64) -> u64 {
        (self.word() >> 11) % limit
    }

    /// A number from `least` to `most`, both included.
    pub fn between(&mut self, least: u64, most: u64) -> u64 {
        least + self.below(most - least + 1)
    }

    /// True once in `many` times.
    pub fn once_in(&mut self, many: u64) -> bool {
        self.below(many) == 0
    }

    pub fn byte(&mut self) -> u8 {
        (self.word() >> 40) as u8
    }

    pub fn one_of<T: Copy>(&mut self, choices: &[T]) -> T {
        choices[self.below(choices.len() as u64) as usize]
    }
}
