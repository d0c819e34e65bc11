//! A small generator of numbers (splitmix64): the same seed gives the same lists everywhere.

pub struct Rng(u64);

impl Rng {
    /// The numbers for one case: each case of a class stands by itself.
    pub fn for_case(seed: u64, index: u64) -> Rng {
        let mut seeded = Rng(seed);
        let start = seeded.number() ^ index.wrapping_mul(0xD134_2543_DE82_EF95);
        Rng(start)
    }

    pub fn number(&mut self) -> u64 {
        self.0 = self.0.wrapping_add(0x9E37_79B9_7F4A_7C15);
        let mut z = self.0;
        z = (z ^ (z >> 30)).wrapping_mul(0xBF58_476D_1CE4_E5B9);
        z = (z ^ (z >> 27)).wrapping_mul(0x94D0_49BB_1331_11EB);
        z ^ (z >> 31)
    }

    /// Any 32-bit number.
    pub fn word(&mut self) -> u32 {
        (self.number() >> 32) as u32
    }

    pub fn byte(&mut self) -> u8 {
        self.word().to_le_bytes()[3]
    }

    /// A number under `limit`, which is not 0.
    pub fn below(&mut self, limit: usize) -> usize {
        (self.number() % limit as u64) as usize
    }

    pub fn one_in(&mut self, limit: usize) -> bool {
        self.below(limit) == 0
    }

    pub fn pick<T: Copy>(&mut self, choices: &[T]) -> T {
        choices[self.below(choices.len())]
    }
}
