//! A small generator of numbers (SplitMix64): the same seed gives the same run everywhere.

pub struct Prng {
    state: u64,
}

impl Prng {
    pub fn new(seed: u64) -> Prng {
        Prng { state: seed }
    }

    /// Sixty-four bits.
    pub fn word(&mut self) -> u64 {
        self.state = self.state.wrapping_add(0x9E37_79B9_7F4A_7C15);
        let mut mixed = self.state;
        mixed = (mixed ^ (mixed >> 30)).wrapping_mul(0xBF58_476D_1CE4_E5B9);
        mixed = (mixed ^ (mixed >> 27)).wrapping_mul(0x94D0_49BB_1331_11EB);
        mixed ^ (mixed >> 31)
    }

    /// From 0 up to but not including the count, which is above 0.
    pub fn below(&mut self, count: usize) -> usize {
        (self.word() % count as u64) as usize
    }

    /// From the least to the most, both counted.
    pub fn between(&mut self, least: i64, most: i64) -> i64 {
        let width = (most as i128 - least as i128 + 1) as u128;
        (least as i128 + (self.word() as u128 % width) as i128) as i64
    }

    /// True once in so many times.
    pub fn once_in(&mut self, count: usize) -> bool {
        self.below(count) == 0
    }

    pub fn pick<T: Copy>(&mut self, things: &[T]) -> T {
        things[self.below(things.len())]
    }
}

/// The seed of one case of a run: neighbouring cases get unrelated numbers.
pub fn case_seed(run: u64, case: u64) -> u64 {
    Prng::new(run ^ Prng::new(case).word()).word()
}
