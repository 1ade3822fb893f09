//! A small seeded generator of numbers (splitmix64).

use std::ops::RangeInclusive;

/// The generator of one case: the same seed and case give the same numbers.
pub struct Random(u64);

impl Random {
    /// The generator of a case.
    pub fn new(seed: u64, case: u64) -> Self {
        let mut random = Random(seed);
        let start = random.next() ^ case.wrapping_mul(0xD1B5_4A32_D192_ED03);
        Random(start)
    }

    /// The next 64 bits.
    pub fn next(&mut self) -> u64 {
        self.0 = self.0.wrapping_add(0x9E37_79B9_7F4A_7C15);
        let z = (self.0 ^ self.0 >> 30).wrapping_mul(0xBF58_476D_1CE4_E5B9);
        let z = (z ^ z >> 27).wrapping_mul(0x94D0_49BB_1331_11EB);
        z ^ z >> 31
    }

    /// A number below `limit`, which is above 0.
    pub fn below(&mut self, limit: usize) -> usize {
        (self.next() % limit as u64) as usize
    }

    /// A number of the range.
    pub fn within(&mut self, range: RangeInclusive<usize>) -> usize {
        range.start() + self.below(range.end() - range.start() + 1)
    }

    /// True once in `n` times.
    pub fn one_in(&mut self, n: usize) -> bool {
        self.below(n) == 0
    }

    /// One of the choices.
    pub fn pick<T: Copy>(&mut self, choices: &[T]) -> T {
        choices[self.below(choices.len())]
    }

    /// Any byte.
    pub fn byte(&mut self) -> u8 {
        self.next() as u8
    }

    /// A number at or beside a limit of some field, or any number.
    pub fn edge(&mut self) -> i64 {
        if self.one_in(8) {
            return self.next() as i64 >> self.below(64);
        }
        let limit = 1_i64 << self.pick(&[0, 7, 8, 15, 16, 23, 24, 31, 32, 47, 48, 62, 63]);
        let limit = if self.one_in(2) {
            limit
        } else {
            limit.wrapping_neg()
        };
        limit.wrapping_add(self.pick(&[-2, -1, 0, 1]))
    }
}
