//! A stream of numbers that its seed determines.

use super::decimals::number_or_packed;

/// splitmix64: the same seed gives the same stream.
pub struct Random {
    seed: u64,
}

impl Random {
    pub fn new(seed: u64) -> Random {
        Random { seed }
    }

    pub fn draw(&mut self) -> u64 {
        self.seed = self.seed.wrapping_add(0x9e37_79b9_7f4a_7c15);
        let mut mixed = self.seed;
        mixed = (mixed ^ (mixed >> 30)).wrapping_mul(0xbf58_476d_1ce4_e5b9);
        mixed = (mixed ^ (mixed >> 27)).wrapping_mul(0x94d0_49bb_1331_11eb);
        mixed ^ (mixed >> 31)
    }

    /// A number below `bound`, which is not 0.
    pub fn below(&mut self, bound: usize) -> usize {
        (self.draw() % bound as u64) as usize
    }

    /// A number from `low` to `high`, both included.
    pub fn between(&mut self, low: usize, high: usize) -> usize {
        low + self.below(high - low + 1)
    }

    /// True once in `odds` draws.
    pub fn once_in(&mut self, odds: usize) -> bool {
        self.below(odds) == 0
    }

    pub fn one_of<T: Copy, const N: usize>(&mut self, choices: [T; N]) -> T {
        choices[self.below(N)]
    }

    /// One of a list that may be empty.
    pub fn pick<T: Copy>(&mut self, choices: &[T]) -> Option<T> {
        (!choices.is_empty()).then(|| choices[self.below(choices.len())])
    }

    /// Puts the list in any order, each equally likely.
    pub fn shuffle<T>(&mut self, list: &mut [T]) {
        for last in (1..list.len()).rev() {
            list.swap(last, self.below(last + 1));
        }
    }

    /// The place of a weight, drawn in proportion to it; not all weights are 0.
    pub fn weighted(&mut self, weights: &[usize]) -> usize {
        let drawn = self.below(weights.iter().sum());
        let passed = |&end: &usize| weights[..end].iter().sum::<usize>() <= drawn;
        (1..weights.len()).filter(passed).count()
    }

    pub fn byte(&mut self) -> u8 {
        self.draw() as u8
    }

    /// A 16-bit number: small, near a limit of its width, any, or at an edge of
    /// packed decimals.
    pub fn value(&mut self) -> u16 {
        let any = self.draw() as u16;
        match self.weighted(&[8, 2, 2, 3]) {
            0 => any % 4,
            1 => 65_535 - any % 4,
            2 => any,
            _ => number_or_packed(self),
        }
    }

    /// The values a signal carries.
    pub fn values(&mut self) -> Vec<u16> {
        (0..self.few()).map(|_| self.value()).collect()
    }

    /// How many values or data a signal carries, 0..=25: mostly few, at times all.
    pub fn few(&mut self) -> usize {
        match self.weighted(&[8, 2, 1]) {
            0 => self.below(5),
            1 => self.below(26),
            _ => 25,
        }
    }
}
