//! A small generator of pseudo-random numbers: the same seed gives the same numbers everywhere.

use std::ops::RangeInclusive;

pub struct Random(u64);

impl Random {
    pub fn new(seed: u64) -> Random {
        Random(seed)
    }

    /// Any number: the state moves on by a constant, and its bits are mixed.
    pub fn any(&mut self) -> u64 {
        self.0 = self.0.wrapping_add(0x9E37_79B9_7F4A_7C15);
        let mut mixed = self.0;
        mixed = (mixed ^ mixed >> 30).wrapping_mul(0xBF58_476D_1CE4_E5B9);
        mixed = (mixed ^ mixed >> 27).wrapping_mul(0x94D0_49BB_1331_11EB);
        mixed ^ mixed >> 31
    }

    pub fn byte(&mut self) -> u8 {
        self.any() as u8
    }

    /// From 0 to one less than the limit, which is not 0.
    pub fn below(&mut self, limit: u64) -> u64 {
        self.any() % limit
    }

    pub fn within(&mut self, range: RangeInclusive<usize>) -> usize {
        range.start() + self.below((range.end() - range.start() + 1) as u64) as usize
    }

    pub fn one_in(&mut self, times: u64) -> bool {
        self.below(times) == 0
    }

    pub fn pick<T: Copy>(&mut self, items: &[T]) -> T {
        items[self.below(items.len() as u64) as usize]
    }

    /// A number up to a greatest one: often an edge, else of any count of digits.
    pub fn amount(&mut self, greatest: u64) -> u64 {
        match self.below(8) {
            0 => 0,
            1 => 1,
            2 => greatest,
            3 => greatest - self.below(100),
            4 => self.below(greatest + 1),
            _ => {
                let digits = self.below(9) as u32;
                self.below(10_u64.pow(digits + 1)).min(greatest)
            }
        }
    }
}
