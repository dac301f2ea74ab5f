//! A small random generator (xorshift), the same numbers on every machine for the same seed.
#![forbid(unsafe_code)]

#[derive(Clone)]
pub struct Random(u64);

impl Random {
    /// Seeds near each other are spread first; the state is never zero.
    pub fn new(seed: u64) -> Self {
        let mut random = Random(seed.wrapping_mul(0x9E37_79B9_7F4A_7C15) | 1);
        for _ in 0..8 {
            random.number();
        }
        random
    }

    pub fn number(&mut self) -> u64 {
        self.0 ^= self.0 >> 12;
        self.0 ^= self.0 << 25;
        self.0 ^= self.0 >> 27;
        self.0.wrapping_mul(0x2545_F491_4F6C_DD1D)
    }

    /// A number from 0 and below the bound, which is not 0.
    pub fn below(&mut self, bound: usize) -> usize {
        ((self.number() >> 33) % bound as u64) as usize
    }

    /// True in about so many of a hundred cases.
    pub fn chance(&mut self, percent: usize) -> bool {
        self.below(100) < percent
    }

    pub fn pick<'a, T>(&mut self, items: &'a [T]) -> &'a T {
        &items[self.below(items.len())]
    }

    pub fn byte(&mut self) -> u8 {
        (self.number() >> 40) as u8
    }
}
