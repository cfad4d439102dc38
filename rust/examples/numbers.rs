//! Pseudorandom numbers for the examples that damage files, the same in each run (xorshift).

/// The state of the numbers.
pub struct Numbers(u64);

impl Numbers {
    /// Those of a case. Close seeds give numbers that have nothing to do with each other.
    pub fn of(seed: u64, case: u64) -> Numbers {
        let mut mixed = (seed << 32 ^ case).wrapping_add(1).wrapping_mul(0x9e37_79b9_7f4a_7c15);
        mixed = (mixed ^ mixed >> 31).wrapping_mul(0xbf58_476d_1ce4_e5b9);
        Numbers(mixed | 1)
    }

    /// Any number.
    pub fn any(&mut self) -> u64 {
        self.0 ^= self.0 << 13;
        self.0 ^= self.0 >> 7;
        self.0 ^= self.0 << 17;
        self.0
    }

    /// A number below a limit; 0 if the limit is 0.
    pub fn below(&mut self, limit: usize) -> usize {
        (self.any() % limit.max(1) as u64) as usize
    }
}
