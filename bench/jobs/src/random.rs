//! Numbers that look random, the same for the same seed.

/// A linear congruential generator with Knuth's constants, of which the high bits are handed out.
#[derive(Clone, Copy)]
pub struct Random {
    state: u64,
}

impl Random {
    /// Returns a generator that begins with a seed.
    pub fn new(seed: u64) -> Random {
        let mut random = Random { state: seed };
        // The first numbers of small seeds look alike.
        for _ in 0..8 {
            random.number();
        }
        random
    }

    /// Returns the next number.
    #[inline]
    pub fn number(&mut self) -> u64 {
        self.state = self.state.wrapping_mul(6364136223846793005).wrapping_add(1442695040888963407);
        self.state ^ (self.state >> 32)
    }

    /// Returns a number below `limit`.
    #[inline]
    pub fn below(&mut self, limit: u32) -> usize {
        let high = (self.number() >> 32) as u32;
        (high % limit) as usize
    }

    /// Returns whether a chance of one in `count` came true.
    #[inline]
    pub fn one_in(&mut self, count: u32) -> bool {
        self.below(count) == 0
    }
}
