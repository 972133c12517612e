//! What a job found, as one number.

const FACTOR: u64 = 0x9e37_79b9_7f4a_7c15;

/// A number that hangs on all results of a job and on their order.
#[derive(Clone, Copy)]
pub struct Digest {
    state: u64,
}

impl Digest {
    /// Returns the digest of nothing.
    pub fn new() -> Digest {
        Digest { state: 0 }
    }

    /// Adds a number.
    #[inline]
    pub fn add(&mut self, number: u64) {
        self.state = mixed(self.state, number);
    }

    /// Adds a signed number.
    #[inline]
    pub fn add_signed(&mut self, number: i64) {
        self.add(number as u64);
    }

    /// Adds a number that may be missing.
    #[inline]
    pub fn add_option(&mut self, number: Option<u64>) {
        self.add(number.unwrap_or(FACTOR));
    }

    /// Adds each of these numbers.
    pub fn add_each(&mut self, numbers: &[u64]) {
        for number in numbers {
            self.add(*number);
        }
    }

    /// Adds each of these signed numbers.
    pub fn add_each_signed(&mut self, numbers: &[i64]) {
        for number in numbers {
            self.add_signed(*number);
        }
    }

    /// Adds the bits of each of these floats.
    pub fn add_floats(&mut self, numbers: &[f64]) {
        for number in numbers {
            self.add(number.to_bits());
        }
    }

    /// Adds samples of 16 bits, four at a time.
    pub fn add_samples(&mut self, samples: &[i16]) {
        self.add(samples.len() as u64);
        let (fours, rest) = samples.as_chunks::<4>();
        for four in fours {
            let [a, b, c, d] = four.map(|sample| u64::from(sample as u16));
            self.add(a | b << 16 | c << 32 | d << 48);
        }
        for sample in rest {
            self.add(u64::from(*sample as u16));
        }
    }

    /// Adds bytes, eight at a time.
    pub fn add_bytes(&mut self, bytes: &[u8]) {
        let mut state = mixed(self.state, bytes.len() as u64);
        let (words, rest) = bytes.as_chunks::<8>();
        for word in words {
            state = mixed(state, u64::from_le_bytes(*word));
        }
        for byte in rest {
            state = mixed(state, u64::from(*byte));
        }
        self.state = state;
    }

    /// Returns the number.
    pub fn value(&self) -> u64 {
        self.state
    }
}

#[inline]
fn mixed(state: u64, number: u64) -> u64 {
    (state ^ number).rotate_left(23).wrapping_mul(FACTOR)
}
