//! The fast hasher of Rattle's standard library: it multiplies 16 bytes at a time to 128 bits, and joins the halves by xor.

use std::hash::Hasher;

const MULTIPLIER: u64 = 0x9e37_79b9_7f4a_7c15;

pub struct FoldHasher {
    state: u64,
}

impl Default for FoldHasher {
    fn default() -> FoldHasher {
        FoldHasher { state: 0x243f_6a88_85a3_08d3 }
    }
}

fn folded_multiply(a: u64, b: u64) -> u64 {
    let product = u128::from(a) * u128::from(b);
    product as u64 ^ (product >> 64) as u64
}

fn read_u32(bytes: &[u8], at: usize) -> u64 {
    u64::from(u32::from_le_bytes(bytes[at..at + 4].try_into().unwrap()))
}

fn read_u64(bytes: &[u8], at: usize) -> u64 {
    u64::from_le_bytes(bytes[at..at + 8].try_into().unwrap())
}

/// Up to 8 bytes as one number, by reads that may overlap.
fn read_short(bytes: &[u8]) -> u64 {
    match bytes.len() {
        0 => 0,
        len @ 1..4 => u64::from(bytes[0]) | u64::from(bytes[len / 2]) << 8 | u64::from(bytes[len - 1]) << 16,
        len => read_u32(bytes, 0) | read_u32(bytes, len - 4) << 32,
    }
}

impl Hasher for FoldHasher {
    fn finish(&self) -> u64 {
        self.state
    }

    fn write(&mut self, bytes: &[u8]) {
        let len = bytes.len();
        if len <= 8 {
            self.state = folded_multiply(self.state ^ read_short(bytes), MULTIPLIER ^ (2 * len as u64));
            return;
        }
        let mut state = self.state.wrapping_add(len as u64);
        let mut at = 0;
        while len - at > 16 {
            state = folded_multiply(read_u64(bytes, at) ^ state, read_u64(bytes, at + 8) ^ MULTIPLIER);
            at += 16;
        }
        let last = (read_u64(bytes, len.saturating_sub(16)), read_u64(bytes, len - 8));
        self.state = folded_multiply(last.0 ^ state, last.1 ^ MULTIPLIER);
    }
}
