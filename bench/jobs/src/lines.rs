//! A text that comes in small pieces, is read line by line, and whose last bytes are kept.

use crate::bytes::{LastBytes, Pipe};
use crate::digest::Digest;
use crate::random::Random;
use std::io::{BufRead, Result, Write};

/// How many bytes wait, and how many are kept.
const ROOM: usize = 1000;

/// How many words of eight bytes a round's text has.
const WORDS: u32 = 8192;

/// Sends `rounds` texts through a ring, and returns a digest of the lines and of what was kept.
pub fn run(seed: u64, rounds: u32) -> u64 {
    let mut random = Random::new(seed);
    let mut digest = Digest::new();
    let mut lines = Pipe::new(ROOM);
    let mut last = LastBytes::new(ROOM);
    let mut text = Vec::with_capacity(16 * WORDS as usize);
    let mut line = String::new();
    for _ in 0..rounds {
        write_text(&mut text, &mut random);
        relay(&mut lines, &mut last, &text, &mut line, &mut random, &mut digest).unwrap();
        for byte in last.bytes() {
            digest.add(u64::from(*byte));
        }
    }
    digest.value()
}

/// Writes a new text in place of the old one: lines of up to 200 bytes.
fn write_text(text: &mut Vec<u8>, random: &mut Random) {
    text.clear();
    let mut words = 0;
    for _ in 0..WORDS {
        let letters = random.number() & 0x1f1f_1f1f_1f1f_1f1f | 0x4040_4040_4040_4040;
        text.extend_from_slice(&letters.to_le_bytes());
        if words == 0 {
            words = random.below(25);
            text.push(b'\n');
        } else {
            words -= 1;
        }
    }
    text.push(b'\n');
}

/// Writes a text in pieces of 1 to 64 bytes to a ring and a log, and reads each line from the ring once it is whole.
fn relay(
    ring: &mut Pipe,
    last: &mut LastBytes,
    text: &[u8],
    line: &mut String,
    random: &mut Random,
    digest: &mut Digest,
) -> Result<()> {
    let mut rest = text;
    while !rest.is_empty() {
        let piece = rest.len().min(1 + random.below(64));
        let (now, later) = rest.split_at(piece);
        digest.add(ring.write(now)? as u64);
        last.write_all(now)?;
        rest = later;
        for byte in now {
            if *byte == b'\n' {
                line.clear();
                digest.add(ring.read_line(line)? as u64);
                digest.add_bytes(line.as_bytes());
            }
        }
    }
    Ok(())
}
