//! Bytes on their way through rings, in pieces, and read line by line.

use crate::bytes::{LastBytes, Pipe};
use crate::digest::Digest;
use crate::random::Random;
use std::io::{BufRead, Read, Result, Write};

/// How many words of eight bytes a round's text has.
const WORDS: u32 = 8192;

/// The largest piece, in bytes.
const MOST: usize = 1 << 16;

/// Sends the bytes of `rounds` texts through pipes of each kind, and returns a digest of what came out.
pub fn run(seed: u64, rounds: u32) -> u64 {
    let mut random = Random::new(seed);
    let mut digest = Digest::new();
    let mut text = Vec::with_capacity(16 * WORDS as usize);
    let mut pipes = Pipes::new();
    let mut buffer = vec![0; MOST];
    for round in 0..rounds {
        write_text(&mut text, &mut random);
        pipes.relay(&text, &mut random, &mut buffer, &mut digest).unwrap();
        if round % 4 == 0 {
            pipes.digest_last(&mut digest);
        }
    }
    digest.value()
}

/// Writes a new text in place of the old one: lines of up to 200 bytes.
fn write_text(text: &mut Vec<u8>, random: &mut Random) {
    text.clear();
    let mut words = 0;
    for _ in 0..WORDS {
        let letters = random.number() & 0x3f3f_3f3f_3f3f_3f3f | 0x4040_4040_4040_4040;
        text.extend_from_slice(&(letters & 0x5f5f_5f5f_5f5f_5f5f).to_le_bytes());
        if words == 0 {
            words = random.below(25);
            text.push(b'\n');
        } else {
            words -= 1;
        }
    }
    text.push(b'\n');
}

/// Pipes of each kind, which keep what is on its way from one round to the next.
struct Pipes {
    pipe: Pipe,
    heap: Pipe,
    array: Pipe,
    grow: Pipe,
    lines: Pipe,
    last: LastBytes,
    last_in_array: LastBytes,
    line: String,
}

impl Pipes {
    fn new() -> Pipes {
        Pipes {
            pipe: Pipe::new(1 << 20),
            heap: Pipe::new(10000),
            array: Pipe::new(1000),
            grow: Pipe::growable(),
            lines: Pipe::new(4096),
            last: LastBytes::new(100000),
            last_in_array: LastBytes::new(1000),
            line: String::new(),
        }
    }

    /// Sends a text through all pipes.
    fn relay(&mut self, text: &[u8], random: &mut Random, buffer: &mut [u8], digest: &mut Digest) -> Result<()> {
        // Large pieces.
        for _ in 0..4 {
            stream(&mut self.pipe, text, random, buffer, 65536, digest)?;
        }
        // A piece of some KB at a time.
        stream(&mut self.heap, text, random, buffer, 4096, digest)?;
        stream(&mut self.grow, text, random, buffer, 4096, digest)?;
        stream(&mut self.array, text, random, buffer, 512, digest)?;
        // Pieces of 1 to 7 bytes.
        let (few, rest) = text.split_at(text.len() / 8);
        stream(&mut self.heap, few, random, buffer, 7, digest)?;
        stream(&mut self.grow, few, random, buffer, 7, digest)?;
        stream(&mut self.array, few, random, buffer, 7, digest)?;
        log(&mut self.last, text, random, 4096, digest)?;
        log(&mut self.last_in_array, text, random, 4096, digest)?;
        log(&mut self.last, few, random, 7, digest)?;
        read_lines(&mut self.lines, rest, &mut self.line, digest)?;
        read_blocks(&mut self.lines, rest, random, digest)
    }

    /// Adds all bytes that the logs keep to the digest.
    fn digest_last(&self, digest: &mut Digest) {
        let (first, second) = self.last.bytes().as_slices();
        digest.add_bytes(first);
        digest.add_bytes(second);
        for byte in self.last_in_array.bytes() {
            digest.add(u64::from(*byte));
        }
    }
}

/// Adds the number of bytes that came out to the digest, and all of them.
#[inline]
fn digest_piece(bytes: &[u8], digest: &mut Digest) {
    digest.add(bytes.len() as u64);
    digest.add_bytes(bytes);
}

/// Writes a text to a ring in pieces of up to `most` bytes, and reads about as many as were written.
#[inline(never)]
fn stream<R: Read + Write>(
    ring: &mut R,
    text: &[u8],
    random: &mut Random,
    buffer: &mut [u8],
    most: u32,
    digest: &mut Digest,
) -> Result<()> {
    let mut rest = text;
    while !rest.is_empty() {
        let piece = rest.len().min(1 + random.below(most));
        let (now, later) = rest.split_at(piece);
        digest.add(ring.write(now)? as u64);
        rest = later;
        let places = buffer.len().min(1 + random.below(most));
        let count = ring.read(&mut buffer[..places])?;
        digest_piece(&buffer[..count], digest);
    }
    Ok(())
}

/// Writes a text to the end of a log, in pieces of up to `most` bytes.
#[inline(never)]
fn log<W: Write>(last: &mut W, text: &[u8], random: &mut Random, most: u32, digest: &mut Digest) -> Result<()> {
    let mut rest = text;
    while !rest.is_empty() {
        let piece = rest.len().min(1 + random.below(most));
        let (now, later) = rest.split_at(piece);
        last.write_all(now)?;
        rest = later;
        digest.add(piece as u64);
    }
    Ok(())
}

/// Writes a text to a ring in pieces of 1,111 bytes, and reads some of the lines that it holds.
#[inline(never)]
fn read_lines(ring: &mut Pipe, text: &[u8], line: &mut String, digest: &mut Digest) -> Result<()> {
    for piece in text.chunks(1111) {
        digest.add(ring.write(piece)? as u64);
        for _ in 0..8 {
            line.clear();
            digest.add(ring.read_line(line)? as u64);
            digest.add_bytes(line.as_bytes());
        }
    }
    Ok(())
}

/// Writes a text to a ring in pieces, and looks at the bytes that lie side by side there before it takes them out. They lie
/// in two rows at most.
#[inline(never)]
fn read_blocks(ring: &mut Pipe, text: &[u8], random: &mut Random, digest: &mut Digest) -> Result<()> {
    for piece in text.chunks(1000) {
        digest.add(ring.write(piece)? as u64);
        for _ in 0..2 {
            let mut left = random.below(800);
            for _ in 0..2 {
                let bytes = ring.fill_buf()?;
                let count = bytes.len().min(left);
                digest.add_bytes(&bytes[..count]);
                ring.consume(count);
                left -= count;
            }
            digest.add(left as u64);
        }
    }
    Ok(())
}
