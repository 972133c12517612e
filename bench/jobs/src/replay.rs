//! Scripts that the program `ringrun` runs, from bytes in memory to bytes in memory.

use crate::digest::Digest;
use crate::random::Random;
use crate::ringrun::serve;
use crate::script::{write_script, Numerals, Shape};

/// The shapes of scripts, in turn. Most lines that users write are of the first.
const SHAPES: [Shape; 8] = [
    Shape::Mixed,
    Shape::Mixed,
    Shape::LongNumbers,
    Shape::Mixed,
    Shape::Mixed,
    Shape::SingleItems,
    Shape::Mixed,
    Shape::BadEnd,
];

/// Serves `rounds` scripts, each on a ring of each kind, and returns a digest of the statuses and of all that was written.
pub fn run(seed: u64, rounds: u32) -> u64 {
    let mut random = Random::new(seed);
    let mut digest = Digest::new();
    let mut script = Vec::new();
    let rings = [["heap", "1000"], ["array", "10"], ["grow", "0"]].map(|words| words.map(String::from));
    let numerals = Numerals::new(&mut random);
    for round in 0..rounds {
        let shape = SHAPES[round as usize % 8];
        write_script(&mut script, &mut random, &numerals, shape);
        for words in &rings {
            serve_script(words, &script, &mut digest);
        }
    }
    digest.value()
}

/// Serves a script, and adds its status and what it wrote to the digest.
fn serve_script(words: &[String], script: &[u8], digest: &mut Digest) {
    let mut input = script;
    let mut output = Vec::new();
    let mut errors = Vec::new();
    let status = serve(words, &mut input, &mut output, &mut errors);
    digest.add(u64::from(status));
    digest.add_bytes(&output);
    digest.add_bytes(&errors);
}
