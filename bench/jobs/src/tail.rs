//! The last lines of a log, with snapshots, comparisons and searches now and then.

use crate::digest::Digest;
use crate::fold_hasher::FoldHasher;
use crate::overwriting::Overwriting;
use crate::random::Random;
use ringbuffer::{AllocRingBuffer, RingBuffer};
use std::fmt::Write;
use std::hash::{Hash, Hasher};

/// How many different lines a round has.
const LINES: u32 = 256;

/// How many lines a round pushes.
const PUSHES: u32 = 4000;

/// Lines of up to 400 bytes. Half of them share a long beginning.
struct Lines {
    lines: Vec<String>,
}

impl Lines {
    /// Makes new lines.
    fn new(random: &mut Random) -> Lines {
        let mut lines = Vec::with_capacity(LINES as usize);
        let mut shared = String::new();
        append(&mut shared, random, 25);
        for number in 0..LINES {
            let mut line = String::new();
            if number % 2 == 0 {
                line.push_str(&shared);
            }
            let most = if number % 2 == 0 { 25 } else { 50 };
            let words = random.below(most);
            append(&mut line, random, words);
            lines.push(line);
        }
        Lines { lines }
    }

    /// Returns a random line.
    fn line(&self, random: &mut Random) -> String {
        self.lines[random.below(LINES)].clone()
    }
}

/// Appends so many words of eight bytes.
fn append(line: &mut String, random: &mut Random, words: usize) {
    for _ in 0..words {
        let word = random.number() >> 36;
        write!(line, "{word:07x} ").unwrap();
    }
}

/// Feeds `rounds` times some thousand lines to three logs, looks at them now and then, and returns a digest of what was
/// seen.
pub fn run(seed: u64, rounds: u32) -> u64 {
    let mut random = Random::new(seed);
    let mut digest = Digest::new();
    let mut tail = AllocRingBuffer::new(20000);
    let mut log = AllocRingBuffer::new(5000);
    let mut last = AllocRingBuffer::new(5000);
    let mut recent = AllocRingBuffer::new(1000);
    let mut kept = AllocRingBuffer::new(1000);
    for _ in 0..rounds {
        let lines = Lines::new(&mut random);
        for _ in 0..PUSHES {
            tail.push(lines.line(&mut random));
        }
        digest_lengths(&tail, &mut digest);
        for number in 0..PUSHES {
            let old = log.push_over(lines.line(&mut random));
            digest_push(old, number % 4 == 0, &mut digest);
        }
        last = look(&log, &last, &lines, &mut random, &mut digest);
        for number in 0..100 {
            digest_push(recent.push_over(lines.line(&mut random)), true, &mut digest);
            if number % 10 == 0 {
                compare(&recent, &kept, &mut digest);
                keep(&recent, &mut kept);
                compare(&recent, &kept, &mut digest);
            }
        }
        drain_some(&mut recent, &mut digest);
    }
    digest.value()
}

/// Adds how many bytes each line of a log has to the digest.
#[inline(never)]
fn digest_lengths(tail: &AllocRingBuffer<String>, digest: &mut Digest) {
    for line in tail.iter() {
        digest.add(line.len() as u64);
    }
}

/// Adds the line that gave way for another to the digest, if one did: all its bytes, or only how many they are.
#[inline]
fn digest_push(old: Option<String>, is_whole: bool, digest: &mut Digest) {
    match old {
        Some(old) if is_whole => digest.add_bytes(old.as_bytes()),
        Some(old) => digest.add(old.len() as u64),
        None => {}
    }
}

/// Reads the newest lines, searches for lines, compares with the last snapshot, and returns a new one.
#[inline(never)]
fn look(
    log: &AllocRingBuffer<String>,
    last: &AllocRingBuffer<String>,
    lines: &Lines,
    random: &mut Random,
    digest: &mut Digest,
) -> AllocRingBuffer<String> {
    for at in log.len().saturating_sub(50)..log.len() {
        digest.add_bytes(log[at].as_bytes());
    }
    for _ in 0..8 {
        let mut line = lines.line(random);
        digest.add(u64::from(log.contains(&line)));
        line.push('!');
        digest.add(u64::from(log.contains(&line)));
    }
    compare(log, last, digest);
    let snapshot = log.clone();
    compare(log, &snapshot, digest);
    digest.add(hash_of(log));
    let copies = log.to_vec();
    digest.add(copies.len() as u64);
    for line in &copies {
        digest.add_bytes(line.as_bytes());
    }
    snapshot
}

/// Hashes the number of lines, and each line. The crate's rings have no hash.
fn hash_of(log: &AllocRingBuffer<String>) -> u64 {
    let mut hasher = FoldHasher::default();
    hasher.write_usize(log.len());
    for line in log.iter() {
        line.hash(&mut hasher);
    }
    hasher.finish()
}

/// Makes a snapshot in the memory of another, which is as large.
fn keep(log: &AllocRingBuffer<String>, kept: &mut AllocRingBuffer<String>) {
    kept.clear();
    kept.extend(log.iter().cloned());
}

/// Adds how two logs compare to the digest. The crate's rings have no order, but their walks do.
#[inline(never)]
fn compare(log: &AllocRingBuffer<String>, other: &AllocRingBuffer<String>, digest: &mut Digest) {
    digest.add(u64::from(log == other));
    let order = log.iter().cmp(other.iter());
    digest.add(u64::from(order.is_lt()));
    digest.add(u64::from(order.is_gt()));
}

/// Keeps the newest lines, and takes half of them out.
#[inline(never)]
fn drain_some(log: &mut AllocRingBuffer<String>, digest: &mut Digest) {
    for _ in 500..log.len() {
        log.skip();
    }
    let count = log.len() / 2;
    for line in log.drain().take(count) {
        digest.add_bytes(line.as_bytes());
    }
}
