//! Blocks of samples of a signal: pushed by slices, read at delays and by blocks, copied, compared.

use crate::bounded::{take_into, Bounded};
use crate::digest::Digest;
use crate::overwriting::Overwriting;
use crate::random::Random;
use ringbuffer::{AllocRingBuffer, ConstGenericRingBuffer, GrowableAllocRingBuffer, RingBuffer};

/// The largest block.
const BLOCK: usize = 512;

/// Blocks of samples of each type.
struct Blocks {
    bits16: Vec<i16>,
    bits64: Vec<i64>,
    floats: Vec<f64>,
}

impl Blocks {
    /// Makes blocks of no samples.
    fn new() -> Blocks {
        Blocks {
            bits16: Vec::with_capacity(BLOCK),
            bits64: Vec::with_capacity(BLOCK),
            floats: Vec::with_capacity(BLOCK),
        }
    }

    /// Makes new blocks of 64 to 512 samples.
    fn renew(&mut self, random: &mut Random) {
        self.bits16.clear();
        self.bits64.clear();
        self.floats.clear();
        for _ in 0..64 + random.below(449) {
            let number = random.number();
            self.bits16.push((number & 0x7fff) as i16);
            self.bits64.push(number as i64);
            self.floats.push(f64::from(number as u16) - 32768.0);
        }
    }
}

/// Sends blocks through rings of each kind `rounds` times, and returns a digest of what was read.
pub fn run(seed: u64, rounds: u32) -> u64 {
    let mut random = Random::new(seed);
    let mut digest = Digest::new();
    let mut blocks = Blocks::new();
    let mut delay = ConstGenericRingBuffer::<i16, 480>::new();
    let mut history = ConstGenericRingBuffer::<i64, 1000>::new();
    let mut kept = ConstGenericRingBuffer::<i64, 1000>::new();
    let mut signal = Bounded::new(3000);
    let mut wide = Bounded::new(48000);
    let mut queue = GrowableAllocRingBuffer::new();
    for round in 0..rounds {
        let reads_all = round % 4 == 0;
        for number in 0..16 {
            blocks.renew(&mut random);
            read_at_delays(&mut delay, &blocks.bits16, &mut random, &mut digest);
            let is_whole = reads_all && number == 15;
            filter(&mut signal, &blocks.floats, is_whole, &mut digest);
            history.extend(blocks.bits64.iter().copied());
            let is_whole = is_whole && round % 64 == 16;
            read_back(&mut wide, &blocks.bits64, is_whole, &mut digest);
            pass_on(&mut queue, &blocks.bits64, &mut random, &mut digest);
            digest_few(&blocks.bits64, &mut digest);
        }
        snapshot(&history, &mut kept, &mut digest);
        copy_out(&blocks.bits64, &mut digest);
        if reads_all {
            digest_items(&kept, &mut digest);
            history.fill(i64::from(round));
            signal.fill(f64::from(round));
            digest_items(&history, &mut digest);
            let (first, second) = signal.items.as_slices();
            digest.add_floats(first);
            digest.add_floats(second);
        }
    }
    digest.value()
}

/// Pushes a block, and reads samples at delays and a block of the oldest.
#[inline(never)]
fn read_at_delays(
    ring: &mut ConstGenericRingBuffer<i16, 480>,
    block: &[i16],
    random: &mut Random,
    digest: &mut Digest,
) {
    ring.extend(block.iter().copied());
    for _ in 0..64 {
        let delay = -1 - random.below(480) as isize;
        if let Some(sample) = ring.get_signed(delay) {
            digest.add_signed(i64::from(*sample));
        }
    }
    let mut output = [0; 256];
    for (place, sample) in output.iter_mut().zip(ring.iter()) {
        *place = *sample;
    }
    digest.add(ring.len().min(256) as u64);
    digest.add_samples(&output);
    let mut oldest = [0; 64];
    digest.add(ring.len().min(64) as u64);
    for (place, sample) in oldest.iter_mut().zip(ring.drain()) {
        *place = sample;
    }
    digest.add_samples(&oldest);
}

/// Pushes a block, one sample after the other, and adds up the newest samples. Now and then it reads all samples.
#[inline(never)]
fn filter(ring: &mut Bounded<f64>, block: &[f64], is_whole: bool, digest: &mut Digest) {
    for sample in block {
        ring.push(*sample);
    }
    let (first, second) = ring.items.as_slices();
    digest.add(first.len() as u64);
    digest.add(second.len() as u64);
    digest.add_option(first.first().map(|sample| sample.to_bits()));
    if is_whole {
        digest.add_floats(first);
        digest.add_floats(second);
    }
    let mut sum = 0.0;
    for sample in ring.items.range(ring.items.len().saturating_sub(64)..) {
        sum += *sample;
        digest.add(sample.to_bits());
    }
    digest.add(sum.to_bits());
}

/// Pushes a block, and lays the ring out in one piece. Now and then it reads all samples.
#[inline(never)]
fn read_back(ring: &mut Bounded<i64>, block: &[i64], is_whole: bool, digest: &mut Digest) {
    ring.extend(block);
    if ring.items.len() % 16 == 0 {
        let samples = ring.items.make_contiguous();
        digest.add_option(samples.first().map(|sample| *sample as u64));
        if is_whole {
            digest.add_each_signed(samples);
        }
    }
    for sample in ring.items.iter().take(256) {
        digest.add_signed(*sample);
    }
}

/// Puts a block into a queue, and takes blocks out while it holds more than some thousand samples.
#[inline(never)]
fn pass_on(queue: &mut GrowableAllocRingBuffer<i64>, block: &[i64], random: &mut Random, digest: &mut Digest) {
    queue.extend(block.iter().copied());
    queue.extend(block.iter().copied());
    let mut output = [0; BLOCK];
    for _ in 0..8 {
        if queue.len() < 8000 {
            break;
        }
        let count = take_into(queue, &mut output[..64 + random.below(449)]);
        digest.add(count as u64);
        digest.add_each_signed(&output[..count]);
    }
}

/// Makes small rings of 40 samples of a block, each nine later than the one before, pushes the next few samples onto each,
/// and adds up what they hold, each sample in other bits.
#[inline(never)]
fn digest_few(block: &[i64], digest: &mut Digest) {
    for start in (0..block.len().saturating_sub(40)).step_by(9) {
        let (first, rest) = block[start..].split_at(40);
        let mut ring = ConstGenericRingBuffer::<i64, 48>::new();
        ring.extend(first.iter().copied());
        for sample in rest.iter().take(9) {
            if let Some(old) = ring.push_over(*sample) {
                digest.add_signed(old);
            }
        }
        let mut sum = 0u64;
        for sample in &ring {
            sum = sum.rotate_left(1).wrapping_add(*sample as u64);
        }
        digest.add(sum);
    }
}

/// Clones a ring, compares it with its clone and with the last one that was kept, and keeps it.
#[inline(never)]
fn snapshot(
    ring: &ConstGenericRingBuffer<i64, 1000>,
    kept: &mut ConstGenericRingBuffer<i64, 1000>,
    digest: &mut Digest,
) {
    let mut copy = ring.clone();
    digest.add(u64::from(*ring == copy));
    digest.add(u64::from(*kept == copy));
    if let Some(sample) = copy.back_mut() {
        *sample = sample.wrapping_add(1);
    }
    digest.add(u64::from(*ring == copy));
    kept.clone_from(ring);
}

/// Adds each sample of a ring to the digest.
fn digest_items(ring: &ConstGenericRingBuffer<i64, 1000>, digest: &mut Digest) {
    for sample in ring.iter() {
        digest.add_signed(*sample);
    }
}

/// Makes rings of the samples of a block, and copies them out.
#[inline(never)]
fn copy_out(samples: &[i64], digest: &mut Digest) {
    let array = ConstGenericRingBuffer::<i64, 1000>::from(samples);
    digest.add_option(array.back().map(|sample| *sample as u64));
    digest.add_each_signed(&array.to_vec());
    if samples.is_empty() {
        return;
    }
    let heap = AllocRingBuffer::from(samples);
    digest.add_option(heap.back().map(|sample| *sample as u64));
    digest.add_each_signed(&heap.to_vec());
    digest.add(u64::from(heap.contains(&7)));
    digest.add(u64::from(array.contains(&7)));
}
