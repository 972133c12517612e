//! A jitter buffer: frames of a telephone call come in, or are lost and made up, and go out in blocks.

use crate::digest::Digest;
use crate::random::Random;
use ringbuffer::{ConstGenericRingBuffer, RingBuffer};

/// The most samples that wait.
const LIMIT: usize = 1920;

/// The most samples of a frame.
const MOST: usize = 960;

/// How many frames of samples and of bytes come in a round.
const FRAMES: u32 = 50;

/// A sample, or a byte that stands for one.
trait Sample: Copy {
    /// Makes a sample of some bits.
    fn of_bits(bits: u64) -> Self;

    /// Adds samples to a digest.
    fn digest(samples: &[Self], digest: &mut Digest);
}

impl Sample for i16 {
    fn of_bits(bits: u64) -> i16 {
        (bits & 0x7fff) as i16
    }

    fn digest(samples: &[i16], digest: &mut Digest) {
        digest.add_samples(samples);
    }
}

impl Sample for u8 {
    fn of_bits(bits: u64) -> u8 {
        bits as u8
    }

    fn digest(samples: &[u8], digest: &mut Digest) {
        digest.add_bytes(samples);
    }
}

/// Sends frames of samples through one ring for `rounds` rounds, and of bytes through another, and returns a digest of what
/// went out.
pub fn run(seed: u64, rounds: u32) -> u64 {
    let mut random = Random::new(seed);
    let mut digest = Digest::new();
    let mut samples = Call::<i16>::new();
    let mut bytes = Call::<u8>::new();
    for _ in 0..rounds {
        for _ in 0..FRAMES {
            samples.pass(&mut random, &mut digest);
            bytes.pass(&mut random, &mut digest);
        }
    }
    digest.value()
}

/// The samples that wait, the frame that came last, and what went out last.
struct Call<T> {
    ring: ConstGenericRingBuffer<T, LIMIT>,
    frame: Vec<T>,
    output: Vec<T>,
}

impl<T: Sample> Call<T> {
    fn new() -> Call<T> {
        Call {
            ring: ConstGenericRingBuffer::new(),
            frame: Vec::with_capacity(MOST),
            output: vec![T::of_bits(0); MOST],
        }
    }

    /// Puts a frame in, unless it is lost, and takes a block out. One in 16 frames is lost, and the newest samples stand for it;
    /// one in 32 blocks is passed over.
    fn pass(&mut self, random: &mut Random, digest: &mut Digest) {
        let len = 160 + random.below(801);
        if random.one_in(16) {
            self.conceal(len);
        } else {
            self.renew(len, random);
        }
        self.ring.extend(self.frame.iter().copied());
        let places = 160 + random.below(801);
        let is_passed_over = random.one_in(32);
        let count = places.min(self.ring.len());
        for (place, sample) in self.output[..places].iter_mut().zip(self.ring.drain()) {
            *place = sample;
        }
        digest.add(count as u64);
        if !is_passed_over {
            T::digest(&self.output[..count], digest);
        }
    }

    /// Makes a new frame, of eight samples a number.
    fn renew(&mut self, len: usize, random: &mut Random) {
        self.frame.clear();
        let mut bits = 0;
        for k in 0..len {
            if k % 8 == 0 {
                bits = random.number();
            }
            self.frame.push(T::of_bits(bits >> (k % 8)));
        }
    }

    /// Makes a frame of the newest samples of the ring, read at delays.
    fn conceal(&mut self, len: usize) {
        self.frame.clear();
        for k in 0..len {
            if let Some(sample) = self.ring.get_signed(k as isize - len as isize) {
                self.frame.push(*sample);
            }
        }
    }
}
