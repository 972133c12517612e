//! Windows over a series of samples: sums, moments, the least, the greatest, and folds, each read after each push.

use crate::digest::Digest;
use crate::random::Random;
use crate::sliding::{
    Ascending, Descending, Matrix, Order, PolynomialHash, QueueLeast, WindowFold, WindowLeast, WindowMoments, WindowSum,
};
use ringbuffer::{AllocRingBuffer, ConstGenericRingBuffer, GrowableAllocRingBuffer, RingBuffer};

/// How many samples a round has.
const SAMPLES: u32 = 8192;

/// A random walk with ties, which rises for some thousands of samples and falls for as many.
struct Walk {
    sample: i64,
    steps: u32,
    drift: i64,
}

impl Walk {
    /// Returns a walk that has taken no step.
    fn new() -> Walk {
        Walk { sample: 0, steps: 0, drift: 0 }
    }

    /// Returns the next sample. Each is within 2^31 of 0.
    #[inline]
    fn sample(&mut self, random: &mut Random) -> i64 {
        if self.steps == 0 {
            self.steps = 2000 + random.below(6000) as u32;
            self.drift = random.below(5) as i64 - 2;
        }
        self.steps -= 1;
        let step = random.below(9) as i64 - 4;
        let sample = self.sample.wrapping_add(step).wrapping_add(self.drift);
        self.sample = sample.clamp(-1000000000, 1000000000);
        self.sample
    }
}

/// Puts the next samples in place of the old ones.
fn renew(samples: &mut Vec<i64>, walk: &mut Walk, random: &mut Random) {
    samples.clear();
    samples.extend((0..SAMPLES).map(|_| walk.sample(random)));
}

/// Pushes `rounds` stretches of a series onto windows of each kind, and returns a digest of what was read after each push.
pub fn run(seed: u64, rounds: u32) -> u64 {
    let mut random = Random::new(seed);
    let mut digest = Digest::new();
    sums(&mut random, rounds, &mut digest);
    leasts(&mut random, rounds, &mut digest);
    large_leasts(&mut random, rounds, &mut digest);
    folds(&mut random, rounds, &mut digest);
    digest.value()
}

/// Pushes samples onto windows that know their sum.
fn sums(random: &mut Random, rounds: u32, digest: &mut Digest) {
    let mut walk = Walk::new();
    let mut samples = Vec::with_capacity(SAMPLES as usize);
    let mut heap = WindowSum::new(AllocRingBuffer::new(1000), 1000);
    let mut array = WindowSum::new(ConstGenericRingBuffer::<i64, 100>::new(), 100);
    let mut queue = WindowSum::new(GrowableAllocRingBuffer::new(), usize::MAX);
    let mut moments = WindowMoments::new(100);
    for _ in 0..rounds {
        renew(&mut samples, &mut walk, random);
        slide_sum(&mut heap, &samples, usize::MAX, digest);
        slide_sum(&mut array, &samples, usize::MAX, digest);
        slide_sum(&mut queue, &samples, 1000, digest);
        slide_moments(&mut moments, &samples, digest);
    }
}

/// Pushes samples onto windows that know their least sample, or their greatest.
fn leasts(random: &mut Random, rounds: u32, digest: &mut Digest) {
    let mut walk = Walk::new();
    let mut samples = Vec::with_capacity(SAMPLES as usize);
    let mut heap = WindowLeast::<Ascending>::new(1000);
    let mut small = WindowLeast::<Ascending>::new(3);
    let mut greatest = WindowLeast::<Descending>::new(100);
    let mut queue = QueueLeast::<Ascending>::new();
    for _ in 0..rounds {
        renew(&mut samples, &mut walk, random);
        slide_least(&mut heap, &samples, digest);
        slide_least(&mut small, &samples, digest);
        slide_least(&mut greatest, &samples, digest);
        slide_least_queue(&mut queue, &samples, 1000, digest);
    }
}

/// Pushes samples onto large windows that know their least sample, or their greatest: a walk, and a long rise and fall.
fn large_leasts(random: &mut Random, rounds: u32, digest: &mut Digest) {
    let mut walk = Walk::new();
    let mut samples = Vec::with_capacity(SAMPLES as usize);
    let mut greatest = WindowLeast::<Descending>::new(65536);
    let mut least = WindowLeast::<Ascending>::new(65536);
    let mut tide = 0;
    for _ in 0..rounds {
        renew(&mut samples, &mut walk, random);
        slide_least(&mut greatest, &samples, digest);
        tide = slide_tide(&mut least, tide, digest);
    }
}

/// Pushes bytes and matrices onto windows that fold them.
fn folds(random: &mut Random, rounds: u32, digest: &mut Digest) {
    let mut walk = Walk::new();
    let mut samples = Vec::with_capacity(SAMPLES as usize);
    let mut hash = WindowFold::new(1000);
    let mut product = WindowFold::new(100);
    let mut queue = WindowFold::new(usize::MAX);
    for _ in 0..rounds {
        renew(&mut samples, &mut walk, random);
        slide_hash(&mut hash, &samples, digest);
        slide_product(&mut product, &samples, usize::MAX, digest);
        slide_product(&mut queue, &samples, 1000, digest);
    }
}

/// Pushes samples onto a window, takes the oldest out where there are more than `most`, and reads the sum each time.
#[inline(never)]
fn slide_sum<R: RingBuffer<i64>>(window: &mut WindowSum<R>, samples: &[i64], most: usize, digest: &mut Digest) {
    let mut digested = *digest;
    for sample in samples {
        digested.add_option(window.push(*sample).map(|old| old as u64));
        if window.len() > most {
            digested.add_option(window.dequeue().map(|oldest| oldest as u64));
        }
        digested.add(window.sum().unsigned_abs() as u64);
    }
    *digest = digested;
}

/// Pushes samples onto a window, and reads their variance each time.
#[inline(never)]
fn slide_moments(window: &mut WindowMoments, samples: &[i64], digest: &mut Digest) {
    let mut digested = *digest;
    for sample in samples {
        let Ok(sample) = i32::try_from(*sample) else {
            continue;
        };
        digested.add_option(window.push(sample).map(|old| old as u64));
        digested.add(window.scaled_variance().unsigned_abs() as u64);
    }
    *digest = digested;
}

/// Pushes samples onto a window, and reads the least each time.
#[inline(never)]
fn slide_least<O: Order>(window: &mut WindowLeast<O>, samples: &[i64], digest: &mut Digest) {
    let mut digested = *digest;
    for sample in samples {
        window.push(*sample);
        digested.add_option(window.least().map(|least| least as u64));
    }
    *digest = digested;
}

/// Pushes samples onto a queue, takes the oldest out where there are more than `most`, and reads the least each time.
#[inline(never)]
fn slide_least_queue<O: Order>(queue: &mut QueueLeast<O>, samples: &[i64], most: usize, digest: &mut Digest) {
    let mut digested = *digest;
    for sample in samples {
        queue.push(*sample);
        if queue.len() > most {
            digested.add_option(queue.dequeue().map(|oldest| oldest as u64));
        }
        digested.add_option(queue.least().map(|least| least as u64));
    }
    *digest = digested;
}

/// Pushes samples that rise for 65,536 of them and then fall for as many, the first of which is the `tide`th of all.
/// Returns the number of the next.
#[inline(never)]
fn slide_tide(window: &mut WindowLeast<Ascending>, tide: u32, digest: &mut Digest) -> u32 {
    let mut digested = *digest;
    let mut number = tide;
    for _ in 0..SAMPLES {
        let height = i64::from(number % 65536);
        let is_rising = number / 65536 % 2 == 0;
        window.push(if is_rising { height } else { 65536 - height });
        digested.add_option(window.least().map(|least| least as u64));
        number = number.wrapping_add(1);
    }
    *digest = digested;
    number
}

/// Pushes the low bytes of samples onto a window, and reads their hash each time.
#[inline(never)]
fn slide_hash(window: &mut WindowFold<PolynomialHash>, samples: &[i64], digest: &mut Digest) {
    let mut digested = *digest;
    for sample in samples {
        let old = window.push(PolynomialHash::of_byte(*sample as u8));
        digested.add_option(old.map(|old| old.hash));
        digested.add(window.fold().hash);
    }
    *digest = digested;
}

/// Adds each entry of a matrix to the digest.
#[inline]
fn digest_matrix(matrix: &Matrix, digest: &mut Digest) {
    for entry in [matrix.a, matrix.b, matrix.c, matrix.d] {
        digest.add(entry);
    }
}

/// Adds a matrix that left a window to the digest, if one did.
#[inline]
fn digest_gone(gone: Option<Matrix>, digest: &mut Digest) {
    match gone {
        Some(matrix) => digest_matrix(&matrix, digest),
        None => digest.add_option(None),
    }
}

/// Pushes matrices onto a window, takes the oldest out where there are more than `most`, and reads their product each
/// time.
#[inline(never)]
fn slide_product(window: &mut WindowFold<Matrix>, samples: &[i64], most: usize, digest: &mut Digest) {
    let mut digested = *digest;
    for sample in samples {
        digest_gone(window.push(Matrix { a: 1, b: *sample as u64, c: 1, d: 3 }), &mut digested);
        if window.len() > most {
            digest_gone(window.dequeue(), &mut digested);
        }
        digest_matrix(&window.fold(), &mut digested);
    }
    *digest = digested;
}
