//! Windows with what their samples add up to, their least sample, or what their items combine to, kept by hand.

use crate::overwriting::Overwriting;
use ringbuffer::{AllocRingBuffer, GrowableAllocRingBuffer, RingBuffer};
use std::collections::VecDeque;
use std::marker::PhantomData;

/// A ring of the crate, and the sum of its samples.
pub struct WindowSum<R> {
    ring: R,
    capacity: usize,
    sum: i128,
}

impl<R: RingBuffer<i64>> WindowSum<R> {
    /// Makes a window over an empty ring that is to hold so many samples at most.
    pub fn new(ring: R, capacity: usize) -> WindowSum<R> {
        WindowSum { ring, capacity, sum: 0 }
    }

    /// Takes in a sample, and returns the oldest if it gave way.
    #[inline]
    pub fn push(&mut self, sample: i64) -> Option<i64> {
        let old = if self.ring.len() == self.capacity { self.dequeue() } else { None };
        self.ring.push(sample);
        self.sum += i128::from(sample);
        old
    }

    #[inline]
    pub fn dequeue(&mut self) -> Option<i64> {
        let oldest = self.ring.dequeue()?;
        self.sum -= i128::from(oldest);
        Some(oldest)
    }

    pub fn len(&self) -> usize {
        self.ring.len()
    }

    pub fn sum(&self) -> i128 {
        self.sum
    }
}

/// A ring of the crate, the sum of its samples and that of their squares.
pub struct WindowMoments {
    ring: AllocRingBuffer<i32>,
    sum: i64,
    squares: i128,
}

impl WindowMoments {
    pub fn new(capacity: usize) -> WindowMoments {
        WindowMoments { ring: AllocRingBuffer::new(capacity), sum: 0, squares: 0 }
    }

    /// Takes in a sample, and returns the oldest if it gave way.
    #[inline]
    pub fn push(&mut self, sample: i32) -> Option<i32> {
        let old = self.ring.push_over(sample);
        if let Some(oldest) = old {
            self.sum -= i64::from(oldest);
            self.squares -= square(oldest);
        }
        self.sum += i64::from(sample);
        self.squares += square(sample);
        old
    }

    /// Returns the variance of the samples times the square of their number.
    #[inline]
    pub fn scaled_variance(&self) -> i128 {
        let sum = i128::from(self.sum);
        self.ring.len() as i128 * self.squares - sum * sum
    }
}

/// Returns the square of a sample, which a word holds.
fn square(sample: i32) -> i128 {
    i128::from(i64::from(sample) * i64::from(sample))
}

/// An order of samples.
pub trait Order {
    fn is_above(x: i64, y: i64) -> bool;
}

pub struct Ascending;

impl Order for Ascending {
    fn is_above(x: i64, y: i64) -> bool {
        x > y
    }
}

pub struct Descending;

impl Order for Descending {
    fn is_above(x: i64, y: i64) -> bool {
        x < y
    }
}

/// The samples that no later one is below, each with its number, oldest first.
struct Candidates<O> {
    below: VecDeque<(i64, usize)>,
    pushed: usize,
    order: PhantomData<O>,
}

impl<O: Order> Candidates<O> {
    fn new() -> Candidates<O> {
        Candidates { below: VecDeque::new(), pushed: 0, order: PhantomData }
    }

    /// Takes in a sample.
    #[inline]
    fn push(&mut self, sample: i64) {
        while let Some((other, _)) = self.below.back() {
            if !O::is_above(*other, sample) {
                break;
            }
            self.below.pop_back();
        }
        self.below.push_back((sample, self.pushed));
        self.pushed += 1;
    }

    /// Forgets the oldest of so many samples.
    #[inline]
    fn forget_oldest_of(&mut self, len: usize) {
        if let Some((_, number)) = self.below.front() {
            if number + len == self.pushed {
                self.below.pop_front();
            }
        }
    }

    fn least(&self) -> Option<i64> {
        self.below.front().map(|(least, _)| *least)
    }
}

/// A window that knows its least sample, of a capacity. It keeps the candidates alone: nobody asks for the others.
pub struct WindowLeast<O> {
    candidates: Candidates<O>,
    capacity: usize,
}

impl<O: Order> WindowLeast<O> {
    pub fn new(capacity: usize) -> WindowLeast<O> {
        WindowLeast { candidates: Candidates::new(), capacity }
    }

    #[inline]
    pub fn push(&mut self, sample: i64) {
        self.candidates.forget_oldest_of(self.capacity);
        self.candidates.push(sample);
    }

    pub fn least(&self) -> Option<i64> {
        self.candidates.least()
    }
}

/// A queue that knows its least sample.
pub struct QueueLeast<O> {
    samples: GrowableAllocRingBuffer<i64>,
    candidates: Candidates<O>,
}

impl<O: Order> QueueLeast<O> {
    pub fn new() -> QueueLeast<O> {
        QueueLeast { samples: GrowableAllocRingBuffer::new(), candidates: Candidates::new() }
    }

    #[inline]
    pub fn push(&mut self, sample: i64) {
        self.samples.push(sample);
        self.candidates.push(sample);
    }

    #[inline]
    pub fn dequeue(&mut self) -> Option<i64> {
        self.candidates.forget_oldest_of(self.samples.len());
        self.samples.dequeue()
    }

    pub fn len(&self) -> usize {
        self.samples.len()
    }

    pub fn least(&self) -> Option<i64> {
        self.candidates.least()
    }
}

/// Items that combine.
pub trait Monoid: Copy {
    const NEUTRAL: Self;

    fn combine(&self, later: &Self) -> Self;
}

/// Two stacks: the older items, each with what those from it on combine to, the oldest on top; and the newer ones with what
/// they combine to.
pub struct WindowFold<M> {
    older: Vec<(M, M)>,
    newer: Vec<M>,
    of_newer: M,
    capacity: usize,
}

impl<M: Monoid> WindowFold<M> {
    /// Makes a window that is to hold so many items at most.
    pub fn new(capacity: usize) -> WindowFold<M> {
        WindowFold { older: Vec::new(), newer: Vec::new(), of_newer: M::NEUTRAL, capacity }
    }

    /// Takes in an item, and returns the oldest if it gave way.
    #[inline]
    pub fn push(&mut self, item: M) -> Option<M> {
        let old = if self.len() == self.capacity { self.dequeue() } else { None };
        self.of_newer = self.of_newer.combine(&item);
        self.newer.push(item);
        old
    }

    #[inline]
    pub fn dequeue(&mut self) -> Option<M> {
        if self.older.is_empty() {
            self.turn_over();
        }
        self.older.pop().map(|(item, _)| item)
    }

    /// Makes the newer items the older ones.
    fn turn_over(&mut self) {
        let mut fold = M::NEUTRAL;
        while let Some(item) = self.newer.pop() {
            fold = item.combine(&fold);
            self.older.push((item, fold));
        }
        self.of_newer = M::NEUTRAL;
    }

    pub fn len(&self) -> usize {
        self.older.len() + self.newer.len()
    }

    /// Returns what the items combine to.
    #[inline]
    pub fn fold(&self) -> M {
        match self.older.last() {
            Some((_, of_older)) => of_older.combine(&self.of_newer),
            None => self.of_newer,
        }
    }
}

/// A matrix of two rows, `a b` and `c d`, whose entries count modulo 2^64.
#[derive(Clone, Copy)]
pub struct Matrix {
    pub a: u64,
    pub b: u64,
    pub c: u64,
    pub d: u64,
}

impl Monoid for Matrix {
    const NEUTRAL: Matrix = Matrix { a: 1, b: 0, c: 0, d: 1 };

    #[inline]
    fn combine(&self, later: &Matrix) -> Matrix {
        let dot = |x: u64, y: u64, z: u64, w: u64| x.wrapping_mul(y).wrapping_add(z.wrapping_mul(w));
        Matrix {
            a: dot(self.a, later.a, self.b, later.c),
            b: dot(self.a, later.b, self.b, later.d),
            c: dot(self.c, later.a, self.d, later.c),
            d: dot(self.c, later.b, self.d, later.d),
        }
    }
}

/// The hash counts modulo this prime, 2^61 - 1.
const MODULUS: u64 = 2305843009213693951;

/// Each byte counts this many times as much as the one after it.
const BASE: u64 = 1000003;

/// The hash of some bytes, read as the digits of a number, and the power of the base for their number.
#[derive(Clone, Copy)]
pub struct PolynomialHash {
    pub hash: u64,
    power: u64,
}

impl PolynomialHash {
    pub fn of_byte(byte: u8) -> PolynomialHash {
        PolynomialHash { hash: u64::from(byte), power: BASE }
    }
}

impl Monoid for PolynomialHash {
    const NEUTRAL: PolynomialHash = PolynomialHash { hash: 0, power: 1 };

    #[inline]
    fn combine(&self, later: &PolynomialHash) -> PolynomialHash {
        PolynomialHash { hash: reduced(self.hash, later.power, later.hash), power: reduced(self.power, later.power, 0) }
    }
}

/// Returns `x` times `y` and `z` more, modulo the prime, of three numbers below it. 2^61 is one more than the prime, so what
/// stands above the lowest 61 bits counts once.
#[inline]
fn reduced(x: u64, y: u64, z: u64) -> u64 {
    let number = u128::from(x) * u128::from(y) + u128::from(z);
    let sum = (number >> 61) as u64 + (number as u64 & MODULUS);
    if sum < MODULUS {
        sum
    } else {
        sum - MODULUS
    }
}
