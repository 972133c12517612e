//! A push that hands back what gives way. Those of the crate return nothing.

use ringbuffer::{AllocRingBuffer, ConstGenericRingBuffer, GrowableAllocRingBuffer, RingBuffer};

/// A ring of the crate.
pub trait Overwriting<T>: RingBuffer<T> {
    /// Whether the oldest item of a full ring gives way to the next.
    const IS_FIXED: bool;

    /// Puts the item last, and returns the one that gave way for it, if any.
    #[inline]
    fn push_over(&mut self, item: T) -> Option<T> {
        let old = if Self::IS_FIXED && self.is_full() { self.dequeue() } else { None };
        self.push(item);
        old
    }
}

impl<T> Overwriting<T> for AllocRingBuffer<T> {
    const IS_FIXED: bool = true;
}

impl<T, const CAP: usize> Overwriting<T> for ConstGenericRingBuffer<T, CAP> {
    const IS_FIXED: bool = true;
}

impl<T> Overwriting<T> for GrowableAllocRingBuffer<T> {
    const IS_FIXED: bool = false;
}
