//! What the calls ask of a ring, and how each ring does it.

use crate::item::Item;
use ringbuffer::{AllocRingBuffer, ConstGenericRingBuffer, GrowableAllocRingBuffer, RingBuffer};
use std::collections::VecDeque;

/// A ring whose calls are counted.
pub trait Ring<T: Item> {
    /// Puts an item last. A full ring overwrites its first.
    fn push(&mut self, item: T) -> Option<T>;
    fn dequeue(&mut self) -> Option<T>;
    fn skip(&mut self);
    fn clear(&mut self);
    fn is_full(&self) -> bool;
    fn len(&self) -> usize;
    fn get(&self, index: usize) -> Option<&T>;
    fn get_mut(&mut self, index: usize) -> Option<&mut T>;
    fn get_signed(&self, index: isize) -> Option<&T>;
    fn get_mut_signed(&mut self, index: isize) -> Option<&mut T>;
    fn front(&self) -> Option<&T>;
    fn front_mut(&mut self) -> Option<&mut T>;
    fn back(&self) -> Option<&T>;
    fn back_mut(&mut self) -> Option<&mut T>;
    fn contains(&self, item: &T) -> bool;
    fn items(&self) -> impl Iterator<Item = &T>;
    fn drained(&mut self) -> impl Iterator<Item = T>;
    fn to_vec(&self) -> Vec<T>;
    fn fill(&mut self, item: T);
    fn extend(&mut self, items: impl Iterator<Item = T>);
    /// Puts the items of a slice last.
    fn bring(&mut self, items: &[T]);
    /// Copies the first items to a slice.
    fn copy(&self, output: &mut [T]) -> usize;
    /// Takes the first items out into a slice.
    fn take(&mut self, output: &mut [T]) -> usize;
}

macro_rules! ring_of_the_crate {
    ($name:ty $(, const $capacity:ident)?) => {
        impl<T: Item $(, const $capacity: usize)?> Ring<T> for $name {
            #[inline]
            fn push(&mut self, item: T) -> Option<T> {
                RingBuffer::push(self, item);
                None
            }

            #[inline]
            fn dequeue(&mut self) -> Option<T> {
                RingBuffer::dequeue(self)
            }

            #[inline]
            fn skip(&mut self) {
                RingBuffer::skip(self);
            }

            #[inline]
            fn clear(&mut self) {
                RingBuffer::clear(self);
            }

            #[inline]
            fn is_full(&self) -> bool {
                RingBuffer::is_full(self)
            }

            #[inline]
            fn len(&self) -> usize {
                RingBuffer::len(self)
            }

            #[inline]
            fn get(&self, index: usize) -> Option<&T> {
                RingBuffer::get(self, index)
            }

            #[inline]
            fn get_mut(&mut self, index: usize) -> Option<&mut T> {
                RingBuffer::get_mut(self, index)
            }

            #[inline]
            fn get_signed(&self, index: isize) -> Option<&T> {
                RingBuffer::get_signed(self, index)
            }

            #[inline]
            fn get_mut_signed(&mut self, index: isize) -> Option<&mut T> {
                RingBuffer::get_mut_signed(self, index)
            }

            #[inline]
            fn front(&self) -> Option<&T> {
                RingBuffer::front(self)
            }

            #[inline]
            fn front_mut(&mut self) -> Option<&mut T> {
                RingBuffer::front_mut(self)
            }

            #[inline]
            fn back(&self) -> Option<&T> {
                RingBuffer::back(self)
            }

            #[inline]
            fn back_mut(&mut self) -> Option<&mut T> {
                RingBuffer::back_mut(self)
            }

            #[inline]
            fn contains(&self, item: &T) -> bool {
                RingBuffer::contains(self, item)
            }

            #[inline]
            fn items(&self) -> impl Iterator<Item = &T> {
                RingBuffer::iter(self)
            }

            #[inline]
            fn drained(&mut self) -> impl Iterator<Item = T> {
                RingBuffer::drain(self)
            }

            #[inline]
            fn to_vec(&self) -> Vec<T> {
                RingBuffer::to_vec(self)
            }

            #[inline]
            fn fill(&mut self, item: T) {
                RingBuffer::fill(self, item);
            }

            #[inline]
            fn extend(&mut self, items: impl Iterator<Item = T>) {
                Extend::extend(self, items);
            }

            #[inline]
            fn bring(&mut self, items: &[T]) {
                Extend::extend(self, items.iter().copied());
            }

            #[inline]
            fn copy(&self, output: &mut [T]) -> usize {
                let count = output.len().min(RingBuffer::len(self));
                output.iter_mut().zip(RingBuffer::iter(self)).for_each(|(place, item)| *place = *item);
                count
            }

            #[inline]
            fn take(&mut self, output: &mut [T]) -> usize {
                let count = output.len().min(RingBuffer::len(self));
                for place in &mut output[..count] {
                    *place = RingBuffer::dequeue(self).unwrap();
                }
                count
            }
        }
    };
}

ring_of_the_crate!(AllocRingBuffer<T>);
ring_of_the_crate!(GrowableAllocRingBuffer<T>);
ring_of_the_crate!(ConstGenericRingBuffer<T, CAP>, const CAP);

/// A `VecDeque` that is kept to a capacity by hand, or that grows.
#[derive(Clone, PartialEq)]
pub struct Deque<T> {
    pub items: VecDeque<T>,
    pub capacity: usize,
}

impl<T: Item> Deque<T> {
    pub fn with_capacity(capacity: usize) -> Self {
        Deque {
            items: VecDeque::with_capacity(capacity),
            capacity,
        }
    }

    pub fn growing() -> Self {
        Deque {
            items: VecDeque::new(),
            capacity: usize::MAX,
        }
    }
}

impl<T: Item> Ring<T> for Deque<T> {
    #[inline]
    fn push(&mut self, item: T) -> Option<T> {
        let old = if self.is_full() { self.items.pop_front() } else { None };
        self.items.push_back(item);
        old
    }

    #[inline]
    fn dequeue(&mut self) -> Option<T> {
        self.items.pop_front()
    }

    #[inline]
    fn skip(&mut self) {
        self.items.pop_front();
    }

    #[inline]
    fn clear(&mut self) {
        self.items.clear();
    }

    #[inline]
    fn is_full(&self) -> bool {
        self.items.len() == self.capacity
    }

    #[inline]
    fn len(&self) -> usize {
        self.items.len()
    }

    #[inline]
    fn get(&self, index: usize) -> Option<&T> {
        self.items.get(index)
    }

    #[inline]
    fn get_mut(&mut self, index: usize) -> Option<&mut T> {
        self.items.get_mut(index)
    }

    #[inline]
    fn get_signed(&self, index: isize) -> Option<&T> {
        self.items.get(self.items.len().wrapping_add_signed(index))
    }

    #[inline]
    fn get_mut_signed(&mut self, index: isize) -> Option<&mut T> {
        let index = self.items.len().wrapping_add_signed(index);
        self.items.get_mut(index)
    }

    #[inline]
    fn front(&self) -> Option<&T> {
        self.items.front()
    }

    #[inline]
    fn front_mut(&mut self) -> Option<&mut T> {
        self.items.front_mut()
    }

    #[inline]
    fn back(&self) -> Option<&T> {
        self.items.back()
    }

    #[inline]
    fn back_mut(&mut self) -> Option<&mut T> {
        self.items.back_mut()
    }

    #[inline]
    fn contains(&self, item: &T) -> bool {
        self.items.contains(item)
    }

    #[inline]
    fn items(&self) -> impl Iterator<Item = &T> {
        self.items.iter()
    }

    #[inline]
    fn drained(&mut self) -> impl Iterator<Item = T> {
        self.items.drain(..)
    }

    #[inline]
    fn to_vec(&self) -> Vec<T> {
        self.items.iter().copied().collect()
    }

    #[inline]
    fn fill(&mut self, item: T) {
        let count = if self.capacity == usize::MAX {
            self.items.capacity()
        } else {
            self.capacity
        };
        self.items.clear();
        self.items.resize(count, item);
    }

    #[inline]
    fn extend(&mut self, items: impl Iterator<Item = T>) {
        if self.capacity == usize::MAX {
            return self.items.extend(items);
        }
        for item in items {
            self.push(item);
        }
    }

    #[inline]
    fn bring(&mut self, items: &[T]) {
        let newest = &items[items.len().saturating_sub(self.capacity)..];
        let over = newest.len().saturating_sub(self.capacity - self.items.len());
        self.items.drain(..over);
        self.items.extend(newest);
    }

    #[inline]
    fn copy(&self, output: &mut [T]) -> usize {
        let count = output.len().min(self.items.len());
        let (first, second) = self.items.as_slices();
        let (front, back) = output[..count].split_at_mut(first.len().min(count));
        front.copy_from_slice(&first[..front.len()]);
        back.copy_from_slice(&second[..back.len()]);
        count
    }

    #[inline]
    fn take(&mut self, output: &mut [T]) -> usize {
        let count = self.copy(output);
        self.items.drain(..count);
        count
    }
}
