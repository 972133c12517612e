//! A fixed ring over a `VecDeque`, for items of no size: the crate asks for a block of no bytes for them.

use ringbuffer::{ConstGenericRingBuffer, GrowableAllocRingBuffer, RingBuffer};
use std::collections::{vec_deque, LinkedList, VecDeque};
use std::ops::{Index, IndexMut};

#[derive(Clone, PartialEq)]
pub struct Model<T> {
    items: VecDeque<T>,
    capacity: usize,
}

impl<T> Model<T> {
    pub fn new(capacity: usize) -> Model<T> {
        Model { items: VecDeque::new(), capacity }
    }
}

impl<T: Clone> Model<T> {
    // Makes a model of a source's items, whose number is the capacity.
    fn of(source: impl Iterator<Item = T>) -> Model<T> {
        let items: VecDeque<T> = source.collect();
        let capacity = items.len();
        Model { items, capacity }
    }
}

macro_rules! made_of {
    ($($source:ty)*) => {$(
        impl<T: Clone> From<$source> for Model<T> {
            fn from(source: $source) -> Model<T> {
                Model::of(source.into_iter().map(|item| item.clone()))
            }
        }
    )*};
}

made_of!(Vec<T> VecDeque<T> LinkedList<T> GrowableAllocRingBuffer<T> &[T] &mut [T]);

impl<T: Clone, const CAP: usize> From<ConstGenericRingBuffer<T, CAP>> for Model<T> {
    fn from(ring: ConstGenericRingBuffer<T, CAP>) -> Model<T> {
        Model::of(ring.into_iter())
    }
}

impl<T, const CAP: usize> From<Model<T>> for ConstGenericRingBuffer<T, CAP> {
    fn from(ring: Model<T>) -> ConstGenericRingBuffer<T, CAP> {
        ring.items.into()
    }
}

impl<T> From<Model<T>> for GrowableAllocRingBuffer<T> {
    fn from(ring: Model<T>) -> GrowableAllocRingBuffer<T> {
        ring.items.into()
    }
}

// Safety: each pointer is had of a reference, and positions wrap by the length.
unsafe impl<T> RingBuffer<T> for Model<T> {
    unsafe fn ptr_len(ring: *const Self) -> usize {
        (*ring).items.len()
    }

    unsafe fn ptr_capacity(ring: *const Self) -> usize {
        (*ring).capacity
    }

    unsafe fn ptr_buffer_size(ring: *const Self) -> usize {
        (*ring).capacity.next_power_of_two()
    }

    unsafe fn ptr_get_mut(ring: *mut Self, index: usize) -> Option<*mut T> {
        let items = &mut (*ring).items;
        let index = index.checked_rem(items.len())?;
        items.get_mut(index).map(|item| item as *mut T)
    }

    unsafe fn ptr_get_mut_signed(ring: *mut Self, index: isize) -> Option<*mut T> {
        let len = (*ring).items.len();
        Self::ptr_get_mut(ring, (index as i128).checked_rem_euclid(len as i128)? as usize)
    }

    fn push(&mut self, item: T) {
        if self.is_full() {
            self.items.pop_front();
        }
        self.items.push_back(item);
    }

    fn dequeue(&mut self) -> Option<T> {
        self.items.pop_front()
    }

    fn fill_with<F: FnMut() -> T>(&mut self, mut make: F) {
        self.items.clear();
        self.items.resize_with(self.capacity, || make());
    }

    fn clear(&mut self) {
        self.items.clear();
    }

    fn get(&self, index: usize) -> Option<&T> {
        self.items.get(index.checked_rem(self.items.len())?)
    }

    fn get_signed(&self, index: isize) -> Option<&T> {
        self.items.get((index as i128).checked_rem_euclid(self.items.len() as i128)? as usize)
    }
}

impl<T> IntoIterator for Model<T> {
    type Item = T;
    type IntoIter = vec_deque::IntoIter<T>;

    fn into_iter(self) -> Self::IntoIter {
        self.items.into_iter()
    }
}

impl<T> Extend<T> for Model<T> {
    fn extend<I: IntoIterator<Item = T>>(&mut self, items: I) {
        items.into_iter().for_each(|item| self.push(item));
    }
}

impl<T> Index<usize> for Model<T> {
    type Output = T;

    fn index(&self, index: usize) -> &T {
        self.get(index).expect("an item")
    }
}

impl<T> IndexMut<usize> for Model<T> {
    fn index_mut(&mut self, index: usize) -> &mut T {
        self.get_mut(index).expect("an item")
    }
}
