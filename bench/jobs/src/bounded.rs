//! A `VecDeque` that is kept to a capacity by hand, for calls that the crate's rings lack.

use std::collections::VecDeque;

/// Items, at most as many as the capacity says.
pub struct Bounded<T> {
    pub items: VecDeque<T>,
    capacity: usize,
}

impl<T> Bounded<T> {
    /// Makes a deque of no items, with memory for as many as a heap ring of the crate: the next power of two. Where the items
    /// go on at the first place hangs on that, and two digests on this.
    pub fn new(capacity: usize) -> Bounded<T> {
        Bounded { items: VecDeque::with_capacity(capacity.next_power_of_two()), capacity }
    }

    /// Makes a deque of no items that grows.
    pub fn growable() -> Bounded<T> {
        Bounded { items: VecDeque::new(), capacity: usize::MAX }
    }

    /// Returns how many more items there is room for.
    pub fn room(&self) -> usize {
        self.capacity - self.items.len()
    }

    /// Puts the item last, and returns the oldest if it gave way.
    #[inline]
    pub fn push(&mut self, item: T) -> Option<T> {
        let old = if self.items.len() == self.capacity { self.items.pop_front() } else { None };
        self.items.push_back(item);
        old
    }

    /// Puts the item first, and returns the newest if it gave way.
    #[inline]
    pub fn push_front(&mut self, item: T) -> Option<T> {
        let old = if self.items.len() == self.capacity { self.items.pop_back() } else { None };
        self.items.push_front(item);
        old
    }
}

impl<T: Copy> Bounded<T> {
    /// Puts the items last. The oldest give way if there is no room.
    pub fn extend(&mut self, items: &[T]) {
        let newest = &items[items.len().saturating_sub(self.capacity)..];
        let over = newest.len().saturating_sub(self.room());
        self.items.drain(..over);
        self.items.extend(newest);
    }

    /// Puts the value into every place.
    pub fn fill(&mut self, value: T) {
        self.items.clear();
        self.items.resize(self.capacity, value);
    }
}

/// Takes out the oldest items, as many as there are places for, and returns how many.
pub fn take_into<T: Copy>(items: &mut VecDeque<T>, places: &mut [T]) -> usize {
    let count = places.len().min(items.len());
    let (first, second) = items.as_slices();
    let (before, behind) = places[..count].split_at_mut(first.len().min(count));
    before.copy_from_slice(&first[..before.len()]);
    behind.copy_from_slice(&second[..behind.len()]);
    items.drain(..count);
    count
}
