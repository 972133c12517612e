//! The calls that each ring type has of its own in the port. A `VecDeque` answers those that the crate lacks or does
//! wrongly.

use crate::calls::fill;
use crate::comparing;
use crate::copies::{Plain, play_copies};
use crate::items::Item;
use crate::makers;
use crate::model::Model;
use crate::player::Player;
use ringbuffer::{AllocRingBuffer, ConstGenericRingBuffer, GrowableAllocRingBuffer, RingBuffer};
use std::collections::VecDeque;
use std::mem::size_of;

/// A ring of the crate, or one beside it.
pub trait Played<'a, T: Item<'a>>: RingBuffer<T> + Clone {
    /// Whether the ring has a limit.
    const IS_FIXED: bool = true;

    /// A ring of the same kind, for characters.
    type Letters: Played<'a, char> + for<'s> From<&'s str> + From<String>;

    /// A ring of the same kind, for three bytes.
    type Three: Played<'a, u8> + From<[u8; 3]> + for<'s> From<&'s [u8; 3]> + for<'s> From<&'s mut [u8; 3]>;

    fn play_own(&mut self, player: &mut Player<'a>);

    /// Makes a ring of a collection, or one of another type.
    fn play_makers(&mut self, player: &mut Player<'a>);

    /// Makes a call that copies items, or compares them.
    fn play_copies(&mut self, player: &mut Player<'a>)
    where
        T: Plain;

    /// Does to the items what is done to a `VecDeque`.
    fn as_deque<A>(&mut self, change: impl FnOnce(&mut VecDeque<T>) -> A) -> A {
        let mut items = self.drain().collect();
        let answer = change(&mut items);
        self.extend(items);
        answer
    }

    /// Lends the item at a position for writing.
    fn lend(&mut self, position: usize) -> Option<&mut T> {
        self.get_mut(position)
    }

    /// Lends the item at a position that may be negative for writing.
    fn lend_signed(&mut self, position: isize) -> Option<&mut T> {
        self.get_mut_signed(position)
    }

    /// Fills the ring with defaults, up to its capacity.
    fn fill_with_defaults(&mut self)
    where
        T: Default,
    {
        self.fill_default();
    }
}

impl<'a, T: Item<'a>, const CAP: usize> Played<'a, T> for ConstGenericRingBuffer<T, CAP> {
    type Letters = ConstGenericRingBuffer<char, 5>;
    type Three = ConstGenericRingBuffer<u8, 3>;

    fn play_makers(&mut self, player: &mut Player<'a>) {
        makers::play_array(self, player);
    }

    fn play_own(&mut self, player: &mut Player<'a>) {
        match player.up_to(15) {
            0..=6 => play_ends(self, player),
            7..=13 => play_middle(self, player),
            14 => fill(self, player),
            _ => {
                let ring: ConstGenericRingBuffer<T, CAP> = player.items().into_iter().collect();
                player.note_ring(&ring);
                player.note_ring(&self.clone());
            }
        }
    }

    fn play_copies(&mut self, player: &mut Player<'a>)
    where
        T: Plain,
    {
        match player.up_to(3) {
            0..=1 => play_copies(self, player),
            2 => player.note_each(&self.to_vec()),
            _ => comparing::play(self, player),
        }
    }
}

macro_rules! played_on_the_heap {
    ($type:ident) => {
        impl<'a, T: Item<'a>> Played<'a, T> for $type<T> {
            type Letters = AllocRingBuffer<char>;
            type Three = AllocRingBuffer<u8>;

            fn play_own(&mut self, player: &mut Player<'a>) {
                match player.up_to(16) {
                    0..=5 => play_ends(self, player),
                    6..=11 => play_middle(self, player),
                    12 => play_slices(self, player),
                    13 => {
                        let items: Vec<T> = self.drain().collect();
                        *self = Self::new(player.up_to(299) + 1);
                        self.extend(items);
                    }
                    14 => fill(self, player),
                    15 => player.note_ring(&self.clone()),
                    _ => {
                        let ring = GrowableAllocRingBuffer::<T>::from(player.items());
                        if !ring.is_empty() {
                            player.note_ring(&$type::from(ring));
                        }
                    }
                }
            }

            fn play_makers(&mut self, player: &mut Player<'a>) {
                makers::play_heap(self, player);
            }

            fn play_copies(&mut self, player: &mut Player<'a>)
            where
                T: Plain,
            {
                match player.up_to(8) {
                    0..=3 => play_copies(self, player),
                    4..=6 => comparing::play(self, player),
                    7 => player.note_each(&self.to_vec()),
                    _ => {
                        let mut twin = Self::new(player.up_to(299) + 1);
                        twin.extend(self.to_vec());
                        comparing::compare(&twin, self, player);
                    }
                }
            }
        }
    };
}

played_on_the_heap!(AllocRingBuffer);
played_on_the_heap!(Model);

impl<'a, T: Item<'a>> Played<'a, T> for GrowableAllocRingBuffer<T> {
    const IS_FIXED: bool = false;

    type Letters = GrowableAllocRingBuffer<char>;
    type Three = GrowableAllocRingBuffer<u8>;

    fn play_makers(&mut self, player: &mut Player<'a>) {
        makers::play_growable(self, player);
    }

    fn play_own(&mut self, player: &mut Player<'a>) {
        match player.up_to(8) {
            0..=4 => play_ends(self, player),
            5 => play_slices(self, player),
            6 => {
                let len = self.len();
                if size_of::<T>() > 0 {
                    fill(self, player);
                    self.truncate(len);
                } else {
                    // The crate would go on for 2^64 items. Those of no size are as they were.
                    player.draw();
                    player.draw();
                }
            }
            7 => player.note_ring(&self.clone()),
            _ => *self = VecDeque::from(player.items()).into(),
        }
    }

    fn play_copies(&mut self, player: &mut Player<'a>)
    where
        T: Plain,
    {
        match player.up_to(8) {
            0..=3 => play_copies(self, player),
            4..=6 => comparing::play(self, player),
            7 => player.note_each(&self.to_vec()),
            _ => {
                player.note_item(VecDeque::back(self));
                player.note_item(VecDeque::get(self, 1));
                player.write(VecDeque::front_mut(self));
            }
        }
    }

    // The crate's writing positions don't wrap.
    fn lend(&mut self, position: usize) -> Option<&mut T> {
        self.get_mut(position.checked_rem(self.len())?)
    }

    // Below zero the crate's are off by one.
    fn lend_signed(&mut self, position: isize) -> Option<&mut T> {
        self.get_mut((position as i128).checked_rem_euclid(self.len() as i128)? as usize)
    }

    fn fill_with_defaults(&mut self)
    where
        T: Default,
    {
        if size_of::<T>() > 0 {
            self.fill_default();
        }
    }
}

fn play_ends<'a, T: Item<'a>, R: Played<'a, T>>(ring: &mut R, player: &mut Player<'a>) {
    match player.up_to(7) {
        0 => player.note_taken(ring.as_deque(|items| items.pop_back())),
        1 => {
            let kept = player.kept_of(ring.len());
            ring.as_deque(|items| items.truncate(kept));
        }
        2 => {
            let kept = player.kept_of(ring.len());
            ring.as_deque(|items| drop(items.drain(..items.len() - kept)));
        }
        3 => {
            let position = player.position();
            if !ring.is_empty() {
                player.note_item(Some(&ring[position]));
            }
        }
        4 => {
            let (position, item) = (player.position(), player.item());
            if R::IS_FIXED && !ring.is_empty() {
                ring[position] = item;
            } else if let Some(place) = ring.lend(position) {
                *place = item;
            }
        }
        5 => player.note_ring(&ring.clone()),
        6 => ring.clone().into_iter().for_each(|item| player.note_item(Some(&item))),
        _ => {
            let mut twin = ring.clone();
            while twin.len() > 3 {
                twin.skip();
            }
            ring.extend(twin.drain());
            player.note(twin.len() as u64);
        }
    }
}

fn play_middle<'a, T: Item<'a>, R: Played<'a, T>>(ring: &mut R, player: &mut Player<'a>) {
    let is_full = ring.is_full();
    let (item, index) = (player.item(), player.up_to(ring.len()));
    match player.up_to(7) {
        0 | 2 if is_full => player.note_taken(Some(item)),
        0 => {
            ring.push(item);
            player.note_taken(None::<T>);
        }
        1 => player.note_taken(ring.as_deque(|items| {
            let old = if is_full { items.pop_back() } else { None };
            items.push_front(item);
            old
        })),
        2 => {
            ring.as_deque(|items| items.insert(index, item));
            player.note_taken(None::<T>);
        }
        3 => player.note_taken(ring.as_deque(|items| items.remove(index))),
        4 => ring.as_deque(|items| items.rotate_left(index)),
        5 => ring.as_deque(|items| items.rotate_right(index)),
        6 => {
            let other = player.up_to(ring.len());
            if index.max(other) < ring.len() {
                ring.as_deque(|items| items.swap(index, other));
            }
        }
        _ => {
            player.note(ring.capacity() as u64);
            player.note(ring.buffer_size() as u64);
            player.note(is_full as u64);
        }
    }
}

fn play_slices<'a, T: Item<'a>, R: Played<'a, T>>(ring: &mut R, player: &mut Player<'a>) {
    if player.flip() {
        player.note(ring.is_empty() as u64);
        player.note_each(ring.iter());
    } else {
        player.note_each(ring.iter());
        player.write(ring.lend_signed(-1));
    }
}
