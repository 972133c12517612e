//! What both sides draw and note alike.

use crate::items::{Item, Tally};
use ringbuffer::RingBuffer;

/// The draws of a run begin at this and its number.
pub const SEED: u64 = 20_261_126;

/// Draws what the calls are given, and sums up what they answer.
pub struct Player<'a> {
    pub tally: &'a Tally,
    /// How many items the calls speak of at most, mostly.
    pub most: usize,
    state: u64,
    digest: u64,
}

impl<'a> Player<'a> {
    pub fn new(tally: &'a Tally, most: usize, run: usize) -> Player<'a> {
        let state = SEED.wrapping_add(run as u64);
        Player { tally, most, state, digest: state }
    }

    /// Returns the digest of all that was noted.
    pub fn digest(&self) -> u32 {
        (self.digest >> 32) as u32
    }

    /// Draws a number, by SplitMix64.
    pub fn draw(&mut self) -> u64 {
        self.state = self.state.wrapping_add(0x9e37_79b9_7f4a_7c15);
        let mixed = (self.state ^ (self.state >> 30)).wrapping_mul(0xbf58_476d_1ce4_e5b9);
        let mixed = (mixed ^ (mixed >> 27)).wrapping_mul(0x94d0_49bb_1331_11eb);
        mixed ^ (mixed >> 31)
    }

    pub fn flip(&mut self) -> bool {
        self.draw() % 2 == 0
    }

    /// Draws a number from zero to `most`.
    pub fn up_to(&mut self, most: usize) -> usize {
        (self.draw() % (most as u64 + 1)) as usize
    }

    /// Draws a position, of which every second is near zero.
    pub fn position(&mut self) -> usize {
        if self.flip() {
            self.draw() as usize
        } else {
            self.up_to(700)
        }
    }

    pub fn signed_position(&mut self) -> isize {
        let position = self.position() as isize;
        if self.flip() {
            position
        } else {
            position.wrapping_neg()
        }
    }

    /// Draws a number of items: mostly few, sometimes more than the ring may hold.
    pub fn some(&mut self) -> usize {
        let most = if self.draw() % 4 == 0 { self.most } else { 3 };
        self.up_to(most + 2)
    }

    /// Draws how many of `len` items to keep: mostly most of them.
    pub fn kept_of(&mut self, len: usize) -> usize {
        if self.draw() % 8 == 0 {
            self.up_to(len)
        } else {
            len.saturating_sub(self.up_to(2))
        }
    }

    pub fn item<T: Item<'a>>(&mut self) -> T {
        let number = self.draw() % 1000;
        T::make(number, self.tally)
    }

    pub fn items<T: Item<'a>>(&mut self) -> Vec<T> {
        let count = self.some();
        (0..count).map(|_| self.item()).collect()
    }

    /// Notes an answer.
    pub fn note(&mut self, answer: u64) {
        let mixed = (self.digest.rotate_left(5) ^ answer).wrapping_add(1);
        self.digest = mixed.wrapping_mul(0x517c_c1b7_2722_0a95);
    }

    pub fn note_item<T: Item<'a>>(&mut self, item: Option<&T>) {
        self.note(item.map_or(0, |item| item.read().wrapping_add(1)));
    }

    /// Notes an item, and drops it.
    pub fn note_taken<T: Item<'a>>(&mut self, item: Option<T>) {
        self.note_item(item.as_ref());
    }

    pub fn note_each<'i, T: Item<'a> + 'i>(&mut self, items: impl IntoIterator<Item = &'i T>) {
        items.into_iter().for_each(|item| self.note_item(Some(item)));
    }

    /// Notes the items of a ring, and how many they are.
    pub fn note_ring<T: Item<'a>, R: RingBuffer<T>>(&mut self, ring: &R) {
        self.note(ring.len() as u64);
        self.note_each(ring.iter());
    }

    /// Notes the item that is lent, and writes another there.
    pub fn write<T: Item<'a>>(&mut self, place: Option<&mut T>) {
        self.note_item(place.as_deref());
        if let Some(place) = place {
            *place = self.item();
        }
    }
}
