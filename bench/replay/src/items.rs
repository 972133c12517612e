//! The kinds of items, each made of a number.

use crate::bytes;
use crate::calls::play;
use crate::player::Player;
use crate::rings::Played;
use std::cell::Cell;

/// An item that is made of a number.
pub trait Item<'a>: Clone {
    fn make(number: u64, tally: &'a Tally) -> Self;

    /// Reads all of the item.
    fn read(&self) -> u64;

    /// Returns what grows with the number, of numbers up to 250.
    fn rank(&self) -> u64 {
        self.read()
    }

    /// Makes a call that copies or compares items, where they can be, and otherwise any.
    fn play_more<R: Played<'a, Self>>(ring: &mut R, player: &mut Player<'a>) {
        play(ring, player);
    }
}

impl<'a> Item<'a> for u64 {
    fn make(number: u64, _tally: &'a Tally) -> u64 {
        number
    }

    fn read(&self) -> u64 {
        *self
    }

    fn play_more<R: Played<'a, u64>>(ring: &mut R, player: &mut Player<'a>) {
        ring.play_copies(player);
    }
}

impl<'a> Item<'a> for () {
    fn make(_number: u64, _tally: &'a Tally) {}

    fn read(&self) -> u64 {
        1
    }

    fn play_more<R: Played<'a, ()>>(ring: &mut R, player: &mut Player<'a>) {
        ring.play_copies(player);
    }
}

impl<'a> Item<'a> for u8 {
    fn make(number: u64, _tally: &'a Tally) -> u8 {
        (number % 256) as u8
    }

    fn read(&self) -> u64 {
        u64::from(*self)
    }

    fn play_more<R: Played<'a, u8>>(ring: &mut R, player: &mut Player<'a>) {
        if player.flip() {
            ring.play_copies(player);
        } else {
            bytes::play(ring, player);
        }
    }
}

impl<'a> Item<'a> for char {
    fn make(number: u64, _tally: &'a Tally) -> char {
        char::from_u32((number % 1000) as u32 * 120).unwrap_or('?')
    }

    fn read(&self) -> u64 {
        u64::from(*self)
    }
}

/// An item of 320 bytes.
#[derive(Clone, Copy, Debug, PartialEq, Eq, PartialOrd, Ord, Hash)]
pub struct Wide {
    words: [u64; 40],
}

impl Default for Wide {
    fn default() -> Wide {
        Wide { words: [0; 40] }
    }
}

impl<'a> Item<'a> for Wide {
    fn make(number: u64, _tally: &'a Tally) -> Wide {
        Wide { words: std::array::from_fn(|i| number.wrapping_mul(i as u64)) }
    }

    fn read(&self) -> u64 {
        self.words.iter().fold(0, |read: u64, word| read.wrapping_mul(31).wrapping_add(*word))
    }

    fn rank(&self) -> u64 {
        self.words[1]
    }

    fn play_more<R: Played<'a, Wide>>(ring: &mut R, player: &mut Player<'a>) {
        ring.play_copies(player);
    }
}

/// Counts items until they are dropped, and adds up their numbers.
#[derive(Default)]
pub struct Tally {
    pub count: Cell<u64>,
    pub sum: Cell<u64>,
}

/// An item that a tally counts.
pub struct Counted<'a> {
    number: u64,
    tally: &'a Tally,
}

impl<'a> Item<'a> for Counted<'a> {
    fn make(number: u64, tally: &'a Tally) -> Counted<'a> {
        tally.count.set(tally.count.get() + 1);
        tally.sum.set(tally.sum.get() + number);
        Counted { number, tally }
    }

    fn read(&self) -> u64 {
        self.number
    }
}

impl<'a> Clone for Counted<'a> {
    fn clone(&self) -> Counted<'a> {
        Counted::make(self.number, self.tally)
    }
}

impl Drop for Counted<'_> {
    fn drop(&mut self) {
        self.tally.count.set(self.tally.count.get() - 1);
        self.tally.sum.set(self.tally.sum.get() - self.number);
    }
}
