//! Calls that pick items, which the crate lacks: a filter, a search, a change of each item, and walks over a range.

use crate::calls::walk;
use crate::items::Item;
use crate::player::Player;
use crate::rings::Played;
use ringbuffer::RingBuffer;

/// Makes a call that picks items.
pub fn play<'a, T: Item<'a>, R: Played<'a, T>>(ring: &mut R, player: &mut Player<'a>) {
    match player.up_to(5) {
        0 => {
            let bits = 3 << player.up_to(8);
            ring.as_deque(|items| items.retain(|item| item.read() & bits != bits));
        }
        1 => {
            raise(ring, player);
            let sought = player.draw() % 300;
            player.note(ring.iter().take_while(|item| item.rank() < sought).count() as u64);
        }
        2 => ring.iter_mut().for_each(|place| *place = T::make(place.read().wrapping_mul(3) % 1000, player.tally)),
        3 => {
            let bound = player.draw() % 1000;
            let count = ring.iter().take_while(|item| item.rank() < bound).count();
            player.note(count as u64);
            ring.as_deque(|items| drop(items.drain(..count)));
        }
        _ => walk_range(ring, player),
    }
}

/// Writes items in rising order.
pub fn raise<'a, T: Item<'a>, R: RingBuffer<T>>(ring: &mut R, player: &mut Player<'a>) {
    let mut number = player.draw() % 100;
    for place in ring.iter_mut() {
        *place = T::make(number, player.tally);
        number = (number + player.draw() % 3).min(250);
    }
}

// Walks over the items at the indexes of a range, whose bounds may lie past the end.
fn walk_range<'a, T: Item<'a>, R: RingBuffer<T>>(ring: &R, player: &mut Player<'a>) {
    let len = ring.len();
    let (start, end) = (player.up_to(len + 2), player.up_to(len + 2));
    let (start, end) = match player.up_to(3) {
        0 => (start, len),
        1 => (0, end),
        2 => (start, end + 1),
        _ => (start, end),
    };
    let items: Vec<&T> = ring.iter().take(end).skip(start).collect();
    let count = items.len();
    walk(items.into_iter(), count, player);
}
