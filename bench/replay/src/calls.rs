//! The calls of the trait, and of the walks.

use crate::items::Item;
use crate::player::Player;
use crate::rings::Played;
use crate::{both_ends, commands, picking};
use ringbuffer::RingBuffer;

/// Pushes and takes, so that the items may begin at any slot.
pub fn rotate<'a, T: Item<'a>, R: RingBuffer<T>>(ring: &mut R, player: &mut Player<'a>) {
    for _ in 0..player.up_to(player.most * 2) {
        ring.push(player.item());
        ring.skip();
    }
}

/// Makes a call.
pub fn play<'a, T: Item<'a>, R: Played<'a, T>>(ring: &mut R, player: &mut Player<'a>) {
    match player.up_to(13) {
        0..=3 => put(ring, player),
        4..=5 => take(ring, player),
        6 => read(ring, player),
        7 => write(ring, player),
        8 => both_ends::play(ring, player),
        9 => picking::play(ring, player),
        10 => commands::play(ring, player),
        11 => ring.play_makers(player),
        _ => ring.play_own(player),
    }
}

fn put<'a, T: Item<'a>, R: Played<'a, T>>(ring: &mut R, player: &mut Player<'a>) {
    let item = player.item();
    if player.up_to(15) == 0 {
        ring.extend(player.items());
    } else {
        push(ring, item, player);
    }
}

/// Pushes an item, and notes what gives way for it. The crate's pushes return nothing.
pub fn push<'a, T: Item<'a>, R: Played<'a, T>>(ring: &mut R, item: T, player: &mut Player<'a>) {
    let gives_way = R::IS_FIXED && ring.is_full();
    player.note_item(if gives_way { ring.front() } else { None });
    ring.enqueue(item);
}

fn take<'a, T: Item<'a>, R: RingBuffer<T>>(ring: &mut R, player: &mut Player<'a>) {
    match player.up_to(31) {
        0 => ring.clear(),
        1..=4 => {
            let mut walk = ring.drain();
            player.note(walk.size_hint().0 as u64);
            for _ in 0..player.some() {
                player.note_taken(walk.next());
            }
        }
        5..=9 => ring.skip(),
        _ => player.note_taken(ring.dequeue()),
    }
}

fn read<'a, T: Item<'a>, R: RingBuffer<T>>(ring: &R, player: &mut Player<'a>) {
    let (position, signed) = (player.position(), player.signed_position());
    match player.up_to(8) {
        0 => player.note_item(ring.get(position)),
        1 => player.note_item(ring.get_signed(signed)),
        2 => player.note_item(ring.peek()),
        3 => player.note_item(ring.front()),
        4 => player.note_item(ring.back()),
        5 => player.note(ring.is_empty() as u64),
        6 => walk(ring.iter(), ring.len(), player),
        7 => pass(ring, player),
        _ => player.note_each(&ring.to_vec()),
    }
}

/// Takes steps of a walk over this many items, from both ends. The `len` of the crate's walks is one too many after a step
/// from the front.
pub fn walk<'a, 'i, T: Item<'a> + 'i>(
    mut walk: impl DoubleEndedIterator<Item = &'i T>,
    mut left: usize,
    player: &mut Player<'a>,
) {
    for _ in 0..player.some() {
        player.note(left as u64);
        let is_next = player.flip();
        player.note_item(if is_next { walk.next() } else { walk.next_back() });
        left = left.saturating_sub(1);
    }
}

// Passes over items, and goes to the end.
fn pass<'a, T: Item<'a>, R: RingBuffer<T>>(ring: &R, player: &mut Player<'a>) {
    let mut walk = ring.iter();
    let passed = player.some();
    player.note_item(walk.nth(passed));
    if player.flip() {
        player.note(walk.count() as u64);
    } else {
        player.note_item(walk.last());
    }
}

fn write<'a, T: Item<'a>, R: Played<'a, T>>(ring: &mut R, player: &mut Player<'a>) {
    let (position, signed) = (player.position(), player.signed_position());
    match player.up_to(4) {
        0 => player.write(ring.lend(position)),
        1 => player.write(ring.lend_signed(signed)),
        2 => player.write(ring.front_mut()),
        3 => player.write(ring.lend_signed(-1)),
        _ => step(ring, player),
    }
}

// Writes items from both ends. The cursor's `len` is one too many after a step from the front.
fn step<'a, T: Item<'a>, R: RingBuffer<T>>(ring: &mut R, player: &mut Player<'a>) {
    let mut left = ring.len();
    let mut cursor = ring.iter_mut();
    for _ in 0..player.some() {
        player.note(left as u64);
        let is_next = player.flip();
        player.write(if is_next { cursor.next() } else { cursor.next_back() });
        left = left.saturating_sub(1);
    }
}

/// Fills a ring.
pub fn fill<'a, T: Item<'a>, R: RingBuffer<T>>(ring: &mut R, player: &mut Player<'a>) {
    if player.flip() {
        ring.fill(player.item());
        return;
    }
    let mut number = player.draw();
    let tally = player.tally;
    ring.fill_with(|| {
        number = number.wrapping_add(1);
        T::make(number % 1000, tally)
    });
}
