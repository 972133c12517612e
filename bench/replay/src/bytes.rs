//! Calls of rings of bytes as readers and writers, which the crate lacks, and rings of characters that are made of texts.

use crate::makers::try_out;
use crate::player::Player;
use crate::rings::Played;

/// Makes a call.
pub fn play<'a, R: Played<'a, u8>>(ring: &mut R, player: &mut Player<'a>) {
    match player.up_to(11) {
        0 => play_text::<R>(player),
        1 if R::IS_FIXED => keep_last(ring, player),
        2 => play_three::<R>(player),
        _ => play_stream(ring, player),
    }
}

// Makes a ring of characters, if there are any: one on the heap has no capacity where there are none.
fn play_text<'a, R: Played<'a, u8>>(player: &mut Player<'a>) {
    let text: String = player.items::<char>().into_iter().collect();
    if text.is_empty() {
        return;
    }
    let made = if player.flip() { R::Letters::from(text.as_str()) } else { R::Letters::from(text) };
    try_out(made, player);
}

// Makes a ring of an array of bytes.
fn play_three<'a, R: Played<'a, u8>>(player: &mut Player<'a>) {
    let mut bytes: [u8; 3] = std::array::from_fn(|_| player.item());
    let made = match player.up_to(2) {
        0 => R::Three::from(bytes),
        1 => R::Three::from(&bytes),
        _ => R::Three::from(&mut bytes),
    };
    try_out(made, player);
}

// Pushes bytes that a writer keeps the newest of.
fn keep_last<'a, R: Played<'a, u8>>(ring: &mut R, player: &mut Player<'a>) {
    for _ in 0..2 {
        let bytes: Vec<u8> = player.items();
        player.note(bytes.len() as u64);
        ring.extend(bytes);
    }
    player.note_ring(ring);
}

// Takes out the oldest bytes.
fn take<'a, R: Played<'a, u8>>(ring: &mut R, count: usize) -> Vec<u8> {
    ring.drain().take(count).collect()
}

// Puts in the bytes that fit, and returns how many.
fn put<'a, R: Played<'a, u8>>(ring: &mut R, bytes: &[u8]) -> usize {
    let room = if R::IS_FIXED { ring.capacity() - ring.len() } else { usize::MAX };
    let count = bytes.len().min(room);
    ring.extend(bytes[..count].iter().copied());
    count
}

// Makes a call of a reader or a writer.
fn play_stream<'a, R: Played<'a, u8>>(ring: &mut R, player: &mut Player<'a>) {
    let mut bytes: Vec<u8> = player.items();
    let (count, call) = (bytes.len(), player.up_to(8));
    match call {
        0 | 1 => {
            let read = take(ring, count);
            bytes[..read.len()].copy_from_slice(&read);
            player.note(if call == 0 { read.len() as u64 } else { (read.len() == count) as u64 });
        }
        2 | 3 => {
            let end: Option<u8> = if call == 2 { Some(player.item()) } else { None };
            let line = ring.iter().position(|byte| Some(*byte) == end);
            let read = take(ring, line.map_or(usize::MAX, |line| line + 1));
            player.note(read.len() as u64);
            bytes.extend(read);
        }
        4 => {
            player.note_item(ring.front());
            player.note(1);
            take(ring, player.some());
            return;
        }
        5 => player.note(put(ring, &bytes) as u64),
        7 => {
            let number = player.draw() % 1000;
            let text = format!("{number}r{number}");
            player.note((put(ring, text.as_bytes()) == text.len()) as u64);
        }
        _ => player.note((put(ring, &bytes) == count) as u64),
    }
    player.note_each(&bytes);
}
