//! Calls by the port's traits of both ends. A `VecDeque` answers those at the newest end.

use crate::items::Item;
use crate::player::Player;
use crate::rings::Played;
use std::collections::VecDeque;

/// Makes a call.
pub fn play<'a, T: Item<'a>, R: Played<'a, T>>(ring: &mut R, player: &mut Player<'a>) {
    match player.up_to(10) {
        0 => {
            let (is_full, item) = (R::IS_FIXED && ring.is_full(), player.item());
            player.note_taken(ring.as_deque(|items| {
                let old = if is_full { items.pop_back() } else { None };
                items.push_front(item);
                old
            }));
        }
        1 => player.note_taken(ring.as_deque(|items| items.pop_back())),
        2 => {
            let kept = player.kept_of(ring.len());
            ring.as_deque(|items| items.truncate(kept));
        }
        3 => {
            let kept = player.kept_of(ring.len());
            ring.as_deque(|items| drop(items.drain(..items.len() - kept)));
        }
        4 => ring.extend(player.items()),
        5 => ring.as_deque(|items| take(items, player)),
        6 => take(&mut ring.clone().into_iter().collect(), player),
        7 => take_out(ring, player),
        _ => play_middle(ring, player),
    }
}

// Makes a call at an index, or of a range.
fn play_middle<'a, T: Item<'a>, R: Played<'a, T>>(ring: &mut R, player: &mut Player<'a>) {
    let is_full = R::IS_FIXED && ring.is_full();
    let len = ring.len();
    let (item, index) = (player.item(), player.up_to(len));
    match player.up_to(6) {
        0 | 1 if is_full => player.note_taken(Some(item)),
        0 => {
            ring.push(item);
            player.note_taken(None::<T>);
        }
        1 => {
            ring.as_deque(|items| items.insert(index, item));
            player.note_taken(None::<T>);
        }
        2 => player.note_taken(ring.as_deque(|items| items.remove(index))),
        3 => ring.as_deque(|items| items.rotate_left(index)),
        4 => ring.as_deque(|items| items.rotate_right(index)),
        5 => {
            let other = player.up_to(len);
            if index.max(other) < len {
                ring.as_deque(|items| items.swap(index, other));
            }
        }
        _ => {
            let end = player.up_to(len + 2).min(len).max(index);
            ring.as_deque(|items| drop(items.drain(index..end)));
        }
    }
}

// Takes out all items, those from an index on, or those of a range.
fn take_out<'a, T: Item<'a>, R: Played<'a, T>>(ring: &mut R, player: &mut Player<'a>) {
    let len = ring.len();
    let index = player.up_to(len);
    let taken = match player.up_to(2) {
        0 => ring.as_deque(std::mem::take),
        1 => ring.as_deque(|items| items.split_off(index)),
        _ => {
            let end = player.up_to(len + 2).min(len).max(index);
            ring.as_deque(|items| items.drain(index..end).collect())
        }
    };
    player.note_each(&taken);
}

// Takes items from both ends, as a walk hands them out.
fn take<'a, T: Item<'a>>(items: &mut VecDeque<T>, player: &mut Player<'a>) {
    for _ in 0..player.some() {
        player.note(items.len() as u64);
        let is_next = player.flip();
        player.note_taken(if is_next { items.pop_front() } else { items.pop_back() });
    }
}
