//! The calls that copy items, or compare them, which all ring types have.

use crate::items::Item;
use crate::player::Player;
use crate::rings::Played;
use std::fmt::Debug;
use std::hash::Hash;

/// What items are that are copied, compared, hashed and printed too.
pub trait Plain: Copy + Default + Ord + Hash + Debug {}

impl<T: Copy + Default + Ord + Hash + Debug> Plain for T {}

/// Makes a call.
pub fn play_copies<'a, T, R>(ring: &mut R, player: &mut Player<'a>)
where
    T: Item<'a> + Plain,
    R: Played<'a, T> + PartialEq,
{
    let (mut items, item): (Vec<T>, T) = (player.items(), player.item());
    let count = items.len().min(ring.len());
    match player.up_to(6) {
        0 => ring.extend(items),
        1 => {
            items.iter_mut().zip(ring.iter()).for_each(|(place, item)| *place = *item);
            player.note(count as u64);
            player.note_each(&items);
        }
        2 => {
            items.iter_mut().zip(ring.drain()).for_each(|(place, item)| *place = item);
            player.note(count as u64);
            player.note_each(&items);
        }
        3 => player.note(ring.contains(&item) as u64),
        4 => {
            let mut list = ring.to_vec();
            if player.flip() {
                player.write(list.last_mut());
            }
            player.note(ring.iter().eq(&list) as u64);
        }
        5 => {
            let mut twin = ring.clone();
            player.write(twin.lend_signed(-1));
            player.note((twin == *ring) as u64);
            player.note(twin.iter().lt(ring.iter()) as u64);
        }
        _ => {
            let len = ring.len();
            ring.fill_with_defaults();
            ring.as_deque(|items| items.truncate(len));
        }
    }
}
