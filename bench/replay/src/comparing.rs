//! Calls that compare rings, hash them, and print them. A `Vec` answers those that the crate lacks, and what it prints.

use crate::copies::Plain;
use crate::items::Item;
use crate::picking::raise;
use crate::player::Player;
use crate::rings::Played;
use ringbuffer::RingBuffer;
use std::cmp::Ordering;
use std::hash::{DefaultHasher, Hash, Hasher};

/// Makes a call.
pub fn play<'a, T: Item<'a> + Plain, R: Played<'a, T> + PartialEq>(ring: &mut R, player: &mut Player<'a>) {
    match player.up_to(3) {
        0 => search(ring, player),
        1 => {
            let mut twin = ring.clone();
            if player.flip() {
                twin.skip();
            }
            let position = player.position();
            player.write(twin.lend(position));
            compare(&twin, ring, player);
        }
        2 => {
            let mut hasher = DefaultHasher::new();
            ring.to_vec().hash(&mut hasher);
            player.note(hasher.finish());
        }
        _ => {
            let items: Vec<&T> = ring.iter().skip(ring.len().saturating_sub(3)).collect();
            let text = format!("{items:?} {items:#?}");
            text.bytes().for_each(|byte| player.note(u64::from(byte)));
        }
    }
}

// Searches among items that rise, and finds the first of equal ones.
fn search<'a, T: Item<'a> + Plain, R: Played<'a, T>>(ring: &mut R, player: &mut Player<'a>) {
    raise(ring, player);
    let sought = T::make(player.draw() % 250, player.tally);
    let index = ring.iter().take_while(|item| **item < sought).count();
    let is_found = index < ring.len() && ring[index] == sought;
    player.note(if is_found { index as u64 } else { !(index as u64) });
}

/// Notes how one ring compares to another: of fixed rings the capacity comes first.
pub fn compare<'a, T: Item<'a> + Plain, R: Played<'a, T> + PartialEq>(one: &R, other: &R, player: &mut Player<'a>) {
    let capacities = if R::IS_FIXED { one.capacity().cmp(&other.capacity()) } else { Ordering::Equal };
    let order = capacities.then_with(|| one.iter().cmp(other.iter()));
    let number = match order {
        Ordering::Less => 1,
        Ordering::Equal => 2,
        Ordering::Greater => 3,
    };
    player.note((one == other) as u64);
    player.note(order.is_le() as u64);
    player.note(number);
    player.note(number);
}
