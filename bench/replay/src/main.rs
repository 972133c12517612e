//! Plays the runs that `crates/ring_replay` plays, on the crate's rings, and prints its file of digests.

mod both_ends;
mod bytes;
mod calls;
mod commands;
mod comparing;
mod copies;
mod items;
mod makers;
mod model;
mod picking;
mod player;
mod rings;

use items::{Counted, Item, Tally, Wide};
use model::Model;
use player::{Player, SEED};
use ringbuffer::{AllocRingBuffer, ConstGenericRingBuffer, GrowableAllocRingBuffer};
use rings::Played;
use std::mem::size_of;

/// The capacities of heap rings and of growable rings.
const CAPACITIES: [usize; 16] = [1, 2, 3, 4, 5, 7, 8, 9, 12, 13, 16, 17, 32, 33, 100, 300];

/// Plays a run. Runs are numbered from one.
fn replay<'a, T: Item<'a>, R: Played<'a, T>>(digests: &mut Vec<u32>, tally: &'a Tally, mut ring: R, capacity: usize) {
    let mut player = Player::new(tally, capacity, digests.len() + 1);
    calls::rotate(&mut ring, &mut player);
    for _ in 0..4 {
        for _ in 0..64 {
            for _ in 0..3 {
                calls::play(&mut ring, &mut player);
            }
            T::play_more(&mut ring, &mut player);
        }
        player.note_ring(&ring);
        player.note(tally.count.get());
        player.note(tally.sum.get());
    }
    digests.push(player.digest());
}

/// Plays the runs of a kind of items, on array rings of these capacities.
macro_rules! replay_all {
    ($type:ty, $digests:expr, $($capacity:literal)*) => {
        let tally = Tally::default();
        $(replay::<$type, _>($digests, &tally, ConstGenericRingBuffer::<$type, $capacity>::new(), $capacity);)*
        replay_heap::<$type>($digests, &tally);
    };
}

/// Plays the runs of a kind of items on the heap.
fn replay_heap<'a, T: Item<'a>>(digests: &mut Vec<u32>, tally: &'a Tally) {
    for capacity in CAPACITIES {
        if size_of::<T>() > 0 {
            replay::<T, _>(digests, tally, AllocRingBuffer::new(capacity), capacity);
        } else {
            replay::<T, _>(digests, tally, Model::new(capacity), capacity);
        }
    }
    for capacity in CAPACITIES {
        replay::<T, _>(digests, tally, GrowableAllocRingBuffer::with_capacity(capacity), capacity);
    }
}

fn main() {
    let mut digests = Vec::new();
    replay_all!(u64, &mut digests, 1 3 8 13 33 300);
    replay_all!((), &mut digests, 1 3 8);
    replay_all!(Wide, &mut digests, 1 3 8 33);
    replay_all!(Counted, &mut digests, 1 3 8 13 33);
    replay_all!(u8, &mut digests, 1 8 33 300);

    println!("//! Written by `bench/replay/run`. Do not edit.\n");
    println!("/// Runs are numbered from one. The draws of each begin at this seed and its number.");
    println!("pub const SEED: u64 = {SEED};\n");
    println!("/// The digest of each run, of 1024 calls.");
    println!("pub const DIGESTS: &[u32] = &[");
    digests.iter().for_each(|digest| println!("    {digest:#010x},"));
    println!("];");
}
