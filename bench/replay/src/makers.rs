//! Rings that are made of other collections, and of each other. A `VecDeque` answers where the crate would make a
//! heap ring of no bytes.

use crate::calls::push;
use crate::items::Item;
use crate::model::Model;
use crate::player::Player;
use crate::rings::Played;
use ringbuffer::{AllocRingBuffer, ConstGenericRingBuffer, GrowableAllocRingBuffer, RingBuffer};
use std::collections::{LinkedList, VecDeque};
use std::mem::size_of;

/// Pushes onto a ring that was made, and notes what it then holds.
pub fn try_out<'a, T: Item<'a>, R: Played<'a, T>>(mut ring: R, player: &mut Player<'a>) {
    let item = player.item();
    push(&mut ring, item, player);
    player.note_ring(&ring);
}

// Tries out a heap ring that is made of a source.
fn try_on_heap<'a, T: Item<'a>, S>(source: S, player: &mut Player<'a>)
where
    AllocRingBuffer<T>: From<S>,
    Model<T>: From<S>,
{
    if size_of::<T>() > 0 {
        try_out(AllocRingBuffer::from(source), player);
    } else {
        try_out(Model::from(source), player);
    }
}

// Draws a linked list.
fn list<'a, T: Item<'a>>(player: &mut Player<'a>) -> LinkedList<T> {
    player.items().into_iter().collect()
}

// Makes an array ring of the items of a heap ring of capacity 7.
fn of_heap<'a, T: Item<'a>, const CAP: usize>(player: &mut Player<'a>) -> ConstGenericRingBuffer<T, CAP> {
    let items = player.items();
    if size_of::<T>() > 0 {
        let mut ring = AllocRingBuffer::new(7);
        ring.extend(items);
        ring.into()
    } else {
        let mut ring = Model::new(7);
        ring.extend(items);
        ring.into()
    }
}

/// Makes an array ring, or another ring of one.
pub fn play_array<'a, T: Item<'a>, const CAP: usize>(
    ring: &mut ConstGenericRingBuffer<T, CAP>,
    player: &mut Player<'a>,
) {
    match player.up_to(9) {
        0 if ring.is_empty() => {}
        0 => try_on_heap(ring.clone(), player),
        1 => try_out(GrowableAllocRingBuffer::from(ring.clone()), player),
        2 => *ring = list(player).into(),
        3 => *ring = of_heap(player),
        4 => *ring = player.items().into_iter().collect(),
        5 => *ring = player.items().into(),
        6 => *ring = VecDeque::from(player.items()).into(),
        7 => *ring = player.items().as_slice().into(),
        8 => *ring = player.items().as_mut_slice().into(),
        _ => *ring = GrowableAllocRingBuffer::from(player.items()).into(),
    }
}

/// Makes a heap ring, or another ring of one.
pub fn play_heap<'a, T: Item<'a>, R: Played<'a, T>>(ring: &mut R, player: &mut Player<'a>)
where
    R: Into<GrowableAllocRingBuffer<T>>,
    R: From<Vec<T>> + From<VecDeque<T>> + From<LinkedList<T>>,
    R: for<'s> From<&'s [T]> + for<'s> From<&'s mut [T]>,
{
    let call = player.up_to(5);
    if call == 0 {
        try_out::<T, GrowableAllocRingBuffer<T>>(ring.clone().into(), player);
        return;
    }
    let mut items: Vec<T> = player.items();
    if items.is_empty() {
        return;
    }
    let made = match call {
        1 => R::from(LinkedList::from_iter(items)),
        2 => R::from(items),
        3 => R::from(VecDeque::from(items)),
        4 => R::from(items.as_slice()),
        _ => R::from(items.as_mut_slice()),
    };
    try_out(made, player);
}

/// Makes a growable ring, or another ring of one.
pub fn play_growable<'a, T: Item<'a>>(ring: &mut GrowableAllocRingBuffer<T>, player: &mut Player<'a>) {
    match player.up_to(5) {
        0 if ring.is_empty() => {}
        0 => try_on_heap(ring.clone(), player),
        1 => *ring = list(player).into(),
        2 => *ring = player.items().into_iter().collect(),
        3 => *ring = player.items().into(),
        4 => *ring = player.items().as_slice().into(),
        _ => *ring = player.items().as_mut_slice().into(),
    }
}
