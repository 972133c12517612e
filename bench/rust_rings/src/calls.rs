//! The calls, each in a loop of its own.

use crate::item::Item;
use crate::ring::{Deque, Ring};
use crate::Case;
use std::collections::hash_map::DefaultHasher;
use std::collections::VecDeque;
use std::hash::{Hash, Hasher};
use std::hint::black_box;

/// Writes functions that make a call again and again, and return the sum of what they found. What they work on is a parameter, so that the
/// compiler may keep a ring's fields in registers. `number` is how often the call was made before, as an item.
macro_rules! loops {
    ($($name:ident<$($kind:ident: $bound:path),*>($($what:ident: $type:ty),*) |$number:ident| $body:expr)*) => {
        $(
            #[inline(never)]
            fn $name<T: Item, $($kind: $bound),*>($($what: $type,)* times: u64) -> u64 {
                let mut sum = 0u64;
                for turn in 0..times {
                    let $number = T::numbered(turn);
                    sum = sum.wrapping_add($body);
                }
                sum
            }
        )*
    };
}

loops! {
    push<R: Ring<T>>(ring: &mut R) |number| found(ring.push(number))
    push_dequeue<R: Ring<T>>(ring: &mut R) |number| {
        ring.push(number);
        found(ring.dequeue())
    }
    try_push_skip<R: Ring<T>>(ring: &mut R) |number| {
        let fits = !ring.is_full();
        if fits {
            ring.push(number);
        }
        ring.skip();
        u64::from(fits)
    }
    get<R: Ring<T>>(ring: &R, count: usize) |_number| (0..count).fold(0, |sum, index| sum ^ found(ring.get(index).copied()))
    get_mut<R: Ring<T>>(ring: &mut R, count: usize) |number| {
        for index in 0..count {
            if let Some(item) = ring.get_mut(index) {
                *item = number;
            }
        }
        0
    }
    get_signed<R: Ring<T>>(ring: &mut R) |number| {
        if let Some(newest) = ring.get_mut_signed(-1) {
            *newest = number;
        }
        found(ring.get_signed(-2).copied())
    }
    front_back<R: Ring<T>>(ring: &mut R) |number| {
        if let Some(oldest) = ring.front_mut() {
            *oldest = number;
        }
        found(ring.front().copied()) ^ found(ring.back().copied())
    }
    contains<R: Ring<T>>(ring: &R) |number| u64::from(ring.contains(&T::numbered(number.number().wrapping_add(1 << 32))))
    iter<R: Ring<T>>(ring: &R) |_number| ring.items().fold(0, |sum: u64, item| sum.rotate_left(1) ^ item.number())
    to_vec<R: Ring<T>>(ring: &R) |_number| black_box(ring.to_vec()).len() as u64
    clone<R: Copied<T>>(ring: &R) |_number| found(black_box(ring.clone()).back().copied())
    clone_into<R: Copied<T>>(ring: &R, other: &mut R) |_number| {
        other.clone_from(ring);
        found(black_box(&*other).back().copied())
    }
    eq<R: Copied<T>>(ring: &R, other: &mut R) |number| {
        if let Some(newest) = other.back_mut() {
            *newest = number;
        }
        u64::from(*ring == *other)
    }
    fill<R: Ring<T>>(ring: &mut R) |number| {
        ring.fill(number);
        0
    }
    clear_extend<R: Ring<T>>(ring: &mut R, items: &[T]) |_number| {
        ring.clear();
        ring.bring(items);
        0
    }
    extend<R: Ring<T>>(ring: &mut R, items: &[T]) |_number| {
        ring.extend(items.iter().copied());
        0
    }
    // A source that promises a half, and gives all.
    extend_more<R: Ring<T>>(ring: &mut R, items: &[T]) |_number| {
        let (first, second) = items.split_at(items.len() / 2);
        let some = second.iter().copied().filter(|item| item.number() != 255);
        ring.extend(first.iter().copied().chain(some));
        0
    }
    drain_extend<R: Ring<T>>(ring: &mut R, items: &[T]) |_number| {
        let sum = ring.drained().fold(0, |sum, item| sum ^ item.number());
        ring.bring(items);
        sum
    }
    bring<R: Ring<T>>(ring: &mut R, items: &[T]) |_number| {
        ring.bring(items);
        0
    }
    copy<R: Ring<T>>(ring: &R, output: &mut [T]) |_number| ring.copy(black_box(&mut *output)) as u64
    take_in<R: Ring<T>>(ring: &mut R, items: &[T], output: &mut [T]) |_number| {
        let taken = ring.take(output) as u64;
        ring.bring(items);
        taken
    }
}

loops! {
    push_pop_back<>(ring: &mut Deque<T>) |number| {
        ring.push(number);
        found(ring.items.pop_back())
    }
    push_front<>(ring: &mut Deque<T>) |number| {
        let old = if ring.is_full() { ring.items.pop_back() } else { None };
        ring.items.push_front(number);
        found(old)
    }
    point<>(items: &VecDeque<T>, oldest: u64) |number| {
        let least = wanted(number.number(), oldest, items.len());
        items.partition_point(|item| item.number() < least) as u64
    }
    search<>(items: &VecDeque<T>) |number| {
        let item = T::numbered(number.number().wrapping_mul(0x9E37_79B9_7F4A_7C15) >> 54);
        items.binary_search(&item).unwrap_or(0) as u64
    }
    eq_slice<>(items: &VecDeque<T>, other: &mut Vec<T>) |number| {
        if let Some(newest) = other.last_mut() {
            *newest = number;
        }
        u64::from(*items == *other)
    }
    order<>(items: &VecDeque<T>, other: &mut VecDeque<T>) |number| {
        if let Some(newest) = other.back_mut() {
            *newest = number;
        }
        u64::from(*items < *other)
    }
    hash<>(items: &VecDeque<T>) |_number| {
        let mut state = DefaultHasher::new();
        items.hash(&mut state);
        state.finish()
    }
    map_each<>(items: &mut VecDeque<T>) |number| {
        items.iter_mut().for_each(|item| *item = T::numbered(item.number() ^ number.number()));
        0
    }
    retain_push<>(ring: &mut Deque<T>, held: usize) |number| {
        ring.items.retain(|item| item.number() % 8 != number.number() % 8);
        for _ in ring.len()..held {
            ring.push(number);
        }
        0
    }
    remove_insert<>(items: &mut VecDeque<T>, index: usize) |number| {
        let item = found(items.remove(index));
        if index <= items.len() {
            items.insert(index, number);
        }
        item
    }
    swap<>(items: &mut VecDeque<T>, index: usize) |_number| {
        items.swap(0, black_box(index));
        0
    }
    rotate_left<>(items: &mut VecDeque<T>, count: usize) |_number| {
        items.rotate_left(count);
        0
    }
    truncate_in<>(ring: &mut Deque<T>, items: &[T], kept: usize) |_number| {
        ring.items.truncate(kept);
        ring.bring(items);
        0
    }
    keep_newest_in<>(ring: &mut Deque<T>, items: &[T], kept: usize) |_number| {
        ring.items.drain(..ring.items.len().saturating_sub(kept));
        ring.bring(items);
        0
    }
    remove_range_extend<>(ring: &mut Deque<T>, items: &[T]) |_number| {
        ring.items.drain(1..=items.len());
        ring.bring(items);
        0
    }
    drain_range_in<>(ring: &mut Deque<T>, items: &[T]) |_number| {
        let taken: Vec<T> = ring.items.drain(1..=items.len()).collect();
        ring.bring(items);
        black_box(taken).len() as u64
    }
    split_off_in<>(ring: &mut Deque<T>, items: &[T]) |_number| {
        let newest = ring.items.split_off(ring.items.len().saturating_sub(items.len()));
        ring.bring(items);
        black_box(newest).len() as u64
    }
    in_contiguous<>(ring: &mut Deque<T>, items: &[T]) |_number| {
        ring.bring(items);
        found(ring.items.make_contiguous().last().copied())
    }
    turn_contiguous<>(items: &mut VecDeque<T>, count: usize) |_number| {
        items.rotate_left(count);
        found(items.make_contiguous().last().copied())
    }
}

/// A ring that can be cloned and compared.
pub trait Copied<T: Item>: Ring<T> + Clone + PartialEq {}

impl<T: Item, R: Ring<T> + Clone + PartialEq> Copied<T> for R {}

/// Makes a call that every ring has, and returns what it found, as a number.
pub fn any<T: Item, R: Copied<T>>(mut ring: R, case: &Case) -> Option<u64> {
    prepare(&mut ring, case);
    let ring = &mut ring;
    let items = &case.block::<T>()[..];
    let output = &mut case.block::<T>()[..];
    let (count, times) = (case.count, case.times);
    Some(match case.call.as_str() {
        "push" => push(ring, times),
        "push_dequeue" => push_dequeue(ring, times),
        "try_push_skip" => try_push_skip(ring, times),
        "get" => get(ring, count, times),
        "get_mut" => get_mut(ring, count, times),
        "get_signed" => get_signed(ring, times),
        "front_back" => front_back(ring, times),
        "contains" => contains(ring, times),
        "iter" => iter(ring, times),
        "to_vec" | "to_vec_copied" => to_vec(ring, times),
        "clone" => clone(ring, times),
        "clone_into" | "copy_into" => clone_into(ring, &mut ring.clone(), times),
        "eq" => eq(ring, &mut ring.clone(), times),
        "fill" => fill(ring, times),
        "clear_extend" => clear_extend(ring, items, times),
        "extend" => extend(ring, items, times),
        "extend_more" => extend_more(ring, items, times),
        "drain_extend" => drain_extend(ring, items, times),
        "in" | "clones_in" => bring(ring, items, times),
        "copy" => copy(ring, output, times),
        "take_in" => take_in(ring, items, output, times),
        _ => return None,
    })
}

/// Makes a call of a `VecDeque`, and returns what it found, as a number.
pub fn deque<T: Item>(mut ring: Deque<T>, case: &Case) -> Option<u64> {
    prepare(&mut ring, case);
    let items = &case.block::<T>()[..];
    let (count, held, times) = (case.count, case.held, case.times);
    let kept = held.saturating_sub(count);
    let oldest = found(ring.front().copied());
    Some(match case.call.as_str() {
        "push_pop_back" => push_pop_back(&mut ring, times),
        "push_front" => push_front(&mut ring, times),
        "partition_point" => point(&ring.items, oldest, times),
        "binary_search" => search(&ring.items, times),
        "eq_slice" => eq_slice(&ring.items, &mut ring.to_vec(), times),
        "order" => order(&ring.items, &mut ring.items.clone(), times),
        "hash" => hash(&ring.items, times),
        "map_each" => map_each(&mut ring.items, times),
        "retain_push" => retain_push(&mut ring, held, times),
        "remove_insert" => remove_insert(&mut ring.items, count, times),
        "swap" => swap(&mut ring.items, count, times),
        "rotate_left" => rotate_left(&mut ring.items, count, times),
        "truncate_in" => truncate_in(&mut ring, items, kept, times),
        "keep_newest_in" => keep_newest_in(&mut ring, items, kept, times),
        "remove_range_extend" => remove_range_extend(&mut ring, items, times),
        "drain_range_in" => drain_range_in(&mut ring, items, times),
        "split_off_in" => split_off_in(&mut ring, items, times),
        "in_contiguous" => in_contiguous(&mut ring, items, times),
        "turn_contiguous" => turn_contiguous(&mut ring.items, count, times),
        _ => return any(ring, case),
    })
}

/// Brings the first items to a ring.
pub fn prepare<T: Item>(ring: &mut impl Ring<T>, case: &Case) {
    for number in 0..case.start as u64 {
        ring.push(T::numbered(number));
        ring.dequeue();
    }
    for number in 0..case.held as u64 {
        ring.push(T::numbered(number));
    }
}

#[inline]
fn found<T: Item>(item: Option<T>) -> u64 {
    item.map_or(0, |item| item.number())
}

/// Returns a number that is looked for. The bits are mixed twice, so that no branch on what a search finds is foretold.
#[inline]
fn wanted(number: u64, oldest: u64, len: usize) -> u64 {
    let once = number.wrapping_mul(0x9E37_79B9_7F4A_7C15);
    let twice = (once ^ (once >> 32)).wrapping_mul(0xD6E8_FEB8_6659_FD93);
    oldest.wrapping_add((twice >> 40).wrapping_mul(len as u64) >> 24)
}
