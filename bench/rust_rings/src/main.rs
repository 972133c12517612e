//! `rust-rings (RING ITEM CALL COUNT HELD START TIMES)..`: makes the calls of the crate `ring_costs` on the Rust crate's rings and on
//! std's `VecDeque`, for a counter of instructions.
//!
//! RING is `array`, `heap` or `grow` of the Rust crate, or `deque` or `growing_deque`. A ring that has no such call ends the program
//! with status 3.

mod calls;
mod item;
mod pipe;
mod ring;

use item::Item;
use ring::Deque;
use ringbuffer::{AllocRingBuffer, ConstGenericRingBuffer, GrowableAllocRingBuffer};
use std::hint::black_box;

const CAPACITY: usize = 1000;

/// A call, by blocks of `count` items, on a ring of `held` items, whose first lies `start` places on.
pub struct Case {
    pub call: String,
    pub count: usize,
    pub held: usize,
    pub start: usize,
    pub times: u64,
}

impl Case {
    fn of(words: &[String]) -> Case {
        let number = |place: usize| words[place].parse().expect("a number");
        Case {
            call: words[2].clone(),
            count: number(3),
            held: number(4),
            start: number(5),
            times: number(6) as u64,
        }
    }

    /// Items to put in by one call.
    pub fn block<T: Item>(&self) -> Vec<T> {
        (0..self.count as u64).map(T::numbered).collect()
    }
}

/// Stands between two cases, for the counter.
#[inline(never)]
fn mark_case(found: &mut u64) {
    *found = found.wrapping_mul(31);
    black_box(found);
}

fn run(ring: &str, item: &str, case: &Case) -> Option<u64> {
    match item {
        "u8" if pipe::has(&case.call) => pipe::run(ring, case),
        "u8" => on::<u8>(ring, case),
        "u64" => on::<u64>(ring, case),
        "b16" => on::<[u64; 2]>(ring, case),
        _ => on::<[u64; 8]>(ring, case),
    }
}

fn on<T: Item>(ring: &str, case: &Case) -> Option<u64> {
    match ring {
        "array" => calls::any(ConstGenericRingBuffer::<T, CAPACITY>::new(), case),
        "heap" => calls::any(AllocRingBuffer::<T>::new(CAPACITY), case),
        "grow" => calls::any(GrowableAllocRingBuffer::<T>::new(), case),
        "deque" => calls::deque(Deque::<T>::with_capacity(CAPACITY), case),
        _ => calls::deque(Deque::<T>::growing(), case),
    }
}

fn main() {
    let words: Vec<String> = std::env::args().skip(1).collect();
    let mut found = 1u64;
    for case in words.chunks_exact(7) {
        mark_case(&mut found);
        let Some(answer) = run(&case[0], &case[1], &Case::of(case)) else {
            std::process::exit(3);
        };
        found = found.wrapping_add(answer);
    }
    mark_case(&mut found);
    println!("done {found}");
}
