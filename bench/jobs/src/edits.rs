//! Histories, queues and lists that change at both ends and in the middle, and runs of commands.

use crate::bounded::Bounded;
use crate::commands::{run as run_commands, run_into, Command, Reply};
use crate::digest::Digest;
use crate::overwriting::Overwriting;
use crate::random::Random;
use ringbuffer::{AllocRingBuffer, ConstGenericRingBuffer, GrowableAllocRingBuffer, RingBuffer};
use std::collections::VecDeque;

/// How many commands a run has.
const COMMANDS: usize = 2048;

/// What an editor can take back.
#[derive(Clone, Copy)]
struct Change {
    at: [u64; 4],
    text: [u64; 4],
}

/// Edits rings of each kind `rounds` times, and returns a digest of what came out.
pub fn run(seed: u64, rounds: u32) -> u64 {
    let mut random = Random::new(seed);
    let mut digest = Digest::new();
    let mut large = Bounded::new(65536);
    let mut times = Bounded::new(65536);
    let mut small = Bounded::new(1000);
    let mut list = Bounded::growable();
    let mut history = Bounded::new(1000);
    let mut heap = AllocRingBuffer::new(1000);
    let mut array = ConstGenericRingBuffer::<u64, 100>::new();
    let mut queue = GrowableAllocRingBuffer::new();
    let mut replies: Vec<Option<Reply<u64>>> = (0..COMMANDS).map(|_| None).collect();
    refill(&mut large, 65536, &mut random, &mut digest);
    refill(&mut small, 1000, &mut random, &mut digest);
    refill(&mut list, 20000, &mut random, &mut digest);
    let mut now = 0;
    for round in 0..rounds {
        exchange(&mut large.items, 8, &mut random, &mut digest);
        exchange(&mut small.items, 128, &mut random, &mut digest);
        exchange(&mut list.items, 16, &mut random, &mut digest);
        turn(&mut small.items, &mut random, &mut digest);
        cut(&mut small.items, &mut random, &mut digest);
        refill(&mut small, 20, &mut random, &mut digest);
        if round % 16 == 0 {
            turn(&mut large.items, &mut random, &mut digest);
            cut(&mut large.items, &mut random, &mut digest);
            keep_most(&mut large.items, &mut random, &mut digest);
            refill(&mut large, 20000, &mut random, &mut digest);
            digest_items(large.items.iter(), &mut digest);
            digest_items(list.items.iter(), &mut digest);
            digest_items(times.items.iter(), &mut digest);
        }
        keep_most(&mut small.items, &mut random, &mut digest);
        refill(&mut small, 100, &mut random, &mut digest);
        now = find_times(&mut times, now, &mut random, &mut digest);
        undo_some(&mut history, &mut random, &mut digest);
        work_both_ends(&mut list, &mut random, &mut digest);
        work_both_ends(&mut small, &mut random, &mut digest);
        run_all(&mut heap, &mut random, &mut digest);
        run_all(&mut queue, &mut random, &mut digest);
        run_in_place(&mut array, &mut replies, &mut random, &mut digest);
        keep_newest(&mut queue, 5000);
        digest_items(small.items.iter(), &mut digest);
        digest_items(array.iter(), &mut digest);
        digest_items(heap.iter(), &mut digest);
        digest_items(queue.iter(), &mut digest);
    }
    digest.value()
}

/// Pushes so many random numbers.
fn refill(ring: &mut Bounded<u64>, count: usize, random: &mut Random, digest: &mut Digest) {
    for _ in 0..count {
        digest.add_option(ring.push(random.number()));
    }
}

/// Adds each item of a walk over a ring to the digest.
#[inline(never)]
fn digest_items<'a>(items: impl ExactSizeIterator<Item = &'a u64>, digest: &mut Digest) {
    let mut digested = *digest;
    digested.add(items.len() as u64);
    items.for_each(|item| digested.add(*item));
    *digest = digested;
}

/// Takes items out at random indexes, and puts others in.
#[inline(never)]
fn exchange(ring: &mut VecDeque<u64>, count: u32, random: &mut Random, digest: &mut Digest) {
    for _ in 0..count {
        let from = random.below(65536);
        let to = random.below(65536);
        // One leaves before another comes, so that the capacity is kept.
        if !ring.is_empty() {
            digest.add_option(ring.remove(from % ring.len()));
        }
        ring.insert(to.min(ring.len()), random.number());
    }
}

/// Turns a ring by a random number of items, and swaps some.
#[inline(never)]
fn turn(ring: &mut VecDeque<u64>, random: &mut Random, digest: &mut Digest) {
    let count = random.below(65536);
    if count <= ring.len() {
        ring.rotate_left(count);
    } else {
        ring.rotate_right(ring.len() / 3);
    }
    for _ in 0..16 {
        let i = random.below(1000);
        let j = random.below(1000);
        if i < ring.len() && j < ring.len() {
            ring.swap(i, j);
        }
    }
    digest.add_option(ring.front().copied());
}

/// Drops some items in the middle.
#[inline(never)]
fn cut(ring: &mut VecDeque<u64>, random: &mut Random, digest: &mut Digest) {
    let from = random.below(1000);
    ring.drain(from.min(ring.len())..(from + 20).min(ring.len()));
    digest.add(ring.len() as u64);
}

/// Drops about one item in eight.
#[inline(never)]
fn keep_most(ring: &mut VecDeque<u64>, random: &mut Random, digest: &mut Digest) {
    let dropped = random.number() % 8;
    ring.retain(|item| *item % 8 != dropped);
    digest.add(ring.len() as u64);
}

/// Pushes times that rise, and searches for some. Returns the last.
#[inline(never)]
fn find_times(times: &mut Bounded<u64>, now: u64, random: &mut Random, digest: &mut Digest) -> u64 {
    let mut now = now;
    for _ in 0..512 {
        now = now.wrapping_add(random.below(100) as u64);
        digest.add_option(times.push(now));
    }
    for _ in 0..128 {
        let time = now.wrapping_sub(random.below(4000000) as u64);
        // The first of equal times, where `binary_search` finds any.
        let index = times.items.partition_point(|other| *other < time);
        if times.items.get(index) == Some(&time) {
            digest.add(index as u64);
        } else {
            digest.add(!(index as u64));
        }
    }
    now
}

/// Records changes, and takes some back.
#[inline(never)]
fn undo_some(history: &mut Bounded<Change>, random: &mut Random, digest: &mut Digest) {
    for _ in 0..64 {
        for _ in 0..random.below(12) {
            let number = random.number();
            history.push(Change { at: [number; 4], text: [!number; 4] });
        }
        for _ in 0..random.below(10) {
            if let Some(change) = history.items.pop_back() {
                digest.add_each(&change.at);
                digest.add_each(&change.text);
            }
        }
    }
}

/// Puts items in at both ends, and takes as many out at both.
#[inline(never)]
fn work_both_ends(ring: &mut Bounded<u64>, random: &mut Random, digest: &mut Digest) {
    for _ in 0..256 {
        let number = random.number();
        digest.add_option(ring.push_front(number));
        digest.add_option(ring.items.pop_back());
        digest.add_option(ring.push(number));
        digest.add_option(ring.items.pop_front());
    }
}

/// Makes commands: most are pushes and dequeues, some extensions, few clear.
fn commands(random: &mut Random) -> Vec<Command<u64>> {
    let mut commands = Vec::with_capacity(COMMANDS);
    for _ in 0..COMMANDS {
        let number = random.number();
        commands.push(match random.below(512) {
            0 => Command::Clear,
            1..8 => Command::Extend(vec![number; 20]),
            8..100 => Command::Skip,
            100..200 => Command::Dequeue,
            _ => Command::Push(number),
        });
    }
    commands
}

/// Adds what a reply hands back to the digest.
fn digest_reply(reply: &Reply<u64>, digest: &mut Digest) {
    match reply {
        Reply::Pushed(old) => digest.add_option(*old),
        Reply::Dequeued(item) => digest.add_option(*item),
        Reply::Extended => digest.add(1),
        Reply::Skipped => digest.add(2),
        Reply::Cleared => digest.add(3),
    }
}

/// Runs commands, with a vector of their replies.
#[inline(never)]
fn run_all<R: Overwriting<u64>>(ring: &mut R, random: &mut Random, digest: &mut Digest) {
    for reply in run_commands(ring, commands(random)) {
        digest_reply(&reply, digest);
    }
}

/// Runs commands, with their replies in places that were made before.
#[inline(never)]
fn run_in_place(
    ring: &mut ConstGenericRingBuffer<u64, 100>,
    replies: &mut [Option<Reply<u64>>],
    random: &mut Random,
    digest: &mut Digest,
) {
    run_into(ring, commands(random), replies);
    for reply in replies.iter().flatten() {
        digest_reply(reply, digest);
    }
}

/// Drops all items but the newest, by the deque that the ring lends.
fn keep_newest(ring: &mut VecDeque<u64>, count: usize) {
    ring.drain(..ring.len().saturating_sub(count));
}
