//! Bytes through a `VecDeque`, which std makes a reader and a writer.

use crate::calls::prepare;
use crate::ring::{Deque, Ring};
use crate::{Case, CAPACITY};
use std::io::{BufRead, Write};

/// Returns whether a call is one of `std::io`.
pub fn has(call: &str) -> bool {
    matches!(call, "write_read" | "write_consume" | "last_bytes")
}

/// Makes the call of a case, and returns what it found, as a number.
pub fn run(ring: &str, case: &Case) -> Option<u64> {
    let mut pipe = match ring {
        "deque" => Deque::<u8>::with_capacity(CAPACITY),
        "growing_deque" => Deque::growing(),
        _ => return None,
    };
    let bytes = case.block::<u8>();
    if case.call != "last_bytes" {
        prepare(&mut pipe, case);
    }
    Some(match case.call.as_str() {
        "write_read" => write_read(&mut pipe, &bytes, &mut bytes.clone(), case.times),
        "write_consume" => write_consume(&mut pipe, &bytes, case.times),
        _ => last_bytes(&mut pipe, &bytes, case.times),
    })
}

/// Writes as many bytes as there is room for, and returns how many.
#[inline]
fn write(pipe: &mut Deque<u8>, bytes: &[u8]) -> u64 {
    let fit = bytes.len().min(pipe.capacity - pipe.items.len());
    pipe.items.write(&bytes[..fit]).unwrap_or(0) as u64
}

#[inline(never)]
fn write_read(pipe: &mut Deque<u8>, bytes: &[u8], output: &mut [u8], times: u64) -> u64 {
    (0..times).fold(0, |sum, _| sum ^ write(pipe, bytes) ^ pipe.take(output) as u64)
}

#[inline(never)]
fn write_consume(pipe: &mut Deque<u8>, bytes: &[u8], times: u64) -> u64 {
    let mut sum = 0;
    for _ in 0..times {
        sum ^= write(pipe, bytes);
        let lent = pipe.items.fill_buf().map_or(0, <[u8]>::len);
        pipe.items.consume(lent.min(bytes.len()));
        sum ^= lent as u64;
    }
    sum
}

#[inline(never)]
fn last_bytes(pipe: &mut Deque<u8>, bytes: &[u8], times: u64) -> u64 {
    for _ in 0..times {
        pipe.bring(bytes);
    }
    times
}
