//! Bytes on their way, and the last bytes of a stream, over `VecDeque`: the crate's rings are no readers or writers.

use crate::bounded::{take_into, Bounded};
use std::collections::VecDeque;
use std::io::{BufRead, Read, Result, Write};

/// Bytes on their way, oldest first. A write takes as many as there is room for, and overwrites none. A read takes bytes from
/// both slices of the deque, where the deque's own takes those of the first alone.
pub struct Pipe {
    bytes: Bounded<u8>,
}

impl Pipe {
    /// Makes a pipe with room for so many bytes.
    pub fn new(capacity: usize) -> Pipe {
        Pipe { bytes: Bounded::new(capacity) }
    }

    /// Makes a pipe that grows.
    pub fn growable() -> Pipe {
        Pipe { bytes: Bounded::growable() }
    }
}

impl Read for Pipe {
    fn read(&mut self, buf: &mut [u8]) -> Result<usize> {
        Ok(take_into(&mut self.bytes.items, buf))
    }
}

impl Write for Pipe {
    fn write(&mut self, buf: &[u8]) -> Result<usize> {
        let count = buf.len().min(self.bytes.room());
        self.bytes.items.extend(&buf[..count]);
        Ok(count)
    }

    fn flush(&mut self) -> Result<()> {
        Ok(())
    }
}

impl BufRead for Pipe {
    fn fill_buf(&mut self) -> Result<&[u8]> {
        Ok(self.bytes.items.as_slices().0)
    }

    // The last byte goes by itself: a deque that `drain` leaves empty begins at its first place anew, which a ring does not.
    // How many bytes lie side by side hangs on that.
    fn consume(&mut self, amount: usize) {
        if amount > 0 {
            self.bytes.items.drain(..amount - 1);
            self.bytes.items.pop_front();
        }
    }
}

/// A writer that takes all bytes and keeps the newest.
pub struct LastBytes {
    bytes: Bounded<u8>,
}

impl LastBytes {
    /// Makes a writer that keeps so many bytes.
    pub fn new(capacity: usize) -> LastBytes {
        LastBytes { bytes: Bounded::new(capacity) }
    }

    /// Returns the bytes that are kept, oldest first.
    pub fn bytes(&self) -> &VecDeque<u8> {
        &self.bytes.items
    }
}

impl Write for LastBytes {
    fn write(&mut self, buf: &[u8]) -> Result<usize> {
        self.bytes.extend(buf);
        Ok(buf.len())
    }

    fn flush(&mut self) -> Result<()> {
        Ok(())
    }
}
