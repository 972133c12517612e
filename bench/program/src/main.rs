//! What the program `ringrun` does, on the rings of the Rust crate: it replays the lines of standard input and prints what
//! they answer. It stops at the first line that is no command.

use ringbuffer::{AllocRingBuffer, ConstGenericRingBuffer, GrowableAllocRingBuffer, RingBuffer};
use std::env;
use std::fmt::Write as _;
use std::io::{self, Read, Write as _};

/// The number of the line, where it is no command.
fn replay<R: RingBuffer<i64>>(mut ring: R, is_fixed: bool, script: &str) -> Result<String, usize> {
    let mut text = String::new();
    for (before, line) in script.lines().enumerate() {
        let mut words = line.split_ascii_whitespace();
        let Some(name) = words.next() else { continue };
        let numbers = words.clone().map(|word| word.parse::<i64>());
        match (name, words.next(), words.next()) {
            ("push", Some(number), None) => {
                let number = number.parse().map_err(|_| before + 1)?;
                let old = if is_fixed && ring.is_full() { ring.peek().copied() } else { None };
                ring.push(number);
                match old {
                    Some(old) => writeln!(text, "pushed over {old}").unwrap(),
                    None => text.push_str("pushed\n"),
                }
            }
            ("extend", _, _) => {
                let numbers: Vec<i64> = numbers.collect::<Result<_, _>>().map_err(|_| before + 1)?;
                ring.extend(numbers);
                text.push_str("extended\n");
            }
            ("dequeue", None, None) => match ring.dequeue() {
                Some(item) => writeln!(text, "dequeued {item}").unwrap(),
                None => text.push_str("dequeued none\n"),
            },
            ("skip", None, None) => {
                ring.skip();
                text.push_str("skipped\n");
            }
            ("clear", None, None) => {
                ring.clear();
                text.push_str("cleared\n");
            }
            _ => return Err(before + 1),
        }
    }
    text.push_str("items");
    for item in ring.iter() {
        write!(text, " {item}").unwrap();
    }
    text.push('\n');
    Ok(text)
}

fn main() {
    let words: Vec<String> = env::args().skip(1).collect();
    let capacity: usize = words[1].parse().expect("a capacity");
    let mut script = Vec::new();
    io::stdin().read_to_end(&mut script).expect("input");
    let script = std::str::from_utf8(&script).expect("text");
    let text = match (words[0].as_str(), capacity) {
        ("array", 10) => replay(ConstGenericRingBuffer::<i64, 10>::new(), true, script),
        ("heap", _) => replay(AllocRingBuffer::new(capacity), true, script),
        ("grow", _) => replay(GrowableAllocRingBuffer::with_capacity(capacity), false, script),
        _ => panic!("array 10, heap CAPACITY or grow CAPACITY"),
    };
    let text = text.unwrap_or_else(|line| panic!("line {line}: not a command"));
    io::stdout().write_all(text.as_bytes()).expect("output");
}
