//! What the program `ringrun` does, on the rings of the Rust crate: it replays the lines of its input and writes what they
//! answer. It stops at the first line that is no command.

use crate::overwriting::Overwriting;
use ringbuffer::{AllocRingBuffer, ConstGenericRingBuffer, GrowableAllocRingBuffer};
use std::fmt::{self, Display, Formatter, Write as _};
use std::io::{Read, Write};

/// Why the program ends before its work is done.
enum Fault {
    /// This line of the input, counted from 1, has words that are no command.
    NotACommand {
        line: usize,
    },
    BadArguments,
    InputOrOutput,
}

impl Fault {
    /// Returns the status that the program ends with.
    fn status(&self) -> u8 {
        match self {
            Fault::NotACommand { .. } => 1,
            Fault::BadArguments => 2,
            Fault::InputOrOutput => 4,
        }
    }
}

impl Display for Fault {
    fn fmt(&self, f: &mut Formatter<'_>) -> fmt::Result {
        match self {
            Fault::NotACommand { line } => write!(f, "ringrun: line {line}: not a command"),
            Fault::BadArguments => write!(f, "usage: ringrun array|heap|grow CAPACITY"),
            Fault::InputOrOutput => write!(f, "ringrun: input or output failed"),
        }
    }
}

/// Does what the program's arguments after its name ask for, and returns the status to end with.
pub fn serve(words: &[String], input: &mut impl Read, output: &mut impl Write, errors: &mut impl Write) -> u8 {
    match attempt(words, input, output) {
        Ok(()) => 0,
        Err(fault) => {
            let _ = writeln!(errors, "{fault}");
            fault.status()
        }
    }
}

fn attempt(words: &[String], input: &mut impl Read, output: &mut impl Write) -> Result<(), Fault> {
    let text = answer(words, input)?;
    output.write_all(text.as_bytes()).and_then(|()| output.flush()).map_err(|_| Fault::InputOrOutput)
}

fn answer(words: &[String], input: &mut impl Read) -> Result<String, Fault> {
    let [kind, capacity] = words else {
        return Err(Fault::BadArguments);
    };
    let capacity = capacity.parse().map_err(|_| Fault::BadArguments)?;
    match (kind.as_str(), capacity) {
        ("array", 10) => replay(ConstGenericRingBuffer::<i64, 10>::new(), input),
        ("heap", 1..) => replay(AllocRingBuffer::new(capacity), input),
        ("grow", _) => replay(GrowableAllocRingBuffer::with_capacity(capacity), input),
        _ => Err(Fault::BadArguments),
    }
}

/// Returns what the lines of the input answer, and the items that the ring holds after them.
fn replay<R: Overwriting<i64>>(mut ring: R, input: &mut impl Read) -> Result<String, Fault> {
    let mut bytes = Vec::new();
    input.read_to_end(&mut bytes).map_err(|_| Fault::InputOrOutput)?;
    // A line with what is no text is no command.
    let script = String::from_utf8_lossy(&bytes);
    let mut text = String::new();
    for (before, line) in script.lines().enumerate() {
        run_line(&mut ring, line, &mut text).ok_or(Fault::NotACommand { line: before + 1 })?;
    }
    text.push_str("items");
    for item in ring.iter() {
        write!(text, " {item}").unwrap();
    }
    text.push('\n');
    Ok(text)
}

/// Runs a line and writes what it answers, or returns `None` where it is no command.
fn run_line<R: Overwriting<i64>>(ring: &mut R, line: &str, text: &mut String) -> Option<()> {
    let mut words = line.split_ascii_whitespace();
    let Some(name) = words.next() else {
        return Some(());
    };
    match name {
        "push" => match ring.push_over(words.next()?.parse().ok()?) {
            Some(old) => writeln!(text, "pushed over {old}").unwrap(),
            None => text.push_str("pushed\n"),
        },
        "extend" => {
            for word in words.by_ref() {
                ring.push(word.parse().ok()?);
            }
            text.push_str("extended\n");
        }
        "dequeue" => match ring.dequeue() {
            Some(item) => writeln!(text, "dequeued {item}").unwrap(),
            None => text.push_str("dequeued none\n"),
        },
        "skip" => {
            ring.skip();
            text.push_str("skipped\n");
        }
        "clear" => {
            ring.clear();
            text.push_str("cleared\n");
        }
        _ => return None,
    }
    words.next().is_none().then_some(())
}
