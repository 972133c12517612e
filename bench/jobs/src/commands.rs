//! Runs of commands, which the crate's rings answer call by call.

use crate::overwriting::Overwriting;

/// A call of a ring, as a value.
pub enum Command<T> {
    Push(T),
    Extend(Vec<T>),
    Dequeue,
    Skip,
    Clear,
}

/// What a command returns once it is done.
pub enum Reply<T> {
    /// The item that gave way, if any.
    Pushed(Option<T>),
    Extended,
    Dequeued(Option<T>),
    Skipped,
    Cleared,
}

/// Does the call that the command names.
fn apply<T, R: Overwriting<T>>(ring: &mut R, command: Command<T>) -> Reply<T> {
    match command {
        Command::Push(item) => Reply::Pushed(ring.push_over(item)),
        Command::Extend(items) => {
            ring.extend(items);
            Reply::Extended
        }
        Command::Dequeue => Reply::Dequeued(ring.dequeue()),
        Command::Skip => {
            ring.skip();
            Reply::Skipped
        }
        Command::Clear => {
            ring.clear();
            Reply::Cleared
        }
    }
}

/// Does the commands in order, and returns the reply to each.
pub fn run<T, R: Overwriting<T>>(ring: &mut R, commands: Vec<Command<T>>) -> Vec<Reply<T>> {
    commands.into_iter().map(|command| apply(ring, command)).collect()
}

/// Does the commands in order, and puts the reply to each into the place with its number.
pub fn run_into<T, R: Overwriting<T>>(ring: &mut R, commands: Vec<Command<T>>, replies: &mut [Option<Reply<T>>]) {
    for (place, command) in replies.iter_mut().zip(commands) {
        *place = Some(apply(ring, command));
    }
}
