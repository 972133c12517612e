//! Runs of commands, which the crate answers call by call.

use crate::calls::push;
use crate::items::Item;
use crate::player::Player;
use crate::rings::Played;

enum Command<T> {
    Push(T),
    Extend(Vec<T>),
    Dequeue,
    Skip,
    Clear,
}

/// Makes a run of four commands, and notes what each is replied.
pub fn play<'a, T: Item<'a>, R: Played<'a, T>>(ring: &mut R, player: &mut Player<'a>) {
    let commands: [Command<T>; 4] = std::array::from_fn(|_| draw(player));
    // The port has one call that makes a vector of the replies, and one that doesn't.
    player.flip();
    for command in commands {
        make(ring, command, player);
    }
}

// Draws a command.
fn draw<'a, T: Item<'a>>(player: &mut Player<'a>) -> Command<T> {
    match player.up_to(15) {
        0 => Command::Clear,
        1..=2 => Command::Extend(player.items()),
        3..=5 => Command::Skip,
        6..=9 => Command::Dequeue,
        _ => Command::Push(player.item()),
    }
}

// Makes the call that a command names, and notes its reply and the kind of it.
fn make<'a, T: Item<'a>, R: Played<'a, T>>(ring: &mut R, command: Command<T>, player: &mut Player<'a>) {
    match command {
        Command::Push(item) => {
            player.note(1);
            push(ring, item, player);
        }
        Command::Dequeue => {
            player.note(2);
            player.note_taken(ring.dequeue());
        }
        Command::Extend(items) => {
            player.note(3);
            ring.extend(items);
        }
        Command::Skip => {
            player.note(4);
            ring.skip();
        }
        Command::Clear => {
            player.note(5);
            ring.clear();
        }
    }
}
