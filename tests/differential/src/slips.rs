//! Faults put into the library's side on purpose, to see that each is found and its history cut down.

use crate::call::{Call, Room};
use crate::doors::{self, Answer};
use crate::lent::Lent;
use std::sync::atomic::{AtomicUsize, Ordering::Relaxed};

static SLIP: AtomicUsize = AtomicUsize::new(0);

/// The fault that every call from here on may make; 0 for none.
pub fn choose(slip: usize) {
    SLIP.store(slip, Relaxed);
}

/// The library's call with the chosen fault in it.
pub fn call(call: &Call, lent: &mut Lent, room: &mut Room) -> Answer {
    let before = lent.clone();
    let mut answer = doors::call(call, lent, room);
    let accepted = answer.outcome != 4;
    let (n, c) = (answer.head.n, answer.head.c);
    match (SLIP.load(Relaxed), call) {
        // A height one off, once a book has five entries.
        (1, Call::Add(_)) if accepted && n == 5 => lent.links.cells_mut()[2] += 1,
        // Scratch left dirty by a strike of the last entry.
        (2, Call::Strike(_)) if accepted && n == 0 => lent.scratch.cells_mut()[c - 1] = 1,
        // A damaged pool that is not seen: one of n 4.
        (3, Call::Count(_)) if answer.refusal == 4 && n == 4 => {
            (answer.outcome, answer.refusal) = (3, 0)
        }
        // A cell behind the room is written.
        (4, Call::List(..)) if accepted && answer.count == 2 => {
            let end = room.numbers.cells_mut().as_mut_ptr_range().end;
            // Safety: the guard cells stand behind the room.
            unsafe { *end = 0 };
        }
        // The nearest is told in the slot behind its own.
        (5, Call::Nearest(..)) if answer.distance == 2 => answer.slot = answer.slot % c + 1,
        // A refused call writes.
        (6, Call::Add(_)) if answer.refusal == 5 => lent.keys.cells_mut()[0] ^= 1,
        // No more than three reads are told.
        (7, Call::LookUp(_)) if accepted => answer.reads = answer.reads.min(3),
        // A strike that forgets to clear the numbers of the freed slot.
        (8, Call::Strike(_)) if accepted => {
            let first = answer.head.k * (answer.head.free - 1);
            lent.keys.cells_mut()[first] = before.keys.cells()[first];
        }
        // A room that is too short is told as another refusal.
        (9, Call::Save(length)) if answer.refusal == 8 && *length > 40 => answer.refusal = 4,
        // A start that keeps an old number.
        (10, Call::Start { .. }) if accepted => {
            let last = before.keys.cells().len() - 1;
            lent.keys.cells_mut()[last] = before.keys.cells()[last];
        }
        // The line of refusal 9 is one off behind line 3.
        (11, Call::TakeIn(..)) if answer.line > 3 => answer.line += 1,
        // The place of a refused item is one off behind place 2.
        (12, Call::Tray(..)) if answer.place > 2 => answer.place -= 1,
        _ => {}
    }
    answer
}
