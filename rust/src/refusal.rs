//! Why a call said no.

use std::fmt;

/// Why a call was refused. A refused call has changed nothing.
#[derive(Clone, Copy, Debug, PartialEq, Eq)]
pub enum Refusal {
    /// 1: the number of fields is not 1 to 4.
    Fields,
    /// 2: the capacity is not 1 to 4,096.
    Capacity,
    /// 3: keys, links or scratch are not K·C, 3·C, C long.
    Lengths,
    /// 4: head and memory are not a sound book.
    Unsound,
    /// 5: the entry to add is there.
    Present,
    /// 6: the entry to strike is not there.
    Missing,
    /// 7: there is no free slot, or too few for what a text would add.
    Full,
    /// 8: the room is shorter than the answer.
    Room,
    /// 9: not a saved book, from this line on.
    Text {
        /// The first line, from 1, that is missing or not right.
        line: usize,
    },
    /// 10: the text has another number of fields than the book.
    Mismatch,
    /// 11: one of the first K steps is 0.
    Step,
    /// 12: over 256 items, a length that is no multiple of K+1, or an item that begins with neither 1 nor 2.
    Tray,
    /// 5, 6 or 7: the first item of a tray whose single call would be refused so.
    Item {
        /// The item's place, from 1.
        place: usize,
        /// What is wrong with it.
        wrong: Wrong,
    },
}

/// What is wrong with an item of a tray, in the book as the items before it leave it.
#[derive(Clone, Copy, Debug, PartialEq, Eq)]
pub enum Wrong {
    /// 5: the entry to add is there.
    Present,
    /// 6: the entry to strike is not there.
    Missing,
    /// 7: there is no free slot.
    Full,
}

impl Wrong {
    /// The number in the library's table of refusals.
    pub fn number(self) -> usize {
        match self {
            Wrong::Present => 5,
            Wrong::Missing => 6,
            Wrong::Full => 7,
        }
    }

    /// What a number that the library answered for an item says.
    fn of(number: usize) -> Wrong {
        match number {
            5 => Wrong::Present,
            6 => Wrong::Missing,
            7 => Wrong::Full,
            _ => unreachable!("the library refuses an item with 5, 6 or 7"),
        }
    }
}

impl Refusal {
    /// The number in the library's table of refusals.
    pub fn number(self) -> usize {
        match self {
            Refusal::Fields => 1,
            Refusal::Capacity => 2,
            Refusal::Lengths => 3,
            Refusal::Unsound => 4,
            Refusal::Present => 5,
            Refusal::Missing => 6,
            Refusal::Full => 7,
            Refusal::Room => 8,
            Refusal::Text { .. } => 9,
            Refusal::Mismatch => 10,
            Refusal::Step => 11,
            Refusal::Tray => 12,
            Refusal::Item { wrong, .. } => wrong.number(),
        }
    }

    /// The refusal of a number that the library answered, with the line or the place beside it.
    pub(crate) fn of(number: usize, line: usize, place: usize) -> Refusal {
        if place > 0 {
            let wrong = Wrong::of(number);
            return Refusal::Item { place, wrong };
        }
        match number {
            1 => Refusal::Fields,
            2 => Refusal::Capacity,
            3 => Refusal::Lengths,
            4 => Refusal::Unsound,
            5 => Refusal::Present,
            6 => Refusal::Missing,
            7 => Refusal::Full,
            8 => Refusal::Room,
            9 => Refusal::Text { line },
            10 => Refusal::Mismatch,
            11 => Refusal::Step,
            12 => Refusal::Tray,
            _ => unreachable!("the library's refusals are 1 to 12"),
        }
    }
}

impl fmt::Display for Refusal {
    fn fmt(&self, out: &mut fmt::Formatter) -> fmt::Result {
        match self {
            Refusal::Text { line } => write!(out, "refused=9 line={line}"),
            Refusal::Item { place, wrong } => {
                write!(out, "refused={} place={place}", wrong.number())
            }
            other => write!(out, "refused={}", other.number()),
        }
    }
}

impl std::error::Error for Refusal {}
