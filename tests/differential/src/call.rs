//! One call with all that it is given, one step of a history, and both in words.

use crate::damage::Damage;
use crate::doors::{Bound, Bounds, Entry, Steps};
use crate::lent::Guarded;
use crate::texts::Fault;
use crate::trays::Sort;
use std::fmt;

/// The names of the doors: the ten calls and the one that judges a pool; a call's number is its place here.
pub const NAMES: [&str; 11] = [
    "start", "add", "strike", "look up", "count", "list", "nearest", "save", "judge", "take in",
    "tray",
];

/// A call and what it is given beside the book; a room is given by its length.
#[derive(Clone, Debug)]
pub enum Call {
    Start {
        k: usize,
        c: usize,
        keys: usize,
        links: usize,
    },
    Add(Entry),
    Strike(Entry),
    LookUp(Entry),
    Count(Bounds),
    List(Bounds, usize),
    Nearest(Entry, Steps),
    Save(usize),
    Judge,
    TakeIn(Vec<u8>, Fault),
    /// The items, each of as many numbers as it has been given.
    Tray(Vec<Vec<i64>>, Sort),
}

/// What a call is lent beside the book: a room for numbers or the items it reads, a room for bytes or the text it reads.
pub struct Room {
    pub numbers: Guarded<i64>,
    pub bytes: Guarded<u8>,
}

/// One step of a history.
#[derive(Clone, Debug)]
pub enum Step {
    /// A call of the book itself.
    Call(Call),
    /// The book is from here on one that the reference made of these entries, added in this order.
    Given {
        k: usize,
        c: usize,
        entries: Vec<Entry>,
    },
    /// Damage that stays.
    Spoil(Damage),
    /// What was damaged is put back.
    Mend(Damage),
    /// Damage to a copy, and calls of that copy.
    Try(Damage, Vec<Call>),
}

impl Call {
    /// The call's place in the list of names.
    pub fn number(&self) -> usize {
        match self {
            Call::Start { .. } => 0,
            Call::Add(_) => 1,
            Call::Strike(_) => 2,
            Call::LookUp(_) => 3,
            Call::Count(_) => 4,
            Call::List(..) => 5,
            Call::Nearest(..) => 6,
            Call::Save(_) => 7,
            Call::Judge => 8,
            Call::TakeIn(..) => 9,
            Call::Tray(..) => 10,
        }
    }

    /// Whether the call borrows scratch.
    pub fn borrows_scratch(&self) -> bool {
        matches!(
            self,
            Call::Add(_) | Call::Strike(_) | Call::TakeIn(..) | Call::Tray(..)
        )
    }

    /// The rooms of this call, with something in them.
    pub fn room(&self, edge: usize) -> Room {
        let numbers = match self {
            Call::List(_, length) => Guarded::new(&vec![-3; *length], edge),
            Call::Tray(items, _) => Guarded::new(&items.concat(), edge),
            _ => Guarded::new(&[], edge),
        };
        let bytes = match self {
            Call::Save(length) => Guarded::new(&vec![b'#'; *length], edge),
            Call::TakeIn(text, _) => Guarded::new(text, edge),
            _ => Guarded::new(&[], edge),
        };
        Room { numbers, bytes }
    }
}

/// Four numbers as they are written in a history.
fn tuple<T: fmt::Display>(f: &[T; 4]) -> String {
    format!("({}, {}, {}, {})", f[0], f[1], f[2], f[3])
}

/// A bound as it is written in a history.
fn bound(bound: &Bound) -> String {
    match bound.kind {
        0 => "free".to_string(),
        1 => format!("at least {}", bound.low),
        2 => format!("at most {}", bound.high),
        3 => format!("between {} and {}", bound.low, bound.high),
        other => format!("kind {other} {} and {}", bound.low, bound.high),
    }
}

/// Four bounds as they are written in a history.
fn bounds(bounds: &Bounds) -> String {
    bounds.of.each_ref().map(bound).join("; ")
}

impl fmt::Display for Call {
    fn fmt(&self, f: &mut fmt::Formatter) -> fmt::Result {
        let name = NAMES[self.number()];
        match self {
            Call::Start { k, c, keys, links } => {
                write!(
                    f,
                    "{name} K={k} C={c}, lent {keys} numbers and {links} links"
                )
            }
            Call::Add(entry) | Call::Strike(entry) | Call::LookUp(entry) => {
                write!(f, "{name} {}", tuple(&entry.f))
            }
            Call::Count(asked) => write!(f, "{name} {}", bounds(asked)),
            Call::List(asked, room) => {
                write!(f, "{name} {}, room for {room} numbers", bounds(asked))
            }
            Call::Nearest(query, steps) => {
                write!(f, "{name} {}, steps {}", tuple(&query.f), tuple(&steps.of))
            }
            Call::Save(room) => write!(f, "{name}, room for {room} bytes"),
            Call::Judge => write!(f, "{name}"),
            Call::TakeIn(text, _) => write!(f, "{name} \"{}\"", text.escape_ascii()),
            Call::Tray(items, _) => {
                write!(f, "{name} of {}:", items.len())?;
                items.iter().try_for_each(|item| write!(f, " {item:?}"))
            }
        }
    }
}

impl fmt::Display for Step {
    fn fmt(&self, f: &mut fmt::Formatter) -> fmt::Result {
        match self {
            Step::Call(call) => write!(f, "{call}"),
            Step::Given { k, c, entries } => {
                let entries: Vec<String> = entries.iter().map(|e| tuple(&e.f)).collect();
                write!(f, "a book K={k} C={c} of {}", entries.join(" "))
            }
            Step::Spoil(damage) => write!(f, "damage that stays: {damage}"),
            Step::Mend(damage) => write!(f, "put back: {damage}"),
            Step::Try(damage, calls) => {
                write!(f, "damage to a copy: {damage}")?;
                calls
                    .iter()
                    .try_for_each(|call| write!(f, "\n      of the copy: {call}"))
            }
        }
    }
}
