//! Damage to a pool as a list of altered cells, so that it can be done again to another copy.

use crate::kinds::KINDS;
use crate::lent::Lent;
use std::fmt;

/// One altered number of a head or of a lent list, or another length of a list.
#[derive(Clone, Copy, Debug, PartialEq)]
pub enum Edit {
    K(usize),
    C(usize),
    Root(usize),
    Free(usize),
    N(usize),
    Key(usize, i64),
    Link(usize, usize),
    KeysLength(usize),
    LinksLength(usize),
    ScratchLength(usize),
}

/// What is altered, and which kind of damage that was meant to be.
#[derive(Clone, Debug)]
pub struct Damage {
    pub kind: usize,
    pub edits: Vec<Edit>,
}

impl Edit {
    /// Alters the cell; one that is not there stays so.
    fn apply(self, lent: &mut Lent) {
        match self {
            Edit::K(k) => lent.head.k = k,
            Edit::C(c) => lent.head.c = c,
            Edit::Root(root) => lent.head.root = root,
            Edit::Free(free) => lent.head.free = free,
            Edit::N(n) => lent.head.n = n,
            Edit::Key(at, value) => {
                if let Some(cell) = lent.keys.cells_mut().get_mut(at) {
                    *cell = value;
                }
            }
            Edit::Link(at, value) => {
                if let Some(cell) = lent.links.cells_mut().get_mut(at) {
                    *cell = value;
                }
            }
            Edit::KeysLength(length) => lent.keys.resize(length, 0),
            Edit::LinksLength(length) => lent.links.resize(length, 0),
            Edit::ScratchLength(length) => lent.scratch.resize(length, 0),
        }
    }

    /// The edit that puts back what this one alters.
    fn back(self, lent: &Lent) -> Edit {
        let head = lent.head;
        match self {
            Edit::K(_) => Edit::K(head.k),
            Edit::C(_) => Edit::C(head.c),
            Edit::Root(_) => Edit::Root(head.root),
            Edit::Free(_) => Edit::Free(head.free),
            Edit::N(_) => Edit::N(head.n),
            Edit::Key(at, _) => Edit::Key(at, lent.keys.cells().get(at).copied().unwrap_or(0)),
            Edit::Link(at, _) => Edit::Link(at, lent.links.cells().get(at).copied().unwrap_or(0)),
            Edit::KeysLength(_) => Edit::KeysLength(lent.keys.cells().len()),
            Edit::LinksLength(_) => Edit::LinksLength(lent.links.cells().len()),
            Edit::ScratchLength(_) => Edit::ScratchLength(lent.scratch.cells().len()),
        }
    }
}

impl Damage {
    pub fn apply(&self, lent: &mut Lent) {
        self.edits.iter().for_each(|edit| edit.apply(lent));
    }

    /// Whether this pool is another one with the damage done.
    pub fn alters(&self, lent: &Lent) -> bool {
        self.edits.iter().any(|edit| edit.back(lent) != *edit)
    }

    /// The damage that mends this one, given the pool before it; what a list cut short has lost stays 0.
    pub fn back(&self, lent: &Lent) -> Damage {
        Damage {
            kind: self.kind,
            edits: self.edits.iter().rev().map(|e| e.back(lent)).collect(),
        }
    }
}

impl fmt::Display for Damage {
    fn fmt(&self, f: &mut fmt::Formatter) -> fmt::Result {
        let edits: Vec<String> = self.edits.iter().map(|e| format!("{e:?}")).collect();
        write!(f, "{}: {}", KINDS[self.kind].0, edits.join(", "))
    }
}
