//! What goes into a call and comes out of it.

/// What a book is besides its memory. Keep it with the memory to [resume](crate::Book::resume) the book later.
#[repr(C)]
#[derive(Clone, Copy, Debug, PartialEq, Eq)]
pub struct Head {
    /// Number of fields, 1 to 4.
    pub k: usize,
    /// Capacity, 1 to 4,096.
    pub c: usize,
    /// Slot of the tree's root, 0 where there is none.
    pub root: usize,
    /// First free slot, 0 where there is none.
    pub free: usize,
    /// Number of entries.
    pub n: usize,
}

/// Four numbers, of which a book of K fields looks at the first K and answers 0 for the others. Made from an array of one to four.
#[repr(C)]
#[derive(Clone, Copy, Debug, PartialEq, Eq)]
pub struct Entry {
    /// The fields a, b, c, d.
    pub f: [i64; 4],
}

macro_rules! entry_from {
    ($($n:literal)*) => {$(
        impl From<[i64; $n]> for Entry {
            fn from(numbers: [i64; $n]) -> Entry {
                let mut f = [0; 4];
                f[..$n].copy_from_slice(&numbers);
                Entry { f }
            }
        }
    )*};
}
entry_from!(1 2 3 4);

/// What one field may be, ends included.
#[derive(Clone, Copy, Debug, PartialEq, Eq)]
pub enum Bound {
    /// Any number.
    Free,
    /// This number or a greater one.
    AtLeast(i64),
    /// This number or a lesser one.
    AtMost(i64),
    /// A number from the first to the second; none where they are reversed.
    Between(i64, i64),
}

/// An entry and the slot that it is in.
#[derive(Clone, Copy, Debug, PartialEq, Eq)]
pub struct Place {
    /// The entry.
    pub entry: Entry,
    /// Its slot, from 1.
    pub slot: usize,
}

/// What a look-up found, and how many entries it met on the way.
#[derive(Clone, Copy, Debug, PartialEq, Eq)]
pub struct LookUp {
    /// The entry's place, where it is there.
    pub found: Option<Place>,
    /// Entries met, the one found included.
    pub reads: usize,
}

/// The entry nearest a query.
#[derive(Clone, Copy, Debug, PartialEq, Eq)]
pub struct Near {
    /// The entry.
    pub entry: Entry,
    /// Its slot, from 1.
    pub slot: usize,
    /// The greatest over the fields of the difference divided by the step, rounded up: 0 for the very entry alone.
    pub distance: u64,
}
