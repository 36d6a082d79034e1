//! Lent memory between guard cells, and a pool with its head lying in such memory.

use reference::Head;

/// A cell that can be lent, and the marks that stand beside lent ones.
pub trait Cell: Copy + PartialEq + std::fmt::Display {
    /// What a guard cell holds.
    const GUARD: Self;
}

impl Cell for i64 {
    const GUARD: i64 = -0x5A5A_5A5A_5A5A_5A5A;
}

impl Cell for usize {
    const GUARD: usize = 0xA5A5_A5A5_A5A5_A5A5;
}

impl Cell for u8 {
    const GUARD: u8 = 0xA5;
}

/// Cells to lend, with so many guard cells on either side.
#[derive(Clone, PartialEq)]
pub struct Guarded<T> {
    all: Box<[T]>,
    edge: usize,
}

impl<T: Cell> Guarded<T> {
    pub fn new(cells: &[T], edge: usize) -> Guarded<T> {
        let guard = vec![T::GUARD; edge];
        let all = [&guard, cells, &guard].concat();
        Guarded {
            all: all.into_boxed_slice(),
            edge,
        }
    }

    pub fn cells(&self) -> &[T] {
        &self.all[self.edge..self.all.len() - self.edge]
    }

    pub fn cells_mut(&mut self) -> &mut [T] {
        let end = self.all.len() - self.edge;
        &mut self.all[self.edge..end]
    }

    /// Lends another number of cells: cut off, or these behind.
    pub fn resize(&mut self, length: usize, fill: T) {
        let mut cells = self.cells().to_vec();
        cells.resize(length, fill);
        *self = Guarded::new(&cells, self.edge);
    }

    /// The first cell that differs, guard cells included, in words; None where all are the same.
    pub fn differs(&self, other: &Guarded<T>, name: &str) -> Option<String> {
        if self.all == other.all {
            return None;
        }
        let place = self.all.iter().zip(&other.all).position(|(a, b)| a != b)?;
        let (ours, plain) = (self.all[place], other.all[place]);
        let inside = (self.edge..self.all.len() - self.edge).contains(&place);
        let guard = if inside { "" } else { " (a guard cell)" };
        let index = place as i64 - self.edge as i64;
        Some(format!(
            "{name}[{index}]{guard}: library {ours}, reference {plain}"
        ))
    }
}

/// A head, and the lists lent with it.
#[derive(Clone)]
pub struct Lent {
    pub head: Head,
    pub keys: Guarded<i64>,
    pub links: Guarded<usize>,
    pub scratch: Guarded<usize>,
}

impl Lent {
    /// Memory that nobody has started a book in, full of what was there before.
    pub fn raw(keys: usize, links: usize, scratch: usize, edge: usize) -> Lent {
        let old_links: Vec<usize> = (0..links).map(|i| i * 5 % (scratch + 2)).collect();
        Lent {
            head: Head::default(),
            keys: Guarded::new(&vec![-5; keys], edge),
            links: Guarded::new(&old_links, edge),
            scratch: Guarded::new(&vec![7; scratch], edge),
        }
    }

    /// Puts old numbers into scratch: now slots that there are, now huge ones.
    pub fn soil_scratch(&mut self) {
        let c = self.scratch.cells().len();
        let odd = self.head.n % 2 == 1;
        for (i, cell) in self.scratch.cells_mut().iter_mut().enumerate() {
            *cell = if odd {
                i * 7 % (c + 2)
            } else {
                usize::MAX / 3 - i
            };
        }
    }

    /// The first lent cell that differs, in words.
    pub fn differs(&self, other: &Lent) -> Option<String> {
        let keys = self.keys.differs(&other.keys, "keys");
        let links = || self.links.differs(&other.links, "links");
        let scratch = || self.scratch.differs(&other.scratch, "scratch");
        keys.or_else(links).or_else(scratch)
    }

    /// Left, right and height of a slot that there is.
    pub fn link(&self, slot: usize) -> [usize; 3] {
        let at = |i: usize| self.links.cells().get(i).copied().unwrap_or(0);
        let first = 3 * (slot - 1);
        [at(first), at(first + 1), at(first + 2)]
    }

    /// The numbers of a slot that there is, and 0 where there are none.
    pub fn numbers(&self, slot: usize) -> [i64; 4] {
        let k = self.head.k.min(4);
        let first = k * (slot - 1);
        let mut f = [0; 4];
        for (i, number) in f.iter_mut().enumerate().take(k) {
            *number = self.keys.cells().get(first + i).copied().unwrap_or(0);
        }
        f
    }
}
