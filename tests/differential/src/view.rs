//! What there is in a pool to be damaged.

use crate::lent::Lent;
use std::collections::VecDeque;

/// A pool to be damaged: its slots in the tree, and in the chain, as far as they can be followed.
pub struct View<'a> {
    pub lent: &'a Lent,
    pub c: usize,
    pub tree: Vec<usize>,
    pub chain: Vec<usize>,
}

impl View<'_> {
    pub fn of(lent: &Lent) -> View<'_> {
        let c = lent.head.c.min(lent.links.cells().len() / 3);
        let mut view = View {
            lent,
            c,
            tree: Vec::new(),
            chain: Vec::new(),
        };
        view.tree = view.follow(lent.head.root, 2);
        view.chain = view.follow(lent.head.free, 1);
        view
    }

    /// The slots met from this one along so many links of each, every slot once.
    fn follow(&self, first: usize, links: usize) -> Vec<usize> {
        let mut met = vec![false; self.c + 1];
        let mut slots = Vec::new();
        let mut ahead = VecDeque::from([first]);
        while let Some(slot) = ahead.pop_front() {
            if slot != 0 && slot <= self.c && !met[slot] {
                met[slot] = true;
                slots.push(slot);
                ahead.extend(&self.lent.link(slot)[..links]);
            }
        }
        slots
    }
}
