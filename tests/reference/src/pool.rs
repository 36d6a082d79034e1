//! The lent memory as a whole: read with a test of soundness, written back cell by cell.

use crate::heights::greatest_height;
use crate::key::by_listing;
use crate::tree::{balanced, gather, height, height_over, ordered, size, Node, Placed, Tree};
use crate::types::{Entry, Head};

/// A sound pool taken out of its memory: the tree, and the free slots in the order of their chain.
#[derive(Debug)]
pub struct Pool {
    pub k: usize,
    pub c: usize,
    pub tree: Tree,
    pub chain: Vec<usize>,
}

/// The lent lists on their way into a pool, and the slots met so far.
struct Reader<'a> {
    k: usize,
    c: usize,
    keys: &'a [i64],
    links: &'a [usize],
    met: Vec<bool>,
}

/// The K numbers of a slot from 1 to C as an entry.
pub fn entry_at(keys: &[i64], slot: usize, k: usize) -> Entry {
    let mut entry = Entry::default();
    entry.f[..k].copy_from_slice(&keys[k * (slot - 1)..k * slot]);
    entry
}

impl Reader<'_> {
    /// Marks a slot as met; a slot outside 1..C or met before is not sound.
    fn meet(&mut self, slot: usize) -> Option<()> {
        if slot == 0 || slot > self.c || self.met[slot] {
            return None;
        }
        self.met[slot] = true;
        Some(())
    }

    /// Reads a subtree of at most so many levels; a wrong height or a side too high is not sound.
    fn read_tree(&mut self, slot: usize, levels: usize) -> Option<Tree> {
        if slot == 0 {
            return Some(None);
        }
        if levels == 0 {
            return None;
        }
        self.meet(slot)?;
        let link = 3 * (slot - 1);
        let left = self.read_tree(self.links[link], levels - 1)?;
        let right = self.read_tree(self.links[link + 1], levels - 1)?;
        let height = height_over(&left, &right);
        if self.links[link + 2] != height || !balanced(&left, &right) {
            return None;
        }
        Some(Some(Box::new(Node {
            slot,
            entry: entry_at(self.keys, slot, self.k),
            height,
            left,
            right,
        })))
    }

    /// Follows the chain to its 0; a slot that is not cleared is not sound.
    fn read_chain(&mut self, first: usize) -> Option<Vec<usize>> {
        let mut chain = Vec::new();
        let mut slot = first;
        while slot != 0 {
            self.meet(slot)?;
            let link = 3 * (slot - 1);
            let cleared = entry_at(self.keys, slot, self.k) == Entry::default();
            if !cleared || self.links[link + 1] != 0 || self.links[link + 2] != 0 {
                return None;
            }
            chain.push(slot);
            slot = self.links[link];
        }
        Some(chain)
    }
}

impl Pool {
    /// A fresh pool: no entry, and a chain of all slots in rising order.
    pub fn fresh(k: usize, c: usize) -> Pool {
        Pool {
            k,
            c,
            tree: None,
            chain: (1..=c).collect(),
        }
    }

    /// Soundness: gives the pool where all parts of that definition hold, for lists of the right lengths.
    pub fn read(head: Head, keys: &[i64], links: &[usize]) -> Option<Pool> {
        let Head { k, c, .. } = head;
        let mut reader = Reader {
            k,
            c,
            keys,
            links,
            met: vec![false; c + 1],
        };
        let tree = reader.read_tree(head.root, greatest_height(c))?;
        let chain = reader.read_chain(head.free)?;
        let counts = size(&tree) == head.n && size(&tree) + chain.len() == c;
        (counts && ordered(&tree, 0, k)).then_some(Pool { k, c, tree, chain })
    }

    /// All entries with their slots, in listing order.
    pub fn entries(&self) -> Vec<Placed> {
        let mut entries = Vec::new();
        gather(&self.tree, &mut entries);
        entries.sort_by(|one, other| by_listing(&one.1, &other.1, self.k));
        entries
    }

    /// Writes every cell of the lent lists and gives the head that belongs to them.
    pub fn write(&self, keys: &mut [i64], links: &mut [usize]) -> Head {
        keys.fill(0);
        links.fill(0);
        write_tree(&self.tree, self.k, keys, links);
        for pair in self.chain.windows(2) {
            links[3 * (pair[0] - 1)] = pair[1];
        }
        Head {
            k: self.k,
            c: self.c,
            root: slot_of(&self.tree),
            free: self.chain.first().copied().unwrap_or(0),
            n: self.c - self.chain.len(),
        }
    }
}

/// The slot on top of a subtree, 0 for none.
fn slot_of(tree: &Tree) -> usize {
    tree.as_ref().map_or(0, |node| node.slot)
}

/// Writes the numbers, links and heights of a subtree.
fn write_tree(tree: &Tree, k: usize, keys: &mut [i64], links: &mut [usize]) {
    if let Some(node) = tree {
        let slot = node.slot;
        keys[k * (slot - 1)..k * slot].copy_from_slice(&node.entry.f[..k]);
        links[3 * (slot - 1)] = slot_of(&node.left);
        links[3 * (slot - 1) + 1] = slot_of(&node.right);
        links[3 * (slot - 1) + 2] = height(tree);
        write_tree(&node.left, k, keys, links);
        write_tree(&node.right, k, keys, links);
    }
}
