//! The tree of the article as a tree of boxes: rebuild, add, strike.

use crate::key::by_super_key;
use crate::types::Entry;
use std::cmp::Ordering;

/// A subtree, or none.
pub type Tree = Option<Box<Node>>;

/// One entry in its slot, with its height and its two sides.
#[derive(Debug)]
pub struct Node {
    pub slot: usize,
    pub entry: Entry,
    pub height: usize,
    pub left: Tree,
    pub right: Tree,
}

/// An entry and the slot that holds it.
pub type Placed = (usize, Entry);

/// Height of a side; no child has 0.
pub fn height(tree: &Tree) -> usize {
    tree.as_ref().map_or(0, |node| node.height)
}

/// Height of an entry by its sides: one more than the higher of them.
pub fn height_over(left: &Tree, right: &Tree) -> usize {
    1 + height(left).max(height(right))
}

/// Balance at one entry: its sides' heights are at most 1 apart.
pub fn balanced(left: &Tree, right: &Tree) -> bool {
    height(left).abs_diff(height(right)) <= 1
}

/// Number of entries in a subtree.
pub fn size(tree: &Tree) -> usize {
    tree.as_ref()
        .map_or(0, |node| 1 + size(&node.left) + size(&node.right))
}

/// Everything in a subtree with its slots, each entry between its two sides.
pub fn gather(tree: &Tree, into: &mut Vec<Placed>) {
    if let Some(node) = tree {
        gather(&node.left, into);
        into.push((node.slot, node.entry));
        gather(&node.right, into);
    }
}

/// Whether all entries of a subtree pass a test.
pub fn all(tree: &Tree, test: &impl Fn(&Entry) -> bool) -> bool {
    match tree {
        None => true,
        Some(node) => test(&node.entry) && all(&node.left, test) && all(&node.right, test),
    }
}

/// Order: at every entry the whole left side is less and the whole right side greater.
pub fn ordered(tree: &Tree, depth: usize, k: usize) -> bool {
    match tree {
        None => true,
        Some(node) => {
            let less = |e: &Entry| by_super_key(e, &node.entry, depth, k) == Ordering::Less;
            let greater = |e: &Entry| by_super_key(e, &node.entry, depth, k) == Ordering::Greater;
            all(&node.left, &less)
                && all(&node.right, &greater)
                && ordered(&node.left, depth + 1, k)
                && ordered(&node.right, depth + 1, k)
        }
    }
}

/// Whether an entry stands in the tree, by the walk of its super keys.
pub fn holds(tree: &Tree, entry: &Entry, depth: usize, k: usize) -> bool {
    match tree {
        None => false,
        Some(node) => match by_super_key(entry, &node.entry, depth, k) {
            Ordering::Less => holds(&node.left, entry, depth + 1, k),
            Ordering::Equal => true,
            Ordering::Greater => holds(&node.right, entry, depth + 1, k),
        },
    }
}

/// Rebuild: rank by the depth's super key, entry number floor(m/2) on top, both sides likewise below.
pub fn rebuild(mut ranks: Vec<Placed>, depth: usize, k: usize) -> Tree {
    if ranks.is_empty() {
        return None;
    }
    ranks.sort_by(|one, other| by_super_key(&one.1, &other.1, depth, k));
    let higher = ranks.split_off(ranks.len() / 2 + 1);
    let (slot, entry) = ranks.pop()?;
    let left = rebuild(ranks, depth + 1, k);
    let right = rebuild(higher, depth + 1, k);
    Some(Box::new(Node {
        slot,
        entry,
        height: height_over(&left, &right),
        left,
        right,
    }))
}

/// Upward check of one entry: its height anew and, where its sides are too far apart, its subtree rebuilt.
pub fn check(mut node: Box<Node>, depth: usize, k: usize) -> Tree {
    node.height = height_over(&node.left, &node.right);
    if balanced(&node.left, &node.right) {
        return Some(node);
    }
    let mut ranks = Vec::new();
    gather(&Some(node), &mut ranks);
    rebuild(ranks, depth, k)
}

/// Add: an entry not yet there becomes a leaf in this slot, then its whole path is checked upward.
pub fn add(tree: &mut Tree, new: Placed, depth: usize, k: usize) {
    let Some(mut node) = tree.take() else {
        *tree = rebuild(vec![new], depth, k);
        return;
    };
    if by_super_key(&new.1, &node.entry, depth, k) == Ordering::Less {
        add(&mut node.left, new, depth + 1, k);
    } else {
        add(&mut node.right, new, depth + 1, k);
    }
    *tree = check(node, depth, k);
}

/// Replacement: the left side's greatest if that side is higher, else the right side's least, found by
/// looking at every entry there under this entry's own super key; a leaf has none.
fn replacement(node: &Node, depth: usize, k: usize) -> Option<Entry> {
    let left_is_higher = height(&node.left) > height(&node.right);
    let side = if left_is_higher {
        &node.left
    } else {
        &node.right
    };
    let mut seen = Vec::new();
    gather(side, &mut seen);
    let entries = seen.into_iter().map(|(_, entry)| entry);
    if left_is_higher {
        entries.max_by(|one, other| by_super_key(one, other, depth, k))
    } else {
        entries.min_by(|one, other| by_super_key(one, other, depth, k))
    }
}

/// Strike: takes the entry out, checks the path upward and gives the slot that the removed leaf gave up.
pub fn strike(tree: &mut Tree, gone: &Entry, depth: usize, k: usize) -> Option<usize> {
    let mut node = tree.take()?;
    let freed = match by_super_key(gone, &node.entry, depth, k) {
        Ordering::Less => strike(&mut node.left, gone, depth + 1, k),
        Ordering::Greater => strike(&mut node.right, gone, depth + 1, k),
        Ordering::Equal => {
            let Some(heir) = replacement(&node, depth, k) else {
                return Some(node.slot);
            };
            node.entry = heir;
            if height(&node.left) > height(&node.right) {
                strike(&mut node.left, &heir, depth + 1, k)
            } else {
                strike(&mut node.right, &heir, depth + 1, k)
            }
        }
    };
    *tree = check(node, depth, k);
    freed
}
