//! What the program prints for what it is given.

use crate::calls::{start, take_in};
use crate::pool::Pool;
use crate::text::{pairs, parse, NAMES};
use crate::tree::{height, size, Tree};
use crate::types::Outcome;

/// The most bytes that the program takes.
const MOST_BYTES: usize = 32_768;

/// The capacity of the program's pool.
const CAPACITY: usize = 512;

/// The program: all bytes of its output for all bytes of its input.
pub fn show(input: &[u8]) -> Vec<u8> {
    if input.len() > MOST_BYTES {
        return format!("too_long={MOST_BYTES}\n").into_bytes();
    }
    // A text that is no saved book has no fields; its refusal is the same in a pool of any K.
    let k = parse(input).map_or(1, |saved| saved.fields);
    let mut keys = vec![0; k * CAPACITY];
    let mut links = vec![0; 3 * CAPACITY];
    let mut scratch = vec![0; CAPACITY];
    let fresh = start(k, CAPACITY, &mut keys, &mut links).head;
    let taken = take_in(fresh, &mut keys, &mut links, &mut scratch, input);
    if let Outcome::Refused(number) = taken.outcome {
        return format!("refused={number} line={}\n", taken.line).into_bytes();
    }
    Pool::read(taken.head, &keys, &links).map_or_else(Vec::new, |pool| print_pool(&pool))
}

/// The line of totals, then the tree.
fn print_pool(pool: &Pool) -> Vec<u8> {
    let mut out = format!(
        "entries={} height={} free={}\n",
        size(&pool.tree),
        height(&pool.tree),
        pool.chain.len()
    );
    print_tree(&pool.tree, 0, pool.k, &mut out);
    out.into_bytes()
}

/// A subtree: each entry before its left and then its right side.
fn print_tree(tree: &Tree, depth: usize, k: usize, out: &mut String) {
    if let Some(node) = tree {
        let cut = NAMES[depth % k];
        let entry = pairs(&node.entry, k);
        out.push_str(&format!(
            "slot={} depth={depth} cut={cut} {entry}\n",
            node.slot
        ));
        print_tree(&node.left, depth + 1, k, out);
        print_tree(&node.right, depth + 1, k, out);
    }
}
