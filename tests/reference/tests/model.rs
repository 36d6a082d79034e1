//! The plain sorted set that a book is compared with.

use reference::Bound;
use std::collections::BTreeSet;

/// The entries a book of K fields and C slots should hold.
pub struct Model {
    pub k: usize,
    pub c: usize,
    pub set: BTreeSet<Vec<i64>>,
}

/// Whether a number passes a bound, said with ranges.
fn passes(value: i64, bound: Bound) -> bool {
    match bound {
        Bound::Free => true,
        Bound::AtLeast(low) => (low..).contains(&value),
        Bound::AtMost(high) => (..=high).contains(&value),
        Bound::Between(low, high) => (low..=high).contains(&value),
    }
}

/// A saved text of entries that rise.
pub fn text_of(k: usize, entries: &BTreeSet<Vec<i64>>) -> String {
    let mut text = format!("book=1 fields={k} entries={}\n", entries.len());
    for f in entries {
        let named = f.iter().zip(["a", "b", "c", "d"]);
        let pairs: Vec<String> = named.map(|(v, name)| format!("{name}={v}")).collect();
        text.push_str(&format!("{}\n", pairs.join(" ")));
    }
    text
}

impl Model {
    pub fn new(k: usize, c: usize) -> Model {
        let set = BTreeSet::new();
        Model { k, c, set }
    }

    /// The refusal of an add, or none; an accepted entry is kept.
    pub fn add(&mut self, f: &[i64]) -> Option<u32> {
        if self.set.contains(f) {
            return Some(5);
        }
        if self.set.len() == self.c {
            return Some(7);
        }
        self.set.insert(f.to_vec());
        None
    }

    /// The refusal of a strike, or none; the entry is gone.
    pub fn strike(&mut self, f: &[i64]) -> Option<u32> {
        match self.set.remove(f) {
            true => None,
            false => Some(6),
        }
    }

    /// The numbers of a box one after another, and how many entries they are.
    pub fn boxed(&self, bounds: &[Bound]) -> (Vec<i64>, usize) {
        let inside: Vec<&Vec<i64>> = self
            .set
            .iter()
            .filter(|f| f.iter().zip(bounds).all(|(v, b)| passes(*v, *b)))
            .collect();
        let count = inside.len();
        (inside.into_iter().flatten().copied().collect(), count)
    }

    /// The nearest entry and its distance.
    pub fn nearest(&self, query: &[i64], steps: &[u64]) -> Option<(Vec<i64>, u64)> {
        let mut best: Option<(Vec<i64>, u64)> = None;
        for f in &self.set {
            let mut far = 0;
            for i in 0..self.k {
                far = far.max(f[i].abs_diff(query[i]).div_ceil(steps[i]));
            }
            if best.as_ref().is_none_or(|(_, least)| far < *least) {
                best = Some((f.clone(), far));
            }
        }
        best
    }
}
