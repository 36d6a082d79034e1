//! One entry against another, a box or a query.

use crate::types::{Bound, Entry};
use std::cmp::Ordering;

/// The entry as a book of K fields holds it: nothing but 0 beyond K.
pub fn own_fields(entry: Entry, k: usize) -> Entry {
    let mut own = Entry::default();
    own.f[..k].copy_from_slice(&entry.f[..k]);
    own
}

/// Super key: the depth's cut field decides first, then the fields after it, round to the one before it.
pub fn by_super_key(one: &Entry, other: &Entry, depth: usize, k: usize) -> Ordering {
    let cut = depth % k;
    one.f[cut..k]
        .cmp(&other.f[cut..k])
        .then_with(|| one.f[..cut].cmp(&other.f[..cut]))
}

/// Listing order: a, then b, c, d.
pub fn by_listing(one: &Entry, other: &Entry, k: usize) -> Ordering {
    one.f[..k].cmp(&other.f[..k])
}

/// Box, one field: a reversed between lets nothing through.
pub fn within(value: i64, bound: Bound) -> bool {
    match bound {
        Bound::Free => true,
        Bound::AtLeast(low) => low <= value,
        Bound::AtMost(high) => value <= high,
        Bound::Between(low, high) => low <= value && value <= high,
    }
}

/// Box, a whole entry: each of the K fields lies within its bound.
pub fn in_box(entry: &Entry, bounds: &[Bound; 4], k: usize) -> bool {
    (0..k).all(|i| within(entry.f[i], bounds[i]))
}

/// Difference of two numbers, had in a wider type so that nothing can be lost.
pub fn difference(one: i64, other: i64) -> u64 {
    (i128::from(one) - i128::from(other)).unsigned_abs() as u64
}

/// Distance of a field: its difference in steps, any part of a step counting as one; in a wider type too.
fn field_distance(one: i64, other: i64, step: u64) -> u64 {
    let (apart, step) = (i128::from(difference(one, other)), i128::from(step));
    ((apart + step - 1) / step) as u64
}

/// Distance of an entry: its greatest field distance.
pub fn distance(entry: &Entry, query: &Entry, steps: &[u64; 4], k: usize) -> u64 {
    (0..k)
        .map(|i| field_distance(entry.f[i], query.f[i], steps[i]))
        .fold(0, u64::max)
}
