//! The questions asked of a book: look up, count a box, list a box, nearest.

use crate::doors::{check_lists, open};
use crate::key::{by_super_key, distance, in_box, own_fields};
use crate::pool::{entry_at, Pool};
use crate::tree::Placed;
use crate::types::{Answer, Bound, Entry, Head, Outcome, Refusal};
use std::cmp::Ordering;

/// The most entries that a look-up reads before it stops trusting the pool.
const MOST_READS: usize = 16;

/// Look up: walks the memory itself and refuses only what it meets.
pub fn look_up(head: Head, keys: &[i64], links: &[usize], entry: Entry) -> Answer {
    walk(head, keys, links, entry).unwrap_or_else(|refusal| Answer::refused(refusal, head))
}

/// Count a box.
pub fn count(head: Head, keys: &[i64], links: &[usize], bounds: [Bound; 4]) -> Answer {
    match open(head, keys, links) {
        Err(refusal) => Answer::refused(refusal, head),
        Ok(pool) => Answer {
            count: boxed(&pool, &bounds).len(),
            ..Answer::bare(Outcome::Done, head)
        },
    }
}

/// List a box: K numbers for each entry in listing order, or refusal 8.
pub fn list(
    head: Head,
    keys: &[i64],
    links: &[usize],
    bounds: [Bound; 4],
    room: &mut [i64],
) -> Answer {
    try_list(head, keys, links, bounds, room)
        .unwrap_or_else(|refusal| Answer::refused(refusal, head))
}

/// Nearest: the least distance, of equals the first in listing order; refusal 11 even of an empty book.
pub fn nearest(head: Head, keys: &[i64], links: &[usize], entry: Entry, steps: [u64; 4]) -> Answer {
    try_nearest(head, keys, links, entry, steps)
        .unwrap_or_else(|refusal| Answer::refused(refusal, head))
}

/// Look-up's walk from the root to the entry or to 0, counting the entries it meets.
fn walk(head: Head, keys: &[i64], links: &[usize], entry: Entry) -> Result<Answer, Refusal> {
    check_lists(head.k, head.c, keys, links)?;
    let goal = own_fields(entry, head.k);
    let mut slot = head.root;
    let mut reads = 0;
    while slot != 0 {
        if slot > head.c || reads == MOST_READS {
            return Err(Refusal::plain(4));
        }
        let depth = reads;
        reads += 1;
        match by_super_key(&goal, &entry_at(keys, slot, head.k), depth, head.k) {
            Ordering::Less => slot = links[3 * (slot - 1)],
            Ordering::Greater => slot = links[3 * (slot - 1) + 1],
            Ordering::Equal => {
                return Ok(Answer {
                    entry: goal,
                    slot,
                    reads,
                    ..Answer::bare(Outcome::Found, head)
                })
            }
        }
    }
    Ok(Answer {
        reads,
        ..Answer::bare(Outcome::Absent, head)
    })
}

/// The entries of a pool that lie in a box, in listing order.
fn boxed(pool: &Pool, bounds: &[Bound; 4]) -> Vec<Placed> {
    let mut inside = pool.entries();
    inside.retain(|(_, entry)| in_box(entry, bounds, pool.k));
    inside
}

/// The list of a box, written to the front of the room where it fits.
fn try_list(
    head: Head,
    keys: &[i64],
    links: &[usize],
    bounds: [Bound; 4],
    room: &mut [i64],
) -> Result<Answer, Refusal> {
    let pool = open(head, keys, links)?;
    let inside = boxed(&pool, &bounds);
    if room.len() < head.k * inside.len() {
        return Err(Refusal::plain(8));
    }
    for (place, (_, entry)) in room.chunks_mut(head.k).zip(&inside) {
        place.copy_from_slice(&entry.f[..head.k]);
    }
    Ok(Answer {
        count: inside.len(),
        ..Answer::bare(Outcome::Done, head)
    })
}

/// The nearest entry by looking at all of them in listing order.
fn try_nearest(
    head: Head,
    keys: &[i64],
    links: &[usize],
    entry: Entry,
    steps: [u64; 4],
) -> Result<Answer, Refusal> {
    let pool = open(head, keys, links)?;
    if steps[..head.k].contains(&0) {
        return Err(Refusal::plain(11));
    }
    let off = |placed: &Placed| distance(&placed.1, &entry, &steps, head.k);
    let entries = pool.entries();
    let Some(best) = entries.iter().min_by_key(|placed| off(placed)) else {
        return Ok(Answer::bare(Outcome::Absent, head));
    };
    Ok(Answer {
        entry: best.1,
        slot: best.0,
        distance: off(best),
        ..Answer::bare(Outcome::Found, head)
    })
}
