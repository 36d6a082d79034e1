//! The tray: a list of adds and strikes, worked one after the other on a pool taken out of its memory.

use crate::calls::{finish, put_in, take_out};
use crate::doors::{check_with_scratch, open};
use crate::pool::Pool;
use crate::types::{Answer, Entry, Head, Refusal};

/// The most items of a tray.
pub const MOST_ITEMS: usize = 256;

/// One item of a tray.
enum Item {
    Add(Entry),
    Strike(Entry),
}

/// Tray: refusals 1, 2, 3, 12 and 4 in this order, then the items in theirs; the first one refused refuses them all.
pub fn tray(
    head: Head,
    keys: &mut [i64],
    links: &mut [usize],
    scratch: &mut [usize],
    items: &[i64],
) -> Answer {
    let worked = check_with_scratch(head, keys, links, scratch)
        .and_then(|()| read_items(items, head.k))
        .and_then(|items| work(open(head, keys, links)?, items));
    finish(worked, head, keys, links, scratch)
}

/// The pool after all items, or the refusal of the first one that has any, with its place from 1.
fn work(mut pool: Pool, items: Vec<Item>) -> Result<Pool, Refusal> {
    for (before, item) in items.into_iter().enumerate() {
        let worked = match item {
            Item::Add(entry) => put_in(&mut pool, entry),
            Item::Strike(entry) => take_out(&mut pool, entry),
        };
        worked.map_err(|refusal| Refusal {
            place: before + 1,
            ..refusal
        })?;
    }
    Ok(pool)
}

/// Refusal 12: the numbers are no list of at most 256 items of K+1.
fn read_items(numbers: &[i64], k: usize) -> Result<Vec<Item>, Refusal> {
    let whole = numbers.len() % (k + 1) == 0;
    if !whole || numbers.len() / (k + 1) > MOST_ITEMS {
        return Err(Refusal::plain(12));
    }
    numbers.chunks(k + 1).map(read_item).collect()
}

/// One item: 1 for add or 2 for strike, then the fields.
fn read_item(numbers: &[i64]) -> Result<Item, Refusal> {
    let mut entry = Entry::default();
    entry.f[..numbers.len() - 1].copy_from_slice(&numbers[1..]);
    match numbers[0] {
        1 => Ok(Item::Add(entry)),
        2 => Ok(Item::Strike(entry)),
        _ => Err(Refusal::plain(12)),
    }
}
