//! The refusals that many calls share: 1, 2, 3 and 4.

use crate::pool::Pool;
use crate::types::{Head, Refusal};

/// Refusals 1 to 3 for the two lists that every call is lent.
pub fn check_lists(k: usize, c: usize, keys: &[i64], links: &[usize]) -> Result<(), Refusal> {
    if !(1..=4).contains(&k) {
        return Err(Refusal::plain(1));
    }
    if !(1..=4096).contains(&c) {
        return Err(Refusal::plain(2));
    }
    if keys.len() != k * c || links.len() != 3 * c {
        return Err(Refusal::plain(3));
    }
    Ok(())
}

/// Refusals 1 to 4 of a call that borrows no scratch.
pub fn open(head: Head, keys: &[i64], links: &[usize]) -> Result<Pool, Refusal> {
    check_lists(head.k, head.c, keys, links)?;
    Pool::read(head, keys, links).ok_or(Refusal::plain(4))
}

/// Refusals 1 to 3 of a call that borrows scratch, whose length is refusal 3's too.
pub fn check_with_scratch(
    head: Head,
    keys: &[i64],
    links: &[usize],
    scratch: &[usize],
) -> Result<(), Refusal> {
    check_lists(head.k, head.c, keys, links)?;
    if scratch.len() != head.c {
        return Err(Refusal::plain(3));
    }
    Ok(())
}

/// Refusals 1 to 4 of a call that borrows scratch.
pub fn open_with_scratch(
    head: Head,
    keys: &[i64],
    links: &[usize],
    scratch: &[usize],
) -> Result<Pool, Refusal> {
    check_with_scratch(head, keys, links, scratch)?;
    open(head, keys, links)
}
