//! The calls that write a book or its text: start, add, strike, save, take in.

use crate::doors::{check_lists, open, open_with_scratch};
use crate::key::own_fields;
use crate::pool::Pool;
use crate::text::{parse, print, Saved};
use crate::tree;
use crate::types::{Answer, Entry, Head, Outcome, Refusal};

/// Start: a fresh pool in any memory of the right lengths; a refused start has a head of all 0.
pub fn start(k: usize, c: usize, keys: &mut [i64], links: &mut [usize]) -> Answer {
    match check_lists(k, c, keys, links) {
        Err(refusal) => Answer::refused(refusal, Head::default()),
        Ok(()) => Answer::bare(Outcome::Done, Pool::fresh(k, c).write(keys, links)),
    }
}

/// Add: one entry put in.
pub fn add(
    head: Head,
    keys: &mut [i64],
    links: &mut [usize],
    scratch: &mut [usize],
    entry: Entry,
) -> Answer {
    let worked = open_with_scratch(head, keys, links, scratch).and_then(|mut pool| {
        put_in(&mut pool, entry)?;
        Ok(pool)
    });
    finish(worked, head, keys, links, scratch)
}

/// Strike: one entry taken out.
pub fn strike(
    head: Head,
    keys: &mut [i64],
    links: &mut [usize],
    scratch: &mut [usize],
    entry: Entry,
) -> Answer {
    let worked = open_with_scratch(head, keys, links, scratch).and_then(|mut pool| {
        take_out(&mut pool, entry)?;
        Ok(pool)
    });
    finish(worked, head, keys, links, scratch)
}

/// Save: the whole text to the front of the room, or refusal 8.
pub fn save(head: Head, keys: &[i64], links: &[usize], room: &mut [u8]) -> Answer {
    let pool = match open(head, keys, links) {
        Err(refusal) => return Answer::refused(refusal, head),
        Ok(pool) => pool,
    };
    let text = print(&Saved {
        fields: head.k,
        entries: pool.entries().into_iter().map(|placed| placed.1).collect(),
    });
    if room.len() < text.len() {
        return Answer::refused(Refusal::plain(8), head);
    }
    room[..text.len()].copy_from_slice(&text);
    Answer {
        bytes: text.len(),
        ..Answer::bare(Outcome::Done, head)
    }
}

/// Take in: refusals 9, 10 and 7 in this order, then all that is not yet there, in text order.
pub fn take_in(
    head: Head,
    keys: &mut [i64],
    links: &mut [usize],
    scratch: &mut [usize],
    text: &[u8],
) -> Answer {
    let worked = open_with_scratch(head, keys, links, scratch).and_then(|mut pool| {
        let saved = parse(text).map_err(|line| Refusal {
            line,
            ..Refusal::plain(9)
        })?;
        if saved.fields != head.k {
            return Err(Refusal::plain(10));
        }
        let mut new = saved.entries;
        new.retain(|entry| !tree::holds(&pool.tree, entry, 0, head.k));
        if new.len() > pool.chain.len() {
            return Err(Refusal::plain(7));
        }
        for entry in new {
            put_in(&mut pool, entry)?;
        }
        Ok(pool)
    });
    finish(worked, head, keys, links, scratch)
}

/// Puts an entry into the first free slot of a pool; refusal 5 comes before 7.
pub fn put_in(pool: &mut Pool, entry: Entry) -> Result<(), Refusal> {
    let entry = own_fields(entry, pool.k);
    if tree::holds(&pool.tree, &entry, 0, pool.k) {
        return Err(Refusal::plain(5));
    }
    if pool.chain.is_empty() {
        return Err(Refusal::plain(7));
    }
    let slot = pool.chain.remove(0);
    tree::add(&mut pool.tree, (slot, entry), 0, pool.k);
    Ok(())
}

/// Takes an entry out of a pool; the slot given up becomes the front of the chain.
pub fn take_out(pool: &mut Pool, entry: Entry) -> Result<(), Refusal> {
    let entry = own_fields(entry, pool.k);
    if !tree::holds(&pool.tree, &entry, 0, pool.k) {
        return Err(Refusal::plain(6));
    }
    if let Some(slot) = tree::strike(&mut pool.tree, &entry, 0, pool.k) {
        pool.chain.insert(0, slot);
    }
    Ok(())
}

/// Ends a call that borrows scratch: nothing written where it was refused, else the image and a clean scratch.
pub fn finish(
    worked: Result<Pool, Refusal>,
    head: Head,
    keys: &mut [i64],
    links: &mut [usize],
    scratch: &mut [usize],
) -> Answer {
    match worked {
        Err(refusal) => Answer::refused(refusal, head),
        Ok(pool) => {
            scratch.fill(0);
            Answer::bare(Outcome::Done, pool.write(keys, links))
        }
    }
}
