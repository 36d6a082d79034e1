//! The book over lent slices: every call hands them to the library and keeps the head that it answers.
//!
//! Each `unsafe` here hands over pointer and length of a live slice and values of C's layout. Every call takes every input, so nothing else is
//! asked of the caller; Rust's borrows see to it that no two slices overlap.

use crate::face::{self, Answer, FOUND, REFUSED};
use crate::refusal::Refusal;
use crate::types::{Bound, Entry, Head, LookUp, Near, Place};

/// A book in lent memory.
#[derive(Debug)]
pub struct Book<'a> {
    head: Head,
    keys: &'a mut [i64],
    links: &'a mut [usize],
}

/// A call that only reads: head and memory, then what it asks.
macro_rules! ask {
    ($book:ident, $call:ident $(, $more:expr)+) => {
        unsafe {
            let (keys, links) = (&$book.keys, &$book.links);
            face::$call($book.head, keys.as_ptr(), keys.len(), links.as_ptr(), links.len() $(, $more)+)
        }
    };
}

/// A call that changes the book: head, memory and scratch, then what it is given; the head that it answers is kept.
macro_rules! change {
    ($book:ident, $scratch:ident, $call:ident $(, $more:expr)+) => {{
        let (keys, links) = (&mut $book.keys, &mut $book.links);
        let answer = unsafe {
            face::$call(
                $book.head, keys.as_mut_ptr(), keys.len(), links.as_mut_ptr(), links.len(),
                $scratch.as_mut_ptr(), $scratch.len() $(, $more)+
            )
        };
        $book.head = accepted(answer)?.head;
        Ok(())
    }};
}

/// The answer of an accepted call.
fn accepted(answer: Answer) -> Result<Answer, Refusal> {
    match answer.outcome {
        REFUSED => Err(Refusal::of(answer.refusal, answer.line, answer.place)),
        _ => Ok(answer),
    }
}

impl<'a> Book<'a> {
    /// An empty book of `k` fields and `c` slots, whatever the memory held: `k * c` keys and `3 * c` links. Refused 1 to 3.
    pub fn start(
        k: usize,
        c: usize,
        keys: &'a mut [i64],
        links: &'a mut [usize],
    ) -> Result<Book<'a>, Refusal> {
        let (keys_len, links_len) = (keys.len(), links.len());
        let answer = unsafe {
            face::book_start(
                k,
                c,
                keys.as_mut_ptr(),
                keys_len,
                links.as_mut_ptr(),
                links_len,
            )
        };
        let head = accepted(answer)?.head;
        Ok(Book { head, keys, links })
    }

    /// The book that a head and memory are, judged first. Refused 1 to 4.
    pub fn resume(
        head: Head,
        keys: &'a mut [i64],
        links: &'a mut [usize],
    ) -> Result<Book<'a>, Refusal> {
        let number = unsafe {
            face::book_judge(head, keys.as_ptr(), keys.len(), links.as_ptr(), links.len())
        };
        match number {
            0 => Ok(Book { head, keys, links }),
            _ => Err(Refusal::of(number, 0, 0)),
        }
    }

    /// What is to be kept beside the memory to resume this book.
    pub fn head(&self) -> Head {
        self.head
    }

    /// The number of entries.
    pub fn len(&self) -> usize {
        self.head.n
    }

    /// Whether there are no entries.
    pub fn is_empty(&self) -> bool {
        self.len() == 0
    }

    /// Adds an entry; scratch is as long as the capacity, may hold anything, and is all 0 after an accepted call. Refused 3, 5 or 7.
    pub fn add(&mut self, scratch: &mut [usize], entry: impl Into<Entry>) -> Result<(), Refusal> {
        change!(self, scratch, book_add, entry.into())
    }

    /// Strikes an entry; scratch as in [add](Book::add). Refused 3 or 6.
    pub fn strike(
        &mut self,
        scratch: &mut [usize],
        entry: impl Into<Entry>,
    ) -> Result<(), Refusal> {
        change!(self, scratch, book_strike, entry.into())
    }

    /// Looks an entry up.
    pub fn look_up(&self, entry: impl Into<Entry>) -> Result<LookUp, Refusal> {
        let answer = accepted(ask!(self, book_look_up, entry.into()))?;
        let place = Place {
            entry: answer.entry,
            slot: answer.slot,
        };
        Ok(LookUp {
            found: (answer.outcome == FOUND).then_some(place),
            reads: answer.reads,
        })
    }

    /// How many entries a box holds.
    pub fn count(&self, bounds: [Bound; 4]) -> Result<usize, Refusal> {
        let answer = accepted(ask!(self, book_count, bounds.into()))?;
        Ok(answer.count)
    }

    /// Writes the entries of a box to the front of the room, K numbers each, rising by a, then b, c, d; tells how many entries. Refused 8.
    pub fn list(&self, bounds: [Bound; 4], room: &mut [i64]) -> Result<usize, Refusal> {
        let answer = accepted(ask!(
            self,
            book_list,
            bounds.into(),
            room.as_mut_ptr(),
            room.len()
        ))?;
        Ok(answer.count)
    }

    /// The entry nearest a query, by the step of each field; at a tie the first that a list would give; none where the book is empty. Refused 11.
    pub fn nearest(
        &self,
        query: impl Into<Entry>,
        steps: [u64; 4],
    ) -> Result<Option<Near>, Refusal> {
        let answer = accepted(ask!(
            self,
            book_nearest,
            query.into(),
            face::Steps { of: steps }
        ))?;
        let near = Near {
            entry: answer.entry,
            slot: answer.slot,
            distance: answer.distance,
        };
        Ok((answer.outcome == FOUND).then_some(near))
    }

    /// Writes the book as text to the front of the room; tells how many bytes. Refused 8.
    pub fn save(&self, room: &mut [u8]) -> Result<usize, Refusal> {
        let answer = accepted(ask!(self, book_save, room.as_mut_ptr(), room.len()))?;
        Ok(answer.bytes)
    }

    /// Takes in a saved text, whole or not at all: adds what is not yet there and strikes nothing; scratch as in [add](Book::add).
    /// Refused 3, 9 with the line, 10 or 7.
    pub fn take_in(&mut self, scratch: &mut [usize], text: &[u8]) -> Result<(), Refusal> {
        change!(self, scratch, book_take_in, text.as_ptr(), text.len())
    }

    /// Works a tray in order, whole or not at all; scratch as in [add](Book::add). An item is K+1 numbers: 1 to add or 2 to strike, then the
    /// entry's fields. Refused 3 or 12, or as the first item whose single call would be refused.
    pub fn tray(&mut self, scratch: &mut [usize], items: &[i64]) -> Result<(), Refusal> {
        change!(self, scratch, book_tray, items.as_ptr(), items.len())
    }
}
