//! The library's C face: include/book.h, declared again.

use crate::types::{Bound, Entry, Head};

/// `book_bound`.
#[repr(C)]
#[derive(Clone, Copy)]
pub struct Limit {
    kind: usize,
    low: i64,
    high: i64,
}

impl From<Bound> for Limit {
    fn from(bound: Bound) -> Limit {
        let (kind, low, high) = match bound {
            Bound::Free => (0, 0, 0),
            Bound::AtLeast(low) => (1, low, 0),
            Bound::AtMost(high) => (2, 0, high),
            Bound::Between(low, high) => (3, low, high),
        };
        Limit { kind, low, high }
    }
}

/// `book_box`.
#[repr(C)]
pub struct Limits {
    of: [Limit; 4],
}

impl From<[Bound; 4]> for Limits {
    fn from(bounds: [Bound; 4]) -> Limits {
        Limits {
            of: bounds.map(Limit::from),
        }
    }
}

/// `book_steps`.
#[repr(C)]
pub struct Steps {
    pub of: [u64; 4],
}

/// `book_answer`.
#[repr(C)]
pub struct Answer {
    pub outcome: usize,
    pub refusal: usize,
    pub head: Head,
    pub entry: Entry,
    pub slot: usize,
    pub reads: usize,
    pub distance: u64,
    pub count: usize,
    pub bytes: usize,
    pub line: usize,
    pub place: usize,
}

// Outcomes that a caller tells apart; the third is done.
pub const FOUND: usize = 1;
pub const REFUSED: usize = 4;

// A lent list goes as its pointer and its length.
extern "C" {
    pub fn book_judge(
        head: Head,
        keys: *const i64,
        keys_len: usize,
        links: *const usize,
        links_len: usize,
    ) -> usize;
    pub fn book_start(
        k: usize,
        c: usize,
        keys: *mut i64,
        keys_len: usize,
        links: *mut usize,
        links_len: usize,
    ) -> Answer;
    pub fn book_look_up(
        head: Head,
        keys: *const i64,
        keys_len: usize,
        links: *const usize,
        links_len: usize,
        entry: Entry,
    ) -> Answer;
    pub fn book_count(
        head: Head,
        keys: *const i64,
        keys_len: usize,
        links: *const usize,
        links_len: usize,
        limits: Limits,
    ) -> Answer;
    pub fn book_list(
        head: Head,
        keys: *const i64,
        keys_len: usize,
        links: *const usize,
        links_len: usize,
        limits: Limits,
        room: *mut i64,
        room_len: usize,
    ) -> Answer;
    pub fn book_nearest(
        head: Head,
        keys: *const i64,
        keys_len: usize,
        links: *const usize,
        links_len: usize,
        query: Entry,
        steps: Steps,
    ) -> Answer;
    pub fn book_add(
        head: Head,
        keys: *mut i64,
        keys_len: usize,
        links: *mut usize,
        links_len: usize,
        scratch: *mut usize,
        scratch_len: usize,
        entry: Entry,
    ) -> Answer;
    pub fn book_strike(
        head: Head,
        keys: *mut i64,
        keys_len: usize,
        links: *mut usize,
        links_len: usize,
        scratch: *mut usize,
        scratch_len: usize,
        entry: Entry,
    ) -> Answer;
    pub fn book_save(
        head: Head,
        keys: *const i64,
        keys_len: usize,
        links: *const usize,
        links_len: usize,
        room: *mut u8,
        room_len: usize,
    ) -> Answer;
    pub fn book_take_in(
        head: Head,
        keys: *mut i64,
        keys_len: usize,
        links: *mut usize,
        links_len: usize,
        scratch: *mut usize,
        scratch_len: usize,
        text: *const u8,
        text_len: usize,
    ) -> Answer;
    pub fn book_tray(
        head: Head,
        keys: *mut i64,
        keys_len: usize,
        links: *mut usize,
        links_len: usize,
        scratch: *mut usize,
        scratch_len: usize,
        items: *const i64,
        items_len: usize,
    ) -> Answer;
}
