//! The doors of the static library, as C declares them.

use crate::call::{Call, Room};
use crate::lent::Lent;

#[repr(C)]
#[derive(Clone, Copy, Debug, Default, PartialEq, Eq)]
pub struct Head {
    pub k: usize,
    pub c: usize,
    pub root: usize,
    pub free: usize,
    pub n: usize,
}

#[repr(C)]
#[derive(Clone, Copy, Debug, Default, PartialEq, Eq)]
pub struct Entry {
    pub f: [i64; 4],
}

/// Kind 0 is free, 1 at least low, 2 at most high, any other between.
#[repr(C)]
#[derive(Clone, Copy, Debug, Default, PartialEq, Eq)]
pub struct Bound {
    pub kind: usize,
    pub low: i64,
    pub high: i64,
}

#[repr(C)]
#[derive(Clone, Copy, Debug, Default, PartialEq, Eq)]
pub struct Bounds {
    pub of: [Bound; 4],
}

#[repr(C)]
#[derive(Clone, Copy, Debug, Default, PartialEq, Eq)]
pub struct Steps {
    pub of: [u64; 4],
}

/// Outcome 1 is found, 2 absent, 3 done, 4 refused, which has its number beside it.
#[repr(C)]
#[derive(Clone, Copy, Debug, Default, PartialEq, Eq)]
pub struct Answer {
    pub outcome: usize,
    pub refusal: usize,
    pub head: Head,
    pub entry: Entry,
    pub slot: usize,
    pub reads: usize,
    pub distance: u64,
    pub count: usize,
    pub bytes: usize,
    pub line: usize,
    pub place: usize,
}

type Keys = *const i64;
type Links = *const usize;

#[rustfmt::skip]
extern "C" {
    fn book_start(k: usize, c: usize, keys: *mut i64, keys_len: usize, links: *mut usize, links_len: usize) -> Answer;
    fn book_look_up(head: Head, keys: Keys, keys_len: usize, links: Links, links_len: usize, entry: Entry) -> Answer;
    fn book_count(head: Head, keys: Keys, keys_len: usize, links: Links, links_len: usize, bounds: Bounds) -> Answer;
    fn book_list(
        head: Head, keys: Keys, keys_len: usize, links: Links, links_len: usize,
        bounds: Bounds, room: *mut i64, room_len: usize,
    ) -> Answer;
    fn book_nearest(
        head: Head, keys: Keys, keys_len: usize, links: Links, links_len: usize,
        query: Entry, steps: Steps,
    ) -> Answer;
    fn book_add(
        head: Head, keys: *mut i64, keys_len: usize, links: *mut usize, links_len: usize,
        scratch: *mut usize, scratch_len: usize, entry: Entry,
    ) -> Answer;
    fn book_strike(
        head: Head, keys: *mut i64, keys_len: usize, links: *mut usize, links_len: usize,
        scratch: *mut usize, scratch_len: usize, entry: Entry,
    ) -> Answer;
    fn book_save(
        head: Head, keys: Keys, keys_len: usize, links: Links, links_len: usize,
        room: *mut u8, room_len: usize,
    ) -> Answer;
    fn book_judge(head: Head, keys: Keys, keys_len: usize, links: Links, links_len: usize) -> usize;
    fn book_take_in(
        head: Head, keys: *mut i64, keys_len: usize, links: *mut usize, links_len: usize,
        scratch: *mut usize, scratch_len: usize, text: *const u8, text_len: usize,
    ) -> Answer;
    fn book_tray(
        head: Head, keys: *mut i64, keys_len: usize, links: *mut usize, links_len: usize,
        scratch: *mut usize, scratch_len: usize, items: Keys, items_len: usize,
    ) -> Answer;
}

/// A verdict on a pool as an answer: done where it is sound, else refused.
pub fn judged(head: Head, refusal: usize) -> Answer {
    Answer {
        outcome: if refusal == 0 { 3 } else { 4 },
        refusal,
        head,
        ..Answer::default()
    }
}

/// Makes one call of the library; every pointer comes from a slice of the length beside it.
#[rustfmt::skip]
pub fn call(call: &Call, lent: &mut Lent, room: &mut Room) -> Answer {
    let h = crate::plain::raw_head(lent.head);
    let (keys, links, scratch) = (lent.keys.cells_mut(), lent.links.cells_mut(), lent.scratch.cells_mut());
    let (kp, kn) = (keys.as_mut_ptr(), keys.len());
    let (lp, ln) = (links.as_mut_ptr(), links.len());
    let (sp, sn) = (scratch.as_mut_ptr(), scratch.len());
    let (numbers, bytes) = (room.numbers.cells_mut(), room.bytes.cells_mut());
    // Safety: each pointer is lent with its own length, no two overlap, and all outlive the call.
    unsafe {
        match call {
            Call::Start { k, c, .. } => book_start(*k, *c, kp, kn, lp, ln),
            Call::LookUp(entry) => book_look_up(h, kp, kn, lp, ln, *entry),
            Call::Count(bounds) => book_count(h, kp, kn, lp, ln, *bounds),
            Call::List(bounds, _) => book_list(h, kp, kn, lp, ln, *bounds, numbers.as_mut_ptr(), numbers.len()),
            Call::Nearest(query, steps) => book_nearest(h, kp, kn, lp, ln, *query, *steps),
            Call::Add(entry) => book_add(h, kp, kn, lp, ln, sp, sn, *entry),
            Call::Strike(entry) => book_strike(h, kp, kn, lp, ln, sp, sn, *entry),
            Call::Save(_) => book_save(h, kp, kn, lp, ln, bytes.as_mut_ptr(), bytes.len()),
            Call::Judge => judged(h, book_judge(h, kp, kn, lp, ln)),
            Call::TakeIn(..) => book_take_in(h, kp, kn, lp, ln, sp, sn, bytes.as_ptr(), bytes.len()),
            Call::Tray(..) => book_tray(h, kp, kn, lp, ln, sp, sn, numbers.as_ptr(), numbers.len()),
        }
    }
}
