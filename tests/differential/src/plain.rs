//! The second implementation's side of a call, and its types as the doors have them.

use crate::call::{Call, Room};
use crate::doors;
use crate::lent::Lent;
use reference::doors::open;
use reference::{Answer, Bound, Entry, Head, Outcome};

pub fn raw_head(head: Head) -> doors::Head {
    let Head {
        k,
        c,
        root,
        free,
        n,
    } = head;
    doors::Head {
        k,
        c,
        root,
        free,
        n,
    }
}

pub fn plain_head(head: doors::Head) -> Head {
    let doors::Head {
        k,
        c,
        root,
        free,
        n,
    } = head;
    Head {
        k,
        c,
        root,
        free,
        n,
    }
}

/// An answer with the paper's numbers for its outcome.
fn raw_answer(answer: Answer) -> doors::Answer {
    let (outcome, refusal) = match answer.outcome {
        Outcome::Found => (1, 0),
        Outcome::Absent => (2, 0),
        Outcome::Done => (3, 0),
        Outcome::Refused(number) => (4, number as usize),
    };
    doors::Answer {
        outcome,
        refusal,
        head: raw_head(answer.head),
        entry: doors::Entry { f: answer.entry.f },
        slot: answer.slot,
        reads: answer.reads,
        distance: answer.distance,
        count: answer.count,
        bytes: answer.bytes,
        line: answer.line,
        place: answer.place,
    }
}

/// The four bounds of a box; every kind but 0, 1 and 2 is between.
pub fn plain_bounds(bounds: &doors::Bounds) -> [Bound; 4] {
    bounds.of.map(|bound| match bound.kind {
        0 => Bound::Free,
        1 => Bound::AtLeast(bound.low),
        2 => Bound::AtMost(bound.high),
        _ => Bound::Between(bound.low, bound.high),
    })
}

/// Makes one call of the second implementation.
pub fn call(call: &Call, lent: &mut Lent, room: &mut Room) -> doors::Answer {
    let head = lent.head;
    let keys = lent.keys.cells_mut();
    let links = lent.links.cells_mut();
    let scratch = lent.scratch.cells_mut();
    let plain = |entry: &doors::Entry| Entry { f: entry.f };
    if let Call::Judge = call {
        let refused = open(head, keys, links).err();
        let number = refused.map_or(0, |refusal| refusal.number as usize);
        return doors::judged(raw_head(head), number);
    }
    raw_answer(match call {
        Call::Start { k, c, .. } => reference::start(*k, *c, keys, links),
        Call::Add(entry) => reference::add(head, keys, links, scratch, plain(entry)),
        Call::Strike(entry) => reference::strike(head, keys, links, scratch, plain(entry)),
        Call::LookUp(entry) => reference::look_up(head, keys, links, plain(entry)),
        Call::Count(bounds) => reference::count(head, keys, links, plain_bounds(bounds)),
        Call::List(bounds, _) => {
            let room = room.numbers.cells_mut();
            reference::list(head, keys, links, plain_bounds(bounds), room)
        }
        Call::Nearest(query, steps) => {
            reference::nearest(head, keys, links, plain(query), steps.of)
        }
        Call::Save(_) => reference::save(head, keys, links, room.bytes.cells_mut()),
        Call::TakeIn(..) => reference::take_in(head, keys, links, scratch, room.bytes.cells()),
        Call::Tray(..) => reference::tray(head, keys, links, scratch, room.numbers.cells()),
        Call::Judge => unreachable!("answered above"),
    })
}
