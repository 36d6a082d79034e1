//! All calls at once on a copy of the lent memory, given what later rows of the table would refuse.

use crate::lent::{noisy, Lent};
use reference::{Answer, Bound, Outcome};

/// A call's name and what it answered.
pub type Asked = (&'static str, Answer);

/// The four calls that borrow scratch; take in gets no text at all, the tray two adds of the entry that add gets.
pub fn ask_writers(lent: &Lent) -> Vec<Asked> {
    let entry = noisy(&[]);
    let add = [&[1], &entry.f[..lent.head.k.min(4)]].concat();
    let mut asked = Vec::new();
    for name in ["add", "strike", "take_in", "tray"] {
        let mut copy = lent.clone();
        let Lent {
            head,
            keys,
            links,
            scratch,
        } = &mut copy;
        let answer = match name {
            "add" => reference::add(*head, keys, links, scratch, entry),
            "strike" => reference::strike(*head, keys, links, scratch, entry),
            "take_in" => reference::take_in(*head, keys, links, scratch, b""),
            _ => reference::tray(*head, keys, links, scratch, &[&add[..], &add].concat()),
        };
        if matches!(answer.outcome, Outcome::Refused(_)) {
            assert_eq!(copy, *lent, "a refused {name} wrote");
        }
        asked.push((name, answer));
    }
    asked
}

/// The four calls that read a sound pool; rooms are empty and steps are 0.
pub fn ask_readers(lent: &Lent) -> Vec<Asked> {
    let (head, keys, links) = (lent.head, &lent.keys, &lent.links);
    let bounds = [Bound::Free; 4];
    vec![
        ("count", reference::count(head, keys, links, bounds)),
        ("list", reference::list(head, keys, links, bounds, &mut [])),
        (
            "nearest",
            reference::nearest(head, keys, links, noisy(&[]), [0; 4]),
        ),
        ("save", reference::save(head, keys, links, &mut [])),
    ]
}

/// All calls that test soundness.
pub fn ask_all(lent: &Lent) -> Vec<Asked> {
    let mut asked = ask_writers(lent);
    asked.extend(ask_readers(lent));
    asked
}
