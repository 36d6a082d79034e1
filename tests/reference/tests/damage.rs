//! Damaged pools: refused with 4 by all calls that test soundness, quickly and without a write.

use crate::dice::Dice;
use crate::every_call::ask_all;
use crate::judge::tree_slots;
use crate::lent::{noisy, refused, Lent};
use reference::{look_up, Head, Outcome};

/// A book about so full, whose slots have been used, freed and used again.
pub fn book(k: usize, c: usize, n: usize, seed: u64) -> Lent {
    let mut dice = Dice::new(seed);
    let mut lent = Lent::start(k, c);
    let mut text = format!("book=1 fields={k} entries={n}\n");
    for i in 0..n {
        let rest: Vec<String> = (1..k)
            .map(|f| format!(" {}={}", ["a", "b", "c", "d"][f], dice.below(1000)))
            .collect();
        text.push_str(&format!("a={}{}\n", i as i64 - 5, rest.concat()));
    }
    assert_eq!(lent.take_in(text.as_bytes()).outcome, Outcome::Done);
    for _ in 0..n.min(20) {
        let slot = 1 + dice.below(c);
        let f = lent.numbers(slot).to_vec();
        lent.strike(&f);
        let f: Vec<i64> = (0..k).map(|_| dice.below(3000) as i64 + 9000).collect();
        lent.add(&f);
    }
    lent
}

/// Look-up trusts nothing: it ends, reads at most 16, and what it finds is what it was asked for.
fn look_up_ends(lent: &Lent) {
    let Lent {
        head, keys, links, ..
    } = lent;
    for f in [[0; 4], [i64::MIN; 4], [i64::MAX; 4], [9500; 4]] {
        let answer = look_up(*head, keys, links, noisy(&f[..head.k]));
        match answer.outcome {
            Outcome::Refused(number) => assert_eq!(answer, refused(number, 0, *head)),
            Outcome::Found => assert_eq!(lent.numbers(answer.slot), &f[..head.k]),
            outcome => assert_eq!((outcome, answer.slot), (Outcome::Absent, 0)),
        }
        assert!(answer.reads <= 16);
    }
}

/// The judge and all calls agree that this pool is not sound.
pub fn unsound(lent: &Lent, what: &str) {
    assert_eq!(
        tree_slots(lent.head, &lent.keys, &lent.links),
        None,
        "the judge calls it sound: {what}"
    );
    for (name, answer) in ask_all(lent) {
        assert_eq!(answer, refused(4, 0, lent.head), "{name}: {what}");
    }
    look_up_ends(lent);
}

/// Damages a copy of the book in one way and asks everybody.
fn spoil(lent: &Lent, what: &str, damage: impl Fn(&mut Lent)) {
    let mut copy = lent.clone();
    damage(&mut copy);
    assert_ne!(copy, *lent, "nothing was damaged: {what}");
    unsound(&copy, what);
}

/// The pools that are damaged below: neither full nor empty.
fn books() -> Vec<Lent> {
    let shapes = [
        (1, 3, 2),
        (2, 9, 5),
        (3, 40, 30),
        (4, 300, 200),
        (2, 4096, 3000),
    ];
    let books = shapes.map(|(k, c, n)| book(k, c, n, c as u64));
    books.into_iter().collect()
}

#[test]
fn a_head_that_does_not_fit() {
    for lent in books() {
        let Head {
            c, root, free, n, ..
        } = lent.head;
        for bad in [0, c + 1, free, usize::MAX, usize::MAX / 3] {
            spoil(&lent, "root", |copy| copy.head.root = bad);
        }
        for bad in [0, c + 1, root, usize::MAX, usize::MAX / 3] {
            spoil(&lent, "free", |copy| copy.head.free = bad);
        }
        for bad in [0, n - 1, n + 1, c, c + 1, usize::MAX] {
            spoil(&lent, "count", |copy| copy.head.n = bad);
        }
        spoil(&lent, "root below itself", |copy| {
            copy.head.root = lent
                .link(root)
                .into_iter()
                .find(|s| *s != 0 && *s != root)
                .unwrap()
        });
    }
}

#[test]
fn a_link_or_height_that_is_wrong() {
    for lent in books() {
        let (head, c) = (lent.head, lent.head.c);
        let met = tree_slots(head, &lent.keys, &lent.links).unwrap();
        let few = met.iter().take(6).chain(met.iter().rev().take(6));
        for &(slot, _) in few {
            let [left, right, height] = lent.link(slot);
            for side in 0..2 {
                let at = 3 * (slot - 1) + side;
                let old = [left, right][side];
                let bad = [
                    0,
                    c + 1,
                    usize::MAX,
                    slot,
                    head.root,
                    head.free,
                    left,
                    right,
                ];
                for bad in bad.into_iter().filter(|bad| *bad != old) {
                    spoil(&lent, "side", |copy| copy.links[at] = bad);
                }
            }
            let bad = [0, height + 1, height - 1, c, usize::MAX];
            for bad in bad.into_iter().filter(|bad| *bad != height) {
                spoil(&lent, "height", |copy| copy.links[3 * slot - 1] = bad);
            }
        }
    }
}

#[test]
fn sides_in_the_wrong_order() {
    for lent in books() {
        let (root, k) = (lent.head.root, lent.head.k);
        let [left, right, _] = lent.link(root);
        spoil(&lent, "swapped sides", |copy| {
            copy.links[3 * (root - 1)] = right;
            copy.links[3 * (root - 1) + 1] = left;
        });
        let below = if left > 0 { left } else { right };
        spoil(&lent, "the same entry twice", |copy| {
            let twice = lent.numbers(root).to_vec();
            copy.keys[k * (below - 1)..k * below].copy_from_slice(&twice);
        });
        spoil(&lent, "an entry at the wrong end", |copy| {
            let end = if below == left { i64::MAX } else { i64::MIN };
            copy.keys[k * (below - 1)] = end;
        });
    }
}

#[test]
fn a_chain_that_is_wrong() {
    for lent in books() {
        let Head {
            k,
            c,
            root,
            free,
            n,
        } = lent.head;
        let last = (1..=c)
            .find(|s| lent.link(*s) == [0; 3])
            .expect("the chain ends");
        for side in [1, 2] {
            for bad in [1, root, usize::MAX] {
                spoil(&lent, "uncleared link", |copy| {
                    copy.links[3 * (last - 1) + side] = bad
                });
            }
        }
        for field in 0..k {
            for bad in [1, -1, i64::MIN] {
                spoil(&lent, "uncleared number", |copy| {
                    copy.keys[k * (last - 1) + field] = bad
                });
            }
        }
        for bad in [last, free, root, c + 1, usize::MAX] {
            spoil(&lent, "chain's end", |copy| {
                copy.links[3 * (last - 1)] = bad
            });
        }
        if c - n > 1 {
            spoil(&lent, "chain cut short", |copy| {
                copy.links[3 * (free - 1)] = 0
            });
            spoil(&lent, "chain without its front", |copy| {
                copy.head.free = lent.link(free)[0]
            });
        }
        spoil(&lent, "a slot lost with its count", |copy| {
            copy.head.free = lent.link(free)[0];
            copy.head.n = n + 1;
        });
    }
}

#[test]
fn a_fresh_book_that_is_damaged() {
    for (k, c) in [(1, 1), (2, 3), (4, 4096)] {
        let lent = Lent::start(k, c);
        for root in [1, c, c + 1, usize::MAX] {
            spoil(&lent, "root", |copy| copy.head.root = root);
        }
        spoil(&lent, "free", |copy| copy.head.free = 0);
        spoil(&lent, "chain in a circle", |copy| {
            copy.links[3 * (c - 1)] = 1
        });
        spoil(&lent, "count", |copy| copy.head.n = 1);
        spoil(&lent, "all full", |copy| {
            copy.head.n = c;
            copy.head.free = 0;
        });
    }
}
