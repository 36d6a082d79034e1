//! The kinds of damage that are done to pools, each a throw of the dice over what the pool holds.

use crate::damage::{Damage, Edit};
use crate::dice::Dice;
use crate::lent::Lent;
use crate::view::View;

/// What a kind of damage alters, or nothing where this pool has nothing of the sort.
type Throw = fn(&mut Dice, &View) -> Vec<Edit>;

/// Every kind with its name in the table.
pub const KINDS: [(&str, Throw); 29] = [
    ("head: K out of range", |d, _| {
        vec![Edit::K(d.one(&[0, 5, 6, usize::MAX]))]
    }),
    ("head: C out of range", |d, _| {
        vec![Edit::C(d.one(&[0, 4097, 1 << 63, usize::MAX]))]
    }),
    ("head: another K or C", another_size),
    ("head: root", |d, v| vec![Edit::Root(slot(d, v))]),
    ("head: first free", |d, v| vec![Edit::Free(slot(d, v))]),
    ("head: n off by one", |d, v| {
        vec![Edit::N(v.lent.head.n.wrapping_add(d.one(&[1, usize::MAX])))]
    }),
    ("head: n", |d, v| {
        let any = d.below(v.c + 1);
        vec![Edit::N(d.one(&[0, v.c, v.c + 1, usize::MAX, any]))]
    }),
    ("head: root and first free swapped", |_, v| {
        vec![Edit::Root(v.lent.head.free), Edit::Free(v.lent.head.root)]
    }),
    ("length of keys", |d, v| {
        vec![Edit::KeysLength(length(d, v.lent.keys.cells().len()))]
    }),
    ("length of links", |d, v| {
        vec![Edit::LinksLength(length(d, v.lent.links.cells().len()))]
    }),
    ("length of scratch", |d, v| {
        vec![Edit::ScratchLength(length(d, v.lent.scratch.cells().len()))]
    }),
    ("tree: a side", |d, v| side(d, v, |d, v| d.below(v.c + 1))),
    ("tree: a side beyond C", |d, v| side(d, v, beyond)),
    ("tree: a side in a circle", |d, v| {
        side(d, v, |d, v| d.one(&v.tree[..v.tree.len().min(7)]))
    }),
    ("tree: a side shared", |d, v| {
        side(d, v, |d, v| d.one(&v.tree))
    }),
    ("tree: a side into the chain", |d, v| {
        side(d, v, |_, v| v.lent.head.free)
    }),
    ("tree: a side lost", |d, v| side(d, v, |_, _| 0)),
    ("tree: a height", height),
    ("tree: sides swapped", swapped_sides),
    ("keys: a number", a_number),
    ("keys: an entry twice", an_entry_twice),
    ("keys: two entries swapped", two_entries),
    ("chain: a link", |d, v| {
        free_cell(d, v, 0, |d, v| d.below(v.c + 2))
    }),
    ("chain: in a circle", |d, v| {
        free_cell(d, v, 0, |d, v| d.one(&v.chain))
    }),
    ("chain: a slot not cleared", not_cleared),
    ("any cell, one bit", a_bit),
    ("any cells, several", several),
    ("all links anew", all_links),
    ("two of these at once", two_of_these),
];

/// Throws damage of this kind; None where it alters nothing of this pool.
pub fn damage(dice: &mut Dice, lent: &Lent, kind: usize) -> Option<Damage> {
    let view = View::of(lent);
    let edits = KINDS[kind].1(dice, &view);
    let damage = Damage { kind, edits };
    damage.alters(lent).then_some(damage)
}

/// A slot number that is wrong more often than not.
fn slot(dice: &mut Dice, view: &View) -> usize {
    let near = dice.below(view.c + 2);
    dice.one(&[0, near, near, near, view.c, view.c + 1, usize::MAX])
}

/// A slot number that no pool of this size has; the last three are 0 or small once tripled with wrap.
fn beyond(dice: &mut Dice, view: &View) -> usize {
    let third = usize::MAX / 3;
    dice.one(&[
        view.c + 1,
        4097,
        usize::MAX,
        1 << 63,
        third,
        third + 1,
        third + 2,
    ])
}

/// A length beside the right one.
fn length(dice: &mut Dice, right: usize) -> usize {
    let any = dice.below(2 * right + 2);
    dice.one(&[
        0,
        right.saturating_sub(1),
        right + 1,
        right + 1,
        2 * right,
        any,
    ])
}

/// K or C in range and another, the lists as they were or of the lengths that go with it.
fn another_size(dice: &mut Dice, view: &View) -> Vec<Edit> {
    let (k, c) = (view.lent.head.k, view.c);
    let mut edits = match dice.below(3) {
        0 => vec![Edit::K(1 + dice.below(4))],
        1 => vec![Edit::C(1 + dice.below(2 * c + 1))],
        _ => vec![Edit::K(1 + dice.below(4)), Edit::C(c + 1)],
    };
    if dice.chance(50) {
        let wanted = edits.iter().fold((k, c), |(k, c), edit| match edit {
            Edit::K(k) => (*k, c),
            Edit::C(c) => (k, *c),
            _ => (k, c),
        });
        edits.push(Edit::KeysLength(wanted.0.min(4) * wanted.1));
        edits.push(Edit::LinksLength(3 * wanted.1));
        edits.push(Edit::ScratchLength(wanted.1));
    }
    edits
}

/// Another left or right of a slot in the tree.
fn side(dice: &mut Dice, view: &View, to: fn(&mut Dice, &View) -> usize) -> Vec<Edit> {
    if view.tree.is_empty() {
        return Vec::new();
    }
    let at = 3 * (dice.one(&view.tree) - 1) + dice.below(2);
    vec![Edit::Link(at, to(dice, view))]
}

/// Another height of a slot in the tree.
fn height(dice: &mut Dice, view: &View) -> Vec<Edit> {
    if view.tree.is_empty() {
        return Vec::new();
    }
    let slot = dice.one(&view.tree);
    let height = view.lent.link(slot)[2];
    let wrong = [height + 1, height.wrapping_sub(1), 0, view.c, usize::MAX];
    vec![Edit::Link(3 * slot - 1, dice.one(&wrong))]
}

/// The two sides of a slot change places.
fn swapped_sides(dice: &mut Dice, view: &View) -> Vec<Edit> {
    if view.tree.is_empty() {
        return Vec::new();
    }
    let slot = dice.one(&view.tree);
    let [left, right, _] = view.lent.link(slot);
    vec![
        Edit::Link(3 * (slot - 1), right),
        Edit::Link(3 * (slot - 1) + 1, left),
    ]
}

/// The cells of a slot's numbers.
fn numbers_of(view: &View, slot: usize) -> std::ops::Range<usize> {
    let k = view.lent.head.k.min(4);
    k * (slot - 1)..k * slot
}

/// One number of an entry, a little or much off.
fn a_number(dice: &mut Dice, view: &View) -> Vec<Edit> {
    if view.tree.is_empty() || view.lent.head.k == 0 {
        return Vec::new();
    }
    let slot = dice.one(&view.tree);
    let field = dice.below(view.lent.head.k.min(4));
    let old = view.lent.numbers(slot)[field];
    let far = dice.next() as i64;
    let near = [old.wrapping_add(1), old.wrapping_sub(1)];
    let value = dice.one(&[near[0], near[1], far, i64::MIN, i64::MAX, 0]);
    vec![Edit::Key(numbers_of(view, slot).start + field, value)]
}

/// The numbers of this slot written over those of that one.
fn copied(view: &View, from: usize, to: usize) -> Vec<Edit> {
    let numbers = view.lent.numbers(from);
    let cells = numbers_of(view, to);
    cells.zip(numbers).map(|(at, v)| Edit::Key(at, v)).collect()
}

/// An entry a second time, over another.
fn an_entry_twice(dice: &mut Dice, view: &View) -> Vec<Edit> {
    if view.tree.len() < 2 {
        return Vec::new();
    }
    copied(view, dice.one(&view.tree), dice.one(&view.tree))
}

/// Two entries change slots.
fn two_entries(dice: &mut Dice, view: &View) -> Vec<Edit> {
    if view.tree.len() < 2 {
        return Vec::new();
    }
    let (one, other) = (dice.one(&view.tree), dice.one(&view.tree));
    [copied(view, one, other), copied(view, other, one)].concat()
}

/// One link cell of a free slot.
fn free_cell(
    dice: &mut Dice,
    view: &View,
    cell: usize,
    to: fn(&mut Dice, &View) -> usize,
) -> Vec<Edit> {
    if view.chain.is_empty() {
        return Vec::new();
    }
    let slot = dice.one(&view.chain);
    vec![Edit::Link(3 * (slot - 1) + cell, to(dice, view))]
}

/// A right, a height or a number in a free slot.
fn not_cleared(dice: &mut Dice, view: &View) -> Vec<Edit> {
    if view.chain.is_empty() || dice.chance(50) {
        let cell = 1 + dice.below(2);
        return free_cell(dice, view, cell, |d, v| {
            d.one(&[1, v.c, v.lent.head.root, usize::MAX])
        });
    }
    let cells = numbers_of(view, dice.one(&view.chain));
    let at = cells.start + dice.below(cells.len().max(1));
    vec![Edit::Key(at, dice.one(&[1, -1, i64::MIN, i64::MAX]))]
}

/// One cell of any sort, given another value made of the old one or not.
fn any_cell(dice: &mut Dice, view: &View, alter: fn(&mut Dice, u64, usize) -> u64) -> Edit {
    let head = view.lent.head;
    let mut new = |old: usize| alter(dice, old as u64, view.c) as usize;
    let parts = [
        Edit::Root(new(head.root)),
        Edit::Free(new(head.free)),
        Edit::N(new(head.n)),
    ];
    let (keys, links) = (view.lent.keys.cells(), view.lent.links.cells());
    match dice.below(8) {
        0 => dice.one(&parts),
        1..=3 if !keys.is_empty() => {
            let at = dice.below(keys.len());
            Edit::Key(at, alter(dice, keys[at] as u64, view.c) as i64)
        }
        _ if !links.is_empty() => {
            let at = dice.below(links.len());
            Edit::Link(at, alter(dice, links[at] as u64, view.c) as usize)
        }
        _ => parts[2],
    }
}

/// One bit of one cell, the low ones oftener.
fn a_bit(dice: &mut Dice, view: &View) -> Vec<Edit> {
    vec![any_cell(dice, view, |d, old, _| {
        let bits = d.one(&[2, 13, 64]);
        old ^ (1 << d.below(bits))
    })]
}

/// Two to six cells, each made small, a slot's number or noise.
fn several(dice: &mut Dice, view: &View) -> Vec<Edit> {
    let alter = |d: &mut Dice, old: u64, c: usize| {
        let (near, noise) = (d.below(c + 2) as u64, d.next());
        d.one(&[near, near, old.wrapping_add(1), old.wrapping_sub(1), noise])
    };
    (0..2 + dice.below(5))
        .map(|_| any_cell(dice, view, alter))
        .collect()
}

/// Every link a slot number of this pool, every height a height: of a small pool, for it is a long list.
fn all_links(dice: &mut Dice, view: &View) -> Vec<Edit> {
    if view.c > 64 {
        return Vec::new();
    }
    let link = |at: usize| {
        let limit = if at % 3 == 2 { 5 } else { view.c + 1 };
        Edit::Link(at, dice.below(limit))
    };
    (0..3 * view.c).map(link).collect()
}

/// Two kinds together, to see which refusal comes first.
fn two_of_these(dice: &mut Dice, view: &View) -> Vec<Edit> {
    let mut one = || KINDS[dice.below(KINDS.len() - 1)].1(dice, view);
    [one(), one()].concat()
}
