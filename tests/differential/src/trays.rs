//! Trays: items over what the book holds and over what earlier items of the same tray made of it.

use crate::call::Call;
use crate::dice::Dice;
use crate::doors::Entry;
use crate::lent::Lent;
use crate::values::Values;
use reference::tray::MOST_ITEMS;
use std::collections::BTreeSet;

/// A sort's place in the table below.
pub type Sort = usize;

/// How trays of one sort are made.
pub struct Recipe {
    pub name: &'static str,
    count: fn(&mut Dice) -> usize,
    /// The fault that is put into one of the items.
    fault: fn(&mut Dice, &mut Vec<i64>),
    /// How trays of this sort must have ended in the course of a run, 0 for accepted.
    pub ends: &'static [usize],
}

/// Every sort, those without a fault first.
pub const SORTS: [Recipe; 10] = [
    right("no item", |_| 0, &[0, 4]),
    right("one item", |_| 1, &[0, 5, 6]),
    right("a few items", few, &[0, 5, 6, 7]),
    right("many items", |d| 10 + d.below(245), &[0, 5, 6, 7]),
    right("255 items", |_| MOST_ITEMS - 1, &[0]),
    right("256 items", |_| MOST_ITEMS, &[0]),
    wrong("257 items", |_| MOST_ITEMS + 1, |_, _| ()),
    wrong("an item too short", few, |_, item| {
        item.pop();
    }),
    wrong("an item too long", few, |d, item| {
        let noise = d.next() as i64;
        item.push(d.one(&[1, 2, noise]));
    }),
    wrong("another first number", few, |d, item| {
        let noise = d.next() as i64 | 4;
        item[0] = d.one(&[0, 3, -1, i64::MIN, i64::MAX, 1 << 32 | 1, noise]);
    }),
];

/// How many sorts have no fault, and two of these.
const RIGHT: usize = 6;
const MANY: Sort = 3;
const FULL: Sort = 5;

const fn right(
    name: &'static str,
    count: fn(&mut Dice) -> usize,
    ends: &'static [usize],
) -> Recipe {
    Recipe {
        name,
        count,
        fault: |_, _| (),
        ends,
    }
}

const fn wrong(
    name: &'static str,
    count: fn(&mut Dice) -> usize,
    fault: fn(&mut Dice, &mut Vec<i64>),
) -> Recipe {
    Recipe {
        name,
        count,
        fault,
        ends: &[12],
    }
}

fn few(dice: &mut Dice) -> usize {
    2 + dice.below(8)
}

/// How the items of one tray are thrown.
struct Mood {
    /// How many of a hundred items add.
    adds: usize,
    /// How many of a thousand items are any at all, whether they would be refused or not.
    any: usize,
    /// Whether no entry is added to a full book.
    minds_room: bool,
}

/// What the book would hold after the items so far, and the entries that they named.
struct Ahead<'a> {
    values: &'a Values,
    lent: &'a Lent,
    c: usize,
    held: BTreeSet<Vec<i64>>,
    named: Vec<Vec<i64>>,
}

/// A tray of some sort for this book.
pub fn throw(dice: &mut Dice, values: &Values, lent: &Lent) -> Call {
    let sorts = if dice.chance(60) { RIGHT } else { SORTS.len() };
    let sort = dice.below(sorts);
    let count = (SORTS[sort].count)(dice);
    let mood = Mood {
        adds: dice.one(&[50, 50, 15, 85, 100]),
        any: match count {
            0..10 => dice.one(&[0, 0, 100, 600]),
            _ => dice.one(&[0, 0, 4, 20, 150]),
        },
        minds_room: dice.chance(70),
    };
    let mut ahead = Ahead::new(values, lent);
    let mut items: Vec<Vec<i64>> = (0..count).map(|_| ahead.item(dice, &mood)).collect();
    if count > 0 {
        let place = dice.below(count);
        (SORTS[sort].fault)(dice, &mut items[place]);
    }
    Call::Tray(items, sort)
}

/// These entries as trays that are as long as can be, each item with this first number.
pub fn of(k: usize, first: i64, entries: &[Entry]) -> Vec<Call> {
    let item = |entry: &Entry| [&[first], &entry.f[..k]].concat();
    let tray = |entries: &[Entry]| {
        let sort = if entries.len() == MOST_ITEMS {
            FULL
        } else {
            MANY
        };
        Call::Tray(entries.iter().map(item).collect(), sort)
    };
    entries.chunks(MOST_ITEMS).map(tray).collect()
}

impl Ahead<'_> {
    fn new<'a>(values: &'a Values, lent: &'a Lent) -> Ahead<'a> {
        let c = lent.head.c.min(lent.links.cells().len() / 3);
        let used = (1..=c).filter(|slot| lent.link(*slot)[2] > 0);
        let held = used.map(|slot| lent.numbers(slot)[..values.k].to_vec());
        Ahead {
            values,
            lent,
            c,
            held: held.collect(),
            named: Vec::new(),
        }
    }

    /// The next item, which is done to what is held where it would be accepted.
    fn item(&mut self, dice: &mut Dice, mood: &Mood) -> Vec<i64> {
        let full = self.held.len() >= self.c;
        let mut adds = dice.chance(mood.adds);
        let fields = if dice.below(1000) < mood.any {
            self.any_fields(dice)
        } else {
            adds = (adds || self.held.is_empty()) && !(full && mood.minds_room);
            self.right_fields(dice, adds)
        };
        match adds {
            true if !full => drop(self.held.insert(fields.clone())),
            true => {}
            false => drop(self.held.remove(&fields)),
        }
        self.named.push(fields.clone());
        [vec![if adds { 1 } else { 2 }], fields].concat()
    }

    /// Fields that an earlier item named, or that may stand in the book.
    fn any_fields(&self, dice: &mut Dice) -> Vec<i64> {
        if !self.named.is_empty() && dice.chance(40) {
            return self.named[dice.below(self.named.len())].clone();
        }
        self.values.near(dice, self.lent).f[..self.values.k].to_vec()
    }

    /// Fields that are held, or not, as is right for this item.
    fn right_fields(&self, dice: &mut Dice, adds: bool) -> Vec<i64> {
        for _ in 0..12 {
            let fields = self.any_fields(dice);
            if self.held.contains(&fields) != adds {
                return fields;
            }
        }
        let fields = self.values.entry(dice).f[..self.values.k].to_vec();
        match adds {
            true => fields,
            false => {
                let next = self.held.range(fields.clone()..).next();
                next.or(self.held.first()).cloned().unwrap_or(fields)
            }
        }
    }
}
