//! Where the numbers of a history come from: entries, boxes and steps in its style.

use crate::dice::Dice;
use crate::doors::{Bound, Bounds, Entry, Steps};
use crate::lent::Lent;

/// How the numbers of a history lie.
#[derive(Clone, Copy, Debug, PartialEq)]
pub enum Style {
    /// Anywhere.
    Wide,
    /// Just enough different numbers in each field that the book can be filled.
    Few,
    /// Near the ends of the range.
    Ends,
    /// Half the entries share one number, the torque; the others are anywhere in a middling range.
    Torque,
}

pub const STYLES: [Style; 4] = [Style::Wide, Style::Few, Style::Ends, Style::Torque];

/// The source of a history's numbers.
pub struct Values {
    pub k: usize,
    style: Style,
    span: usize,
    torque: usize,
}

impl Values {
    pub fn new(dice: &mut Dice, k: usize, c: usize, style: Style) -> Values {
        let side = (2.0 * c as f64).powf(1.0 / k as f64);
        Values {
            k,
            style,
            span: side.ceil() as usize + 1,
            torque: dice.below(k),
        }
    }

    /// One number.
    pub fn number(&self, dice: &mut Dice) -> i64 {
        let near = dice.below(self.span) as i64;
        match self.style {
            Style::Wide => dice.next() as i64,
            Style::Few => near - 2,
            Style::Ends if dice.chance(50) => i64::MIN + near,
            Style::Ends => i64::MAX - near,
            Style::Torque => dice.below(10_000) as i64 - 300,
        }
    }

    /// Four numbers, of which those beyond K are noise.
    pub fn entry(&self, dice: &mut Dice) -> Entry {
        let mut f = [0; 4].map(|_| self.number(dice));
        if self.style == Style::Torque && self.k > 1 && dice.chance(50) {
            f[self.torque] = 420;
        }
        Entry { f }
    }

    /// An entry that may be there or close to one that is.
    pub fn near(&self, dice: &mut Dice, lent: &Lent) -> Entry {
        let c = lent.head.c.min(lent.links.cells().len() / 3);
        let mut entry = self.entry(dice);
        if c == 0 || dice.chance(40) {
            return entry;
        }
        let start = dice.below(c);
        let mut slots = (0..c.min(40)).map(|i| 1 + (start + i) % c);
        let Some(slot) = slots.find(|slot| lent.link(*slot)[2] > 0) else {
            return entry;
        };
        entry.f[..self.k].copy_from_slice(&lent.numbers(slot)[..self.k]);
        if dice.chance(15) {
            let field = dice.below(self.k);
            entry.f[field] = entry.f[field].wrapping_add(dice.one(&[1, -1]));
        }
        entry
    }

    /// A box: bounds of all kinds, some reversed, some with a kind that the paper does not name.
    pub fn bounds(&self, dice: &mut Dice, lent: &Lent) -> Bounds {
        let (one, other) = (self.near(dice, lent).f, self.near(dice, lent).f);
        let wide = dice.chance(50);
        let mut bounds = Bounds::default();
        for (i, bound) in bounds.of.iter_mut().enumerate() {
            let kind = match dice.below(20) {
                _ if wide && dice.chance(60) => 0,
                0 => dice.one(&[4, 7, usize::MAX, 1 << 32]),
                throw => throw % 4,
            };
            let (low, high) = (one[i].min(other[i]), one[i].max(other[i]));
            let (low, high) = match dice.below(12) {
                0 => (high, low),
                1 => (low, low),
                2 => (i64::MIN, high),
                3 => (low, i64::MAX),
                _ => (low, high),
            };
            *bound = Bound { kind, low, high };
        }
        bounds
    }

    /// Steps from 1 to the greatest; now and then a 0, and beyond K often.
    pub fn steps(&self, dice: &mut Dice) -> Steps {
        let alike = dice.one(&[1, 1, 2, 50]);
        let mut steps = Steps { of: [alike; 4] };
        for (i, step) in steps.of.iter_mut().enumerate() {
            let noise = dice.next().max(1);
            *step = match dice.below(24) {
                0 => 0,
                1..=6 if i >= self.k => 0,
                1..=3 => noise,
                4..=6 => 1 + dice.below(self.span) as u64,
                7 => u64::MAX,
                8 => u64::MAX / 2,
                _ => alike,
            };
        }
        steps
    }
}
