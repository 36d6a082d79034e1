//! One history: calls thrown by dice, each answer compared with a plain sorted set.

use crate::dice::Dice;
use crate::judge::tree_slots;
use crate::lent::{done, entry, refused, Lent};
use crate::model::{text_of, Model};
use reference::heights::greatest_height;
use reference::{Answer, Bound, Outcome};
use std::collections::BTreeSet;

/// Where the numbers of a history come from.
#[derive(Clone, Copy, Debug)]
pub enum Style {
    Wide,
    Few,
    Ends,
    Shared,
}

pub const STYLES: [Style; 4] = [Style::Wide, Style::Few, Style::Ends, Style::Shared];

/// A text with more new entries than this is not also added line by line: it would take too long.
const MOST_LINES: usize = 100;

/// A book, its model and the dice that lead both.
pub struct History {
    pub lent: Lent,
    pub model: Model,
    pub dice: Dice,
    style: Style,
    span: usize,
}

impl History {
    pub fn new(k: usize, c: usize, style: Style, seed: u64) -> History {
        let side = (2.0 * c as f64).powf(1.0 / k as f64);
        History {
            lent: Lent::start(k, c),
            model: Model::new(k, c),
            dice: Dice::new(seed),
            style,
            span: side.ceil() as usize + 1,
        }
    }

    /// A number of this history's style.
    fn value(&mut self, field: usize) -> i64 {
        let near = self.dice.below(self.span) as i64;
        match self.style {
            Style::Wide => self.dice.next() as i64,
            Style::Few => near - 2,
            Style::Ends if self.dice.chance(50) => i64::MIN + near,
            Style::Ends => i64::MAX - near,
            Style::Shared if field == 0 && self.dice.chance(50) => 7,
            Style::Shared => near * near,
        }
    }

    /// An entry that is about as likely there as not.
    pub fn pick(&mut self) -> Vec<i64> {
        let f: Vec<i64> = (0..self.model.k).map(|i| self.value(i)).collect();
        if self.dice.chance(50) {
            return f;
        }
        let next = self.model.set.range(f.clone()..).next();
        next.or(self.model.set.first()).cloned().unwrap_or(f)
    }

    /// The pool is sound, holds the set's entries, and look-up's reads are the depths of a tree that is low enough.
    pub fn inspect(&self) {
        let Lent {
            head, keys, links, ..
        } = &self.lent;
        let met = tree_slots(*head, keys, links).expect("a sound pool");
        assert_eq!((head.k, head.c), (self.model.k, self.model.c));
        assert_eq!(met.len(), self.model.set.len());
        let mut seen = BTreeSet::new();
        for (slot, depth) in met {
            let numbers = self.lent.numbers(slot);
            let expected = Answer {
                entry: entry(numbers),
                slot,
                reads: depth + 1,
                ..Answer::bare(Outcome::Found, *head)
            };
            assert_eq!(self.lent.look_up(numbers), expected);
            assert!(depth < greatest_height(head.n).min(16));
            seen.insert(numbers.to_vec());
        }
        assert_eq!(seen, self.model.set);
    }

    /// The chain of free slots from its front.
    fn chain(&self) -> Vec<usize> {
        let mut chain = Vec::new();
        let mut slot = self.lent.head.free;
        while slot != 0 {
            chain.push(slot);
            slot = self.lent.link(slot)[0];
        }
        chain
    }

    /// What a writing call must answer.
    fn expect(&self, answer: Answer, refusal: Option<u32>) {
        match refusal {
            Some(number) => assert_eq!(answer, refused(number, 0, self.lent.head)),
            None => assert_eq!(answer, done(self.lent.head)),
        }
    }

    /// Add: a new entry sits in the slot that was first free, and no other number moves.
    pub fn add(&mut self) {
        let f = self.pick();
        let mut keys = self.lent.keys.clone();
        let chain = self.chain();
        let answer = self.lent.add(&f);
        let refusal = self.model.add(&f);
        self.expect(answer, refusal);
        if refusal.is_none() {
            keys[f.len() * (chain[0] - 1)..f.len() * chain[0]].copy_from_slice(&f);
            assert_eq!(self.chain(), chain[1..]);
        }
        assert_eq!(self.lent.keys, keys);
    }

    /// Strike: one slot more, at the front of the chain.
    pub fn strike(&mut self) {
        let f = self.pick();
        let chain = self.chain();
        let answer = self.lent.strike(&f);
        let refusal = self.model.strike(&f);
        self.expect(answer, refusal);
        let fresh = usize::from(refusal.is_none());
        assert_eq!(self.chain()[fresh..], chain);
    }

    /// Look up: found exactly where the set has it.
    fn look_up(&mut self) {
        let f = self.pick();
        let answer = self.lent.look_up(&f);
        let most = greatest_height(self.model.set.len());
        assert!(answer.reads <= most && answer.reads <= 16);
        let (reads, slot) = (answer.reads, answer.slot);
        let expected = match self.model.set.contains(&f) {
            true => Answer {
                entry: entry(self.lent.numbers(slot)),
                slot,
                reads,
                ..Answer::bare(Outcome::Found, self.lent.head)
            },
            false => Answer {
                reads,
                ..Answer::bare(Outcome::Absent, self.lent.head)
            },
        };
        assert_eq!(answer, expected);
        assert!(slot == 0 || self.lent.numbers(slot) == f);
    }

    /// Count and list of the same box; the list also in a room too short and in one too long.
    fn ask_box(&mut self) {
        let bounds: Vec<Bound> = (0..self.model.k)
            .map(|i| {
                let (low, high) = (self.value(i), self.value(i));
                match self.dice.below(5) {
                    0 => Bound::AtLeast(low),
                    1 => Bound::AtMost(high),
                    2 => Bound::Between(low, high),
                    3 => Bound::Between(low.min(high), low.max(high)),
                    _ => Bound::Free,
                }
            })
            .collect();
        let (numbers, count) = self.model.boxed(&bounds);
        let expected = Answer {
            count,
            ..done(self.lent.head)
        };
        assert_eq!(self.lent.count(&bounds), expected);
        let mut room = vec![-3; numbers.len() + self.dice.below(6)];
        assert_eq!(self.lent.list(&bounds, &mut room), expected);
        assert_eq!(room[..numbers.len()], numbers);
        assert!(room[numbers.len()..].iter().all(|v| *v == -3));
        if count > 0 {
            let mut short = vec![-3; numbers.len() - 1];
            let answer = self.lent.list(&bounds, &mut short);
            assert_eq!(answer, refused(8, 0, self.lent.head));
            assert!(short.iter().all(|v| *v == -3));
        }
    }

    /// Nearest, with steps from 1 to the greatest.
    fn nearest(&mut self) {
        let query = self.pick();
        let steps: Vec<u64> = query
            .iter()
            .map(|_| match self.dice.below(4) {
                0 => 1,
                1 => 1 + self.dice.below(5) as u64,
                2 => u64::MAX - self.dice.below(2) as u64,
                _ => self.dice.next().max(1),
            })
            .collect();
        let answer = self.lent.nearest(&query, &steps);
        let expected = match self.model.nearest(&query, &steps) {
            None => Answer::bare(Outcome::Absent, self.lent.head),
            Some((f, distance)) => Answer {
                entry: entry(&f),
                slot: self.lent.look_up(&f).slot,
                distance,
                ..Answer::bare(Outcome::Found, self.lent.head)
            },
        };
        assert_eq!(answer, expected);
    }

    /// Save, and take what was saved into a fresh book: the same entries.
    fn save(&mut self) {
        let text = text_of(self.model.k, &self.model.set);
        let mut room = vec![1; text.len() + self.dice.below(3)];
        let expected = Answer {
            bytes: text.len(),
            ..done(self.lent.head)
        };
        assert_eq!(self.lent.save(&mut room), expected);
        assert_eq!(&room[..text.len()], text.as_bytes());
        assert!(room[text.len()..].iter().all(|b| *b == 1));
        let short = self.lent.save(&mut room[..text.len() - 1]);
        assert_eq!(short, refused(8, 0, self.lent.head));
        let mut fresh = History::new(self.model.k, self.model.c, self.style, 1);
        let answer = fresh.lent.take_in(text.as_bytes());
        fresh.model.set = self.model.set.clone();
        fresh.expect(answer, None);
        fresh.inspect();
    }

    /// Take in a right text of entries old and new: the same as adding, in its order, what is not yet there.
    pub fn take_in(&mut self, most: usize) {
        let entries: BTreeSet<Vec<i64>> = (0..self.dice.below(most + 1))
            .map(|_| self.pick())
            .collect();
        let text = text_of(self.model.k, &entries);
        let new: Vec<&Vec<i64>> = entries.difference(&self.model.set).collect();
        if new.len() > self.model.c - self.model.set.len() {
            let answer = self.lent.take_in(text.as_bytes());
            return self.expect(answer, Some(7));
        }
        let mut line_by_line = self.lent.clone();
        let chain = self.chain();
        let answer = self.lent.take_in(text.as_bytes());
        self.expect(answer, None);
        if new.len() <= MOST_LINES {
            for f in &new {
                assert_eq!(line_by_line.add(f).outcome, Outcome::Done);
            }
            line_by_line.scratch.fill(0);
            assert_eq!(self.lent, line_by_line);
        }
        for (f, slot) in new.iter().zip(chain) {
            assert_eq!(self.lent.numbers(slot), **f);
        }
        self.model.set.extend(entries);
    }

    /// One throw of the dice: some call, an add rather than a strike so many times in a hundred.
    pub fn step(&mut self, adds: usize) {
        match self.dice.below(100) {
            0..=69 if self.dice.chance(adds) => self.add(),
            0..=69 => self.strike(),
            70..=79 => self.look_up(),
            80..=86 => self.ask_box(),
            87..=92 => self.nearest(),
            93..=95 => self.save(),
            _ => self.take_in(4.max(self.model.c / 3)),
        }
    }

    /// Waves of growth and decline, inspected after every so many steps.
    pub fn run(&mut self, steps: usize, inspect_each: usize) {
        for i in 0..steps {
            let adds = [85, 50, 15, 50][4 * i / steps];
            self.step(adds);
            if i % inspect_each == 0 {
                self.inspect();
            }
        }
        self.inspect();
    }
}
