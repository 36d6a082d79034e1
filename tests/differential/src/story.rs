//! One history: steps thrown by dice over what the book holds, each written down before it is made.

use crate::call::{Call, Step, NAMES};
use crate::damage::Damage;
use crate::dice::Dice;
use crate::doors::{Bounds, Entry};
use crate::kinds::{damage, KINDS};
use crate::opening;
use crate::pair::Pair;
use crate::plain::plain_bounds;
use crate::plan::{self, Plan};
use crate::texts::{text_of, Fault, FAULTS};
use crate::trays;
use crate::values::Values;
use std::collections::VecDeque;

/// A book of at most so many slots is asked everything once it is damaged, a larger one three things.
const ASKED_ALL: usize = 64;

pub struct Story {
    dice: Dice,
    plan: Plan,
    values: Values,
    queue: VecDeque<Step>,
    step: usize,
    /// Texts that the book saved earlier.
    saved: Vec<Vec<u8>>,
    /// What mends the damage that stays, and the step at which it does.
    mending: Option<(Damage, usize)>,
    mended: bool,
}

impl Story {
    /// History number `history` of this seed.
    pub fn new(seed: u64, history: u64) -> Story {
        let mut dice = Dice::new(seed, history);
        let fixed = plan::fixed();
        let listed = fixed.get(history as usize).copied();
        let plan = listed.unwrap_or_else(|| plan::thrown(&mut dice));
        let values = Values::new(&mut dice, plan.k, plan.c, plan.style);
        Story {
            queue: opening::steps(&plan, &values, &mut dice).into(),
            dice,
            plan,
            values,
            step: 0,
            saved: Vec::new(),
            mending: None,
            mended: false,
        }
    }

    /// The next step of a history in which the two books are now these; None at its end.
    pub fn next(&mut self, pair: &Pair) -> Option<Step> {
        if let Some(step) = self.queue.pop_front() {
            return Some(step);
        }
        if self.step == self.plan.steps {
            return None;
        }
        self.step += 1;
        if let Some((mending, _)) = self.mending.take_if(|(_, when)| *when <= self.step) {
            self.mended = true;
            return Some(Step::Mend(mending));
        }
        if std::mem::take(&mut self.mended) && pair.verdict() != 0 {
            return Some(Step::Call(opening::start(self.plan.k, self.plan.c)));
        }
        // Only a sound book is damaged, so that the tally says what each kind of damage does by itself.
        let sound = pair.damaged.is_none();
        Some(match self.dice.below(100) {
            0 => Step::Call(self.any_start()),
            1..=4 if self.plan.stays && sound => self.spoil(pair),
            1..=18 if sound => self.try_damage(pair),
            _ => Step::Call(self.any_call(pair)),
        })
    }

    /// A call that is not a start, an add rather than a strike while the book is to grow.
    fn any_call(&mut self, pair: &Pair) -> Call {
        let adds = [85, 50, 15, 50][4 * (self.step - 1) / self.plan.steps];
        let number = match self.dice.below(92) {
            0..=38 if self.dice.chance(adds) => 1,
            0..=38 => 2,
            39..=46 => 3,
            47..=52 => 4,
            53..=59 => 5,
            60..=66 => 6,
            67..=70 => 7,
            71..=72 => 8,
            73..=81 => 9,
            _ => 10,
        };
        let fault = match self.dice.chance(35) {
            true => 0,
            false => self.dice.below(FAULTS.len()),
        };
        self.call(number, pair, fault)
    }

    /// A call of this number, but for start; a text to take in has this fault.
    fn call(&mut self, number: usize, pair: &Pair, fault: Fault) -> Call {
        let (dice, lent) = (&mut self.dice, &pair.plain);
        match number {
            1 => Call::Add(self.values.near(dice, lent)),
            2 => Call::Strike(self.values.near(dice, lent)),
            3 => Call::LookUp(self.values.near(dice, lent)),
            4 => Call::Count(self.values.bounds(dice, lent)),
            5 => {
                let bounds = self.values.bounds(dice, lent);
                let right = numbers_listed(pair, &bounds);
                Call::List(bounds, room(dice, right))
            }
            6 => Call::Nearest(self.values.near(dice, lent), self.values.steps(dice)),
            7 => {
                let text = saved_text(pair, self.plan.k);
                let length = room(dice, text.len());
                self.saved.push(text);
                Call::Save(length)
            }
            8 => Call::Judge,
            9 => self.take_in(pair, fault),
            _ => trays::throw(dice, &self.values, lent),
        }
    }

    /// A text to take in, saved earlier, saved now or of other entries, with this fault put in.
    fn take_in(&mut self, pair: &Pair, fault: Fault) -> Call {
        let k = self.plan.k;
        let fields = if fault == 1 { k % 4 + 1 } else { k };
        let text = match self.dice.below(4) {
            0 if fields == k && !self.saved.is_empty() => {
                let which = self.dice.below(self.saved.len());
                self.saved[which].clone()
            }
            1 if fields == k => saved_text(pair, k),
            throw => {
                let most = if throw == 2 { self.plan.c + 3 } else { 6 };
                let count = self.dice.below(most.min(4096) + 1);
                text_of(fields, &self.entries(pair, count))
            }
        };
        Call::TakeIn(FAULTS[fault].1(&mut self.dice, text), fault)
    }

    fn entries(&mut self, pair: &Pair, count: usize) -> Vec<Entry> {
        let one = |_| self.values.near(&mut self.dice, &pair.plain);
        (0..count).map(one).collect()
    }

    /// A start with a K, a C or a length that is wrong, or none that is.
    fn any_start(&mut self) -> Call {
        let dice = &mut self.dice;
        let (mut k, mut c) = (self.plan.k, self.plan.c);
        if dice.chance(35) {
            k = dice.one(&[0, 5, usize::MAX, 1 << 62]);
        }
        if dice.chance(35) {
            c = dice.one(&[0, 4097, usize::MAX, 1 << 62]);
        }
        let right = (k.min(6) * c.min(4097), 3 * c.min(4097));
        let off = |dice: &mut Dice, right: usize| {
            dice.one(&[right, right, right, right + 1, right.saturating_sub(1), 0])
        };
        Call::Start {
            k,
            c,
            keys: off(dice, right.0),
            links: off(dice, right.1),
        }
    }

    /// Damage of some kind that this book has a place for.
    fn damage(&mut self, pair: &Pair) -> Damage {
        loop {
            let kind = self.dice.below(KINDS.len());
            if let Some(damage) = damage(&mut self.dice, &pair.plain, kind) {
                return damage;
            }
        }
    }

    /// Damage to a copy, and calls of that copy.
    fn try_damage(&mut self, pair: &Pair) -> Step {
        let damage = self.damage(pair);
        let mut numbers: Vec<usize> = (1..NAMES.len()).collect();
        self.dice.shuffle(&mut numbers);
        if self.plan.c > ASKED_ALL {
            numbers.truncate(3);
        }
        let calls = numbers.into_iter().map(|n| self.call(n, pair, 0)).collect();
        Step::Try(damage, calls)
    }

    /// Damage that stays for a while.
    fn spoil(&mut self, pair: &Pair) -> Step {
        let damage = self.damage(pair);
        let when = self.step + 2 + self.dice.below(15);
        self.mending = Some((damage.back(&pair.plain), when));
        Step::Spoil(damage)
    }
}

/// The numbers that a list of this box has, 0 of a pool that is not sound.
fn numbers_listed(pair: &Pair, bounds: &Bounds) -> usize {
    let (keys, links) = (pair.plain.keys.cells(), pair.plain.links.cells());
    let answer = reference::count(pair.plain.head, keys, links, plain_bounds(bounds));
    answer.count * pair.plain.head.k.min(4)
}

/// What the book would save; of a pool that is not sound, a text of no entries.
fn saved_text(pair: &Pair, k: usize) -> Vec<u8> {
    let (keys, links) = (pair.plain.keys.cells(), pair.plain.links.cells());
    let mut room = vec![0; 40 + 96 * pair.plain.head.n.min(4096)];
    let answer = reference::save(pair.plain.head, keys, links, &mut room);
    room.truncate(answer.bytes);
    if room.is_empty() {
        return text_of(k, &[]);
    }
    room
}

/// A room that is too short, just right, or longer.
fn room(dice: &mut Dice, right: usize) -> usize {
    let less = right.saturating_sub(1);
    dice.one(&[
        right,
        right,
        right,
        right + 1,
        right + 20,
        less,
        less,
        0,
        right / 2,
    ])
}
