//! What was made of whom and how it ended, counted over all histories.

use crate::call::{Call, NAMES};
use crate::doors::Answer;
use crate::kinds::KINDS;
use crate::texts::FAULTS;
use crate::trays::SORTS;

/// The refusals that each call can give, in the order of the names.
const POSSIBLE: [&[usize]; NAMES.len()] = [
    &[1, 2, 3],
    &[1, 2, 3, 4, 5, 7],
    &[1, 2, 3, 4, 6],
    &[1, 2, 3, 4],
    &[1, 2, 3, 4],
    &[1, 2, 3, 4, 8],
    &[1, 2, 3, 4, 11],
    &[1, 2, 3, 4, 8],
    &[1, 2, 3, 4],
    &[1, 2, 3, 4, 7, 9, 10],
    &[1, 2, 3, 4, 5, 6, 7, 12],
];

/// How often something was tried, how often it ended with each refusal (0: with none), and what came of it.
#[derive(Clone, Copy, Default)]
pub struct Count {
    pub tried: u64,
    pub ended: [u64; 13],
    pub calls: u64,
    pub unseen: u64,
}

pub struct Tally {
    pub calls: [Count; NAMES.len()],
    pub damage: [Count; KINDS.len()],
    pub texts: [Count; FAULTS.len()],
    pub trays: [Count; SORTS.len()],
    pub histories: u64,
    pub differences: u64,
}

impl Count {
    fn end(&mut self, refusal: usize) {
        self.tried += 1;
        self.ended[refusal.min(12)] += 1;
    }
}

impl Tally {
    pub fn new() -> Tally {
        Tally {
            calls: [Count::default(); NAMES.len()],
            damage: [Count::default(); KINDS.len()],
            texts: [Count::default(); FAULTS.len()],
            trays: [Count::default(); SORTS.len()],
            histories: 0,
            differences: 0,
        }
    }

    /// A call that both books answered alike, of a pool with this damage.
    pub fn agreed(&mut self, call: &Call, answer: &Answer, damage: Option<usize>) {
        self.calls[call.number()].end(answer.refusal);
        if let Some(kind) = damage {
            self.damage[kind].calls += 1;
        }
        if let Some(count) = self.given(call) {
            count.end(answer.refusal);
        }
    }

    /// A call that they answered or did otherwise.
    pub fn differed(&mut self, call: &Call, damage: Option<usize>) {
        self.differences += 1;
        if let Some(kind) = damage {
            self.damage[kind].unseen += 1;
        }
        if let Some(count) = self.given(call) {
            count.unseen += 1;
        }
    }

    /// The count of what this call was given to read, where there is one.
    fn given(&mut self, call: &Call) -> Option<&mut Count> {
        match call {
            Call::TakeIn(_, fault) => Some(&mut self.texts[*fault]),
            Call::Tray(_, sort) => Some(&mut self.trays[*sort]),
            _ => None,
        }
    }

    /// Damage of this kind, and the reference's verdict on the pool.
    pub fn damaged(&mut self, kind: usize, verdict: u32) {
        self.damage[kind].end(verdict as usize);
    }

    pub fn calls_made(&self) -> u64 {
        self.calls.iter().map(|count| count.tried).sum()
    }

    /// What never occurred though it can: a call accepted, a call's refusal, a kind of damage, a text's fault, how a sort of tray ends.
    pub fn missing(&self) -> Vec<String> {
        let mut missing = Vec::new();
        for (number, count) in self.calls.iter().enumerate() {
            if count.ended[0] == 0 {
                missing.push(format!("{} accepted", NAMES[number]));
            }
            for refusal in POSSIBLE[number] {
                if count.ended[*refusal] == 0 {
                    missing.push(format!("{} refused with {refusal}", NAMES[number]));
                }
            }
        }
        let none = |counts: &[Count], i: usize| counts[i].tried == 0;
        let kinds = (0..KINDS.len()).filter(|i| none(&self.damage, *i));
        missing.extend(kinds.map(|i| KINDS[i].0.to_string()));
        let faults = (0..FAULTS.len()).filter(|i| none(&self.texts, *i));
        missing.extend(faults.map(|i| format!("text with {}", FAULTS[i].0)));
        for (sort, count) in SORTS.iter().zip(&self.trays) {
            let never = sort.ends.iter().filter(|end| count.ended[**end] == 0);
            missing.extend(never.map(|end| format!("tray of {} that ends with {end}", sort.name)));
        }
        missing
    }
}
