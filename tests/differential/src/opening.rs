//! How a history opens: a start, a given book, a book filled and struck to its last entry.

use crate::call::{Call, Step};
use crate::dice::Dice;
use crate::doors::Entry;
use crate::plan::{Opening, Order, Plan};
use crate::trays;
use crate::values::Values;
use std::collections::BTreeSet;

/// A start that is accepted.
pub fn start(k: usize, c: usize) -> Call {
    Call::Start {
        k,
        c,
        keys: k * c,
        links: 3 * c,
    }
}

/// The steps with which a history of this plan opens.
pub fn steps(plan: &Plan, values: &Values, dice: &mut Dice) -> Vec<Step> {
    let Plan { k, c, .. } = *plan;
    let fresh = Step::Call(start(k, c));
    match plan.opening {
        Opening::Fresh => vec![fresh],
        Opening::Given(n) => {
            let entries = distinct(values, dice, n);
            vec![Step::Given { k, c, entries }]
        }
        Opening::StrikeAll(n, order) => {
            let entries = distinct(values, dice, n);
            let strikes = ordered(&entries, order, dice);
            let given = Step::Given { k, c, entries };
            after(given, strikes.into_iter().map(Call::Strike))
        }
        Opening::FillAndStrike(adds, strikes) => {
            let mut entries = distinct(values, dice, c + 1);
            let beyond = entries.pop();
            let adds = ordered(&entries, adds, dice).into_iter().chain(beyond);
            let strikes = ordered(&entries, strikes, dice).into_iter().chain(beyond);
            after(fresh, adds.map(Call::Add).chain(strikes.map(Call::Strike)))
        }
        Opening::Trays(adds, strikes) => {
            let entries = distinct(values, dice, c);
            let adds = trays::of(k, 1, &ordered(&entries, adds, dice));
            let strikes = trays::of(k, 2, &ordered(&entries, strikes, dice));
            after(fresh, adds.into_iter().chain(strikes))
        }
        Opening::Adds(count) => after(fresh, (0..count).map(|_| Call::Add(values.entry(dice)))),
    }
}

/// The first step, then these calls.
fn after(first: Step, calls: impl Iterator<Item = Call>) -> Vec<Step> {
    std::iter::once(first)
        .chain(calls.map(Step::Call))
        .collect()
}

/// So many entries that differ within K, or as many as this style has to give.
fn distinct(values: &Values, dice: &mut Dice, count: usize) -> Vec<Entry> {
    let mut seen = BTreeSet::new();
    let mut entries = Vec::new();
    for _ in 0..20 * count {
        let entry = values.entry(dice);
        if entries.len() < count && seen.insert(entry.f[..values.k].to_vec()) {
            entries.push(entry);
        }
    }
    entries
}

/// The same entries in this order.
fn ordered(entries: &[Entry], order: Order, dice: &mut Dice) -> Vec<Entry> {
    let mut entries = entries.to_vec();
    match order {
        Order::Random => dice.shuffle(&mut entries),
        Order::Rising => entries.sort_by_key(|entry| entry.f),
        Order::Falling => entries.sort_by_key(|entry| std::cmp::Reverse(entry.f)),
    }
    entries
}
