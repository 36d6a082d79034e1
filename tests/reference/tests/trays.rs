//! Trays thrown by dice: each beside its items as single calls on a copy, and beside a plain sorted set.

use crate::history::{History, STYLES};
use crate::lent::{done, refused_at};
use crate::model::Model;
use crate::tray::{add, strike};
use reference::Outcome;

/// Any item; about half would be refused.
fn any_item(history: &mut History) -> Vec<i64> {
    let f = history.pick();
    match history.dice.chance(70) {
        true => add(&f),
        false => strike(&f),
    }
}

/// An item that would be accepted after those before it.
fn right_item(history: &mut History, ahead: &Model) -> Vec<i64> {
    let adds = history.dice.chance(55) && ahead.set.len() < ahead.c;
    for _ in 0..20 {
        let f = history.pick();
        match (adds, ahead.set.contains(&f)) {
            (true, false) => return add(&f),
            (false, true) => return strike(&f),
            _ => {}
        }
    }
    match ahead.set.first() {
        Some(f) => strike(f),
        None => add(&history.pick()),
    }
}

/// One tray of so many items; the refusal and the place that it must have, if any.
fn throw(history: &mut History, count: usize) -> (Vec<i64>, Option<(u32, usize)>) {
    let mut ahead = Model::new(history.model.k, history.model.c);
    ahead.set = history.model.set.clone();
    let slip = history.dice.below(count + count / 2 + 1);
    let (mut items, mut first) = (Vec::new(), None);
    for place in 1..=count {
        let item = match place == slip {
            true => any_item(history),
            false => right_item(history, &ahead),
        };
        let refusal = match item[0] {
            1 => ahead.add(&item[1..]),
            _ => ahead.strike(&item[1..]),
        };
        first = first.or(refusal.map(|number| (number, place)));
        items.extend(item);
    }
    if first.is_none() {
        history.model.set = ahead.set;
    }
    (items, first)
}

/// A tray of the book, of which nothing or everything is left; gives its refusal, 0 for none.
fn tray(history: &mut History, count: usize) -> usize {
    let (items, first) = throw(history, count);
    let mut single = history.lent.clone();
    let answer = history.lent.tray(&items);
    match first {
        Some((number, place)) => assert_eq!(answer, refused_at(number, place, single.head)),
        None => {
            for item in items.chunks(history.model.k + 1) {
                let answer = match item[0] {
                    1 => single.add(&item[1..]),
                    _ => single.strike(&item[1..]),
                };
                assert_eq!(answer.outcome, Outcome::Done);
            }
            single.scratch.fill(0);
            assert_eq!(answer, done(single.head));
            assert_eq!(history.lent, single);
        }
    }
    history.inspect();
    first.map_or(0, |(number, _)| number as usize)
}

#[test]
fn trays_of_every_size_in_books_of_every_kind() {
    let mut ended = [0; 8];
    for k in 1..=4 {
        for (c, style) in [1, 2, 5, 13, 60, 200]
            .into_iter()
            .zip(STYLES.iter().cycle())
        {
            let mut history = History::new(k, c, *style, 700 + (10 * c + k) as u64);
            for count in [1, 2, 3, 0, 7, 20, 2, 100, 255, 4, 256, 30, 1, 256, 9] {
                ended[tray(&mut history, count)] += 1;
            }
        }
    }
    assert!(
        ended[0] > 150 && ended[5..].iter().all(|n| *n > 10),
        "{ended:?}"
    );
}

#[test]
fn trays_of_256_in_the_greatest_book() {
    let mut history = History::new(4, 4096, STYLES[0], 3);
    history.take_in(4000);
    assert!((0..3).any(|_| tray(&mut history, 256) == 0));
}
