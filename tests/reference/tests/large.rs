//! Histories at the greatest capacity, and long runs in order.

use crate::history::{History, STYLES};
use crate::lent::Lent;
use reference::Outcome;

/// Adds these entries one by one and then strikes them in the second order, inspected now and then.
fn fill_and_strike(k: usize, c: usize, adds: &[Vec<i64>], strikes: &[Vec<i64>]) {
    let mut history = History::new(k, c, STYLES[0], 1);
    for (i, f) in adds.iter().enumerate() {
        assert_eq!(history.lent.add(f).outcome, Outcome::Done);
        assert_eq!(history.model.add(f), None);
        if i % 256 == 0 {
            history.inspect();
        }
    }
    history.inspect();
    for (i, f) in strikes.iter().enumerate() {
        assert_eq!(history.lent.strike(f).outcome, Outcome::Done);
        assert_eq!(history.model.strike(f), None);
        if i % 256 == 0 {
            history.inspect();
        }
    }
    history.inspect();
}

/// Entries that rise in all fields at once, so that every cut sees them in order.
fn rising(k: usize, count: i64) -> Vec<Vec<i64>> {
    (0..count).map(|i| vec![i; k]).collect()
}

#[test]
fn the_greatest_book_fills_to_its_last_slot_and_is_struck_from() {
    let entries = rising(4, 4096);
    let mut back = entries.clone();
    back.reverse();
    fill_and_strike(4, 4096, &entries, &back[..1500]);
}

#[test]
fn rising_and_falling_runs() {
    for k in 1..=4 {
        let entries = rising(k, 400);
        let mut back = entries.clone();
        back.reverse();
        fill_and_strike(k, 400, &entries, &entries);
        fill_and_strike(k, 401, &back, &entries);
    }
}

#[test]
fn histories_at_the_greatest_capacity() {
    for (k, style) in (1..=4).zip(STYLES) {
        let mut history = History::new(k, 4096, style, 40 + k as u64);
        for _ in 0..4 {
            history.take_in(2400);
        }
        history.run(160, 40);
        assert!(history.model.set.len() > 1000, "the history stayed small");
    }
}

#[test]
fn histories_of_a_thousand_slots() {
    for (k, style) in (1..=4).rev().zip(STYLES) {
        let mut history = History::new(k, 1000, style, 90 + k as u64);
        history.run(800, 40);
    }
}

#[test]
fn a_full_book_of_4096_refuses_one_more() {
    let mut lent = Lent::start(1, 4096);
    let mut text = String::from("book=1 fields=1 entries=4096\n");
    for i in 0..4096_i64 {
        text.push_str(&format!("a={i}\n"));
    }
    assert_eq!(lent.take_in(text.as_bytes()).head.n, 4096);
    assert_eq!(lent.add(&[5000]).outcome, Outcome::Refused(7));
    assert_eq!(lent.add(&[4000]).outcome, Outcome::Refused(5));
    assert_eq!(lent.nearest(&[-9], &[1]).distance, 9);
}
