//! The tray worked out by hand: which refusal comes first and at which place, and what each leaves.

use crate::lent::{done, refused, refused_at, Lent};
use reference::{Answer, Outcome};

/// An add of these fields as an item.
pub fn add(f: &[i64]) -> Vec<i64> {
    [&[1], f].concat()
}

/// A strike of these fields as an item.
pub fn strike(f: &[i64]) -> Vec<i64> {
    [&[2], f].concat()
}

/// A book of one field and so many slots that holds these numbers.
fn numbers(c: usize, held: &[i64]) -> Lent {
    let mut lent = Lent::start(1, c);
    for a in held {
        assert_eq!(lent.add(&[*a]).outcome, Outcome::Done);
    }
    lent
}

/// So many items of a book of two fields, no two of the same entry.
fn adds(count: i64) -> Vec<i64> {
    (0..count).flat_map(|i| add(&[i % 7, i])).collect()
}

/// The tray is accepted, and leaves what its items leave as single calls.
fn as_single_calls(lent: &mut Lent, items: &[i64]) {
    let mut single = lent.clone();
    for item in items.chunks(lent.head.k + 1) {
        let answer = match item[0] {
            1 => single.add(&item[1..]),
            _ => single.strike(&item[1..]),
        };
        assert_eq!(answer.outcome, Outcome::Done);
    }
    single.scratch.fill(0);
    assert_eq!(lent.tray(items), done(single.head));
    assert_eq!(*lent, single);
}

#[test]
fn an_empty_list_changes_only_scratch() {
    for held in [&[][..], &[3, 1, 2]] {
        let mut lent = numbers(3, held);
        let before = lent.clone();
        assert_eq!(lent.tray(&[]), done(before.head));
        lent.scratch = before.scratch.clone();
        assert_eq!(lent, before);
    }
}

#[test]
fn items_work_in_their_order_as_single_calls() {
    let mut lent = Lent::start(2, 3);
    as_single_calls(&mut lent, &[1, 1, 9, 1, 2, 4, 1, 3, 7]);
    assert_eq!(lent.keys, [1, 9, 2, 4, 3, 7]);
    assert_eq!(lent.links, [0, 0, 1, 1, 3, 2, 0, 0, 1]);
    as_single_calls(&mut lent, &[2, 2, 4, 2, 1, 9]);
    assert_eq!(lent.keys, [0, 0, 3, 7, 0, 0]);
    as_single_calls(&mut lent, &[1, 9, 9, 2, 3, 7, 1, 3, 7, 1, 0, 0, 2, 9, 9]);
}

#[test]
fn an_item_may_undo_an_earlier_one() {
    let mut lent = numbers(2, &[5, 6]);
    as_single_calls(&mut lent, &[2, 5, 1, 5]);
    as_single_calls(&mut lent, &[2, 6, 2, 5, 1, 6, 2, 6, 1, 5, 1, 7]);
    as_single_calls(&mut lent, &[2, 5, 2, 7, 1, 8, 2, 8, 1, 8, 2, 8]);
    assert_eq!(lent.head.n, 0);
}

#[test]
fn an_add_of_what_is_there_is_5_at_its_place() {
    let mut lent = numbers(4, &[5, 6]);
    let head = lent.head;
    assert_eq!(lent.tray(&[1, 5]), refused_at(5, 1, head));
    assert_eq!(lent.tray(&[1, 7, 2, 5, 1, 6, 1, 6]), refused_at(5, 3, head));
    assert_eq!(lent.tray(&[1, 7, 1, 7]), refused_at(5, 2, head));
    assert_eq!(lent.tray(&[2, 5, 1, 5, 1, 5]), refused_at(5, 3, head));
}

#[test]
fn a_strike_of_what_is_not_there_is_6_at_its_place() {
    let mut lent = numbers(4, &[5, 6]);
    let head = lent.head;
    assert_eq!(lent.tray(&[2, 7]), refused_at(6, 1, head));
    assert_eq!(lent.tray(&[2, 5, 2, 5]), refused_at(6, 2, head));
    assert_eq!(lent.tray(&[1, 7, 2, 7, 2, 7]), refused_at(6, 3, head));
}

#[test]
fn an_add_without_a_slot_is_7_at_its_place_but_first_5() {
    let mut lent = numbers(3, &[5, 6]);
    let head = lent.head;
    assert_eq!(lent.tray(&[1, 7, 1, 8]), refused_at(7, 2, head));
    assert_eq!(lent.tray(&[1, 7, 1, 7]), refused_at(5, 2, head));
    assert_eq!(lent.tray(&[1, 7, 2, 5, 1, 8, 1, 5]), refused_at(7, 4, head));
    as_single_calls(&mut lent, &[1, 7, 2, 5, 1, 8]);
    assert_eq!(lent.tray(&[2, 7, 1, 7, 1, 9]), refused_at(7, 3, lent.head));
    assert_eq!(lent.tray(&[1, 8]), refused_at(5, 1, lent.head));
}

#[test]
fn only_the_first_refused_item_is_told() {
    let mut lent = numbers(2, &[5]);
    let head = lent.head;
    assert_eq!(lent.tray(&[2, 9, 1, 5, 1, 6, 1, 7]), refused_at(6, 1, head));
    assert_eq!(lent.tray(&[1, 6, 1, 7, 2, 9, 1, 5]), refused_at(7, 2, head));
    assert_eq!(lent.tray(&[2, 5, 1, 6, 1, 6, 2, 9]), refused_at(5, 3, head));
}

#[test]
fn exactly_256_items_and_no_more() {
    let mut lent = Lent::start(2, 300);
    let head = lent.head;
    assert_eq!(lent.tray(&adds(257)), refused(12, 0, head));
    assert_eq!(lent.tray(&adds(300)), refused(12, 0, head));
    as_single_calls(&mut lent.clone(), &adds(255));
    as_single_calls(&mut lent, &adds(256));
    let again = lent.tray(&adds(256));
    assert_eq!(again, refused_at(5, 1, lent.head));
    let strikes: Vec<i64> = (0..256).flat_map(|i| strike(&[i % 7, i])).collect();
    as_single_calls(&mut lent, &strikes);
}

#[test]
fn the_last_of_256_may_be_the_first_refused() {
    let mut lent = Lent::start(2, 255);
    let head = lent.head;
    assert_eq!(lent.tray(&adds(256)), refused_at(7, 256, head));
    let doubled = [adds(255), add(&[0, 0])].concat();
    assert_eq!(lent.tray(&doubled), refused_at(5, 256, head));
    let gone = [adds(255), strike(&[9, 9])].concat();
    assert_eq!(lent.tray(&gone), refused_at(6, 256, head));
}

#[test]
fn a_length_that_is_no_multiple_is_12() {
    for k in 1..=4 {
        let mut lent = Lent::start(k, 9);
        let head = lent.head;
        for length in (0..4 * (k + 1)).chain(256 * (k + 1) - 3..256 * (k + 1) + 4) {
            let answer = lent.clone().tray(&vec![1; length]);
            match (length / (k + 1), length % (k + 1)) {
                (0, 0) => assert_eq!(answer, done(head)),
                (1, 0) => assert_eq!(answer.head.n, 1),
                (2..=256, 0) => assert_eq!(answer, refused_at(5, 2, head)),
                _ => assert_eq!(answer, refused(12, 0, head)),
            }
        }
        lent.head.k = k % 4 + 1;
        lent.keys.resize(lent.head.k * 9, 0);
        let foreign = lent.tray(&vec![1; k + 1]);
        assert_eq!(foreign, refused(12, 0, lent.head));
    }
}

#[test]
fn another_first_number_is_12_at_any_place() {
    let mut lent = numbers(9, &[5]);
    let head = lent.head;
    for first in [0, 3, -1, -2, 257, 1 << 32 | 1, i64::MIN, i64::MAX] {
        assert_eq!(lent.tray(&[first, 7]), refused(12, 0, head));
        assert_eq!(lent.tray(&[1, 7, first, 8]), refused(12, 0, head));
        assert_eq!(lent.tray(&[1, 5, 2, 8, first, 8]), refused(12, 0, head));
        let last = [adds(255), vec![first, 0, 0]].concat();
        assert_eq!(
            Lent::start(2, 300).tray(&last).outcome,
            Outcome::Refused(12)
        );
    }
}

#[test]
fn all_numbers_are_ordinary_fields() {
    let mut lent = Lent::start(2, 4);
    let ends = [i64::MIN, i64::MAX];
    let items: Vec<i64> = ends
        .iter()
        .flat_map(|a| ends.iter().flat_map(|b| add(&[*a, *b])))
        .collect();
    as_single_calls(&mut lent, &items);
    as_single_calls(&mut lent, &strike(&[i64::MIN, i64::MIN]));
}

/// What a tray of these numbers answers in the lent memory as it is, which it must leave so.
fn refusal(lent: &Lent, items: &[i64]) -> Answer {
    let mut copy = lent.clone();
    let answer = reference::tray(
        copy.head,
        &mut copy.keys,
        &mut copy.links,
        &mut copy.scratch,
        items,
    );
    assert_eq!(copy, *lent, "a refused tray wrote");
    answer
}

#[test]
fn each_refusal_comes_before_those_behind_it() {
    let bad: [&[i64]; 4] = [&[1], &[3, 7], &[1; 2 * 257], &[1, 5, 0, 0]];
    let refusing: &[i64] = &[1, 9, 1, 5];
    let mut lent = numbers(4, &[5, 6]);
    lent.scratch.fill(8);
    assert_eq!(refusal(&lent, refusing), refused_at(5, 2, lent.head));
    lent.head.root = 9;
    assert_eq!(refusal(&lent, &[]), refused(4, 0, lent.head));
    assert_eq!(refusal(&lent, refusing), refused(4, 0, lent.head));
    for items in bad {
        assert_eq!(refusal(&lent, items), refused(12, 0, lent.head));
    }
    for (keys, links, scratch) in [(3, 12, 4), (4, 11, 4), (4, 12, 3), (4, 12, 5)] {
        let mut short = lent.clone();
        short.keys.resize(keys, 0);
        short.links.resize(links, 0);
        short.scratch.resize(scratch, 0);
        for items in bad {
            assert_eq!(refusal(&short, items), refused(3, 0, short.head));
        }
        short.head.c = 0;
        assert_eq!(refusal(&short, bad[0]), refused(2, 0, short.head));
        for k in [0, 5, usize::MAX] {
            short.head.k = k;
            assert_eq!(refusal(&short, bad[0]), refused(1, 0, short.head));
            assert_eq!(refusal(&short, &[]), refused(1, 0, short.head));
        }
    }
}
