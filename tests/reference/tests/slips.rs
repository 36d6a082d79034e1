//! Small trees worked out by hand, where a fitter's hand slips.

use crate::lent::{done, entry, Lent};
use reference::{Bound, Outcome};

/// A book of two fields with these entries in slots 1, 2, and so on.
fn book(entries: &[[i64; 2]]) -> Lent {
    let mut lent = Lent::start(2, 8);
    for f in entries {
        assert_eq!(lent.add(f).outcome, Outcome::Done);
    }
    lent
}

/// Strikes an entry and tells the new root, first free slot and count.
fn strike(lent: &mut Lent, f: [i64; 2]) -> [usize; 3] {
    let answer = lent.strike(&f);
    assert_eq!(answer, done(answer.head));
    [answer.head.root, answer.head.free, answer.head.n]
}

#[test]
fn an_only_child_is_copied_and_its_slot_freed() {
    let mut lent = book(&[[5, 5], [7, 1]]);
    assert_eq!(strike(&mut lent, [5, 5]), [1, 2, 1]);
    assert_eq!(lent.numbers(1), [7, 1]);
    assert_eq!([lent.link(1), lent.link(2)], [[0, 0, 1], [3, 0, 0]]);
    let mut lent = book(&[[5, 5], [3, 9]]);
    assert_eq!(strike(&mut lent, [5, 5]), [1, 2, 1]);
    assert_eq!(lent.numbers(1), [3, 9]);
}

#[test]
fn equal_cut_fields_are_told_apart_by_the_next() {
    let lent = book(&[[5, 1], [5, 2], [5, 3], [5, 0], [4, 9]]);
    assert_eq!(lent.head.root, 2);
    assert_eq!(lent.link(2), [1, 3, 3]);
    assert_eq!(lent.link(1), [4, 5, 2]);
    let found = lent.look_up(&[4, 9]);
    assert_eq!((found.slot, found.reads), (5, 3));
}

#[test]
fn a_tie_on_the_other_side_may_win() {
    let lent = book(&[[4, 0], [0, 0], [8, 0]]);
    let near = lent.nearest(&[2, 0], &[2, 1]);
    assert_eq!(
        (near.entry, near.slot, near.distance),
        (entry(&[0, 0]), 2, 1)
    );
    let near = lent.nearest(&[6, 0], &[3, 1]);
    assert_eq!(
        (near.entry, near.slot, near.distance),
        (entry(&[4, 0]), 1, 1)
    );
    let near = lent.nearest(&[4, 9], &[9, 9]);
    assert_eq!(
        (near.entry, near.slot, near.distance),
        (entry(&[0, 0]), 2, 1)
    );
}

#[test]
fn a_successor_may_stand_to_the_right() {
    let mut lent = book(&[[5, 5], [1, 1], [9, 3], [6, 8]]);
    assert_eq!(strike(&mut lent, [5, 5]), [1, 4, 3]);
    assert_eq!(lent.numbers(1), [6, 8]);
    assert_eq!(lent.link(1), [2, 3, 2]);
}

#[test]
fn a_predecessor_may_stand_to_the_left() {
    let mut lent = book(&[[5, 5], [1, 7], [9, 9], [4, 2]]);
    assert_eq!(strike(&mut lent, [5, 5]), [1, 4, 3]);
    assert_eq!(lent.numbers(1), [4, 2]);
    assert_eq!(lent.link(1), [2, 3, 2]);
}

#[test]
fn a_replacement_that_is_no_leaf_is_replaced_in_turn() {
    let mut lent = book(&[[5, 5], [1, 1], [6, 3], [9, 1], [8, 8]]);
    assert_eq!(strike(&mut lent, [5, 5]), [1, 5, 4]);
    assert_eq!([lent.numbers(1), lent.numbers(3)], [[6, 3], [8, 8]]);
    assert_eq!([lent.link(1), lent.link(3)], [[2, 3, 3], [4, 0, 2]]);
    assert_eq!(lent.link(5), [6, 0, 0]);
}

#[test]
fn the_upward_check_goes_on_after_a_rebuild() {
    let mut lent = Lent::start(1, 12);
    for a in [5, 2, 8, 1, 3, 6, 10, 4, 7, 9, 11, 12] {
        assert_eq!(lent.add(&[a]).outcome, Outcome::Done);
    }
    assert_eq!(lent.head.root, 1);
    assert_eq!(lent.link(1), [2, 3, 5]);
    let answer = lent.strike(&[1]);
    assert_eq!((answer.head.root, answer.head.free), (9, 4));
    let links: [[usize; 3]; 12] = std::array::from_fn(|i| lent.link(i + 1));
    let expected = [
        [0, 0, 1],
        [0, 0, 1],
        [0, 0, 1],
        [0, 0, 0],
        [2, 0, 2],
        [1, 0, 2],
        [10, 12, 3],
        [5, 6, 3],
        [8, 7, 4],
        [3, 0, 2],
        [0, 0, 1],
        [11, 0, 2],
    ];
    assert_eq!(links, expected);
}

#[test]
fn a_bound_counts_its_ends_and_a_reversed_one_nothing() {
    let lent = book(&[[1, 1], [2, 2], [3, 3]]);
    let cases = [
        (Bound::Free, 3),
        (Bound::AtLeast(2), 2),
        (Bound::AtMost(2), 2),
        (Bound::Between(2, 3), 2),
        (Bound::Between(3, 2), 0),
        (Bound::AtLeast(i64::MIN), 3),
        (Bound::AtMost(i64::MIN), 0),
        (Bound::AtLeast(i64::MAX), 0),
        (Bound::Between(i64::MIN, i64::MAX), 3),
    ];
    for (bound, count) in cases {
        assert_eq!(lent.count(&[bound, Bound::Free]).count, count);
        assert_eq!(lent.count(&[Bound::Free, bound]).count, count);
    }
}
