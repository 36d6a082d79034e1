//! The paper's bench cases B1 to B12.

use crate::lent::{done, entry, refused, Lent};
use reference::heights::{fewest, greatest_height};
use reference::key::difference;
use reference::tree::{rebuild, Tree};
use reference::{Answer, Bound, Head, Outcome};

/// The head of a book of two fields and three slots.
fn head(root: usize, free: usize, n: usize) -> Head {
    let (k, c) = (2, 3);
    Head {
        k,
        c,
        root,
        free,
        n,
    }
}

/// A book of two fields with these entries added in turn.
fn book(c: usize, entries: &[[i64; 2]]) -> Lent {
    let mut lent = Lent::start(2, c);
    for f in entries {
        assert_eq!(lent.add(f).outcome, Outcome::Done);
    }
    lent
}

/// The book of case B2.
fn book_of_b2() -> Lent {
    book(3, &[[1, 9], [2, 4], [3, 7]])
}

/// The answer of a look-up that finds.
fn found(lent: &Lent, f: &[i64], slot: usize, reads: usize) -> Answer {
    Answer {
        entry: entry(f),
        slot,
        reads,
        ..Answer::bare(Outcome::Found, lent.head)
    }
}

/// The answer of a nearest that finds.
fn near(lent: &Lent, f: &[i64], slot: usize, distance: u64) -> Answer {
    Answer {
        entry: entry(f),
        slot,
        distance,
        ..Answer::bare(Outcome::Found, lent.head)
    }
}

#[test]
fn b1_a_fresh_book_finds_nothing() {
    let lent = Lent::start(2, 3);
    assert_eq!(
        lent.look_up(&[0, 0]),
        Answer::bare(Outcome::Absent, head(0, 1, 0))
    );
    assert_eq!(lent.keys, [0; 6]);
    assert_eq!(lent.links, [2, 0, 0, 3, 0, 0, 0, 0, 0]);
}

#[test]
fn b2_three_adds_put_slot_2_on_top() {
    let lent = book_of_b2();
    assert_eq!(lent.head, head(2, 0, 3));
    assert_eq!(lent.keys, [1, 9, 2, 4, 3, 7]);
    assert_eq!(lent.links, [0, 0, 1, 1, 3, 2, 0, 0, 1]);
    assert_eq!(lent.look_up(&[3, 7]), found(&lent, &[3, 7], 3, 2));
    assert_eq!(lent.look_up(&[2, 4]), found(&lent, &[2, 4], 2, 1));
    let absent = Answer {
        reads: 2,
        ..Answer::bare(Outcome::Absent, lent.head)
    };
    assert_eq!(lent.look_up(&[3, 8]), absent);
}

#[test]
fn b3_a_full_book_refuses_7_but_first_5() {
    let mut lent = book_of_b2();
    assert_eq!(lent.add(&[5, 5]), refused(7, 0, head(2, 0, 3)));
    assert_eq!(lent.add(&[1, 9]), refused(5, 0, head(2, 0, 3)));
}

#[test]
fn b4_of_equal_heights_the_successor_moves() {
    let mut lent = book_of_b2();
    assert_eq!(lent.strike(&[2, 4]), done(head(2, 3, 2)));
    assert_eq!(lent.keys, [1, 9, 3, 7, 0, 0]);
    assert_eq!(lent.links, [0, 0, 1, 1, 0, 2, 0, 0, 0]);
    assert_eq!(lent.look_up(&[3, 7]), found(&lent, &[3, 7], 2, 1));
    assert_eq!(lent.strike(&[2, 4]), refused(6, 0, lent.head));
}

#[test]
fn b5_the_freed_slot_is_the_next_used() {
    let mut lent = book_of_b2();
    lent.strike(&[2, 4]);
    assert_eq!(lent.strike(&[1, 9]), done(head(2, 1, 1)));
    assert_eq!(lent.keys, [0, 0, 3, 7, 0, 0]);
    assert_eq!(lent.links, [3, 0, 0, 0, 0, 1, 0, 0, 0]);
    assert_eq!(lent.add(&[9, 9]), done(head(2, 3, 2)));
    assert_eq!(lent.numbers(1), [9, 9]);
    assert_eq!(lent.links, [0, 0, 1, 0, 1, 2, 0, 0, 0]);
}

#[test]
fn b6_a_box_with_both_ends_the_same() {
    let lent = book(4, &[[5, 1], [5, 2], [4, 1], [6, 1]]);
    let fives = [Bound::Between(5, 5), Bound::Free];
    let expected = Answer {
        count: 2,
        ..done(lent.head)
    };
    assert_eq!(lent.count(&fives), expected);
    let mut room = [8; 6];
    assert_eq!(lent.list(&fives, &mut room), expected);
    assert_eq!(room, [5, 1, 5, 2, 8, 8]);
}

#[test]
fn b7_a_tie_goes_to_the_first_in_listing_order() {
    let lent = book(3, &[[0, 0], [10, 0]]);
    assert_eq!(lent.nearest(&[5, 0], &[1, 1]), near(&lent, &[0, 0], 1, 5));
    let lent = book(3, &[[10, 0], [0, 0]]);
    assert_eq!(lent.nearest(&[5, 0], &[1, 1]), near(&lent, &[0, 0], 2, 5));
}

#[test]
fn b8_the_range_ends_are_the_whole_range_apart() {
    assert_eq!(difference(i64::MIN, i64::MAX), 18446744073709551615);
    assert_eq!(difference(i64::MAX, i64::MIN), 18446744073709551615);
    let mut lent = Lent::start(1, 1);
    lent.add(&[i64::MIN]);
    for (step, distance) in [
        (1, 18446744073709551615),
        (2, 1 << 63),
        (u64::MAX - 1, 2),
        (u64::MAX, 1),
    ] {
        assert_eq!(
            lent.nearest(&[i64::MAX], &[step]),
            near(&lent, &[i64::MIN], 1, distance)
        );
    }
    assert_eq!(lent.nearest(&[i64::MIN + 1], &[u64::MAX]).distance, 1);
    assert_eq!(lent.nearest(&[i64::MIN], &[u64::MAX]).distance, 0);
}

#[test]
fn b9_a_step_of_50_rounds_up() {
    let mut lent = Lent::start(1, 1);
    lent.add(&[100]);
    for (query, distance) in [
        (51, 1),
        (50, 1),
        (149, 1),
        (150, 1),
        (100, 0),
        (101, 1),
        (199, 2),
    ] {
        assert_eq!(
            lent.nearest(&[query], &[50]),
            near(&lent, &[100], 1, distance)
        );
    }
}

#[test]
fn b10_the_greatest_height_for_a_count() {
    let heights = [3, 4, 6, 7, 4096].map(greatest_height);
    assert_eq!(heights, [2, 3, 3, 4, 16]);
    let counts = [0, 1, 2, 3, 4, 5, 6, 16, 17].map(fewest);
    assert_eq!(counts, [0, 1, 2, 4, 7, 12, 20, 2583, 4180]);
}

/// A tree as text: slot, then both sides in brackets.
fn drawn(tree: &Tree) -> String {
    match tree {
        None => String::from("-"),
        Some(node) => format!(
            "{}^{}({} {})",
            node.slot,
            node.height,
            drawn(&node.left),
            drawn(&node.right)
        ),
    }
}

#[test]
fn b11_of_two_the_greater_is_the_root() {
    let two = vec![(1, entry(&[1, 1])), (2, entry(&[2, 2]))];
    assert_eq!(drawn(&rebuild(two, 0, 2)), "2^2(1^1(- -) -)");
}

#[test]
fn b12_three_entries_cut_at_c() {
    let three = vec![
        (1, entry(&[8, 1, 5])),
        (2, entry(&[8, 3, 2])),
        (3, entry(&[9, 2, 1])),
    ];
    assert_eq!(drawn(&rebuild(three, 2, 3)), "2^2(3^1(- -) 1^1(- -))");
}
