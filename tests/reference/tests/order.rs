//! The table of refusals: each row under its condition, and which comes first where several hold.

use crate::every_call::{ask_all, ask_readers, ask_writers};
use crate::lent::{noisy, refused, Lent};
use reference::{look_up, start, Head, Outcome};

/// Numbers that no K may be.
const BAD_K: [usize; 4] = [0, 5, 4096, usize::MAX];

/// Numbers that no C may be.
const BAD_C: [usize; 4] = [0, 4097, usize::MAX / 3 + 1, usize::MAX];

/// A book of three fields, five slots and two entries.
fn book() -> Lent {
    let mut lent = Lent::start(3, 5);
    lent.add(&[1, 2, 3]);
    lent.add(&[-77, -77, -77]);
    lent
}

/// Every call, look-up too, refuses this number.
fn all_refuse(lent: &Lent, number: u32) {
    for (name, answer) in ask_all(lent) {
        assert_eq!(answer, refused(number, 0, lent.head), "{name}");
    }
    let answer = look_up(lent.head, &lent.keys, &lent.links, noisy(&[]));
    assert_eq!(answer, refused(number, 0, lent.head), "look_up");
}

/// A start that is refused leaves the lists, and its head is all 0.
fn start_refuses(k: usize, c: usize, keys: usize, links: usize, number: u32) {
    let (mut key_list, mut link_list) = (vec![7; keys], vec![8; links]);
    let answer = start(k, c, &mut key_list, &mut link_list);
    assert_eq!(answer, refused(number, 0, Head::default()));
    assert!(key_list.iter().all(|v| *v == 7) && link_list.iter().all(|v| *v == 8));
}

#[test]
fn a_bad_k_is_1_whatever_else_is_wrong() {
    for k in BAD_K {
        let mut lent = book();
        lent.head.k = k;
        all_refuse(&lent, 1);
        start_refuses(k, 5, 15, 15, 1);
        for c in BAD_C {
            lent.head.c = c;
            lent.head.root = usize::MAX;
            all_refuse(&lent, 1);
            start_refuses(k, c, 0, 0, 1);
        }
    }
}

#[test]
fn a_bad_c_is_2_before_lengths_and_soundness() {
    for c in BAD_C {
        let mut lent = book();
        lent.head.c = c;
        all_refuse(&lent, 2);
        lent.head.root = usize::MAX;
        lent.links.pop();
        all_refuse(&lent, 2);
        for k in 1..=4 {
            start_refuses(k, c, 0, 0, 2);
        }
    }
}

#[test]
fn a_wrong_key_or_link_length_is_3_before_soundness() {
    for root in [1, 9] {
        for (keys, links) in [(14, 15), (16, 15), (15, 14), (15, 16), (0, 15), (15, 0)] {
            let mut lent = book();
            lent.head.root = root;
            lent.keys.resize(keys, 0);
            lent.links.resize(links, 0);
            all_refuse(&lent, 3);
            start_refuses(3, 5, keys, links, 3);
        }
    }
}

#[test]
fn a_wrong_scratch_length_is_3_only_where_scratch_is_borrowed() {
    for length in [0, 4, 6, 15] {
        let mut lent = book();
        lent.scratch.resize(length, 0);
        let sound = book();
        assert_eq!(ask_readers(&lent), ask_readers(&sound));
        for root in [1, 9] {
            lent.head.root = root;
            for (name, answer) in ask_writers(&lent) {
                assert_eq!(answer, refused(3, 0, lent.head), "{name}");
            }
        }
    }
}

#[test]
fn an_unsound_pool_is_4_before_5_to_11() {
    let mut lent = book();
    lent.head.n = 3;
    for (name, answer) in ask_all(&lent) {
        assert_eq!(answer, refused(4, 0, lent.head), "{name}");
    }
    let found = look_up(lent.head, &lent.keys, &lent.links, noisy(&[]));
    assert_eq!(found.outcome, Outcome::Found);
}

#[test]
fn a_sound_pool_gives_each_call_its_own_refusal() {
    let lent = book();
    let outcomes: Vec<Outcome> = ask_all(&lent).into_iter().map(|a| a.1.outcome).collect();
    let expected = [
        Outcome::Refused(5),
        Outcome::Done,
        Outcome::Refused(9),
        Outcome::Refused(5),
        Outcome::Done,
        Outcome::Refused(8),
        Outcome::Refused(11),
        Outcome::Refused(8),
    ];
    assert_eq!(outcomes, expected);
    let mut empty = Lent::start(3, 5);
    let outcomes: Vec<Outcome> = ask_readers(&empty)
        .into_iter()
        .map(|a| a.1.outcome)
        .collect();
    let expected = [
        Outcome::Done,
        Outcome::Done,
        Outcome::Refused(11),
        Outcome::Refused(8),
    ];
    assert_eq!(outcomes, expected);
    assert_eq!(empty.strike(&[1, 2, 3]), refused(6, 0, empty.head));
    assert_eq!(
        empty.nearest(&[1, 2, 3], &[1, 1, 1]).outcome,
        Outcome::Absent
    );
}

#[test]
fn only_the_steps_of_the_fields_matter() {
    let lent = book();
    for k in 0..3 {
        let mut each = [1; 3];
        each[k] = 0;
        assert_eq!(lent.nearest(&[0; 3], &each), refused(11, 0, lent.head));
    }
    assert_eq!(lent.nearest(&[0; 3], &[1; 3]).outcome, Outcome::Found);
}

#[test]
fn take_in_refuses_9_before_10_before_7() {
    let mut lent = Lent::start(1, 1);
    let two_fields = b"book=1 fields=2 entries=2\na=1 b=1\na=2 b=2\n";
    let bad_two_fields = b"book=1 fields=2 entries=2\na=1 b=1\na=1 b=1\n";
    let one_field = b"book=1 fields=1 entries=2\na=1\na=2\n";
    let bad_one_field = b"book=1 fields=1 entries=2\na=1\na=2\n\n";
    assert_eq!(lent.take_in(bad_two_fields), refused(9, 3, lent.head));
    assert_eq!(lent.take_in(two_fields), refused(10, 0, lent.head));
    assert_eq!(lent.take_in(bad_one_field), refused(9, 4, lent.head));
    assert_eq!(lent.take_in(one_field), refused(7, 0, lent.head));
}

#[test]
fn take_in_counts_only_what_is_not_yet_there() {
    let mut lent = Lent::start(1, 2);
    lent.add(&[2]);
    lent.add(&[1]);
    let before = (lent.keys.clone(), lent.links.clone(), lent.head);
    let both = b"book=1 fields=1 entries=2\na=1\na=2\n";
    assert_eq!(lent.take_in(both).outcome, Outcome::Done);
    assert_eq!((lent.keys.clone(), lent.links.clone(), lent.head), before);
    let third = b"book=1 fields=1 entries=3\na=1\na=2\na=3\n";
    assert_eq!(lent.take_in(third), refused(7, 0, lent.head));
}
