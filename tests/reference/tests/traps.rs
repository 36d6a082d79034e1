//! Pools laid out as traps: shared sides, circles, long paths, and cells turned at random.

use crate::damage::{book, unsound};
use crate::dice::Dice;
use crate::every_call::ask_all;
use crate::judge::tree_slots;
use crate::lent::{refused, Lent};
use reference::{Bound, Outcome};
use std::time::{Duration, Instant};

/// A pool whose every entry has the next slot on both sides, with heights that fit.
fn doubling(k: usize, c: usize, levels: usize, rising: bool) -> Lent {
    let mut lent = Lent::start(k, c);
    for slot in 1..=levels {
        let next = if slot < levels { slot + 1 } else { 0 };
        let link = [next, next, levels + 1 - slot];
        lent.links[3 * (slot - 1)..3 * slot].copy_from_slice(&link);
        for number in &mut lent.keys[k * (slot - 1)..k * slot] {
            *number = if rising { slot as i64 } else { 1 };
        }
    }
    lent.head.root = 1;
    lent.head.free = if levels < c { levels + 1 } else { 0 };
    lent.head.n = levels;
    lent
}

#[test]
fn shared_sides_do_not_double_the_work() {
    let clock = Instant::now();
    for k in 1..=4 {
        for levels in [2, 3, 12, 16, 17, 40, 64, 1000, 4096] {
            for rising in [false, true] {
                let mut lent = doubling(k, 4096, levels, rising);
                unsound(&lent, "shared sides");
                lent.head.n = 4096;
                unsound(&lent, "shared sides, all counted");
            }
        }
    }
    let lent = doubling(2, 16, 16, true);
    unsound(&lent, "shared sides in a full pool");
    assert!(clock.elapsed() < Duration::from_secs(10), "too slow");
}

#[test]
fn a_circle_of_three_is_refused_at_the_seventeenth_read() {
    let mut lent = doubling(1, 3, 3, true);
    lent.links[3 * 2] = 1;
    lent.links[3 * 2 + 1] = 1;
    unsound(&lent, "a circle of three");
    assert_eq!(lent.look_up(&[9]), refused(4, 0, lent.head));
    assert_eq!(lent.look_up(&[3]).reads, 3);
}

/// A path of so many levels to the right, each entry greater than the one before.
fn path(levels: usize) -> Lent {
    let mut lent = doubling(1, 17, levels, true);
    for slot in 1..=levels {
        lent.links[3 * (slot - 1)] = 0;
    }
    lent
}

#[test]
fn a_tree_right_in_all_but_its_balance() {
    for levels in 3..=17 {
        unsound(&path(levels), "a path");
    }
    for levels in 1..=2 {
        for (name, answer) in ask_all(&path(levels)) {
            assert_ne!(answer.outcome, Outcome::Refused(4), "{name}");
        }
    }
    let mut lent = doubling(1, 7, 7, true);
    let links = [
        [0, 0, 1],
        [1, 0, 2],
        [2, 0, 3],
        [3, 6, 4],
        [0, 0, 1],
        [5, 7, 2],
        [0, 0, 1],
    ];
    lent.links = links.concat();
    lent.head.root = 4;
    unsound(&lent, "out of balance below the root");
}

#[test]
fn look_up_reads_sixteen_entries_and_no_more() {
    assert_eq!(path(16).look_up(&[16]).reads, 16);
    assert_eq!(path(16).look_up(&[99]).outcome, Outcome::Absent);
    assert_eq!(path(16).look_up(&[99]).reads, 16);
    let long = path(17);
    assert_eq!(long.look_up(&[16]).reads, 16);
    assert_eq!(long.look_up(&[17]), refused(4, 0, long.head));
    let mut off = path(3);
    for bad in [18, usize::MAX] {
        off.links[3 * 2 + 1] = bad;
        assert_eq!(off.look_up(&[9]), refused(4, 0, off.head));
        assert_eq!(off.look_up(&[3]).outcome, Outcome::Found);
        assert_eq!(off.look_up(&[-1]).outcome, Outcome::Absent);
        off.head.root = bad;
        assert_eq!(off.look_up(&[3]), refused(4, 0, off.head));
        off.head.root = 1;
    }
}

/// The next digit of a number that counts through all pools.
fn digit(number: &mut usize, base: usize) -> usize {
    let digit = *number % base;
    *number /= base;
    digit
}

#[test]
fn all_pools_of_two_slots_are_judged_alike() {
    let mut lent = Lent::start(1, 2);
    let mut sound = 0;
    for pool in 0..4 * 4 * 4 * 2 * 2 * 3_usize.pow(6) {
        let mut rest = pool;
        lent.head.root = digit(&mut rest, 4);
        lent.head.free = digit(&mut rest, 4);
        lent.head.n = digit(&mut rest, 4);
        lent.keys.fill_with(|| digit(&mut rest, 2) as i64);
        lent.links.fill_with(|| digit(&mut rest, 3));
        let judged = tree_slots(lent.head, &lent.keys, &lent.links).is_some();
        let answer = lent.count(&[Bound::Free]);
        assert_eq!(judged, answer.outcome == Outcome::Done, "{lent:?}");
        sound += usize::from(judged);
    }
    // Two fresh chains; either slot alone with either number; either slot on top, the other on either side.
    assert_eq!(sound, 2 + 2 * 2 + 2 * 2);
}

/// Turns some cells of a pool into something else.
fn flip(lent: &mut Lent, dice: &mut Dice) {
    for _ in 0..1 + dice.below(3) {
        let c = lent.head.c;
        let value = match dice.below(6) {
            0 => dice.next() as usize,
            1 => usize::MAX,
            _ => dice.below(c + 2),
        };
        match dice.below(6) {
            0 => lent.head.root = value,
            1 => lent.head.free = value,
            2 => lent.head.n = value,
            3 => {
                let at = dice.below(lent.keys.len());
                lent.keys[at] = value as i64 - 5;
            }
            _ => {
                let at = dice.below(lent.links.len());
                lent.links[at] = value;
            }
        }
    }
}

#[test]
fn random_flips_are_judged_alike() {
    let mut dice = Dice::new(77);
    let (mut sound, mut damaged) = (0, 0);
    for (c, rounds) in [
        (1, 300),
        (2, 600),
        (3, 600),
        (5, 600),
        (9, 600),
        (60, 200),
        (4096, 12),
    ] {
        for round in 0..rounds {
            let k = 1 + dice.below(4);
            let mut lent = book(k, c, dice.below(c + 1), round);
            flip(&mut lent, &mut dice);
            if tree_slots(lent.head, &lent.keys, &lent.links).is_none() {
                damaged += 1;
                unsound(&lent, "random flips");
            } else {
                sound += 1;
                for (name, answer) in ask_all(&lent) {
                    assert_ne!(answer.outcome, Outcome::Refused(4), "{name}");
                }
            }
        }
    }
    assert!(
        damaged > 1000 && sound > 50,
        "{damaged} damaged, {sound} sound"
    );
}
