//! Seeded histories of small and middling books against a plain sorted set.

use crate::history::{History, STYLES};

/// Histories of every number of fields and every style.
fn run_all(capacities: &[usize], steps: usize, seeds: u64) {
    for k in 1..=4 {
        for &c in capacities {
            for style in STYLES {
                for seed in 1..=seeds {
                    History::new(k, c, style, seed * 1000 + c as u64).run(steps, 1);
                }
            }
        }
    }
}

#[test]
fn tiny_books() {
    run_all(&[1, 2, 3, 4, 5, 6, 7], 160, 5);
}

#[test]
fn small_books() {
    run_all(&[8, 10, 12, 13, 20, 21, 33], 300, 2);
}

#[test]
fn middling_books() {
    run_all(&[64, 100, 200], 240, 1);
}
