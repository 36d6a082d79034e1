//! The tally as tables in markdown, which are also plain to read.

use crate::call::NAMES;
use crate::kinds::KINDS;
use crate::tally::{Count, Tally};
use crate::texts::FAULTS;
use crate::trays::SORTS;

/// Rows of cells as a table, the first row its titles.
fn table(rows: &[Vec<String>]) -> String {
    let widths: Vec<usize> = (0..rows[0].len())
        .map(|i| rows.iter().map(|row| row[i].len()).max().unwrap_or(0))
        .collect();
    let line = |row: &Vec<String>| {
        let cells = row.iter().zip(&widths).enumerate();
        let cells: Vec<String> = cells
            .map(|(i, (cell, width))| match i {
                0 => format!("{cell:<width$}"),
                _ => format!("{cell:>width$}"),
            })
            .collect();
        format!("| {} |\n", cells.join(" | "))
    };
    let rule = widths.iter().enumerate().map(|(i, width)| match i {
        0 => "-".repeat(width + 2),
        _ => format!("{}:", "-".repeat(width + 1)),
    });
    let rule = format!("|{}|\n", rule.collect::<Vec<_>>().join("|"));
    let body: String = rows[1..].iter().map(line).collect();
    line(&rows[0]) + &rule + &body
}

/// A row of a name and numbers.
fn row(name: &str, numbers: &[u64]) -> Vec<String> {
    let name = std::iter::once(name.to_string());
    name.chain(numbers.iter().map(u64::to_string)).collect()
}

fn titles(of: &[&str]) -> Vec<String> {
    of.iter().map(|title| title.to_string()).collect()
}

/// Each call: how many were made, accepted, and refused by each number.
pub fn calls(tally: &Tally) -> String {
    let mut rows = vec![titles(&[
        "call", "made", "accepted", "1", "2", "3", "4", "5", "6", "7", "8", "9", "10", "11", "12",
    ])];
    for (name, count) in NAMES.iter().zip(&tally.calls) {
        let mut numbers = vec![count.tried];
        numbers.extend(count.ended);
        rows.push(row(name, &numbers));
    }
    table(&rows)
}

/// Each kind of damage to a pool: tried, unsound by the reference, refused by 1 to 3, still sound; calls; unseen.
pub fn damage(tally: &Tally) -> String {
    let mut rows = vec![titles(&[
        "damage to a pool",
        "tried",
        "unsound",
        "refused as 1 to 3",
        "sound all the same",
        "calls of it",
        "unseen",
    ])];
    let one = |count: &Count| {
        let sizes = count.ended[1..=3].iter().sum();
        [
            count.tried,
            count.ended[4],
            sizes,
            count.ended[0],
            count.calls,
            count.unseen,
        ]
    };
    for ((name, _), count) in KINDS.iter().zip(&tally.damage) {
        rows.push(row(name, &one(count)));
    }
    table(&rows)
}

/// Each fault of a text: tried, and how taking in ended.
pub fn texts(tally: &Tally) -> String {
    let mut rows = vec![titles(&[
        "fault of a text",
        "tried",
        "refused as 9",
        "as 10",
        "as 7",
        "as 1 to 4",
        "taken in",
        "unseen",
    ])];
    let one = |count: &Count| {
        let ended = count.ended;
        let pool = ended[1..=4].iter().sum();
        [
            count.tried,
            ended[9],
            ended[10],
            ended[7],
            pool,
            ended[0],
            count.unseen,
        ]
    };
    for ((name, _), count) in FAULTS.iter().zip(&tally.texts) {
        rows.push(row(name, &one(count)));
    }
    table(&rows)
}

/// Each sort of tray: tried, and how it ended.
pub fn trays(tally: &Tally) -> String {
    let mut rows = vec![titles(&[
        "tray",
        "tried",
        "refused as 12",
        "as 5",
        "as 6",
        "as 7",
        "as 1 to 4",
        "accepted",
        "unseen",
    ])];
    let one = |count: &Count| {
        let ended = count.ended;
        let pool = ended[1..=4].iter().sum();
        [
            count.tried,
            ended[12],
            ended[5],
            ended[6],
            ended[7],
            pool,
            ended[0],
            count.unseen,
        ]
    };
    for (sort, count) in SORTS.iter().zip(&tally.trays) {
        rows.push(row(sort.name, &one(count)));
    }
    table(&rows)
}
