//! Right texts with one thing wrong: every pair of every line, in every way.

use crate::edges::{longest, Case};

/// A number of the first line or of an entry written wrongly, or in another way.
const NUMBERS: [&str; 34] = [
    "",
    "x",
    "1x",
    "x1",
    "+1",
    "+0",
    "01",
    "00",
    "-0",
    "-01",
    "-",
    "--1",
    "+",
    "1-",
    " 1",
    "1 ",
    "1.0",
    "1e3",
    "0x1",
    "1_0",
    "1,0",
    "=1",
    "1=1",
    "1\t",
    "\t1",
    "1\r",
    "1\0",
    "\u{0661}",
    "\u{2212}1",
    "9223372036854775808",
    "-9223372036854775809",
    "18446744073709551617",
    "99999999999999999999999999",
    "340282366920938463463374607431768211457",
];

/// A name written wrongly.
const NAMES: [&str; 10] = ["", "x", "A", "aa", " a", "a ", "e", "\0", "book", "entries"];

/// Two pairs parted wrongly.
const GAPS: [&str; 8] = ["", "  ", "\t", "\n", ",", " \n", "\r", "\u{a0}"];

/// A line as its pairs: names and numbers.
type Line = Vec<(String, String)>;

fn print(line: &Line) -> String {
    let pairs: Vec<String> = line
        .iter()
        .map(|(name, number)| format!("{name}={number}"))
        .collect();
    pairs.join(" ")
}

/// The lines of a right text of three entries.
fn lines(fields: usize) -> Vec<Line> {
    let pair = |name: &str, number: usize| (name.to_string(), number.to_string());
    let mut lines = vec![vec![
        pair("book", 1),
        pair("fields", fields),
        pair("entries", 3),
    ]];
    for entry in 1..=3 {
        lines.push(
            (0..fields)
                .map(|f| pair(["a", "b", "c", "d"][f], entry * 2))
                .collect(),
        );
    }
    lines
}

/// The text with one of its lines printed as `wrong`.
fn with(lines: &[Line], at: usize, wrong: &str) -> Vec<u8> {
    let printed: Vec<String> = lines
        .iter()
        .enumerate()
        .map(|(i, line)| {
            if i == at {
                wrong.to_string()
            } else {
                print(line)
            }
        })
        .collect();
    format!("{}\n", printed.join("\n")).into_bytes()
}

/// One line in every way in which one of its pairs, or the gap behind it, can be wrong.
fn wrongs(line: &Line) -> Vec<String> {
    let mut wrongs = Vec::new();
    let changed = |at: usize, name: &str, number: &str| {
        let mut copy = line.clone();
        copy[at] = (name.to_string(), number.to_string());
        print(&copy)
    };
    for at in 0..line.len() {
        let (name, number) = &line[at];
        wrongs.extend(NUMBERS.iter().map(|wrong| changed(at, name, wrong)));
        wrongs.extend(NAMES.iter().map(|wrong| changed(at, wrong, number)));
        let mut missing = line.clone();
        missing.remove(at);
        wrongs.push(print(&missing));
        let mut twice = line.clone();
        twice.insert(at, line[at].clone());
        wrongs.push(print(&twice));
        wrongs.push(print(line).replacen('=', ":", at + 1));
        wrongs.push(print(line).replacen('=', " = ", at + 1));
        if at + 1 < line.len() {
            let mut swapped = line.clone();
            swapped.swap(at, at + 1);
            wrongs.push(print(&swapped));
            let (front, back) = line.split_at(at + 1);
            let (front, back) = (print(&front.to_vec()), print(&back.to_vec()));
            wrongs.extend(GAPS.iter().map(|gap| format!("{front}{gap}{back}")));
        }
    }
    wrongs.extend(["", " ", "\0", "\u{feff}"].map(String::from));
    wrongs.push(format!(" {}", print(line)));
    wrongs.push(format!("{} ", print(line)));
    wrongs.push(format!("{} e=1", print(line)));
    wrongs
}

/// All texts of this file.
pub fn texts() -> Vec<Case> {
    let mut cases = Vec::new();
    for fields in 1..=4 {
        let lines = lines(fields);
        for at in 0..lines.len() {
            for wrong in wrongs(&lines[at]) {
                let name = format!("line {} of {fields} fields as {wrong:?}", at + 1);
                cases.push((name, with(&lines, at, &wrong)));
            }
        }
    }
    let long = longest();
    for (old, new) in [
        ("a=1511", "a=1510"),
        ("a=1000", "a=01000"),
        ("entries=512", "entries=511"),
    ] {
        cases.push((
            format!("{new} in a long text"),
            long.replacen(old, new, 1).into_bytes(),
        ));
    }
    cases
}
