//! The saved book as bytes: printing it, and reading exactly what could have been printed.

use crate::key::by_listing;
use crate::types::Entry;
use std::cmp::Ordering;

/// The names of the four fields.
pub const NAMES: [char; 4] = ['a', 'b', 'c', 'd'];

/// What a saved text says: its own number of fields, and its entries in rising order.
#[derive(Debug, PartialEq, Eq)]
pub struct Saved {
    pub fields: usize,
    pub entries: Vec<Entry>,
}

/// The first line with its LF.
pub fn first_line(fields: usize, count: usize) -> String {
    format!("book=1 fields={fields} entries={count}\n")
}

/// The pairs of an entry, one space between them.
pub fn pairs(entry: &Entry, fields: usize) -> String {
    let pairs: Vec<String> = (0..fields)
        .map(|i| format!("{}={}", NAMES[i], entry.f[i]))
        .collect();
    pairs.join(" ")
}

/// An entry's line with its LF.
pub fn entry_line(entry: &Entry, fields: usize) -> String {
    format!("{}\n", pairs(entry, fields))
}

/// The whole saved text of entries given in listing order.
pub fn print(saved: &Saved) -> Vec<u8> {
    let mut text = first_line(saved.fields, saved.entries.len());
    for entry in &saved.entries {
        text.push_str(&entry_line(entry, saved.fields));
    }
    text.into_bytes()
}

/// Reads a saved text, or names the line that refusal 9 gives.
pub fn parse(text: &[u8]) -> Result<Saved, usize> {
    let mut lines = text.split_inclusive(|byte| *byte == b'\n');
    let (fields, count) = lines.next().and_then(read_first_line).ok_or(1_usize)?;
    let mut entries: Vec<Entry> = Vec::new();
    for number in 2..count + 2 {
        let entry = lines
            .next()
            .and_then(|line| read_entry_line(line, fields))
            .ok_or(number)?;
        if let Some(last) = entries.last() {
            if by_listing(last, &entry, fields) != Ordering::Less {
                return Err(number);
            }
        }
        entries.push(entry);
    }
    match lines.next() {
        None => Ok(Saved { fields, entries }),
        Some(_) => Err(count + 2),
    }
}

/// The values after `=` in a line's pairs, whatever their names and form.
fn values(line: &[u8]) -> Option<Vec<&str>> {
    let line = std::str::from_utf8(line).ok()?.strip_suffix('\n')?;
    line.split(' ')
        .map(|pair| pair.split_once('=').map(|(_, value)| value))
        .collect()
}

/// The first line's fields and entries, only where printing them gives this very line.
fn read_first_line(line: &[u8]) -> Option<(usize, usize)> {
    let values = values(line)?;
    let fields: usize = values.get(1)?.parse().ok()?;
    let count: usize = values.get(2)?.parse().ok()?;
    let allowed = (1..=4).contains(&fields) && count <= 4096;
    (allowed && first_line(fields, count).as_bytes() == line).then_some((fields, count))
}

/// An entry's line, only where printing the entry gives this very line.
fn read_entry_line(line: &[u8], fields: usize) -> Option<Entry> {
    let mut entry = Entry::default();
    for (place, value) in entry.f.iter_mut().zip(values(line)?) {
        *place = value.parse().ok()?;
    }
    (entry_line(&entry, fields).as_bytes() == line).then_some(entry)
}
