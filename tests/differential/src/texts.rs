//! Texts to take in: right ones, and right ones with one fault put in.

use crate::dice::Dice;
use crate::doors::Entry;
use reference::text::{print, Saved};

/// A fault's place in the table below; 0 is none.
pub type Fault = usize;

/// What a fault makes of a right text.
type Put = fn(&mut Dice, Vec<u8>) -> Vec<u8>;

/// Every fault with its name in the table.
pub const FAULTS: [(&str, Put); 24] = [
    ("none", |_, text| text),
    ("another K", |_, text| text),
    ("a byte altered", byte_altered),
    ("a byte left out", |d, text| {
        at_byte(d, text, |text, at, _| {
            text.remove(at);
        })
    }),
    ("a byte put in", |d, text| {
        at_byte(d, text, |text, at, byte| text.insert(at, byte))
    }),
    ("cut off", |d, text| {
        at_byte(d, text, |text, at, _| text.truncate(at))
    }),
    ("last LF missing", |_, mut text| {
        text.pop();
        text
    }),
    ("bytes after the end", after_the_end),
    ("a line doubled", |d, text| {
        at_line(d, text, |lines, at| lines.insert(at, lines[at].clone()))
    }),
    ("a line left out", |d, text| {
        at_line(d, text, |lines, at| drop(lines.remove(at)))
    }),
    ("two lines swapped", |d, text| {
        at_line(d, text, |lines, at| {
            let other = (at + 1) % lines.len();
            lines.swap(at, other);
        })
    }),
    ("an empty line put in", |d, text| {
        at_line(d, text, |lines, at| lines.insert(at, vec![b'\n']))
    }),
    ("CR before LF", |d, text| {
        at_line(d, text, |lines, at| {
            let line = &mut lines[at];
            line.insert(line.len() - 1, b'\r');
        })
    }),
    ("CR before every LF", |_, text| {
        let lines = text.split_inclusive(|byte| *byte == b'\n');
        lines
            .flat_map(|line| [&line[..line.len() - 1], b"\r\n"].concat())
            .collect()
    }),
    ("one more entry said", |_, text| said(text, 1)),
    ("one entry less said", |_, text| said(text, -1)),
    ("more entries said than allowed", |_, text| said(text, 4097)),
    ("a number past the range", |d, text| {
        let number = d.one(&[
            "9223372036854775808",
            "-9223372036854775809",
            "18446744073709551616",
            "18446744073709551617",
            "99999999999999999999",
            "-92233720368547758080",
        ]);
        at_number(d, text, |_| number.to_string())
    }),
    ("a leading zero", |d, text| {
        at_number(d, text, |number| match number.strip_prefix('-') {
            Some(rest) => format!("-0{rest}"),
            None => format!("0{number}"),
        })
    }),
    ("a plus", |d, text| {
        at_number(d, text, |number| format!("+{number}"))
    }),
    ("a minus zero", |d, text| {
        at_number(d, text, |_| "-0".to_string())
    }),
    ("no number", |d, text| {
        let none = d.one(&["", "-", "x", "--1", "1 ", " 1", "1-1"]);
        at_number(d, text, |_| none.to_string())
    }),
    ("another number", |d, text| {
        let number = d.one(&[
            "0",
            "5",
            "-1",
            "9223372036854775807",
            "-9223372036854775808",
        ]);
        at_number(d, text, |_| number.to_string())
    }),
    ("noise", |d, _| {
        (0..d.below(60)).map(|_| a_byte(d)).collect()
    }),
];

/// The saved text of these entries, in whatever order they come.
pub fn text_of(k: usize, entries: &[Entry]) -> Vec<u8> {
    let own = |entry: &Entry| reference::key::own_fields(reference::Entry { f: entry.f }, k);
    let mut entries: Vec<reference::Entry> = entries.iter().map(own).collect();
    entries.sort_by_key(|entry| entry.f);
    entries.dedup();
    print(&Saved { fields: k, entries })
}

/// A byte that is likely to matter.
fn a_byte(dice: &mut Dice) -> u8 {
    let any = dice.next() as u8;
    let likely = *b"0123456789-+= \n\r\tabcdbookfieldsentries\0";
    if dice.chance(70) {
        dice.one(&likely)
    } else {
        any
    }
}

/// One byte becomes another, sometimes by one bit only.
fn byte_altered(dice: &mut Dice, text: Vec<u8>) -> Vec<u8> {
    let bit = 1_u8 << dice.below(8);
    let by_bit = dice.chance(40);
    at_byte(dice, text, |text, at, byte| {
        text[at] = if by_bit { text[at] ^ bit } else { byte };
    })
}

/// Some bytes, or the text once more, behind the last line.
fn after_the_end(dice: &mut Dice, mut text: Vec<u8>) -> Vec<u8> {
    match dice.below(4) {
        0 => text.push(b'\n'),
        1 => text.push(a_byte(dice)),
        2 => text.extend(b"a=9223372036854775807\n"),
        _ => text.extend_from_within(..),
    }
    text
}

/// Does something at one byte of the text.
fn at_byte(dice: &mut Dice, mut text: Vec<u8>, put: impl Fn(&mut Vec<u8>, usize, u8)) -> Vec<u8> {
    let (at, byte) = (dice.below(text.len()), a_byte(dice));
    put(&mut text, at, byte);
    text
}

/// Does something at one line of the text.
fn at_line(dice: &mut Dice, text: Vec<u8>, put: impl Fn(&mut Vec<Vec<u8>>, usize)) -> Vec<u8> {
    let lines = text.split_inclusive(|byte| *byte == b'\n');
    let mut lines: Vec<Vec<u8>> = lines.map(<[u8]>::to_vec).collect();
    let at = dice.below(lines.len());
    put(&mut lines, at);
    lines.concat()
}

/// Writes another number behind one `=` of the text.
fn at_number(dice: &mut Dice, text: Vec<u8>, put: impl Fn(&str) -> String) -> Vec<u8> {
    let signs: Vec<usize> = (0..text.len()).filter(|i| text[*i] == b'=').collect();
    let first = dice.one(&signs) + 1;
    let length = text[first..]
        .iter()
        .take_while(|byte| **byte > b' ')
        .count();
    let number = String::from_utf8_lossy(&text[first..first + length]).into_owned();
    let (before, after) = (&text[..first], &text[first + length..]);
    [before, put(&number).as_bytes(), after].concat()
}

/// The first line says so many entries more.
fn said(text: Vec<u8>, more: i64) -> Vec<u8> {
    let end = text.iter().position(|byte| *byte == b'\n').unwrap_or(0);
    let first = String::from_utf8_lossy(&text[..end]).into_owned();
    let Some((before, count)) = first.rsplit_once('=') else {
        return text;
    };
    let count = count.parse::<i64>().unwrap_or(0) + more;
    [format!("{before}={count}").as_bytes(), &text[end..]].concat()
}
