//! Texts by the dice: right ones, right ones with a little damage, and bytes that only look like a text.

use crate::dice::Dice;
use reference::text::{print, Saved};
use reference::Entry;

/// Bytes that stand in texts, and some that never do.
const BYTES: &[u8] = b"0123456789-+= \nabcdbookfieldsentries\r\0x\xff";

/// A number of one of several kinds, so that fields are often equal and ends are often met.
fn number(dice: &mut Dice, kind: usize) -> i64 {
    match kind {
        0 => dice.below(3) as i64,
        1 => dice.below(2_000) as i64 - 1_000,
        2 => dice.next() as i64,
        _ => match dice.below(4) {
            0 => i64::MIN + dice.below(3) as i64,
            1 => i64::MAX - dice.below(3) as i64,
            2 => 0,
            _ => -1,
        },
    }
}

/// A right text: entries in listing order, none of them twice.
fn right(dice: &mut Dice) -> Vec<u8> {
    let fields = 1 + dice.below(4);
    let most = [3, 12, 60, 520][dice.below(4)];
    let kinds: Vec<usize> = (0..fields).map(|_| dice.below(4)).collect();
    let mut numbers: Vec<[i64; 4]> = (0..dice.below(most + 1))
        .map(|_| {
            let mut f = [0; 4];
            for (place, kind) in f.iter_mut().zip(&kinds) {
                *place = number(dice, *kind);
            }
            f
        })
        .collect();
    numbers.sort_unstable();
    numbers.dedup();
    let entries = numbers.into_iter().map(|f| Entry { f }).collect();
    print(&Saved { fields, entries })
}

/// One small change somewhere.
fn damage(dice: &mut Dice, text: &mut Vec<u8>) {
    let at = dice.below(text.len() + 1);
    let byte = BYTES[dice.below(BYTES.len())];
    match dice.below(7) {
        0 => text.insert(at, byte),
        1 => text.truncate(at),
        2 => text.push(byte),
        3 if at < text.len() => text[at] = byte,
        4 if at < text.len() => drop(text.remove(at)),
        5 if at + 1 < text.len() => text.swap(at, at + 1),
        _ => {
            let mut lines: Vec<&[u8]> = text.split_inclusive(|b| *b == b'\n').collect();
            if lines.len() > 1 {
                let (i, j) = (dice.below(lines.len()), dice.below(lines.len()));
                match dice.below(3) {
                    0 => lines.swap(i, j),
                    1 => lines.insert(i, lines[j]),
                    _ => drop(lines.remove(i)),
                }
            }
            *text = lines.concat();
        }
    }
}

/// The next text: one in four is right, most are damaged, a few are no text at all.
pub fn text(dice: &mut Dice) -> Vec<u8> {
    if dice.chance(3) {
        return (0..dice.below(80))
            .map(|_| BYTES[dice.below(BYTES.len())])
            .collect();
    }
    let mut text = right(dice);
    if dice.chance(70) {
        for _ in 0..1 + dice.below(3) {
            damage(dice, &mut text);
        }
    }
    text
}
