//! What the program prints, asked of the function and of the program itself.

use reference::show;
use std::io::Write;
use std::process::{Command, Stdio};

/// The paper's example text.
const EXAMPLE: &str = "book=1 fields=2 entries=3\na=1 b=9\na=2 b=4\na=3 b=7\n";

/// What the paper prints for it.
const PRINTED: &str = "entries=3 height=2 free=509
slot=2 depth=0 cut=a a=2 b=4
slot=1 depth=1 cut=b a=1 b=9
slot=3 depth=1 cut=b a=3 b=7
";

/// The bytes that the program itself writes for this input.
fn run(input: &[u8]) -> Vec<u8> {
    let mut child = Command::new(env!("CARGO_BIN_EXE_reference"))
        .stdin(Stdio::piped())
        .stdout(Stdio::piped())
        .spawn()
        .expect("the program starts");
    let mut stdin = child.stdin.take().expect("standard input is piped");
    stdin.write_all(input).expect("the program reads");
    drop(stdin);
    let output = child.wait_with_output().expect("the program ends");
    assert!(output.status.success());
    output.stdout
}

/// Asks both ways for the same text.
fn expect(input: &[u8], printed: &str) {
    assert_eq!(String::from_utf8_lossy(&show(input)), printed);
    assert_eq!(String::from_utf8_lossy(&run(input)), printed);
}

/// A saved book of one field with the numbers from 1 on.
fn numbers(count: usize) -> String {
    let mut text = format!("book=1 fields=1 entries={count}\n");
    for i in 1..=count {
        text.push_str(&format!("a={i}\n"));
    }
    text
}

#[test]
fn the_example_prints_its_four_lines() {
    expect(EXAMPLE.as_bytes(), PRINTED);
}

#[test]
fn an_empty_book_prints_one_line() {
    expect(
        b"book=1 fields=4 entries=0\n",
        "entries=0 height=0 free=512\n",
    );
}

#[test]
fn a_refusal_is_the_only_line() {
    expect(
        EXAMPLE.replace("a=1 b=9", "a=1 b=+9").as_bytes(),
        "refused=9 line=2\n",
    );
    expect(b"", "refused=9 line=1\n");
    expect(numbers(513).as_bytes(), "refused=7 line=0\n");
}

/// The slot and the only number of a printed entry of one field.
fn slot_and_a(line: &str) -> (usize, usize) {
    let (slot, rest) = line.split_once(" depth=").expect("a depth");
    let (_, a) = rest.split_once(" cut=a a=").expect("cut at a");
    let slot = slot.strip_prefix("slot=").expect("a slot");
    (slot.parse().expect("a slot"), a.parse().expect("a number"))
}

#[test]
fn a_full_pool_prints_every_entry() {
    let printed = String::from_utf8(show(numbers(512).as_bytes())).expect("text");
    let mut lines = printed.lines();
    let first = lines.next().expect("a line of totals");
    assert!(first.starts_with("entries=512 height=") && first.ends_with(" free=0"));
    let mut shown: Vec<(usize, usize)> = lines.map(slot_and_a).collect();
    shown.sort_unstable();
    assert!(shown.into_iter().eq((1..=512).map(|i| (i, i))));
}

/// A right text of 512 entries that is exactly as long as the program takes.
fn longest_text() -> String {
    let mut text = String::from("book=1 fields=4 entries=512\n");
    let spare = 32_768 - text.len() - 512 * 63;
    for i in 0..512 {
        let tail = if i < spare {
            "8765432109876543"
        } else {
            "876543210987654"
        };
        let middle = 1234567890123456_u64;
        let before = -123456789012345_i64;
        text.push_str(&format!("a={} b={middle} c={before} d={tail}\n", 1000 + i));
    }
    text
}

#[test]
fn the_longest_text_is_taken_and_one_byte_more_is_not() {
    let text = longest_text();
    assert_eq!(text.len(), 32_768);
    let printed = show(text.as_bytes());
    assert!(printed.starts_with(b"entries=512 height="));
    assert_eq!(run(text.as_bytes()), printed);
    expect(format!("{text}\n").as_bytes(), "too_long=32768\n");
    expect(&[b'x'; 32_768], "refused=9 line=1\n");
    expect(&[b'x'; 32_769], "too_long=32768\n");
    expect(&[b'\n'; 100_000], "too_long=32768\n");
}
