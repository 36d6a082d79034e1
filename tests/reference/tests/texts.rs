//! Saved texts, right and wrong, and the exact line of refusal 9.

use crate::lent::{refused, Lent};
use reference::{show, Outcome};

/// What comes of taking a text into a fresh book of so many fields.
fn take(k: usize, text: &[u8]) -> Lent {
    let mut lent = Lent::start(k, 8);
    let answer = lent.take_in(text);
    assert_eq!(answer.outcome, Outcome::Done, "{}", show_text(text));
    lent
}

/// Bytes as text, for comparing and for messages.
fn show_text(text: &[u8]) -> String {
    String::from_utf8_lossy(text).into_owned()
}

/// The text is no saved book from this line on, in a book of any K and in the program.
pub fn bad(text: &[u8], line: usize) {
    for k in 1..=4 {
        let mut lent = Lent::start(k, 8);
        let head = lent.head;
        assert_eq!(
            lent.take_in(text),
            refused(9, line, head),
            "{}",
            show_text(text)
        );
    }
    assert_eq!(show_text(&show(text)), format!("refused=9 line={line}\n"));
}

/// What a book saves.
fn saved(lent: &Lent) -> String {
    let mut room = vec![b'#'; 2000];
    let answer = lent.save(&mut room);
    assert_eq!(answer.outcome, Outcome::Done);
    assert!(room[answer.bytes..].iter().all(|b| *b == b'#'));
    room.truncate(answer.bytes);
    show_text(&room)
}

#[test]
fn good_texts_come_back_as_they_were() {
    let texts = [
        (1, "book=1 fields=1 entries=0\n"),
        (4, "book=1 fields=4 entries=0\n"),
        (1, "book=1 fields=1 entries=1\na=0\n"),
        (
            1,
            "book=1 fields=1 entries=3\na=-9223372036854775808\na=-1\na=9223372036854775807\n",
        ),
        (
            2,
            "book=1 fields=2 entries=3\na=-10 b=9\na=-9 b=-9\na=-9 b=10\n",
        ),
        (3, "book=1 fields=3 entries=2\na=1 b=1 c=9\na=1 b=2 c=-9\n"),
        (
            4,
            "book=1 fields=4 entries=2\na=1 b=1 c=1 d=1\na=1 b=1 c=1 d=2\n",
        ),
    ];
    for (k, text) in texts {
        let lent = take(k, text.as_bytes());
        assert_eq!(saved(&lent), text);
        let mut other = Lent::start(5 - k, 8);
        if 5 - k != k {
            let head = other.head;
            assert_eq!(other.take_in(text.as_bytes()), refused(10, 0, head));
        }
    }
}

#[test]
fn a_saved_text_fits_its_room_or_is_refused() {
    let lent = take(2, b"book=1 fields=2 entries=1\na=1 b=-1\n");
    let mut room = [b'#'; 40];
    assert_eq!(lent.save(&mut room[..34]), refused(8, 0, lent.head));
    assert_eq!(room, [b'#'; 40]);
    assert_eq!(lent.save(&mut room[..35]).bytes, 35);
    assert_eq!(&room, b"book=1 fields=2 entries=1\na=1 b=-1\n#####");
}

#[test]
fn an_entry_struck_since_the_save_comes_back() {
    let text = "book=1 fields=1 entries=2\na=1\na=2\n";
    let mut lent = take(1, text.as_bytes());
    lent.strike(&[1]);
    lent.add(&[5]);
    assert_eq!(lent.take_in(text.as_bytes()).head.n, 3);
    assert_eq!(saved(&lent), "book=1 fields=1 entries=3\na=1\na=2\na=5\n");
}

#[test]
fn a_line_that_does_not_rise_is_its_line() {
    bad(b"book=1 fields=1 entries=2\na=1\na=1\n", 3);
    bad(b"book=1 fields=1 entries=3\na=1\na=2\na=-2\n", 4);
    bad(b"book=1 fields=2 entries=3\na=1 b=1\na=2 b=0\na=1 b=2\n", 4);
    bad(b"book=1 fields=2 entries=2\na=1 b=2\na=1 b=1\n", 3);
    bad(
        b"book=1 fields=2 entries=2\na=9 b=1\na=10 b=1\na=11 b=1\n",
        4,
    );
    bad(
        b"book=1 fields=4 entries=2\na=1 b=1 c=1 d=1\na=1 b=1 c=1 d=1\n",
        3,
    );
    bad(b"book=1 fields=3 entries=2\na=1 b=2 c=3\na=1 b=2 c=2\n", 3);
}

#[test]
fn a_missing_line_or_lf_is_its_line() {
    bad(b"book=1 fields=1 entries=1\n", 2);
    bad(b"book=1 fields=1 entries=4096\n", 2);
    bad(b"book=1 fields=1 entries=3\na=1\na=2\n", 4);
    bad(b"book=1 fields=1 entries=3\na=1\na=2\na=3", 4);
    bad(b"book=1 fields=1 entries=3\na=1\na=2", 3);
    bad(b"book=1 fields=1 entries=2\r\na=1\r\na=2\r\n", 1);
    bad(b"book=1 fields=1 entries=2\na=1\r\na=2\n", 2);
}

#[test]
fn bytes_behind_the_last_line_are_line_n_plus_2() {
    bad(b"book=1 fields=1 entries=0\n\n", 2);
    bad(b"book=1 fields=1 entries=0\na=1\n", 2);
    bad(b"book=1 fields=1 entries=2\na=1\na=2\na=3\n", 4);
    bad(b"book=1 fields=1 entries=2\na=1\na=2\n ", 4);
    bad(b"book=1 fields=1 entries=2\na=1\na=2\n\n\n\n", 4);
    bad(b"book=1 fields=1 entries=2\na=1\na=2\n\0", 4);
    bad(b"book=1 fields=1 entries=2\na=1\na=1\na=3\n", 3);
}

#[test]
fn a_text_cut_anywhere_is_wrong_where_it_is_cut() {
    let text = b"book=1 fields=3 entries=2\na=-5 b=0 c=12\na=7 b=-1 c=0\n";
    for length in 0..text.len() {
        let whole_lines = text[..length].iter().filter(|b| **b == b'\n').count();
        bad(&text[..length], whole_lines + 1);
    }
    assert_eq!(take(3, text).head.n, 2);
}

#[test]
fn the_greatest_text_is_taken_whole() {
    let mut text = String::from("book=1 fields=1 entries=4096\n");
    for i in 0..4096 {
        text.push_str(&format!("a={}\n", i - 2048));
    }
    let mut lent = Lent::start(1, 4096);
    assert_eq!(lent.take_in(text.as_bytes()).head.n, 4096);
    let mut room = vec![0; text.len()];
    assert_eq!(lent.save(&mut room).bytes, text.len());
    assert_eq!(room, text.as_bytes());
    let mut short = Lent::start(1, 4095);
    let head = short.head;
    assert_eq!(short.take_in(text.as_bytes()), refused(7, 0, head));
    text.push('\n');
    assert_eq!(short.take_in(text.as_bytes()), refused(9, 4098, head));
}
