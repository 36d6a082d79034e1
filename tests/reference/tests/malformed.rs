//! Lines of a saved book malformed in every way that comes to mind.

use crate::texts::bad;

/// Lines that are no first line of a saved book.
const BAD_FIRST_LINES: [&str; 44] = [
    "",
    "\n",
    " \n",
    "book=1\n",
    "book=1 fields=1\n",
    "book=1 entries=0 fields=1\n",
    "book=2 fields=1 entries=0\n",
    "book=01 fields=1 entries=0\n",
    "book=+1 fields=1 entries=0\n",
    "Book=1 fields=1 entries=0\n",
    "book=1 field=1 entries=0\n",
    "book=1 fields=1 entry=0\n",
    "book= fields=1 entries=0\n",
    "book=1 fields= entries=0\n",
    "book=1 fields=1 entries=\n",
    "book=1 fields=0 entries=0\n",
    "book=1 fields=5 entries=0\n",
    "book=1 fields=-1 entries=0\n",
    "book=1 fields=+1 entries=0\n",
    "book=1 fields=01 entries=0\n",
    "book=1 fields=x entries=0\n",
    "book=1 fields=1 entries=4097\n",
    "book=1 fields=1 entries=-0\n",
    "book=1 fields=1 entries=-1\n",
    "book=1 fields=1 entries=00\n",
    "book=1 fields=1 entries=+0\n",
    "book=1 fields=1 entries=0x0\n",
    "book=1 fields=1 entries=18446744073709551616\n",
    "book=1 fields=1 entries=99999999999999999999999\n",
    "book=1  fields=1 entries=0\n",
    "book=1 fields=1  entries=0\n",
    " book=1 fields=1 entries=0\n",
    "book=1 fields=1 entries=0 \n",
    "book=1 fields=1 entries=0 x=1\n",
    "book=1\tfields=1 entries=0\n",
    "book=1 fields=1 entries=0",
    "book=1 fields=1 entries=0\r\n",
    "book=1 fields=1 entries=0\r",
    "book=1 fields=1 entries=0\0\n",
    "\u{feff}book=1 fields=1 entries=0\n",
    "book:1 fields:1 entries:0\n",
    "\nbook=1 fields=1 entries=0\n",
    "a=1\n",
    "book=1=1 fields=1 entries=0\n",
];

#[test]
fn a_wrong_first_line_is_line_1() {
    for line in BAD_FIRST_LINES {
        bad(line.as_bytes(), 1);
    }
    bad(b"book=1 fields=1 entries=0\xff\n", 1);
    bad(&[0xff; 50], 1);
}

/// Ways in which one number of an entry's line is malformed.
const BAD_NUMBERS: [&str; 26] = [
    "+1",
    "01",
    "-01",
    "00",
    "-0",
    "",
    "-",
    "--1",
    "+",
    "1.0",
    "1e3",
    "0x1",
    "1_0",
    "1,0",
    " 1",
    "x",
    "9223372036854775808",
    "-9223372036854775809",
    "18446744073709551616",
    "99999999999999999999999",
    "\u{0661}",
    "1\r",
    "1\0",
    "=1",
    "1=1",
    "\u{2212}1",
];

/// The pairs of an entry whose numbers are all the same but for one field.
fn pairs(fields: usize, number: &str, odd_field: usize, odd_number: &str) -> String {
    let pairs: Vec<String> = (0..fields)
        .map(|f| {
            let value = if f == odd_field { odd_number } else { number };
            format!("{}={value}", ["a", "b", "c", "d"][f])
        })
        .collect();
    pairs.join(" ")
}

#[test]
fn a_malformed_number_is_its_line_in_every_field() {
    for fields in 1..=4 {
        for field in 0..fields {
            for number in BAD_NUMBERS {
                let first = format!("book=1 fields={fields} entries=3");
                let right = ["1", "2", "3"].map(|n| pairs(fields, n, field, n));
                for line in 0..3 {
                    let mut lines = right.clone();
                    lines[line] = pairs(fields, &(line + 1).to_string(), field, number);
                    let text = format!("{first}\n{}\n", lines.join("\n"));
                    bad(text.as_bytes(), line + 2);
                }
            }
        }
    }
}

/// Lines that are no entry of two fields.
const BAD_ENTRY_LINES: [&str; 25] = [
    "",
    "a=1",
    "a=1 ",
    "a=1 b",
    "a=1 b=",
    "b=1 a=1",
    "a=1 c=1",
    "A=1 b=1",
    "a=1 B=1",
    "a=1 b=1 c=1",
    "a=1 b=1 ",
    " a=1 b=1",
    "a=1  b=1",
    "a=1\tb=1",
    "a =1 b=1",
    "a= 1 b=1",
    "a=1,b=1",
    "a=1b=1",
    "a=1 b=1\r",
    "1 1",
    "a:1 b:1",
    "a=1 a=1",
    "aa=1 b=1",
    "=1 =1",
    "a=1 b=1 c=1 d=1 e=1",
];

#[test]
fn a_malformed_entry_line_is_its_line() {
    for line in BAD_ENTRY_LINES {
        bad(format!("book=1 fields=2 entries=1\n{line}\n").as_bytes(), 2);
        bad(
            format!("book=1 fields=2 entries=2\na=0 b=0\n{line}\n").as_bytes(),
            3,
        );
    }
    bad(b"book=1 fields=1 entries=1\na=\xc31\n", 2);
}
