//! Texts at the edges of what the program takes.

/// A text and what it is.
pub type Case = (String, Vec<u8>);

/// The paper's example.
pub const EXAMPLE: &str = "book=1 fields=2 entries=3\na=1 b=9\na=2 b=4\na=3 b=7\n";

const LEAST: &str = "-9223372036854775808";
const MOST: &str = "9223372036854775807";

fn case(name: &str, text: impl Into<Vec<u8>>) -> Case {
    (name.to_string(), text.into())
}

/// A saved book of one field with the numbers from 1 on, whose first line says `told` of them.
fn numbers(told: usize, count: usize) -> String {
    let mut text = format!("book=1 fields=1 entries={told}\n");
    for i in 1..=count {
        text.push_str(&format!("a={i}\n"));
    }
    text
}

/// A right text of 512 entries and exactly 32,768 bytes.
pub fn longest() -> String {
    let mut text = String::from("book=1 fields=4 entries=512\n");
    let spare = 32_768 - text.len() - 512 * 63;
    for i in 0..512 {
        let tail = if i < spare {
            "8765432109876543"
        } else {
            "876543210987654"
        };
        text.push_str(&format!(
            "a={} b=1234567890123456 c=-123456789012345 d={tail}\n",
            1000 + i
        ));
    }
    text
}

/// 512 entries whose four numbers are as long as numbers get: more bytes than the program takes.
fn widest(entries: usize) -> String {
    let mut text = format!("book=1 fields=4 entries={entries}\n");
    for i in 0..entries {
        let low = i64::MIN + i as i64;
        text.push_str(&format!("a={low} b={LEAST} c={LEAST} d={LEAST}\n"));
    }
    text
}

/// Lengths: nothing, one byte, the most bytes and one more, a full pool and one more.
fn sizes() -> Vec<Case> {
    let mut cases = vec![
        case("the paper's example", EXAMPLE),
        case("nothing", ""),
        case("the longest text", longest()),
        case("the longest text and a byte", format!("{}\n", longest())),
        case("32,768 bytes of no book", vec![b'x'; 32_768]),
        case("32,769 bytes of no book", vec![b'x'; 32_769]),
        case("100,000 line feeds", vec![b'\n'; 100_000]),
        case("300,000 bytes", vec![b'a'; 300_000]),
        case("511 entries", numbers(511, 511)),
        case("512 entries", numbers(512, 512)),
        case("513 entries", numbers(513, 513)),
        case("2,000 entries", numbers(2_000, 2_000)),
        case("4,096 entries told", numbers(4_096, 3)),
        case("4,097 entries told", numbers(4_097, 3)),
        case("all numbers at the low end", widest(340)),
        case("all numbers at the low end, too long", widest(400)),
    ];
    for byte in 0..=255_u8 {
        cases.push(case(&format!("the one byte {byte}"), vec![byte]));
    }
    for fields in 0..=5 {
        cases.push(case(
            "an empty book",
            format!("book=1 fields={fields} entries=0\n"),
        ));
    }
    cases
}

/// What stands at the ends of lines and of the text.
fn ends() -> Vec<Case> {
    let cut = &EXAMPLE[..EXAMPLE.len() - 1];
    let mut cases = vec![
        case("no last LF", cut),
        case("CRLF", EXAMPLE.replace('\n', "\r\n")),
        case("CR", EXAMPLE.replace('\n', "\r")),
        case("a last CRLF", format!("{cut}\r\n")),
        case("a LF behind the last line", format!("{EXAMPLE}\n")),
        case("a byte behind the last line", format!("{EXAMPLE}x")),
        case("a line behind the last line", format!("{EXAMPLE}a=4 b=1\n")),
        case("a NUL behind the last line", format!("{EXAMPLE}\0")),
        case(
            "one entry more told",
            EXAMPLE.replace("entries=3", "entries=4"),
        ),
        case(
            "one entry less told",
            EXAMPLE.replace("entries=3", "entries=2"),
        ),
        case("no entry told", EXAMPLE.replace("entries=3", "entries=0")),
        case(
            "one field more told",
            EXAMPLE.replace("fields=2", "fields=3"),
        ),
        case(
            "one field less told",
            EXAMPLE.replace("fields=2", "fields=1"),
        ),
    ];
    for at in 0..EXAMPLE.len() {
        cases.push(case(&format!("the first {at} bytes"), &EXAMPLE[..at]));
    }
    cases
}

/// Entry lines that do not rise, and some that rise by the least there is.
fn orders() -> Vec<Case> {
    let two = |first: &str, second: &str| {
        case(
            &format!("{first} in front of {second}"),
            format!("book=1 fields=2 entries=2\n{first}\n{second}\n"),
        )
    };
    vec![
        two("a=1 b=1", "a=1 b=1"),
        two("a=1 b=2", "a=1 b=1"),
        two("a=2 b=1", "a=1 b=2"),
        two("a=1 b=1", "a=1 b=2"),
        two("a=9 b=1", "a=10 b=1"),
        two("a=-1 b=1", "a=-2 b=1"),
        two("a=-2 b=1", "a=-1 b=1"),
        two("a=-1 b=0", "a=0 b=-1"),
        two(&format!("a={LEAST} b=0"), &format!("a={MOST} b=0")),
        two(&format!("a={MOST} b=0"), &format!("a={LEAST} b=0")),
    ]
}

/// Numbers at both ends of the range and one past them, in every field.
fn ranges() -> Vec<Case> {
    let numbers = [
        LEAST,
        MOST,
        "-9223372036854775807",
        "9223372036854775806",
        "-9223372036854775809",
        "9223372036854775808",
        "18446744073709551615",
        "18446744073709551616",
        "-18446744073709551616",
        "92233720368547758070",
    ];
    let mut cases = Vec::new();
    for fields in 1..=4 {
        for field in 0..fields {
            for number in numbers {
                let pairs: Vec<String> = (0..fields)
                    .map(|f| {
                        format!(
                            "{}={}",
                            ["a", "b", "c", "d"][f],
                            if f == field { number } else { "0" }
                        )
                    })
                    .collect();
                let text = format!("book=1 fields={fields} entries=1\n{}\n", pairs.join(" "));
                cases.push(case(&format!("{number} in field {field}"), text));
            }
        }
    }
    cases
}

/// All texts of this file.
pub fn texts() -> Vec<Case> {
    [sizes(), ends(), orders(), ranges()].concat()
}

/// Texts that are worth feeding in pieces.
pub fn pieced() -> Vec<Case> {
    vec![
        case("the paper's example", EXAMPLE),
        case("no last LF", &EXAMPLE[..EXAMPLE.len() - 1]),
        case("a byte behind the last line", format!("{EXAMPLE}x")),
    ]
}
