//! Runs the program that it is given on many texts and compares every byte with what the second bench book prints.

#[path = "../tests/dice.rs"]
mod dice;
mod edges;
mod random;
mod spoiled;

use dice::Dice;
use std::io::{self, ErrorKind, Write};
use std::process::{Command, ExitCode, Stdio};
use std::thread::sleep;
use std::time::Duration;

/// The same dice on every run.
const SEED: u64 = 20_260_101;

/// How many texts are thrown.
const THROWN: usize = 4_000;

/// The bytes that the program writes for a text that it is fed in pieces of this size at most.
fn run(program: &str, text: &[u8], piece: usize) -> io::Result<Vec<u8>> {
    let mut child = Command::new(program)
        .stdin(Stdio::piped())
        .stdout(Stdio::piped())
        .spawn()?;
    let mut stdin = child.stdin.take().expect("standard input is piped");
    for part in text.chunks(piece.max(1)) {
        match stdin.write_all(part) {
            // A program that has read one byte too many need not read the rest.
            Err(e) if e.kind() == ErrorKind::BrokenPipe => break,
            written => written?,
        }
        if piece < text.len() {
            sleep(Duration::from_micros(500));
        }
    }
    drop(stdin);
    let output = child.wait_with_output()?;
    assert!(
        output.status.success(),
        "the program ended with {}",
        output.status
    );
    Ok(output.stdout)
}

/// Whether the program prints what the second bench book prints; says where it does not.
fn agree(program: &str, name: &str, text: &[u8], piece: usize) -> bool {
    let printed = run(program, text, piece).expect("the program runs");
    let expected = reference::show(text);
    if printed != expected {
        println!("difference: {name}, {} bytes", text.len());
        println!("--- input\n{}", String::from_utf8_lossy(text));
        println!("--- expected\n{}", String::from_utf8_lossy(&expected));
        println!("--- printed\n{}", String::from_utf8_lossy(&printed));
    }
    printed == expected
}

fn main() -> ExitCode {
    let Some(program) = std::env::args().nth(1) else {
        eprintln!("usage: against PROGRAM");
        return ExitCode::from(2);
    };
    let mut count = 0;
    for (name, text) in edges::texts().into_iter().chain(spoiled::texts()) {
        if !agree(&program, &name, &text, usize::MAX) {
            return ExitCode::FAILURE;
        }
        count += 1;
    }
    for piece in [1, 7, 4_096, 32_768] {
        for (name, text) in edges::pieced() {
            if !agree(
                &program,
                &format!("{name} in pieces of {piece}"),
                &text,
                piece,
            ) {
                return ExitCode::FAILURE;
            }
            count += 1;
        }
    }
    let mut dice = Dice::new(SEED);
    for i in 0..THROWN {
        let text = random::text(&mut dice);
        if !agree(&program, &format!("thrown text {i}"), &text, usize::MAX) {
            return ExitCode::FAILURE;
        }
        count += 1;
    }
    println!("{count} texts, no difference");
    ExitCode::SUCCESS
}
