//! A book of tightenings (holder, bolt, torque, minute): which fall into a box, and which is nearest a doubtful note.

use bench_book::{Book, Bound, Refusal};

const FIELDS: usize = 4;
const SLOTS: usize = 8;

fn main() -> Result<(), Refusal> {
    let (mut keys, mut links, mut scratch) = ([0; FIELDS * SLOTS], [0; 3 * SLOTS], [0; SLOTS]);
    let mut book = Book::start(FIELDS, SLOTS, &mut keys, &mut links)?;
    for entry in [
        [17, 1, 420, 480],
        [17, 2, 420, 481],
        [17, 3, 418, 483],
        [23, 2, 409, 514],
    ] {
        book.add(&mut scratch, entry)?;
    }

    let holder_17 = [
        Bound::Between(17, 17),
        Bound::Free,
        Bound::AtLeast(419),
        Bound::Free,
    ];
    let mut room = [0; FIELDS * SLOTS];
    let count = book.list(holder_17, &mut room)?;
    println!("holder 17 at 419 or more: {count}");
    for entry in room.chunks(FIELDS).take(count) {
        println!("  {entry:?}");
    }

    if let Some(near) = book.nearest([17, 3, 414, 483], [1, 1, 5, 10])? {
        println!(
            "nearest the note: {:?}, distance {}",
            near.entry.f, near.distance
        );
    }

    book.strike(&mut scratch, [17, 2, 420, 481])?;
    match book.strike(&mut scratch, [17, 2, 420, 481]) {
        Err(why) => println!("struck twice: {why}"),
        Ok(()) => println!("struck twice"),
    }

    let mut text = [0; 512];
    let bytes = book.save(&mut text)?;
    print!("{}", String::from_utf8_lossy(&text[..bytes]));
    Ok(())
}
