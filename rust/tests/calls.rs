//! Every call through the package: its answers, its refusals, and that a refused call changes nothing.

use bench_book::{Book, Bound, Entry, Head, Refusal, Wrong};

const ALL: [Bound; 4] = [Bound::Free; 4];
const ONES: [u64; 4] = [1; 4];

/// The book of three entries that the paper's bench cases share.
fn three<'a>(keys: &'a mut [i64; 6], links: &'a mut [usize; 9]) -> Book<'a> {
    let mut book = Book::start(2, 3, keys, links).unwrap();
    for entry in [[1, 9], [2, 4], [3, 7]] {
        book.add(&mut [7; 3], entry).unwrap();
    }
    book
}

#[test]
fn a_fresh_book_has_nothing() {
    let (mut keys, mut links) = ([5; 6], [5; 9]);
    let book = Book::start(2, 3, &mut keys, &mut links).unwrap();
    assert!(book.is_empty());
    let walk = book.look_up([0, 0]).unwrap();
    assert_eq!((walk.found, walk.reads), (None, 0));
    assert_eq!(book.nearest([0, 0], ONES), Ok(None));
    assert_eq!(book.count(ALL), Ok(0));
}

#[test]
fn entries_are_found_where_they_stand() {
    let (mut keys, mut links) = ([0; 6], [0; 9]);
    let book = three(&mut keys, &mut links);
    assert_eq!(
        book.head(),
        Head {
            k: 2,
            c: 3,
            root: 2,
            free: 0,
            n: 3
        }
    );
    let walk = book.look_up([3, 7, 8, 9]).unwrap();
    let place = walk.found.unwrap();
    assert_eq!(
        (place.entry, place.slot, walk.reads),
        (Entry { f: [3, 7, 0, 0] }, 3, 2)
    );
}

#[test]
fn a_struck_entry_gives_way_to_its_replacement() {
    let (mut keys, mut links) = ([0; 6], [0; 9]);
    let mut book = three(&mut keys, &mut links);
    let mut scratch = [7; 3];
    assert_eq!(book.strike(&mut scratch, [2, 4]), Ok(()));
    assert_eq!(scratch, [0; 3]);
    assert_eq!(book.look_up([3, 7]).unwrap().reads, 1);
    assert_eq!(book.strike(&mut scratch, [2, 4]), Err(Refusal::Missing));
}

#[test]
fn boxes_take_every_kind_of_bound() {
    let (mut keys, mut links) = ([0; 6], [0; 9]);
    let book = three(&mut keys, &mut links);
    let on_a = |bound| [bound, Bound::Free, Bound::Free, Bound::Free];
    assert_eq!(book.count(ALL), Ok(3));
    assert_eq!(book.count(on_a(Bound::AtLeast(2))), Ok(2));
    assert_eq!(book.count(on_a(Bound::AtMost(1))), Ok(1));
    assert_eq!(book.count(on_a(Bound::Between(2, 3))), Ok(2));
    assert_eq!(book.count(on_a(Bound::Between(3, 2))), Ok(0));
    let mut room = [8; 5];
    assert_eq!(book.list(on_a(Bound::AtLeast(2)), &mut room), Ok(2));
    assert_eq!(room, [2, 4, 3, 7, 8]);
    assert_eq!(book.list(ALL, &mut room), Err(Refusal::Room));
    assert_eq!(room, [2, 4, 3, 7, 8]);
}

#[test]
fn distances_are_exact_over_the_range() {
    let (mut keys, mut links, mut scratch) = ([0; 1], [0; 3], [0; 1]);
    let mut book = Book::start(1, 1, &mut keys, &mut links).unwrap();
    book.add(&mut scratch, [i64::MIN]).unwrap();
    let away = |book: &Book, query, step| {
        let near = book.nearest([query], [step, 1, 1, 1]).unwrap().unwrap();
        assert_eq!((near.entry.f[0], near.slot), (i64::MIN, 1));
        near.distance
    };
    assert_eq!(away(&book, i64::MAX, 1), u64::MAX);
    assert_eq!(away(&book, i64::MAX, u64::MAX), 1);
    assert_eq!(away(&book, i64::MAX, u64::MAX - 1), 2);
    assert_eq!(away(&book, i64::MIN + 49, 50), 1);
    assert_eq!(away(&book, i64::MIN + 50, 50), 1);
    assert_eq!(away(&book, i64::MIN, u64::MAX), 0);
    assert_eq!(book.nearest([0], [0, 1, 1, 1]), Err(Refusal::Step));
}

#[test]
fn refusals_have_their_numbers_and_change_nothing() {
    let (mut keys, mut links) = ([0; 6], [0; 9]);
    let start = |k, c, keys: &mut [i64], links: &mut [usize]| {
        Book::start(k, c, keys, links)
            .map(|book| book.len())
            .map_err(Refusal::number)
    };
    assert_eq!(start(5, 3, &mut keys, &mut links), Err(1));
    assert_eq!(start(2, 0, &mut keys, &mut links), Err(2));
    assert_eq!(start(2, 2, &mut keys, &mut links), Err(3));
    let mut book = three(&mut keys, &mut links);
    let (head, mut scratch) = (book.head(), [7; 3]);
    assert_eq!(book.add(&mut scratch[..2], [5, 5]), Err(Refusal::Lengths));
    assert_eq!(book.add(&mut scratch, [1, 9]), Err(Refusal::Present));
    assert_eq!(book.add(&mut scratch, [5, 5]), Err(Refusal::Full));
    assert_eq!(book.save(&mut [0; 4]), Err(Refusal::Room));
    assert_eq!((book.head(), scratch), (head, [7; 3]));
}

#[test]
fn a_kept_head_resumes_its_book_and_no_other() {
    let (mut keys, mut links) = ([0; 6], [0; 9]);
    let head = three(&mut keys, &mut links).head();
    let mut room = [0; 64];
    let bytes = Book::resume(head, &mut keys, &mut links)
        .unwrap()
        .save(&mut room)
        .unwrap();
    assert_eq!(
        &room[..bytes],
        b"book=1 fields=2 entries=3\na=1 b=9\na=2 b=4\na=3 b=7\n"
    );
    let other = Head { n: 2, ..head };
    let refused = Book::resume(other, &mut keys, &mut links).err();
    assert_eq!(refused, Some(Refusal::Unsound));
}

#[test]
fn a_saved_book_only_adds() {
    let (mut keys, mut links) = ([0; 6], [0; 9]);
    let mut page = [0; 64];
    let bytes = three(&mut keys, &mut links).save(&mut page).unwrap();
    let text = &page[..bytes];
    let (mut keys, mut links) = ([0; 8], [0; 12]);
    let mut book = Book::start(2, 4, &mut keys, &mut links).unwrap();
    let mut scratch = [7; 4];
    book.add(&mut scratch, [3, 7]).unwrap();
    book.add(&mut scratch, [8, 8]).unwrap();
    assert_eq!(book.take_in(&mut scratch, text), Ok(()));
    assert_eq!((book.len(), scratch), (4, [0; 4]));
    assert!(book.look_up([8, 8]).unwrap().found.is_some());
    assert_eq!(book.take_in(&mut scratch, text), Ok(()));
    assert_eq!(
        book.take_in(&mut scratch, b"book=1 fields=2 entries=1\na=9 b=9\n"),
        Err(Refusal::Full)
    );
    assert_eq!(
        book.take_in(&mut scratch, b"book=1 fields=1 entries=0\n"),
        Err(Refusal::Mismatch)
    );
    assert_eq!(
        book.take_in(&mut scratch, b"book=1 fields=2 entries=1\na=9 b=09\n"),
        Err(Refusal::Text { line: 2 })
    );
}

#[test]
fn a_tray_is_worked_as_its_items_are() {
    let (mut keys, mut links) = ([0; 6], [0; 9]);
    let mut book = three(&mut keys, &mut links);
    let mut scratch = [7; 3];
    assert_eq!(book.tray(&mut scratch, &[]), Ok(()));
    assert_eq!((book.len(), scratch), (3, [0; 3]));
    let items = [2, 2, 4, 2, 1, 9, 1, 8, 8, 1, 2, 4];
    assert_eq!(book.tray(&mut scratch, &items), Ok(()));
    let tray = book.head();
    let (mut keys, mut links) = ([0; 6], [0; 9]);
    let mut singly = three(&mut keys, &mut links);
    singly.strike(&mut scratch, [2, 4]).unwrap();
    singly.strike(&mut scratch, [1, 9]).unwrap();
    singly.add(&mut scratch, [8, 8]).unwrap();
    singly.add(&mut scratch, [2, 4]).unwrap();
    assert_eq!(tray, singly.head());
    let entry = singly.look_up([8, 8]).unwrap();
    assert_eq!(book.look_up([8, 8]), Ok(entry));
}

#[test]
fn a_refused_tray_names_its_first_wrong_item_and_changes_nothing() {
    let (mut keys, mut links) = ([0; 6], [0; 9]);
    let mut book = three(&mut keys, &mut links);
    let (head, mut scratch) = (book.head(), [7; 3]);
    let at = |place, wrong| Err(Refusal::Item { place, wrong });
    let strike_twice = [2, 2, 4, 2, 2, 4, 1, 1, 9];
    assert_eq!(
        book.tray(&mut scratch, &strike_twice),
        at(2, Wrong::Missing)
    );
    let back_and_again = [2, 2, 4, 1, 2, 4, 1, 2, 4];
    assert_eq!(
        book.tray(&mut scratch, &back_and_again),
        at(3, Wrong::Present)
    );
    assert_eq!(book.tray(&mut scratch, &[1, 5, 5]), at(1, Wrong::Full));
    let refusals = [
        book.tray(&mut scratch[..2], &[]),
        book.tray(&mut scratch, &[1, 5]),
        book.tray(&mut scratch, &[3, 5, 5]),
        book.tray(&mut scratch, &[1; 771]),
        book.tray(&mut scratch, &[1; 768]),
    ];
    let numbers = refusals.map(|refused| refused.unwrap_err().number());
    assert_eq!(numbers, [3, 12, 12, 12, 7]);
    let why = book.tray(&mut scratch, &[1, 1, 9]).unwrap_err();
    assert_eq!(why.to_string(), "refused=5 place=1");
    assert_eq!((book.head(), scratch), (head, [7; 3]));
}
