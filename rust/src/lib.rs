//! The bench book: up to 4,096 entries of one to four whole numbers in a self-balancing k-d tree, inside memory that the caller lends.
//!
//! What the library behind this package does is proved, for all inputs; this package only hands slices and numbers to it. No call allocates.
//!
//! ```
//! use bench_book::{Book, Bound, Refusal};
//!
//! let (mut keys, mut links, mut scratch) = ([0; 2 * 3], [0; 3 * 3], [0; 3]);
//! let mut book = Book::start(2, 3, &mut keys, &mut links)?;
//! book.add(&mut scratch, [1, 9])?;
//! book.add(&mut scratch, [2, 4])?;
//! book.add(&mut scratch, [3, 7])?;
//! assert_eq!(book.add(&mut scratch, [5, 5]), Err(Refusal::Full));
//!
//! let walk = book.look_up([3, 7])?;
//! assert_eq!(walk.found.map(|place| place.slot), Some(3));
//! assert_eq!(walk.reads, 2);
//!
//! let low = [Bound::Between(1, 2), Bound::Free, Bound::Free, Bound::Free];
//! assert_eq!(book.count(low)?, 2);
//!
//! let near = book.nearest([4, 4], [1, 2, 1, 1])?.expect("the book is not empty");
//! assert_eq!((near.entry, near.distance), ([2, 4].into(), 2));
//!
//! book.strike(&mut scratch, [2, 4])?;
//! let mut room = [0; 64];
//! let bytes = book.save(&mut room)?;
//! assert_eq!(&room[..bytes], b"book=1 fields=2 entries=2\na=1 b=9\na=3 b=7\n");
//! # Ok::<(), Refusal>(())
//! ```

#![warn(missing_docs)]

mod book;
mod face;
mod refusal;
mod types;

pub use book::Book;
pub use refusal::{Refusal, Wrong};
pub use types::{Bound, Entry, Head, LookUp, Near, Place};
