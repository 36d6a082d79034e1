//! A second bench book, written from the paper alone and as plainly as it can be said.
//!
//! Every call reads the lent pool into an ordinary tree of boxes, works on that tree and
//! writes the whole image back. Nothing here is shared with the proved implementation.

pub mod calls;
pub mod doors;
pub mod heights;
pub mod key;
pub mod pool;
pub mod questions;
pub mod show;
pub mod text;
pub mod tray;
pub mod tree;
pub mod types;

pub use calls::{add, save, start, strike, take_in};
pub use questions::{count, list, look_up, nearest};
pub use show::show;
pub use tray::tray;
pub use types::{Answer, Bound, Entry, Head, Outcome};
