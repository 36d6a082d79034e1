//! All tests of the second bench book, one job a file.

mod bench;
mod damage;
mod dice;
mod every_call;
mod histories;
mod history;
mod judge;
mod large;
mod lent;
mod malformed;
mod model;
mod order;
mod program;
mod slips;
mod texts;
mod traps;
mod tray;
mod trays;
