//! What passes between a caller and the book.

/// The five numbers that go into every call and come back with its answer.
#[derive(Clone, Copy, Debug, Default, PartialEq, Eq)]
pub struct Head {
    pub k: usize,
    pub c: usize,
    pub root: usize,
    pub free: usize,
    pub n: usize,
}

/// Four numbers, of which the first K count.
#[derive(Clone, Copy, Debug, Default, PartialEq, Eq)]
pub struct Entry {
    pub f: [i64; 4],
}

/// What a box asks of one field; the ends belong to it.
#[derive(Clone, Copy, Debug, PartialEq, Eq)]
pub enum Bound {
    Free,
    AtLeast(i64),
    AtMost(i64),
    Between(i64, i64),
}

/// How a call ended; a refusal carries its row in the paper's table.
#[derive(Clone, Copy, Debug, PartialEq, Eq)]
pub enum Outcome {
    Found,
    Absent,
    Done,
    Refused(u32),
}

/// The one answer of all calls; what a call has no value for is 0.
#[derive(Clone, Copy, Debug, PartialEq, Eq)]
pub struct Answer {
    pub outcome: Outcome,
    pub head: Head,
    pub entry: Entry,
    pub slot: usize,
    pub reads: usize,
    pub distance: u64,
    pub count: usize,
    pub bytes: usize,
    pub line: usize,
    pub place: usize,
}

/// A reason to say no: the table's number, the line where the number is 9, the place where an item of a tray is to blame.
#[derive(Clone, Copy, Debug, PartialEq, Eq)]
pub struct Refusal {
    pub number: u32,
    pub line: usize,
    pub place: usize,
}

impl Refusal {
    /// A refusal that names no line and no place.
    pub fn plain(number: u32) -> Refusal {
        Refusal {
            number,
            line: 0,
            place: 0,
        }
    }
}

impl Answer {
    /// An outcome beside its head, and 0 everywhere else.
    pub fn bare(outcome: Outcome, head: Head) -> Answer {
        Answer {
            outcome,
            head,
            entry: Entry::default(),
            slot: 0,
            reads: 0,
            distance: 0,
            count: 0,
            bytes: 0,
            line: 0,
            place: 0,
        }
    }

    /// The answer of a refused call: this head, the number, its line and its place.
    pub fn refused(refusal: Refusal, head: Head) -> Answer {
        Answer {
            line: refusal.line,
            place: refusal.place,
            ..Answer::bare(Outcome::Refused(refusal.number), head)
        }
    }
}
