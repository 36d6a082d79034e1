//! Lent memory with its head, and every call made so that what must stay untouched is looked at.

use reference::types::Refusal;
use reference::{Answer, Bound, Entry, Head, Outcome};

/// What scratch holds before each call.
const JUNK: usize = usize::MAX / 3;

/// A head and the lists lent with it.
#[derive(Clone, Debug, PartialEq)]
pub struct Lent {
    pub head: Head,
    pub keys: Vec<i64>,
    pub links: Vec<usize>,
    pub scratch: Vec<usize>,
}

/// A writing call that borrows scratch, but for what it is given.
type Writing<'a> = &'a dyn Fn(Head, &mut [i64], &mut [usize], &mut [usize]) -> Answer;

/// An entry of these numbers, with noise in all fields behind them.
pub fn noisy(f: &[i64]) -> Entry {
    let mut entry = Entry { f: [-77; 4] };
    entry.f[..f.len()].copy_from_slice(f);
    entry
}

/// An entry of these numbers and 0 behind them.
pub fn entry(f: &[i64]) -> Entry {
    let mut entry = Entry { f: [0; 4] };
    entry.f[..f.len()].copy_from_slice(f);
    entry
}

/// Four bounds: those given, then bounds that nothing passes.
pub fn boxed(bounds: &[Bound]) -> [Bound; 4] {
    let mut all = [Bound::Between(1, 0); 4];
    all[..bounds.len()].copy_from_slice(bounds);
    all
}

/// Four steps: those given, then 0.
pub fn steps(steps: &[u64]) -> [u64; 4] {
    let mut all = [0; 4];
    all[..steps.len()].copy_from_slice(steps);
    all
}

/// The answer of a refused call.
pub fn refused(number: u32, line: usize, head: Head) -> Answer {
    Answer {
        line,
        ..Answer::refused(Refusal::plain(number), head)
    }
}

/// The answer of a tray that is refused for the item at this place.
pub fn refused_at(number: u32, place: usize, head: Head) -> Answer {
    Answer {
        place,
        ..refused(number, 0, head)
    }
}

/// The answer of an accepted call that has no value of its own.
pub fn done(head: Head) -> Answer {
    Answer::bare(Outcome::Done, head)
}

impl Lent {
    /// A started book in memory that held something before.
    pub fn start(k: usize, c: usize) -> Lent {
        let (mut keys, mut links) = (vec![-5; k * c], vec![9; 3 * c]);
        let answer = reference::start(k, c, &mut keys, &mut links);
        let (root, free, n) = (0, 1, 0);
        let head = Head {
            k,
            c,
            root,
            free,
            n,
        };
        assert_eq!(answer, done(head));
        let scratch = vec![0; c];
        Lent {
            head,
            keys,
            links,
            scratch,
        }
    }

    /// Makes a writing call: refused, it must leave every list; accepted, it must leave scratch clean.
    fn write(&mut self, call: Writing) -> Answer {
        self.scratch.fill(JUNK);
        let before = self.clone();
        let answer = call(
            self.head,
            &mut self.keys,
            &mut self.links,
            &mut self.scratch,
        );
        if let Outcome::Refused(number) = answer.outcome {
            assert_eq!(*self, before, "a refused call wrote");
            let said = refused(number, answer.line, before.head);
            let place = answer.place;
            assert_eq!(answer, Answer { place, ..said });
        } else {
            assert!(self.scratch.iter().all(|v| *v == 0), "scratch left dirty");
            assert_eq!(answer, done(answer.head));
        }
        self.head = answer.head;
        answer
    }

    pub fn add(&mut self, f: &[i64]) -> Answer {
        self.write(&|head, keys, links, scratch| {
            reference::add(head, keys, links, scratch, noisy(f))
        })
    }

    pub fn strike(&mut self, f: &[i64]) -> Answer {
        self.write(&|head, keys, links, scratch| {
            reference::strike(head, keys, links, scratch, noisy(f))
        })
    }

    pub fn take_in(&mut self, text: &[u8]) -> Answer {
        self.write(&|head, keys, links, scratch| {
            reference::take_in(head, keys, links, scratch, text)
        })
    }

    pub fn tray(&mut self, items: &[i64]) -> Answer {
        self.write(&|head, keys, links, scratch| reference::tray(head, keys, links, scratch, items))
    }

    pub fn look_up(&self, f: &[i64]) -> Answer {
        reference::look_up(self.head, &self.keys, &self.links, noisy(f))
    }

    pub fn count(&self, bounds: &[Bound]) -> Answer {
        reference::count(self.head, &self.keys, &self.links, boxed(bounds))
    }

    pub fn list(&self, bounds: &[Bound], room: &mut [i64]) -> Answer {
        reference::list(self.head, &self.keys, &self.links, boxed(bounds), room)
    }

    pub fn nearest(&self, f: &[i64], each: &[u64]) -> Answer {
        reference::nearest(self.head, &self.keys, &self.links, noisy(f), steps(each))
    }

    pub fn save(&self, room: &mut [u8]) -> Answer {
        reference::save(self.head, &self.keys, &self.links, room)
    }

    /// Left, right and height of a slot.
    pub fn link(&self, slot: usize) -> [usize; 3] {
        let at = 3 * (slot - 1);
        [self.links[at], self.links[at + 1], self.links[at + 2]]
    }

    /// The numbers of a slot.
    pub fn numbers(&self, slot: usize) -> &[i64] {
        &self.keys[self.head.k * (slot - 1)..self.head.k * slot]
    }
}
