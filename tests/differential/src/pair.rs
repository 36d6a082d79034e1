//! The library's book and the reference's book side by side: each call is made of both and all is compared.

use crate::call::{Call, Room};
use crate::damage::Damage;
use crate::doors::{Answer, Entry};
use crate::lent::Lent;
use crate::plain;
use reference::{doors::open_with_scratch, pool, tree};

#[cfg(not(feature = "slips"))]
use crate::doors::call as library;
#[cfg(feature = "slips")]
use crate::slips::call as library;

/// Two books that must never differ.
#[derive(Clone)]
pub struct Pair {
    pub ours: Lent,
    pub plain: Lent,
    /// The kind of damage that is in both.
    pub damaged: Option<usize>,
    /// Guard cells at either end of what they are lent.
    edge: usize,
}

/// A call of which the two books made something else.
pub struct Difference {
    pub call: Call,
    pub ours: Answer,
    pub plain: Answer,
    pub cell: Option<String>,
}

impl Pair {
    /// No book yet, and no memory.
    pub fn new(edge: usize) -> Pair {
        let none = Lent::raw(0, 0, 0, edge);
        Pair {
            ours: none.clone(),
            plain: none,
            damaged: None,
            edge,
        }
    }

    /// Makes the call of both books and gives their one answer.
    pub fn call(&mut self, call: &Call) -> Result<Answer, Box<Difference>> {
        if let Call::Start { c, keys, links, .. } = call {
            return self.start(call, *c, *keys, *links);
        }
        if call.borrows_scratch() {
            self.ours.soil_scratch();
            self.plain.soil_scratch();
        }
        let answer = self.compare(call)?;
        self.ours.head = plain::plain_head(answer.head);
        self.plain.head = self.ours.head;
        Ok(answer)
    }

    /// A start in the memory that is there, where it has these lengths, else in other memory; refused, the book stays.
    fn start(
        &mut self,
        call: &Call,
        c: usize,
        keys: usize,
        links: usize,
    ) -> Result<Answer, Box<Difference>> {
        let mut fresh = self.clone();
        let scratch = c.min(links);
        let there = [&self.plain.links, &self.plain.scratch].map(|list| list.cells().len());
        if self.plain.keys.cells().len() != keys || there != [links, scratch] {
            fresh.ours = Lent::raw(keys, links, scratch, self.edge);
            fresh.plain = fresh.ours.clone();
        }
        let answer = fresh.compare(call)?;
        if answer.outcome == 3 {
            fresh.ours.head = plain::plain_head(answer.head);
            fresh.plain.head = fresh.ours.head;
            fresh.damaged = None;
            *self = fresh;
        }
        Ok(answer)
    }

    /// Makes the call on both sides; a difference in the answer or in any cell ends the history.
    fn compare(&mut self, call: &Call) -> Result<Answer, Box<Difference>> {
        let mut rooms: [Room; 2] = [call.room(self.edge), call.room(self.edge)];
        let ours = library(call, &mut self.ours, &mut rooms[0]);
        let plain = plain::call(call, &mut self.plain, &mut rooms[1]);
        let lent = || self.ours.differs(&self.plain);
        let numbers = || rooms[0].numbers.differs(&rooms[1].numbers, "room");
        let bytes = || rooms[0].bytes.differs(&rooms[1].bytes, "bytes");
        let cell = lent().or_else(numbers).or_else(bytes);
        if ours == plain && cell.is_none() {
            return Ok(ours);
        }
        Err(Box::new(Difference {
            call: call.clone(),
            ours,
            plain,
            cell,
        }))
    }

    /// Both books become the one that the reference makes of these entries, as many as there is room for.
    pub fn given(&mut self, k: usize, c: usize, entries: &[Entry]) {
        let mut pool = pool::Pool::fresh(k, c);
        for entry in entries.iter().take(c) {
            let entry = reference::key::own_fields(reference::Entry { f: entry.f }, k);
            if !tree::holds(&pool.tree, &entry, 0, k) {
                tree::add(&mut pool.tree, (pool.chain.remove(0), entry), 0, k);
            }
        }
        let mut lent = Lent::raw(k * c, 3 * c, c, self.edge);
        lent.head = pool.write(lent.keys.cells_mut(), lent.links.cells_mut());
        self.ours = lent.clone();
        self.plain = lent;
        self.damaged = None;
    }

    /// Does the same damage to both books.
    pub fn damage(&mut self, damage: &Damage) {
        damage.apply(&mut self.ours);
        damage.apply(&mut self.plain);
        self.damaged = Some(damage.kind);
    }

    /// Puts back in both books what was damaged.
    pub fn mend(&mut self, mending: &Damage) {
        self.damage(mending);
        self.damaged = None;
    }

    /// The reference's verdict on the pool: which of refusals 1 to 4 holds, 0 where it is sound.
    pub fn verdict(&self) -> u32 {
        let Lent {
            head,
            keys,
            links,
            scratch,
        } = &self.plain;
        let opened = open_with_scratch(*head, keys.cells(), links.cells(), scratch.cells());
        opened.map_or_else(|refusal| refusal.number, |_| 0)
    }
}
