//! What lasts over a cut of power, and the order of writes to it ("A cut of
//! power, with one block"), as a model.
//!
//! A call is the list of its writes. A cut ends the list inside a write or
//! behind one, and what a store is then is what a start makes of [`Lasting`].

use crate::moves::{move_step, Move, Record, FRESH, MOVE};
use crate::store::{Put, Store, MOST_BLOCK, MOST_GREETINGS};

/// The record's cells.
const PAGE: usize = 0;
const STATE: usize = 1;

/// A page has at least so many octets for a block of a size; no text is
/// longer.
pub fn page_octets(size: usize) -> usize {
    let size = size.min(MOST_BLOCK);
    7 + MOST_GREETINGS * 66 + 23 * (size / 64 + MOST_GREETINGS)
}

/// What lasts: the block; two pages for the table's text; a spare of any
/// length, which keeps its length while the record is not still; and a record
/// that changes in one write.
#[derive(Clone, Debug, PartialEq, Eq)]
pub struct Lasting {
    pub block: Vec<u8>,
    pub pages: [Vec<u8>; 2],
    pub spare: Vec<u8>,
    pub record: Record,
}

/// One write. All but the record's may be cut anywhere and leave anything in
/// the octets that they cover.
#[derive(Clone, Debug, PartialEq, Eq)]
pub enum Write {
    Block {
        at: usize,
        octets: Vec<u8>,
    },
    /// From the page's start on.
    Page {
        page: usize,
        octets: Vec<u8>,
    },
    /// From the spare's start on.
    Spare {
        octets: Vec<u8>,
    },
    /// It is the old one or the new one after a cut, never a mixture.
    Record(Record),
}

impl Write {
    /// The octets that are written; none of a record's, which no cut parts.
    pub fn octets(&self) -> &[u8] {
        match self {
            Write::Block { octets, .. } | Write::Page { octets, .. } | Write::Spare { octets } => octets,
            Write::Record(_) => &[],
        }
    }
}

impl Lasting {
    /// A fresh store: page 0 has the empty text; all else holds anything, and
    /// the record is all 0.
    pub fn fresh(block: Vec<u8>, mut pages: [Vec<u8>; 2], spare: Vec<u8>) -> Lasting {
        pages[0][0] = 0;
        Lasting { block, pages, spare, record: FRESH }
    }

    /// The text of a page ends before its first octet 0, or at the page's end.
    pub fn text(&self, page: usize) -> &[u8] {
        let page = &self.pages[page];
        let end = page.iter().position(|&octet| octet == 0);
        &page[..end.unwrap_or(page.len())]
    }

    pub fn is_still(&self) -> bool {
        self.record[STATE] == 0
    }

    /// The octets that a write covers, as they are.
    pub fn covered(&mut self, write: &Write) -> &mut [u8] {
        let count = write.octets().len();
        match write {
            Write::Block { at, .. } => &mut self.block[*at..*at + count],
            Write::Page { page, .. } => &mut self.pages[*page][..count],
            Write::Spare { .. } => &mut self.spare[..count],
            Write::Record(_) => &mut [],
        }
    }

    /// A write that is not cut.
    pub fn write(&mut self, write: &Write) {
        self.covered(write).copy_from_slice(write.octets());
        if let Write::Record(record) = write {
            self.record = *record;
        }
    }

    /// A write that is cut and leaves these octets where it would have written
    /// its own.
    pub fn cut(&mut self, write: &Write, left: &[u8]) {
        self.covered(write).copy_from_slice(left);
    }
}

/// What lasts, and the writes to it so far.
#[derive(Clone, Debug)]
pub struct Run {
    pub lasting: Lasting,
    pub writes: Vec<Write>,
}

impl Run {
    pub fn of(lasting: Lasting) -> Run {
        Run { lasting, writes: vec![] }
    }

    pub fn write(&mut self, write: Write) {
        self.lasting.write(&write);
        self.writes.push(write);
    }

    /// Writes the table's text to a page. The write covers the octet 0 behind
    /// it, where the page has one more.
    pub fn write_text(&mut self, page: usize, store: &Store) {
        let mut octets = store.text();
        if octets.len() < self.lasting.pages[page].len() {
            octets.push(0);
        }
        self.write(Write::Page { page, octets });
    }

    pub fn page_in_use(&self) -> u32 {
        self.lasting.record[PAGE]
    }
}

/// The caller's loops. What is given here is the order of writes as it is
/// told; tests put a wrong one in the place of each.
///
/// `store` is what a running box has in memory: the table, and the block as it
/// is in `run`.
pub trait Caller {
    fn step(
        &self,
        block: &mut [u8],
        spare: &mut [u8],
        record: &Record,
        next: &mut Record,
    ) -> Result<(), u32> {
        move_step(block, spare, record, next)
    }

    /// The saved text to the page not in use; then the record.
    fn leave(&self, run: &mut Run, store: &Store, record: Record) {
        let other = 1 - run.page_in_use() as usize;
        run.write_text(other, store);
        run.write(Write::Record(record));
    }

    /// A step: what it wrote, then the record.
    fn go_on(&self, run: &mut Run) -> Result<(), u32> {
        let Lasting { block, spare, record, .. } = &run.lasting;
        let (mut block, mut spare, mut next) = (block.clone(), spare.clone(), FRESH);
        self.step(&mut block, &mut spare, record, &mut next)?;
        let [_, _, _, to, octets, done, ..] = record.map(|cell| cell as usize);
        let written = if next[STATE] == 2 {
            spare.truncate(octets - done);
            Write::Spare { octets: spare }
        } else {
            let end = if next[STATE] == 0 { octets } else { next[5] as usize };
            Write::Block { at: to + done, octets: block[to + done..to + end].to_vec() }
        };
        run.write(written);
        run.write(Write::Record(next));
        Ok(())
    }

    /// A move: `moved` on a copy of the table; its saved text to the page not
    /// in use; record := (page, 1, from, to, octets, 0, 0, 0); then steps.
    fn make(&self, run: &mut Run, store: &mut Store, next: Move) -> Result<(), u32> {
        let Move { number, from, to, octets } = next;
        let mut copy = store.clone();
        copy.moved(number, to as u64)?;
        let record = [run.page_in_use(), 1, from as u32, to as u32, octets as u32, 0, 0, 0];
        self.leave(run, &copy, record);
        while !run.lasting.is_still() {
            self.go_on(run)?;
        }
        copy.block.copy_from_slice(&run.lasting.block);
        *store = copy;
        Ok(())
    }

    /// A put: `try`; where it refuses, nothing is written; where it reports
    /// octets moved, moves until `next` has none; then `put`, which moves
    /// nothing now; the text to the other page; record := (1 - page, 0, ..).
    /// What a put tells is the start that `put` reports, and the moves' sum.
    fn put(
        &self,
        run: &mut Run,
        store: &mut Store,
        law: u32,
        number: u32,
        octets: &[u8],
    ) -> Result<Put, u32> {
        let tried = store.try_put(law, number, octets)?;
        let mut moved = 0;
        if tried.moved > 0 {
            while let Some(next) = store.next_move() {
                self.make(run, store, next)?;
                moved += next.octets;
            }
        }
        let Put { start, moved: more } = store.put(law, number, octets)?;
        run.write(Write::Block { at: start, octets: octets.to_vec() });
        self.leave(run, store, turned(run));
        Ok(Put { start, moved: moved + more })
    }

    /// A delete: where it refuses, nothing is written; the text to the other
    /// page, then the record.
    fn delete(&self, run: &mut Run, store: &mut Store, number: u32) -> Result<(), u32> {
        store.delete(number)?;
        self.leave(run, store, turned(run));
        Ok(())
    }

    /// A replace, of a number that is held: a put under a number that is not
    /// in use; then `delete` of the old one and `renumber`, in memory; the
    /// text to the other page; the record. Where the put is refused nothing is
    /// written and the old one stays.
    fn replace(
        &self,
        run: &mut Run,
        store: &mut Store,
        law: u32,
        number: u32,
        octets: &[u8],
    ) -> Result<Put, u32> {
        store.get(number)?;
        let other = free_number(store);
        let put = self.put(run, store, law, other, octets)?;
        store.delete(number)?;
        store.renumber(other, number)?;
        self.leave(run, store, turned(run));
        Ok(put)
    }

    /// A start: while the record is not still: a step; then `load` from the
    /// page in use. Where a step gives MOVE the start stops with 27 and loads
    /// nothing.
    fn start(&self, run: &mut Run) -> Result<Store, u32> {
        while !run.lasting.is_still() {
            self.go_on(run)?;
        }
        if run.page_in_use() > 1 {
            return Err(MOVE);
        }
        let page = run.page_in_use() as usize;
        Store::load(run.lasting.text(page), run.lasting.block.clone())
    }
}

/// The order of writes as it is told.
pub struct AsTold;

impl Caller for AsTold {}

/// The record that ends a call: the other page, still.
pub fn turned(run: &Run) -> Record {
    [1 - run.page_in_use(), 0, 0, 0, 0, 0, 0, 0]
}

/// The lowest number that is not in use.
pub fn free_number(store: &Store) -> u32 {
    let held = |number: u32| store.greetings.iter().any(|greeting| greeting.number == number);
    (1..).find(|&number| !held(number)).unwrap_or(0)
}
