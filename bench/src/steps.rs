//! A put that closes up one greeting after another, in the order of docs/STORE.md, beside the plain one: how many writes and octets
//! that is, and how long it takes where what lasts is memory, so that a write is a copy.
//!
//! As in store.rs the table's 194 cells before the marks are put back before each call, and that is in both times.

use crate::calls;
use crate::greetings::BLOCK;
use crate::store::{apart, uncompressed, Both, NUMBER};
use crate::table;
use crate::time::best;
use g7110::store::{move_step, moved, next, put, try_put, Hop, Put, Record};
use g7110::{saved, Law};
use std::hint::black_box;

const BEFORE_MARKS: usize = 194;
/// Octets of a record.
const RECORD: usize = 32;

/// What is written: how often, and octets of block and spare, of texts and of records.
#[derive(Clone, Copy, Default)]
struct Written {
    writes: usize,
    chunks: usize,
    texts: usize,
    records: usize,
}

/// A box, and what lasts of it.
struct Steps {
    before: Vec<u32>,
    block: Vec<u8>,
    table: Vec<u32>,
    copy: Vec<u32>,
    spare: Vec<u8>,
    text: Vec<u8>,
    record: Record,
    lasting_block: Vec<u8>,
    lasting_spare: Vec<u8>,
    lasting_pages: [Vec<u8>; 2],
    lasting_record: Record,
    written: Written,
}

impl Steps {
    fn of(both: &Both, spare: usize) -> Steps {
        let page = vec![0; saved::MAX_TABLE];
        Steps {
            before: both.table.clone(),
            block: both.block.clone(),
            table: both.table.clone(),
            copy: both.table.clone(),
            spare: vec![0; spare],
            text: page.clone(),
            record: [0; 8],
            lasting_block: both.block.clone(),
            lasting_spare: vec![0; spare],
            lasting_pages: [page.clone(), page],
            lasting_record: [0; 8],
            written: Written::default(),
        }
    }

    fn write_block(&mut self, at: usize, count: usize) {
        self.lasting_block[at..at + count].copy_from_slice(&self.block[at..at + count]);
        (self.written.writes, self.written.chunks) = (self.written.writes + 1, self.written.chunks + count);
    }

    fn write_record(&mut self, record: Record) {
        self.record = record;
        self.lasting_record = black_box(record);
        (self.written.writes, self.written.records) = (self.written.writes + 1, self.written.records + RECORD);
    }

    /// The copy's text to the page not in use, then the record.
    fn leave(&mut self, record: Record) {
        let count = saved::save(&self.block, &self.copy, &mut self.text).expect("it fits") + 1;
        self.text[count - 1] = 0;
        self.lasting_pages[1 - self.record[0] as usize][..count].copy_from_slice(&self.text[..count]);
        (self.written.writes, self.written.texts) = (self.written.writes + 1, self.written.texts + count);
        self.write_record(record);
    }

    fn step(&mut self) {
        let [_, _, _, to, octets, done, ..] = self.record.map(|number| number as usize);
        let after = move_step(&mut self.block, &mut self.spare, &self.record).expect("it tells of a move");
        if after[1] == 2 {
            let count = self.spare.len().min(octets - done);
            self.lasting_spare[..count].copy_from_slice(&self.spare[..count]);
            (self.written.writes, self.written.chunks) = (self.written.writes + 1, self.written.chunks + count);
        } else {
            let end = if after[1] == 0 { octets } else { after[5] as usize };
            self.write_block(to + done, end - done);
        }
        self.write_record(after);
    }

    fn put(&mut self, octets: &[u8]) -> Put {
        self.table[..BEFORE_MARKS].copy_from_slice(black_box(&self.before[..BEFORE_MARKS]));
        self.written = Written::default();
        let tried = try_put(&self.block, &self.table, Law::Mu, NUMBER, black_box(octets)).expect("there is room");
        let mut sum = 0;
        while let Some(Hop { number, from, to, octets }) = next(&self.block, &self.table).expect("a table") {
            self.copy.copy_from_slice(&self.table);
            moved(&self.block, &mut self.copy, number, to).expect("it is the next");
            let [from, to, count] = [from, to, octets].map(|number| number as u32);
            self.leave([self.record[0], 1, from, to, count, 0, 0, 0]);
            while self.record[1] != 0 {
                self.step();
            }
            self.table.copy_from_slice(&self.copy);
            sum += octets;
        }
        let done = put(&mut self.block, &mut self.table, Law::Mu, NUMBER, octets).expect("there is room");
        self.write_block(done.start, octets.len());
        self.copy.copy_from_slice(&self.table);
        self.leave([1 - self.record[0], 0, 0, 0, 0, 0, 0, 0]);
        assert_eq!((done.start, sum), (tried.start, tried.moved));
        Put { start: done.start, moved: sum }
    }
}

/// Both puts of a block that is full but for two gaps, each of one octet less than is put.
fn beside(count: u32, octets: &[u8], spare: usize) {
    let apart = apart(BLOCK, count, octets.len() - 1);
    let (mut steps, mut block, mut cells) = (Steps::of(&apart, spare), apart.block.clone(), apart.table.clone());
    let put = steps.put(octets);
    let Written { writes, chunks, texts, records } = steps.written;
    let times = best([
        &mut || {
            cells[..BEFORE_MARKS].copy_from_slice(black_box(&apart.table[..BEFORE_MARKS]));
            black_box(calls::proved_put(&mut block, &mut cells, 1, NUMBER, black_box(octets)));
        },
        &mut || {
            black_box(steps.put(octets));
        },
    ]);
    let [plain, by_steps] = times;
    print!("| {count} | {} | {spare} | {} | {writes} | {chunks} | {texts} | {records} |", octets.len() - 1, put.moved);
    println!(" {plain:.0} | {by_steps:.0} | {:.1} |", by_steps / plain);
}

pub fn tables() {
    table(
        "The store: a put that closes up by steps, beside the plain one",
        "| greetings | moved by | spare | octets moved | writes | octets to block and spare | of texts | of records | plain put, ns \
         | by steps, ns | time to the plain one |",
    );
    for (count, octets) in [
        (1, vec![0, 0]),
        (1, uncompressed(240, 257)),
        (8, uncompressed(240, 257)),
        (31, vec![0, 0]),
        (31, uncompressed(240, 257)),
    ] {
        for spare in [0, 64, 256, 4_096] {
            beside(count, &octets, spare);
        }
    }
}
