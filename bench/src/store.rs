//! The greeting store: puts beside the walk over the same octets and beside R-6's, closing up beside memmove, then
//! the short calls. Jumps are in jumps.rs, closing up by steps in steps.rs.
//!
//! A call that changes the table finds it as it was each time, and that is in the time: for a put, whose greeting is the last,
//! the 194 cells before the marks are copied back, for a delete all of them, 770 in a usual block. bench/src/long.rs has the same
//! for the largest block.

use crate::calls;
use crate::greetings::{greetings, head, row, Greeting, BLOCK};
use crate::table;
use crate::time::best;
use second::store::{Greeting as Row, Store};
use std::hint::black_box;

/// The number that is put and got.
pub const NUMBER: u32 = 40_000;
/// Its law, and that of all others, where it is not the greeting's own.
const MU: u32 = 1;
/// Cells of a table before its marks.
const BEFORE_MARKS: usize = 194;

/// The same store in the proved code's form and in the second program's.
#[derive(Clone)]
pub struct Both {
    pub block: Vec<u8>,
    pub table: Vec<u32>,
    pub second: Store,
}

impl Both {
    pub fn fresh() -> Both {
        Both::of(BLOCK)
    }

    /// On a fresh block of so many octets.
    pub fn of(size: usize) -> Both {
        Both { block: vec![0; size], table: vec![0; g7110::store::cells(size)], second: Store::fresh(vec![0; size]) }
    }

    /// The octets that moved.
    pub fn put(&mut self, number: u32, octets: &[u8]) -> usize {
        let put = g7110::store::put(&mut self.block, &mut self.table, g7110::Law::Mu, number, octets);
        let put = put.expect("there is room");
        let other = self.second.put(MU, number, octets).expect("there is room");
        assert_eq!((put.start, put.moved), (other.start, other.moved));
        put.moved
    }

    fn delete(&mut self, number: u32) {
        g7110::store::delete(&self.block, &mut self.table, number).expect("it is there");
        self.second.delete(number).expect("it is there");
    }

    /// The same greeting so many times, numbered from 1.
    pub fn fill(&mut self, count: u32, octets: &[u8]) {
        (1..=count).for_each(|number| {
            self.put(number, octets);
        });
    }
}

/// The proved code's store, put back before each call.
pub struct Proved {
    block: Vec<u8>,
    before: Vec<u32>,
    table: Vec<u32>,
}

impl Proved {
    pub fn of(both: &Both) -> Proved {
        Proved { block: both.block.clone(), before: both.table.clone(), table: both.table.clone() }
    }

    pub fn put(&mut self, law: u32, octets: &[u8]) {
        self.table[..BEFORE_MARKS].copy_from_slice(black_box(&self.before[..BEFORE_MARKS]));
        black_box(calls::proved_put(&mut self.block, &mut self.table, law, NUMBER, black_box(octets)));
    }

    fn delete(&mut self, number: u32) {
        self.table.copy_from_slice(black_box(&self.before));
        black_box(calls::proved_delete(&self.block, &mut self.table, number));
    }
}

/// The second program's, put back in the same way.
pub struct Model {
    store: Store,
    before: Vec<Row>,
}

impl Model {
    pub fn of(both: &Both) -> Model {
        Model { store: both.second.clone(), before: both.second.greetings.clone() }
    }

    pub fn put(&mut self, law: u32, octets: &[u8]) {
        self.store.greetings.clone_from(black_box(&self.before));
        black_box(calls::second_put(&mut self.store, law, NUMBER, black_box(octets)));
    }

    fn delete(&mut self, number: u32) {
        self.store.greetings.clone_from(black_box(&self.before));
        black_box(calls::second_delete(&mut self.store, number));
    }
}

/// Speeds to the walk of such a put before it kept marks, from docs/BENCHMARKS.md: of a whole block, and behind 31 others.
const OF_R_6: [(&str, f64, f64); 9] = [
    ("pads", 0.98, 0.85),
    ("plus zeros, 40 samples", 1.21, 1.16),
    ("Rice, 1 in 8", 1.07, 0.95),
    ("values, listed", 1.03, 1.00),
    ("values, runs", 1.03, 0.97),
    ("uncompressed", 1.17, 0.23),
    ("greeting.al8", 1.19, 0.23),
    ("message.ul8", 1.03, 0.93),
    ("silence.ul8", 1.15, 1.09),
];

fn putting_head(title: &str) {
    let speeds = "speed to the walk | R-6's speed to it | speed to R-6 | wanted";
    table(title, &format!("| greeting | octets | put, ns | walk, ns | {speeds} | second, ns | speed to second |"));
}

/// A put that moves nothing, beside the walk over the same octets, and by that walk beside R-6's put.
fn putting(both: &Both, of_r_6: f64, Greeting { name, law, octets, samples }: &Greeting) {
    assert_eq!(both.clone().put(NUMBER, octets), 0);
    let (mut proved, mut model) = (Proved::of(both), Model::of(both));
    let mut out = vec![0; samples + 320];
    let times = best([
        &mut || proved.put(*law, octets),
        &mut || {
            black_box(calls::proved_walk(black_box(octets), *law, crate::SET, &mut out));
        },
        &mut || model.put(*law, octets),
    ]);
    let [put, walk, second] = times;
    let speeds = [walk / put, of_r_6, walk / put / of_r_6].map(|speed| format!("{speed:.2}")).join(" | ");
    print!("| {name} | {} | {put:.0} | {walk:.0} | {speeds} | 0.9 |", octets.len());
    println!(" {second:.0} | {:.2} |", second / put);
}

/// A block that is full but for a gap before so many greetings and one behind them, both of one octet less than a put needs.
pub fn apart(size: usize, count: u32, gap: usize) -> Both {
    let mut both = Both::of(size);
    both.put(NUMBER, &vec![0; gap]);
    let rest = size - 2 * gap;
    both.fill(count - 1, &vec![0; rest / count as usize]);
    both.put(count, &vec![0; rest - rest / count as usize * (count as usize - 1)]);
    both.delete(NUMBER);
    both
}

/// A put that closes up, less the same put behind greetings that are together already; beside memmove of the octets.
fn closing_up(size: usize, count: u32, octets: &[u8]) {
    let gap = octets.len() - 1;
    let apart = apart(size, count, gap);
    let mut together = apart.clone();
    let moved = together.put(NUMBER, octets);
    assert_eq!(moved, size - 2 * gap);
    together.delete(NUMBER);
    let (mut one, mut other) = (Proved::of(&apart), Proved::of(&together));
    let (mut third, mut fourth) = (Model::of(&apart), Model::of(&together));
    let mut block = apart.block.clone();
    let times = best([
        &mut || one.put(MU, octets),
        &mut || other.put(MU, octets),
        &mut || {
            block.copy_within(black_box(gap)..black_box(gap + moved), 0);
            black_box(&mut block);
        },
        &mut || third.put(MU, octets),
        &mut || fourth.put(MU, octets),
    ]);
    let [put, placed, moving, second, second_placed] = times;
    let closing = put - placed;
    print!("| {count} | {gap} | {moved} | {put:.0} | {closing:.0} | {moving:.0} | {:.2} | 0.5 |", moving / closing);
    println!(" {:.0} | {:.2} |", second - second_placed, (second - second_placed) / closing);
}

/// A row of a short call: nanoseconds of each.
fn short(name: &str, [proved, second]: [f64; 2], wanted: &str) {
    println!("| {name} | {proved:.0} | {wanted} | {second:.0} | {:.2} |", second / proved);
}

fn getting(name: &str, both: &Both, number: u32) {
    let times = best([
        &mut || {
            black_box(calls::proved_get(&both.block, black_box(&both.table), number));
        },
        &mut || {
            black_box(calls::second_get(black_box(&both.second), number));
        },
    ]);
    short(&format!("get, {name}"), times, "below 1,000");
}

/// All cells are copied back each time: of the largest block that is most of it.
fn deleting(name: &str, both: &Both, number: u32) {
    let (mut proved, mut model) = (Proved::of(both), Model::of(both));
    let times = best([&mut || proved.delete(number), &mut || model.delete(number)]);
    let wanted = if both.block.len() == BLOCK { "below 1,000" } else { "-" };
    short(&format!("delete, {name}"), times, wanted);
}

fn saving(both: &Both) {
    let mut outs = [0, 1].map(|_| vec![0; g7110::saved::MAX_TABLE]);
    let [one, other] = outs.each_mut();
    let times = best([
        &mut || {
            black_box(calls::proved_save(&both.block, black_box(&both.table), one));
        },
        &mut || {
            black_box(calls::second_save(black_box(&both.second), other));
        },
    ]);
    short("save", times, "-");
}

/// Loading walks each greeting: the walk over them all stands beside it. The second program's block is copied.
pub fn loading(size: usize, greetings: u32, greeting: &Greeting) {
    let mut both = Both::of(size);
    both.fill(greetings, &greeting.octets);
    let (text, held) = (both.second.text(), both.second.held());
    let mut out = vec![0; greetings as usize * greeting.samples + 320];
    assert_eq!(g7110::saved::load(&text, &both.block, &mut both.table), Ok(()));
    let times = best([
        &mut || {
            black_box(calls::proved_load(black_box(&text), &both.block, &mut both.table));
        },
        &mut || {
            black_box(calls::proved_walk(black_box(&both.block[..held]), greeting.law, crate::SET, &mut out));
        },
        &mut || {
            black_box(calls::second_load(black_box(&text), &both.block));
        },
    ]);
    row(&greeting.name, held, times, "-");
}

/// The speeds of R-6 for a greeting.
fn of_r_6(greeting: &Greeting) -> [f64; 2] {
    let (_, whole, short) = OF_R_6.iter().find(|(name, ..)| *name == greeting.name).expect("R-6 was timed on it");
    [*whole, *short]
}

fn puts() {
    putting_head("The store: a put that moves nothing, beside the walk over the same octets");
    greetings(BLOCK).iter().for_each(|greeting| putting(&Both::fresh(), of_r_6(greeting)[0], greeting));
    putting_head("The store: such a put of at most 512 octets, behind 31 others");
    let mut others = Both::fresh();
    others.fill(31, &[0; 512]);
    greetings(512).iter().for_each(|greeting| putting(&others, of_r_6(greeting)[1], greeting));
}

/// What is put: an uncompressed frame of so many samples, then pads.
pub fn uncompressed(samples: usize, octets: usize) -> Vec<u8> {
    let mut form = vec![0; octets];
    let samples: Vec<u8> = (0..samples).map(|place| place as u8).collect();
    assert_eq!(second::write_frame(&samples, 1, crate::SET, &mut form).octets, samples.len() + 1);
    form
}

/// Moved by 1, by 256 so that 31 greetings of a usual block have 512 octets each, and by 320.
pub fn closings(title: &str, size: usize) {
    table(
        title,
        "| greetings | moved by | octets moved | the whole put, ns | closing up, ns | memmove, ns | speed to memmove \
         | wanted | second, ns | speed to second |",
    );
    for count in [1, 8, 31] {
        closing_up(size, count, &[0, 0]);
        closing_up(size, count, &uncompressed(240, 257));
        closing_up(size, count, &uncompressed(320, 321));
    }
}

/// At 32 greetings of pads that fill a block.
pub fn short_calls(title: &str, size: usize) {
    table(title, "| call | proved, ns | wanted | second, ns | speed to second |");
    let mut full = Both::of(size);
    full.fill(32, &vec![0; size / 32]);
    getting("first", &full, 1);
    getting("last", &full, 32);
    getting("absent", &full, NUMBER);
    deleting("first", &full, 1);
    deleting("last", &full, 32);
    saving(&full);
}

pub fn tables() {
    puts();
    closings("The store: closing up, beside memmove of the octets moved", BLOCK);
    short_calls("The store: short calls at 32 greetings of 512 octets", BLOCK);
    head("The store: loading 32 greetings of at most 512 octets, beside the walk over them", "load");
    greetings(512).iter().for_each(|greeting| loading(BLOCK, 32, greeting));
    crate::jumps::tables();
    crate::steps::tables();
}
