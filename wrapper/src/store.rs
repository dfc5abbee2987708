//! A greeting store that fills its gaps: document 02, R-6, with marks and jumps, R-8 and R-9, and blocks as large as R-11 has
//! them. Greetings in a lent block, with a lent table. Where power may be cut, [`try_put`], [`next`], [`moved`], [`renumber`] and
//! [`move_step`] close up one greeting at a time; docs/STORE.md has the order in which what lasts is written.

use crate::{raw, Law};
use std::fmt;

/// Octets of the largest block; a longer one is used up to here.
pub const MAX_BLOCK: usize = 1_048_576;
/// Greetings that a store keeps.
pub const MAX_GREETINGS: usize = 32;
/// The greatest number of a greeting; the least is 1.
pub const MAX_NUMBER: u32 = 65_535;

/// How many cells a table needs for the largest block: 194, and two for each of 16,416 marks.
pub const MAX_CELLS: usize = 33_026;

/// How many cells a table needs for a block of a size, at most [`MAX_CELLS`]. A fresh table is all 0.
pub fn cells(size: usize) -> usize {
    raw::store_cells(size as u64) as usize
}

/// Why a call was refused. Then nothing was changed.
#[derive(Clone, Copy, Debug, PartialEq, Eq)]
pub enum Refusal {
    /// The text of the table does not fit what is lent.
    Room,
    /// The number is 0 or above 65,535.
    Number,
    /// A greeting has the number.
    Taken,
    /// No greeting has the number.
    Absent,
    /// The greeting is empty, or the walk refuses it; of a jump, marks or octets that no calls left.
    Bad,
    /// There are 32 greetings.
    Full,
    /// The octets held and the new ones exceed the block.
    NoRoom,
    /// The sample number is not below the greeting's samples.
    Beyond,
    /// The table is too short, or not what calls leave for this block.
    Table,
    /// The record tells of no move in this block, or it is not the next move.
    Move,
}

impl Refusal {
    /// The refusal of an ending that is not 0.
    pub(crate) fn of(ending: u32) -> Refusal {
        match ending {
            4 => Refusal::Room,
            15 => Refusal::Number,
            16 => Refusal::Taken,
            17 => Refusal::Absent,
            18 => Refusal::Bad,
            19 => Refusal::Full,
            20 => Refusal::NoRoom,
            21 => Refusal::Beyond,
            26 => Refusal::Table,
            27 => Refusal::Move,
            _ => unreachable!("the header has no ending {ending} of these calls"),
        }
    }

    /// The number in the header.
    pub fn number(self) -> u32 {
        match self {
            Refusal::Room => 4,
            Refusal::Number => 15,
            Refusal::Taken => 16,
            Refusal::Absent => 17,
            Refusal::Bad => 18,
            Refusal::Full => 19,
            Refusal::NoRoom => 20,
            Refusal::Beyond => 21,
            Refusal::Table => 26,
            Refusal::Move => 27,
        }
    }
}

impl fmt::Display for Refusal {
    fn fmt(&self, f: &mut fmt::Formatter) -> fmt::Result {
        f.write_str(match self {
            Refusal::Room => "the output has too little room",
            Refusal::Number => "a greeting's number is from 1 to 65,535",
            Refusal::Taken => "a greeting has this number",
            Refusal::Absent => "no greeting has this number",
            Refusal::Bad => "the greeting is empty, or the walk refuses it",
            Refusal::Full => "the store has 32 greetings",
            Refusal::NoRoom => "the octets held and the new ones exceed the block",
            Refusal::Beyond => "the greeting has no such sample",
            Refusal::Table => "the table is not one that calls left for this block",
            Refusal::Move => "it is not the next move, or the record tells of none",
        })
    }
}

impl std::error::Error for Refusal {}

/// Where a greeting was put, and how many octets of others moved for it.
#[derive(Clone, Copy, Debug, PartialEq, Eq)]
pub struct Put {
    pub start: usize,
    pub moved: usize,
}

/// Where a greeting lies in the block.
#[derive(Clone, Copy, Debug, PartialEq, Eq)]
pub struct Got {
    pub start: usize,
    pub octets: usize,
}

/// All that stands in the table of a greeting.
#[derive(Clone, Copy, Debug, PartialEq, Eq)]
pub struct Info {
    pub number: u32,
    pub start: usize,
    pub octets: usize,
    /// 0 is A-law, 1 is mu-law; a table with another is refused.
    pub law: u32,
    pub samples: usize,
    /// How many marks it has.
    pub marks: usize,
}

/// All greetings together.
#[derive(Clone, Copy, Debug, PartialEq, Eq)]
pub struct Totals {
    pub greetings: usize,
    pub held: usize,
    pub free: usize,
    /// The largest gap: a put of at most so many octets moves none.
    pub gap: usize,
}

/// A move of closing up: a greeting's octets go down within the block.
#[derive(Clone, Copy, Debug, PartialEq, Eq)]
pub struct Hop {
    pub number: u32,
    pub from: usize,
    pub to: usize,
    pub octets: usize,
}

/// The frame of a greeting that holds a sample.
#[derive(Clone, Copy, Debug, PartialEq, Eq)]
pub struct Jump {
    /// Counted from 0, pads among them.
    pub frame: usize,
    /// Where it starts, from the greeting's start.
    pub place: usize,
    /// The sample's place in the frame.
    pub within: usize,
    /// Frames read to find it, from the last mark at or before the sample: 1 to 64.
    pub read: usize,
}

/// Puts a greeting of a law into the lowest gap that holds it; if none does, the others close up from 0 first.
pub fn put(block: &mut [u8], table: &mut [u32], law: Law, number: u32, octets: &[u8]) -> Result<Put, Refusal> {
    let mut report = [0; 2];
    match raw::store_put(block, table, law.number(), number, octets, &mut report) {
        0 => Ok(Put { start: report[0] as usize, moved: report[1] as usize }),
        ending => Err(Refusal::of(ending)),
    }
}

/// Where a greeting lies.
pub fn get(block: &[u8], table: &[u32], number: u32) -> Result<Got, Refusal> {
    let mut report = [0; 2];
    match raw::store_get(block, table, number, &mut report) {
        0 => Ok(Got { start: report[0] as usize, octets: report[1] as usize }),
        ending => Err(Refusal::of(ending)),
    }
}

/// All that stands in the table of a greeting.
pub fn info(block: &[u8], table: &[u32], number: u32) -> Result<Info, Refusal> {
    let mut report = [0; 5];
    match raw::store_info(block, table, number, &mut report) {
        0 => {
            let [start, octets, _, samples, marks] = report.map(|number| number as usize);
            Ok(Info { number, start, octets, law: report[2] as u32, samples, marks })
        }
        ending => Err(Refusal::of(ending)),
    }
}

/// The same of the greeting at a place in order of start, counted from 0; absent from the number of greetings on.
pub fn at(block: &[u8], table: &[u32], index: u64) -> Result<Info, Refusal> {
    let mut report = [0; 6];
    match raw::store_at(block, table, index, &mut report) {
        0 => {
            let [_, start, octets, _, samples, marks] = report.map(|number| number as usize);
            Ok(Info { number: report[0] as u32, start, octets, law: report[3] as u32, samples, marks })
        }
        ending => Err(Refusal::of(ending)),
    }
}

/// How many greetings there are, the octets held and free, and the largest gap.
pub fn totals(block: &[u8], table: &[u32]) -> Result<Totals, Refusal> {
    let mut report = [0; 4];
    match raw::store_totals(block, table, &mut report) {
        0 => {
            let [greetings, held, free, gap] = report.map(|number| number as usize);
            Ok(Totals { greetings, held, free, gap })
        }
        ending => Err(Refusal::of(ending)),
    }
}

/// Takes a greeting out; its room is used again.
pub fn delete(block: &[u8], table: &mut [u32], number: u32) -> Result<(), Refusal> {
    match raw::store_delete(block, table, number) {
        0 => Ok(()),
        ending => Err(Refusal::of(ending)),
    }
}

/// What [`put`] would answer; nothing is changed.
pub fn try_put(block: &[u8], table: &[u32], law: Law, number: u32, octets: &[u8]) -> Result<Put, Refusal> {
    let mut report = [0; 2];
    match raw::store_try(block, table, law.number(), number, octets, &mut report) {
        0 => Ok(Put { start: report[0] as usize, moved: report[1] as usize }),
        ending => Err(Refusal::of(ending)),
    }
}

/// The next move of closing up: of the first greeting that is not where closing up puts it. None where all are.
pub fn next(block: &[u8], table: &[u32]) -> Result<Option<Hop>, Refusal> {
    let mut report = [0; 4];
    match raw::store_next(block, table, &mut report) {
        0 if report[0] == 0 => Ok(None),
        0 => {
            let [_, from, to, octets] = report.map(|number| number as usize);
            Ok(Some(Hop { number: report[0] as u32, from, to, octets }))
        }
        ending => Err(Refusal::of(ending)),
    }
}

/// Changes the table: the greeting of the next move is at its new place. The octets follow by [`move_step`].
pub fn moved(block: &[u8], table: &mut [u32], number: u32, to: usize) -> Result<(), Refusal> {
    match raw::store_moved(block, table, number, to as u64) {
        0 => Ok(()),
        ending => Err(Refusal::of(ending)),
    }
}

/// Gives a greeting another number.
pub fn renumber(block: &[u8], table: &mut [u32], number: u32, to: u32) -> Result<(), Refusal> {
    match raw::store_renumber(block, table, number, to) {
        0 => Ok(()),
        ending => Err(Refusal::of(ending)),
    }
}

/// What lasts of a move: page in use, state (0 still, 1 moving, 2 moving and the chunk is whole in the spare), from, to, octets, done,
/// 0, 0. A fresh one is all 0.
pub type Record = [u32; 8];

/// One step of the move that the record tells of, and the record after it.
pub fn move_step(block: &mut [u8], spare: &mut [u8], record: &Record) -> Result<Record, Refusal> {
    let mut next = [0; 8];
    match raw::move_step(block, spare, record, &mut next) {
        0 => Ok(next),
        ending => Err(Refusal::of(ending)),
    }
}

/// Names the frame of a greeting that holds a sample, counted from 0.
pub fn jump(block: &[u8], table: &[u32], number: u32, sample: u64) -> Result<Jump, Refusal> {
    let mut report = [0; 4];
    match raw::store_jump(block, table, number, sample, &mut report) {
        0 => {
            let [frame, place, within, read] = report.map(|number| number as usize);
            Ok(Jump { frame, place, within, read })
        }
        ending => Err(Refusal::of(ending)),
    }
}
