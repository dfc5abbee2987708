//! Closing up one move at a time, so that a cut of power loses no greeting
//! ("A cut of power, with one block").
//!
//! [`Store`] has the calls over a block and its list of greetings. The calls
//! over lent numbers, `store_next` and so on, judge the numbers first, with
//! TABLE. [`crate::lasting`] has the order of writes.

use crate::store::{check_number, Put, Store, ABSENT, MOST_BLOCK, TAKEN};
use crate::table;

/// Not the next move, or a record that tells of no move in this block.
pub const MOVE: u32 = 27;

/// Page in use (0, 1) | 0 still, 1 moving, 2 moving and the chunk is whole in
/// the spare | from | to | octets | done | 0 | 0.
pub type Record = [u32; 8];

/// The record of a fresh store: page 0, still.
pub const FRESH: Record = [0; 8];

/// One greeting that closing up moves.
#[derive(Clone, Copy, Debug, PartialEq, Eq)]
pub struct Move {
    pub number: u32,
    pub from: usize,
    pub to: usize,
    pub octets: usize,
}

impl Store {
    /// The next move of closing up: number, from, to, octets of the first
    /// greeting, in order of start, that is not where closing up puts it; none
    /// where all are.
    pub fn next_move(&self) -> Option<Move> {
        let mut to = 0;
        for greeting in &self.greetings {
            let (number, from, octets) = (greeting.number, greeting.start, greeting.octets);
            if from != to {
                return Some(Move { number, from, to, octets });
            }
            to += octets;
        }
        None
    }

    /// The table with that greeting at `to`; of the block only the length is
    /// used. NUMBER, ABSENT, MOVE where it is not the next move; with no next
    /// move every held number is MOVE, also to its own start.
    pub fn moved(&mut self, number: u32, to: u64) -> Result<(), u32> {
        check_number(number)?;
        let at = self.place_of(number).ok_or(ABSENT)?;
        match self.next_move() {
            Some(next) if next.number == number && next.to as u64 == to => {
                self.greetings[at].start = next.to;
                Ok(())
            }
            _ => Err(MOVE),
        }
    }

    /// The greeting `number` has the number `to`; nothing else changes.
    /// NUMBER (either), ABSENT, TAKEN (also where both are one).
    pub fn renumber(&mut self, number: u32, to: u32) -> Result<(), u32> {
        check_number(number)?;
        check_number(to)?;
        let at = self.place_of(number).ok_or(ABSENT)?;
        if self.place_of(to).is_some() {
            return Err(TAKEN);
        }
        self.greetings[at].number = to;
        Ok(())
    }

    /// Exactly what a put would answer and report; nothing changed.
    pub fn try_put(&self, law: u32, number: u32, octets: &[u8]) -> Result<Put, u32> {
        self.clone().put(law, number, octets)
    }

    fn place_of(&self, number: u32) -> Option<usize> {
        self.greetings.iter().position(|greeting| greeting.number == number)
    }
}

/// The next move of closing up: number, from, to, octets; zeros where all are
/// where closing up puts them. TABLE.
pub fn store_next(block: &[u8], cells: &[u32]) -> Result<[u64; 4], u32> {
    let next = table::open(block, cells)?.next_move();
    Ok(next.map_or([0; 4], |Move { number, from, to, octets }| {
        [u64::from(number), from as u64, to as u64, octets as u64]
    }))
}

/// The table with that greeting at `to`. TABLE, NUMBER, ABSENT, MOVE.
pub fn store_moved(block: &[u8], cells: &mut [u32], number: u32, to: u64) -> Result<(), u32> {
    let mut store = table::open(block, cells)?;
    store.moved(number, to)?;
    table::close(&store, cells);
    Ok(())
}

/// The greeting `number` has the number `to`. TABLE, NUMBER (either), ABSENT,
/// TAKEN.
pub fn store_renumber(block: &[u8], cells: &mut [u32], number: u32, to: u32) -> Result<(), u32> {
    let mut store = table::open(block, cells)?;
    store.renumber(number, to)?;
    table::close(&store, cells);
    Ok(())
}

/// Exactly what a put would answer and report: start, octets moved. TABLE,
/// then put's.
pub fn store_try(block: &[u8], cells: &[u32], law: u32, number: u32, octets: &[u8]) -> Result<[u64; 2], u32> {
    let put = table::open(block, cells)?.try_put(law, number, octets)?;
    Ok([put.start as u64, put.moved as u64])
}

/// One chunk of the move that the record tells of, and in `next` the record
/// after it. MOVE where the record tells of none in this block: nothing
/// changed.
///
/// State 1, distance d = from - to, left = octets - done: where d is the
/// spare's length or more, min(left, d) octets go from `from + done` to
/// `to + done`, and `done` grows; else min(left, spare) octets go from
/// `from + done` into the spare, and the state is 2. State 2: the same count
/// of octets goes from the spare to `to + done`, `done` grows, the state is 1.
/// Where `done` reaches `octets`, `next` is still, with the other page, and
/// zeros.
pub fn move_step(block: &mut [u8], spare: &mut [u8], record: &Record, next: &mut Record) -> Result<(), u32> {
    if !tells_of_a_move(block, spare, record) {
        return Err(MOVE);
    }
    let [page, state, from, to, octets, done, _, _] = *record;
    let distance = (from - to) as usize;
    let left = (octets - done) as usize;
    let (source, target) = ((from + done) as usize, (to + done) as usize);
    let count = if distance >= spare.len() { left.min(distance) } else { left.min(spare.len()) };
    if state == 1 && distance < spare.len() {
        spare[..count].copy_from_slice(&block[source..source + count]);
        *next = [page, 2, from, to, octets, done, 0, 0];
        return Ok(());
    }
    if state == 1 {
        // No more octets than the distance: source and target lie apart.
        block.copy_within(source..source + count, target);
    } else {
        block[target..target + count].copy_from_slice(&spare[..count]);
    }
    let done = done + count as u32;
    let still = done == octets;
    *next = if still { [1 - page, 0, 0, 0, 0, 0, 0, 0] } else { [page, 1, from, to, octets, done, 0, 0] };
    Ok(())
}

/// Whether the record tells of a move in this block. It tells of none where it
/// is still, or has a state above 2; page above 1; to not below from; from +
/// octets past the block; done not below octets; state 2 where the distance is
/// not below the spare; the last two not 0.
fn tells_of_a_move(block: &[u8], spare: &[u8], record: &Record) -> bool {
    let [page, state, from, to, octets, done, seventh, eighth] = *record;
    let size = block.len().min(MOST_BLOCK) as u64;
    let inside = u64::from(from) + u64::from(octets) <= size;
    let good = (1..=2).contains(&state) && page <= 1 && to < from && inside && done < octets;
    let zeros = seventh == 0 && eighth == 0;
    good && zeros && (state == 1 || ((from - to) as usize) < spare.len())
}
