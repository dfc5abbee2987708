//! A store's table as the numbers that a caller lends (document 02, R-6, R-8):
//!
//! | Cells | |
//! |---|---|
//! | 0 | how many greetings there are |
//! | 1 to 96 | number, start, octets of each, in order of start |
//! | 97 | how many, once more |
//! | 98 to 193 | law, samples, number of marks of each, in the same order |
//! | from 194 on | the marks of all, one after another: octets and samples before each |
//!
//! Cells past those in use, in each of the three parts, stay as they are.

use crate::store::{Greeting, Mark, Store, MOST_BLOCK, MOST_GREETINGS, MOST_NUMBER, TABLE};

const SECOND_LIST: usize = 97;
const MARKS: usize = 194;

/// How many cells a table has for a block of a size.
pub fn cells(size: u64) -> u64 {
    let size = size.min(MOST_BLOCK as u64);
    MARKS as u64 + 2 * (size / 64 + MOST_GREETINGS as u64)
}

/// The store of a block and a table; TABLE if the table is too short, or not
/// one that calls leave. What samples and marks say is not judged.
pub fn open(block: &[u8], table: &[u32]) -> Result<Store, u32> {
    let mut store = Store::fresh(block.to_vec());
    check_length(&store, table)?;
    let count = table[0] as usize;
    if count > MOST_GREETINGS || table[SECOND_LIST] as usize != count {
        return Err(TABLE);
    }
    let mut marks = table[MARKS..].chunks_exact(2);
    for (row, more) in rows(&table[1..]).zip(rows(&table[SECOND_LIST + 1..])).take(count) {
        let [number, start, octets] = row;
        let [law, samples, its_marks] = more;
        if its_marks > octets / 64 + 1 {
            return Err(TABLE);
        }
        let taken = marks.by_ref().take(its_marks);
        let marks = taken.map(|two| Mark { octets: two[0] as usize, samples: two[1] as usize });
        let (number, law) = (number as u32, law as u32);
        let greeting = Greeting { number, start, octets, law, samples, marks: marks.collect() };
        // Also what the rows and marks to come are read by: greetings that lie
        // apart in the block have no more marks than the table has cells for.
        check_greeting(&store, &greeting)?;
        store.greetings.push(greeting);
    }
    Ok(store)
}

/// Writes the store's greetings into the table.
pub fn close(store: &Store, table: &mut [u32]) {
    let count = store.greetings.len() as u32;
    (table[0], table[SECOND_LIST]) = (count, count);
    let mut marks = MARKS;
    for (at, greeting) in store.greetings.iter().enumerate() {
        let row = [greeting.number, greeting.start as u32, greeting.octets as u32];
        table[1 + 3 * at..4 + 3 * at].copy_from_slice(&row);
        let more = [greeting.law, greeting.samples as u32, greeting.marks.len() as u32];
        table[SECOND_LIST + 1 + 3 * at..SECOND_LIST + 4 + 3 * at].copy_from_slice(&more);
        for mark in &greeting.marks {
            table[marks..marks + 2].copy_from_slice(&[mark.octets as u32, mark.samples as u32]);
            marks += 2;
        }
    }
}

/// All that is judged of a table that a load writes.
pub fn check_length(store: &Store, table: &[u32]) -> Result<(), u32> {
    let needed = cells(store.size() as u64) as usize;
    if table.len() < needed {
        return Err(TABLE);
    }
    Ok(())
}

fn rows(cells: &[u32]) -> impl Iterator<Item = [usize; 3]> + '_ {
    cells.chunks_exact(3).map(|row| [row[0] as usize, row[1] as usize, row[2] as usize])
}

/// A greeting behind those that were judged before it.
fn check_greeting(store: &Store, greeting: &Greeting) -> Result<(), u32> {
    let numbered = (1..=MOST_NUMBER).contains(&greeting.number);
    let new = store.greetings.iter().all(|other| other.number != greeting.number);
    let apart = store.greetings.last().map_or(0, Greeting::end) <= greeting.start;
    let inside = greeting.octets >= 1 && greeting.end() <= store.size();
    if numbered && new && apart && inside && greeting.law <= 1 {
        Ok(())
    } else {
        Err(TABLE)
    }
}
