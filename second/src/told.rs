//! What a store's table tells: one greeting by its number, one by its place,
//! and all of them together.

use crate::store::{Greeting, Store};
use crate::table::open;

const ABSENT: u32 = 17;

/// Start, octets, law, samples, marks of the greeting of that number. Refused
/// with TABLE, NUMBER, ABSENT.
pub fn store_info(block: &[u8], table: &[u32], number: u32) -> (u32, [u64; 5]) {
    let told = open(block, table).and_then(|store| {
        // NUMBER and ABSENT are those of a get.
        store.get(number)?;
        let greeting = store.greetings.iter().find(|greeting| greeting.number == number);
        let [_, about @ ..] = row_of(greeting.ok_or(ABSENT)?);
        Ok(about)
    });
    answer(told)
}

/// Number, start, octets, law, samples, marks of the greeting at that place in
/// order of start. Refused with TABLE, ABSENT. `index` counts from 0 and is
/// never wrapped.
pub fn store_at(block: &[u8], table: &[u32], index: u64) -> (u32, [u64; 6]) {
    let told = open(block, table).and_then(|store| {
        let counted = (0u64..).zip(&store.greetings);
        let greeting = counted.into_iter().find(|&(place, _)| place == index);
        Ok(row_of(greeting.ok_or(ABSENT)?.1))
    });
    answer(told)
}

/// Greetings, octets held, octets free, largest gap (the room behind the last
/// is a gap). The room before the first greeting is a gap too. Refused with
/// TABLE.
pub fn store_totals(block: &[u8], table: &[u32]) -> (u32, [u64; 4]) {
    let told = open(block, table).map(|store| {
        let (greetings, held) = (store.greetings.len(), store.held());
        [greetings, held, store.size() - held, largest_gap(&store)].map(|number| number as u64)
    });
    answer(told)
}

fn largest_gap(store: &Store) -> usize {
    let (mut largest, mut end) = (0, 0);
    for greeting in &store.greetings {
        largest = largest.max(greeting.start - end);
        end = greeting.start + greeting.octets;
    }
    largest.max(store.size() - end)
}

/// As it stands in the table; of the marks how many there are.
fn row_of(greeting: &Greeting) -> [u64; 6] {
    let (start, octets) = (greeting.start as u64, greeting.octets as u64);
    let (samples, marks) = (greeting.samples as u64, greeting.marks.len() as u64);
    [u64::from(greeting.number), start, octets, u64::from(greeting.law), samples, marks]
}

/// A refused call reports zeros.
fn answer<const N: usize>(told: Result<[u64; N], u32>) -> (u32, [u64; N]) {
    match told {
        Ok(report) => (0, report),
        Err(number) => (number, [0; N]),
    }
}
