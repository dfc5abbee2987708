//! What a store's table tells: one greeting by its number, one by its place in
//! order of start, and all of them together.

use second::gen::{make_any_form, Prng};
use second::store::{Store, MOST_BLOCK};
use second::table::{cells, close, open};
use second::told::{store_at, store_info, store_totals};

const NUMBER: u32 = 15;
const ABSENT: u32 = 17;
const TABLE: u32 = 26;

const NO_INFO: [u64; 5] = [0; 5];
const NO_ROW: [u64; 6] = [0; 6];

/// A fresh table for a block of a size.
fn fresh(size: usize) -> Vec<u32> {
    vec![0; cells(size as u64) as usize]
}

/// Number, start, octets, law, samples, how many marks.
type Row = [u32; 6];

/// A table of these rows, by the header's layout.
fn table_of(size: usize, rows: &[Row]) -> Vec<u32> {
    let mut table = fresh(size);
    (table[0], table[97]) = (rows.len() as u32, rows.len() as u32);
    for (at, row) in rows.iter().enumerate() {
        table[1 + 3 * at..][..3].copy_from_slice(&row[..3]);
        table[98 + 3 * at..][..3].copy_from_slice(&row[3..]);
    }
    table
}

#[test]
fn no_greetings() {
    for size in [0usize, 1, 10, 16_384, MOST_BLOCK] {
        let (block, table) = (vec![0xEE; size], fresh(size));
        let free = size as u64;
        assert_eq!(store_totals(&block, &table), (0, [0, 0, free, free]));
        assert_eq!(store_info(&block, &table, 0), (NUMBER, NO_INFO));
        assert_eq!(store_info(&block, &table, 65_536), (NUMBER, NO_INFO));
        assert_eq!(store_info(&block, &table, 1), (ABSENT, NO_INFO));
        assert_eq!(store_info(&block, &table, 65_535), (ABSENT, NO_INFO));
        assert_eq!(store_at(&block, &table, 0), (ABSENT, NO_ROW));
        assert_eq!(store_at(&block, &table, u64::MAX), (ABSENT, NO_ROW));
    }
    // Of a longer block the first 1,048,576 octets are the store's.
    let (block, table) = (vec![0; MOST_BLOCK + 5], fresh(MOST_BLOCK));
    assert_eq!(store_totals(&block, &table), (0, [0, 0, 1_048_576, 1_048_576]));
    let table = table_of(MOST_BLOCK, &[[9, 1_048_570, 6, 1, 0, 1]]);
    assert_eq!(store_totals(&block, &table), (0, [1, 6, 1_048_570, 1_048_570]));
    let past = table_of(MOST_BLOCK, &[[9, 1_048_570, 7, 1, 0, 1]]);
    assert_eq!(store_totals(&block, &past), (TABLE, [0; 4]));
}

/// The order is that of the starts, not of the numbers nor of the puts; the
/// room before the first, between two and behind the last are gaps.
#[test]
fn puts_and_deletes_by_hand() {
    let mut store = Store::fresh(vec![0xEE; 20]);
    store.put(1, 7, &[0x41, 0x42, 0x00]).unwrap();
    store.put(0, 9, &[0x43, 0xAA]).unwrap();
    store.put(1, 5, &[0x00; 4]).unwrap();
    store.put(1, 65_535, &[0x31]).unwrap();
    let told = |store: &Store| {
        let mut table = fresh(20);
        close(store, &mut table);
        let info = [7, 9, 5, 65_535, 2].map(|number| store_info(&store.block, &table, number));
        let at = [0, 1, 2, 3, 4].map(|index| store_at(&store.block, &table, index));
        (info, at, store_totals(&store.block, &table))
    };
    // 7 at 0 to 2, 9 at 3 and 4, 5 at 5 to 8, 65,535 at 9, free 10 to 19.
    let (info, at, totals) = told(&store);
    assert_eq!(info[0], (0, [0, 3, 1, 80, 1]));
    assert_eq!(info[1], (0, [3, 2, 0, 40, 1]));
    assert_eq!(info[2], (0, [5, 4, 1, 0, 1]));
    assert_eq!(info[3], (0, [9, 1, 1, 320, 1]));
    assert_eq!(info[4], (ABSENT, NO_INFO));
    assert_eq!(at[0], (0, [7, 0, 3, 1, 80, 1]));
    assert_eq!(at[1], (0, [9, 3, 2, 0, 40, 1]));
    assert_eq!(at[2], (0, [5, 5, 4, 1, 0, 1]));
    assert_eq!(at[3], (0, [65_535, 9, 1, 1, 320, 1]));
    assert_eq!(at[4], (ABSENT, NO_ROW));
    assert_eq!(totals, (0, [4, 10, 10, 10]));
    // The gap before the first: 3; behind the last: 10, then filled to 1.
    store.delete(7).unwrap();
    store.put(0, 2, &[0x00; 9]).unwrap();
    let (info, at, totals) = told(&store);
    assert_eq!((info[0], info[4]), ((ABSENT, NO_INFO), (0, [10, 9, 0, 0, 1])));
    assert_eq!(at.map(|row| row.1[0]), [9, 5, 65_535, 2, 0]);
    assert_eq!(totals, (0, [4, 16, 4, 3]));
    // Between: 5 goes, 4 octets; the gap before the first stays 3.
    store.delete(5).unwrap();
    assert_eq!(told(&store).2, (0, [3, 12, 8, 4]));
    // 9 goes too: one gap from 0 to 8.
    store.delete(9).unwrap();
    assert_eq!(told(&store).2, (0, [2, 10, 10, 9]));
    // A put into it is first in order, though put last.
    store.put(1, 8, &[0x41]).unwrap();
    let (_, at, totals) = told(&store);
    assert_eq!(at.map(|row| row.1[0]), [8, 65_535, 2, 0, 0]);
    assert_eq!(totals, (0, [3, 11, 9, 8]));
}

/// Law, samples and marks as they stand in the table; of marks their number.
#[test]
fn what_stands_in_the_table() {
    let most = u32::MAX;
    let rows = [[3, 2, 64, 0, most, 2], [1, 66, 63, 1, 7, 0], [65_535, 130, 1, 1, 0, 1]];
    let mut table = table_of(200, &rows);
    table[194..].fill(most);
    let block = vec![0x46; 200];
    assert_eq!(store_info(&block, &table, 3), (0, [2, 64, 0, most.into(), 2]));
    assert_eq!(store_info(&block, &table, 1), (0, [66, 63, 1, 7, 0]));
    assert_eq!(store_at(&block, &table, 2), (0, [65_535, 130, 1, 1, 0, 1]));
    assert_eq!(store_totals(&block, &table), (0, [3, 128, 72, 69]));
    // 65 frames have two marks, 64 have one.
    for (frames, marks) in [(64, 1), (65, 2), (128, 2), (129, 3)] {
        let mut store = Store::fresh(vec![0; 200]);
        store.put(0, 6, &vec![0x21; frames]).unwrap();
        let mut table = fresh(200);
        close(&store, &mut table);
        let octets = frames as u64;
        assert_eq!(store_info(&store.block, &table, 6), (0, [0, octets, 0, 240 * octets, marks]));
    }
}

#[test]
fn tables_that_calls_do_not_leave() {
    let good = [[3, 2, 64, 0, 9, 2], [1, 66, 63, 1, 7, 0]];
    let size = 130;
    let block = vec![0; size];
    let refused = |table: &[u32]| {
        // Before NUMBER and ABSENT, whatever is asked.
        for number in [0, 1, 2, 3, 65_536] {
            assert_eq!(store_info(&block, table, number), (TABLE, NO_INFO));
        }
        for index in [0, 1, 2, u64::MAX] {
            assert_eq!(store_at(&block, table, index), (TABLE, NO_ROW));
        }
        assert_eq!(store_totals(&block, table), (TABLE, [0; 4]));
    };
    let table = table_of(size, &good);
    assert_eq!(store_totals(&block, &table), (0, [2, 127, 3, 2]));
    refused(&table[..table.len() - 1]);
    refused(&[]);
    let changes: [(usize, &[u32]); 16] = [
        (0, &[1]),
        (0, &[33]),
        (0, &[u32::MAX]),
        (97, &[1]),
        (97, &[3]),
        (1, &[0]),
        (1, &[65_536]),
        (1, &[1]),
        (2, &[3]),
        (2, &[68]),
        (3, &[0]),
        (6, &[65]),
        (6, &[u32::MAX]),
        (5, &[u32::MAX]),
        (98, &[2]),
        (100, &[3]),
    ];
    for (at, numbers) in changes {
        let mut table = table.clone();
        table[at..at + numbers.len()].copy_from_slice(numbers);
        refused(&table);
    }
    // More cells than are needed are never looked at.
    let longer = [table, vec![u32::MAX; 9]].concat();
    assert_eq!(store_at(&block, &longer, 1), (0, [1, 66, 63, 1, 7, 0]));
    assert_eq!(store_at(&block, &longer, 2), (ABSENT, NO_ROW));
    for index in [1 << 32, (1 << 32) + 1, 1 << 63, u64::MAX] {
        assert_eq!(store_at(&block, &longer, index), (ABSENT, NO_ROW));
    }
}

/// All that the three calls tell of a store, against its greetings and the
/// calls that use them.
fn compare(store: &Store, table: &[u32], counts: &mut [u64; 3]) {
    let block = &store.block;
    let (mut held, mut used) = (0, vec![false; store.size()]);
    for (index, greeting) in store.greetings.iter().enumerate() {
        let (start, octets) = (greeting.start as u64, greeting.octets as u64);
        let (law, samples) = (greeting.law.into(), greeting.samples as u64);
        let about = [start, octets, law, samples, greeting.marks.len() as u64];
        assert_eq!(store_info(block, table, greeting.number), (0, about));
        assert_eq!(store.get(greeting.number), Ok((greeting.start, greeting.octets)));
        let (ending, [number, row @ ..]) = store_at(block, table, index as u64);
        assert_eq!((ending, number, row), (0, greeting.number.into(), about));
        held += octets;
        used[greeting.start..][..greeting.octets].fill(true);
        counts[0] += 2;
    }
    let count = store.greetings.len() as u64;
    assert_eq!(store_at(block, table, count), (ABSENT, NO_ROW));
    for number in [0, 1, 2, 65_535, 65_536] {
        let expected = store.get(number).err();
        let told = store_info(block, table, number);
        assert_eq!((told.0 != 0).then_some(told.0), expected);
        assert!(expected.is_none() || told.1 == NO_INFO);
        counts[1] += 1;
    }
    // The largest gap, octet by octet.
    let largest = used.split(|&used| used).map(<[bool]>::len).max().unwrap_or(0) as u64;
    let free = store.size() as u64 - held;
    assert_eq!(store_totals(block, table), (0, [count, held, free, largest]));
    // It holds a put that moves nothing; one octet more does not.
    if count < 32 && store.get(60_000).is_err() {
        for more in 0..2 {
            let octets = vec![0; largest as usize + more];
            match store.clone().put(1, 60_000, &octets) {
                Ok(put) if more == 0 => assert_eq!(put.moved, 0),
                Ok(put) => assert!(put.start as u64 == held && free > largest),
                Err(_) => assert!(octets.is_empty() || (more == 1 && free == largest)),
            }
        }
    }
    counts[2] += 1;
}

#[test]
fn drawn_stores() {
    let mut rng = Prng::new(3905);
    let mut counts = [0; 3];
    for _ in 0..300 {
        let size = *rng.pick(&[0, 1, 40, 300, 3_000]);
        let mut store = Store::fresh(rng.octets(size));
        let mut table = fresh(size);
        for _ in 0..60 {
            let number = 1 + rng.below(40) as u32;
            if rng.chance(2, 5) {
                let _ = store.delete(number);
            } else {
                let law = rng.below(2) as u32;
                let frames = 1 + rng.below(4);
                let octets = (0..frames).flat_map(|_| make_any_form(law, &mut rng).octets);
                let octets: Vec<u8> = octets.collect();
                let pads = vec![0; rng.below(200)];
                let _ = store.put(law, number, if rng.flip() { &octets } else { &pads });
            }
            close(&store, &mut table);
            compare(&store, &table, &mut counts);
        }
    }
    let [greetings, numbers, totals] = counts;
    assert!(greetings > 10_000);
    println!("compared: {greetings} greetings, {numbers} numbers, {totals} totals of stores");
}

/// Whether a table is one that calls may leave, by the header's words.
fn is_good(size: usize, table: &[u32]) -> bool {
    if table.len() < 194 + 2 * (size / 64 + 32) || table[0] > 32 || table[97] != table[0] {
        return false;
    }
    let part = |from: usize, at: usize| u64::from(table[from + at]);
    let count = 3 * table[0] as usize;
    let rows: Vec<[u64; 3]> =
        (0..count).step_by(3).map(|at| [1, 2, 3].map(|from| part(from, at))).collect();
    let numbers: std::collections::BTreeSet<u64> = rows.iter().map(|row| row[0]).collect();
    let apart = rows.windows(2).all(|two| two[0][1] + two[0][2] <= two[1][1]);
    let inside = rows.iter().all(|row| row[2] >= 1 && row[1] + row[2] <= size as u64);
    let laws = (0..count).step_by(3).all(|at| part(98, at) <= 1);
    let marks = (0..count).step_by(3).all(|at| part(100, at) <= part(3, at) / 64 + 1);
    let numbered = numbers.iter().all(|number| (1..=65_535).contains(number));
    numbers.len() == rows.len() && numbered && apart && inside && laws && marks
}

/// Any numbers in the table: what is told is what stands there, or TABLE.
#[test]
fn drawn_tables() {
    let mut rng = Prng::new(3906);
    let mut came = [0u64; 2];
    let mut counts = [0; 3];
    for _ in 0..60_000 {
        let size = 1 + rng.below(400);
        let mut rows: Vec<Row> = vec![];
        let mut end = 0;
        while rows.len() < rng.below(40) {
            let start = end + rng.below(5) * rng.below(5);
            let octets = 1 + rng.below(30);
            let (number, law) =
                (rows.len() as u32 + 1 + 32 * rng.below(900) as u32, rng.below(2) as u32);
            let marks = rng.below(octets / 64 + 2) as u32;
            rows.push([number, start as u32, octets as u32, law, rng.next_u64() as u32, marks]);
            end = start + octets;
        }
        let mut table = table_of(size.max(end), &rows);
        for _ in 0..rng.below(3) {
            let limit = *rng.pick(&[12, 200]);
            let at = rng.below(limit);
            table[at] = *rng.pick(&[0, 1, 2, 32, 33, 65_535, 65_536, u32::MAX, at as u32]);
        }
        let block = vec![0; if rng.chance(1, 4) { size } else { size.max(end) }];
        assert_eq!(store_totals(&block, &table).0, if is_good(block.len(), &table) { 0 } else { TABLE });
        match open(&block, &table) {
            Ok(store) => {
                compare(&store, &table, &mut counts);
                assert_eq!(store_totals(&block, &table).1[0], table[0].into());
                for at in 0..table[0] as usize {
                    let [row, more] = [1, 98].map(|from| &table[from + 3 * at..][..3]);
                    let stands: Vec<u64> = row.iter().chain(more).map(|&n| n.into()).collect();
                    assert_eq!(store_at(&block, &table, at as u64).1[..], stands);
                }
                came[0] += 1;
            }
            Err(number) => {
                assert_eq!(number, TABLE);
                assert_eq!(store_totals(&block, &table), (TABLE, [0; 4]));
                assert_eq!(store_at(&block, &table, 0), (TABLE, NO_ROW));
                assert_eq!(store_info(&block, &table, 1), (TABLE, NO_INFO));
                came[1] += 1;
            }
        }
    }
    assert!(came.iter().all(|&count| count > 2_000), "{came:?}");
    println!("compared: lent tables, good and bad {came:?}, greetings {}", counts[0]);
}
