//! The back ends: the proved code through its C calls, and the second program behind the same calls.

use crate::{Codec, Proved, Second};
use g7110::raw;
use second::moves;
use second::store::Store;
use second::table;

/// The record of a move: page in use, state, from, to, octets, done, 0, 0.
pub type Record = [u32; 8];

/// A call's number, and its report; one of fewer than four numbers has 0 behind them.
#[derive(Clone, Copy, Debug, PartialEq, Eq)]
pub struct Told {
    pub ending: u32,
    pub report: [u64; 4],
}

impl Told {
    pub fn refused(ending: u32) -> Told {
        Told { ending, report: [0; 4] }
    }

    pub fn ok(one: usize, other: usize) -> Told {
        Told { ending: 0, report: [one as u64, other as u64, 0, 0] }
    }

    /// Of a jump: the frame, its place, the sample's place in it, frames read. Of the next move: number, from, to, octets.
    pub fn jumped(report: [usize; 4]) -> Told {
        Told { ending: 0, report: report.map(|number| number as u64) }
    }

    /// A report that is lent full of ones, so that a number that is not written shows.
    fn by<const N: usize>(call: impl FnOnce(&mut [u64; N]) -> u32) -> Told {
        let mut report = [u64::MAX; N];
        let ending = call(&mut report);
        let mut told = Told::refused(ending);
        told.report[..N].copy_from_slice(&report);
        told
    }
}

/// A back end: the calls over a store, whoever answers them.
pub trait Keeps {
    fn cells(&self, size: u64) -> u64;
    fn put(&self, block: &mut [u8], table: &mut [u32], law: u32, number: u32, octets: &[u8]) -> Told;
    fn get(&self, block: &[u8], table: &[u32], number: u32) -> Told;
    fn delete(&self, block: &[u8], table: &mut [u32], number: u32) -> Told;
    fn save(&self, block: &[u8], table: &[u32], out: &mut [u8]) -> Told;
    fn load(&self, text: &[u8], block: &[u8], table: &mut [u32]) -> Told;
    fn jump(&self, block: &[u8], table: &[u32], number: u32, sample: u64) -> Told;
    fn try_put(&self, block: &[u8], table: &[u32], law: u32, number: u32, octets: &[u8]) -> Told;
    fn next(&self, block: &[u8], table: &[u32]) -> Told;
    fn moved(&self, block: &[u8], table: &mut [u32], number: u32, to: u64) -> Told;
    fn renumber(&self, block: &[u8], table: &mut [u32], number: u32, to: u32) -> Told;
    /// The ending; the record after it stands in `next`.
    fn step(&self, block: &mut [u8], spare: &mut [u8], record: &Record, next: &mut Record) -> u32;

    /// The reader that the promises are checked with: the back end's own.
    fn reader(&self) -> &dyn Codec;
}

impl Keeps for Proved {
    fn cells(&self, size: u64) -> u64 {
        raw::store_cells(size)
    }

    fn put(&self, block: &mut [u8], table: &mut [u32], law: u32, number: u32, octets: &[u8]) -> Told {
        Told::by(|report| raw::store_put(block, table, law, number, octets, report))
    }

    fn get(&self, block: &[u8], table: &[u32], number: u32) -> Told {
        Told::by(|report| raw::store_get(block, table, number, report))
    }

    fn delete(&self, block: &[u8], table: &mut [u32], number: u32) -> Told {
        Told::refused(raw::store_delete(block, table, number))
    }

    fn save(&self, block: &[u8], table: &[u32], out: &mut [u8]) -> Told {
        Told::by(|report| raw::store_save(block, table, out, report))
    }

    fn load(&self, text: &[u8], block: &[u8], table: &mut [u32]) -> Told {
        Told::refused(raw::store_load(text, block, table))
    }

    fn jump(&self, block: &[u8], table: &[u32], number: u32, sample: u64) -> Told {
        Told::by(|report| raw::store_jump(block, table, number, sample, report))
    }

    fn try_put(&self, block: &[u8], table: &[u32], law: u32, number: u32, octets: &[u8]) -> Told {
        Told::by(|report| raw::store_try(block, table, law, number, octets, report))
    }

    fn next(&self, block: &[u8], table: &[u32]) -> Told {
        Told::by(|report| raw::store_next(block, table, report))
    }

    fn moved(&self, block: &[u8], table: &mut [u32], number: u32, to: u64) -> Told {
        Told::refused(raw::store_moved(block, table, number, to))
    }

    fn renumber(&self, block: &[u8], table: &mut [u32], number: u32, to: u32) -> Told {
        Told::refused(raw::store_renumber(block, table, number, to))
    }

    fn step(&self, block: &mut [u8], spare: &mut [u8], record: &Record, next: &mut Record) -> u32 {
        raw::move_step(block, spare, record, next)
    }

    fn reader(&self) -> &dyn Codec {
        self
    }
}

/// The second program: the store of the lent numbers, one call on it, and its numbers again.
impl Keeps for Second {
    fn cells(&self, size: u64) -> u64 {
        table::cells(size)
    }

    fn put(&self, block: &mut [u8], cells: &mut [u32], law: u32, number: u32, octets: &[u8]) -> Told {
        let put = table::open(block, cells).and_then(|mut store| {
            let put = store.put(law, number, octets)?;
            block.copy_from_slice(&store.block);
            table::close(&store, cells);
            Ok(Told::ok(put.start, put.moved))
        });
        put.unwrap_or_else(Told::refused)
    }

    fn get(&self, block: &[u8], cells: &[u32], number: u32) -> Told {
        let got = table::open(block, cells).and_then(|store| store.get(number));
        got.map_or_else(Told::refused, |(start, octets)| Told::ok(start, octets))
    }

    fn delete(&self, block: &[u8], cells: &mut [u32], number: u32) -> Told {
        let deleted = table::open(block, cells).and_then(|mut store| {
            store.delete(number)?;
            table::close(&store, cells);
            Ok(())
        });
        deleted.map_or_else(Told::refused, |()| Told::ok(0, 0))
    }

    fn save(&self, block: &[u8], cells: &[u32], out: &mut [u8]) -> Told {
        let saved = table::open(block, cells).and_then(|store| store.save(out));
        saved.map_or_else(Told::refused, |octets| Told::ok(octets, 0))
    }

    fn load(&self, text: &[u8], block: &[u8], cells: &mut [u32]) -> Told {
        let fresh = Store::fresh(block.to_vec());
        let loaded = table::check_length(&fresh, cells).and_then(|()| Store::load(text, fresh.block));
        let loaded = loaded.map(|store| table::close(&store, cells));
        loaded.map_or_else(Told::refused, |()| Told::ok(0, 0))
    }

    fn jump(&self, block: &[u8], cells: &[u32], number: u32, sample: u64) -> Told {
        let jumped = table::open(block, cells).and_then(|store| store.jump(number, sample));
        jumped.map_or_else(Told::refused, |jump| Told::jumped([jump.frame, jump.place, jump.within, jump.read]))
    }

    fn try_put(&self, block: &[u8], cells: &[u32], law: u32, number: u32, octets: &[u8]) -> Told {
        let tried = moves::store_try(block, cells, law, number, octets);
        tried.map_or_else(Told::refused, |[start, moved]| Told::ok(start as usize, moved as usize))
    }

    fn next(&self, block: &[u8], cells: &[u32]) -> Told {
        moves::store_next(block, cells).map_or_else(Told::refused, |report| Told { ending: 0, report })
    }

    fn moved(&self, block: &[u8], cells: &mut [u32], number: u32, to: u64) -> Told {
        moves::store_moved(block, cells, number, to).map_or_else(Told::refused, |()| Told::ok(0, 0))
    }

    fn renumber(&self, block: &[u8], cells: &mut [u32], number: u32, to: u32) -> Told {
        moves::store_renumber(block, cells, number, to).map_or_else(Told::refused, |()| Told::ok(0, 0))
    }

    fn step(&self, block: &mut [u8], spare: &mut [u8], record: &Record, next: &mut Record) -> u32 {
        moves::move_step(block, spare, record, next).err().unwrap_or(0)
    }

    fn reader(&self) -> &dyn Codec {
        self
    }
}
