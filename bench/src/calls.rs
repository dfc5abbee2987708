//! Every codec behind the same kind of call, with the whole report asked for: none is drawn into the loop that times it.

use crate::by_bits;
use second::store::Store;
use std::hint::black_box;

#[inline(never)]
pub fn proved_read(octets: &[u8], law: u32, set: u32, out: &mut [u8]) -> u32 {
    let mut report = [0; 5];
    let ending = g7110::raw::read(octets, law, set, out, &mut report);
    black_box(&report);
    ending
}

#[inline(never)]
pub fn second_read(octets: &[u8], law: u32, set: u32, out: &mut [u8]) -> u32 {
    let got = second::read_frame(octets, law, set, out);
    black_box(&[got.samples as u64, got.octets as u64, got.bits as u64, u64::from(got.tool), got.bit as u64]);
    got.ending
}

#[inline(never)]
pub fn by_bits_read(octets: &[u8], law: u32, set: u32, out: &mut [u8]) -> u32 {
    let (ending, report) = by_bits::read(octets, law, set, out);
    black_box(&report);
    ending
}

#[cfg(feature = "writer")]
#[inline(never)]
pub fn proved_write(samples: &[u8], law: u32, set: u32, out: &mut [u8]) -> u32 {
    let mut report = [0; 3];
    let ending = g7110::raw::write(samples, law, set, out, &mut report);
    black_box(&report);
    ending
}

#[inline(never)]
pub fn second_write(samples: &[u8], law: u32, set: u32, out: &mut [u8]) -> u32 {
    let got = second::write_frame(samples, law, set, out);
    black_box(&[got.octets as u64, got.bits as u64, u64::from(got.tool)]);
    got.ending
}

#[inline(never)]
pub fn proved_walk(octets: &[u8], law: u32, set: u32, out: &mut [u8]) -> u32 {
    let mut report = [0; 5];
    let ending = g7110::raw::walk(octets, law, set, out, &mut report);
    black_box(&report);
    ending
}

#[inline(never)]
pub fn second_walk(octets: &[u8], law: u32, set: u32, out: &mut [u8]) -> u32 {
    let got = second::walk(octets, law, set, out);
    black_box(&[got.frames as u64, got.octets as u64, got.samples as u64, u64::from(got.tool), got.bit as u64]);
    got.ending
}

#[inline(never)]
pub fn by_bits_walk(octets: &[u8], law: u32, set: u32, out: &mut [u8]) -> u32 {
    let (ending, report) = by_bits::walk(octets, law, set, out);
    black_box(&report);
    ending
}

#[inline(never)]
pub fn proved_to_linear(samples: &[u8], law: u32, out: &mut [i16]) -> u32 {
    g7110::raw::to_linear(samples, law, out)
}

#[inline(never)]
pub fn second_to_linear(samples: &[u8], law: u32, out: &mut [i16]) -> u32 {
    second::linear::to_linear(samples, law, out)
}

#[inline(never)]
pub fn proved_from_linear(linear: &[i16], law: u32, out: &mut [u8]) -> u32 {
    g7110::raw::from_linear(linear, law, out)
}

#[inline(never)]
pub fn second_from_linear(linear: &[i16], law: u32, out: &mut [u8]) -> u32 {
    second::linear::from_linear(linear, law, out)
}

#[inline(never)]
pub fn proved_put(block: &mut [u8], table: &mut [u32], law: u32, number: u32, octets: &[u8]) -> u32 {
    let mut report = [0; 2];
    let ending = g7110::raw::store_put(block, table, law, number, octets, &mut report);
    black_box(&report);
    ending
}

#[inline(never)]
pub fn second_put(store: &mut Store, law: u32, number: u32, octets: &[u8]) -> u32 {
    black_box(store.put(law, number, octets)).err().unwrap_or(0)
}

#[inline(never)]
pub fn proved_get(block: &[u8], table: &[u32], number: u32) -> u32 {
    let mut report = [0; 2];
    let ending = g7110::raw::store_get(block, table, number, &mut report);
    black_box(&report);
    ending
}

#[inline(never)]
pub fn second_get(store: &Store, number: u32) -> u32 {
    black_box(store.get(number)).err().unwrap_or(0)
}

#[inline(never)]
pub fn proved_delete(block: &[u8], table: &mut [u32], number: u32) -> u32 {
    g7110::raw::store_delete(block, table, number)
}

#[inline(never)]
pub fn second_delete(store: &mut Store, number: u32) -> u32 {
    store.delete(number).err().unwrap_or(0)
}

#[inline(never)]
pub fn proved_save(block: &[u8], table: &[u32], out: &mut [u8]) -> u32 {
    let mut report = [0];
    let ending = g7110::raw::store_save(block, table, out, &mut report);
    black_box(&report);
    ending
}

#[inline(never)]
pub fn second_save(store: &Store, out: &mut [u8]) -> u32 {
    black_box(store.save(out)).err().unwrap_or(0)
}

#[inline(never)]
pub fn proved_load(text: &[u8], block: &[u8], table: &mut [u32]) -> u32 {
    g7110::raw::store_load(text, block, table)
}

#[inline(never)]
pub fn second_load(text: &[u8], block: &[u8]) -> u32 {
    black_box(Store::load(text, block.to_vec())).err().unwrap_or(0)
}

#[inline(never)]
pub fn proved_jump(block: &[u8], table: &[u32], number: u32, sample: u64) -> u32 {
    let mut report = [0; 4];
    let ending = g7110::raw::store_jump(block, table, number, sample, &mut report);
    black_box(&report);
    ending
}

#[inline(never)]
pub fn second_jump(store: &Store, number: u32, sample: u64) -> u32 {
    black_box(store.jump(number, sample)).err().unwrap_or(0)
}

#[inline(never)]
pub fn proved_mend(octets: &[u8], law: u32, total: u64, out: &mut [u8]) -> u32 {
    let mut report = [0; 4];
    let ending = g7110::raw::mend(octets, law, total, out, &mut report);
    black_box(&report);
    ending
}

#[inline(never)]
pub fn second_mend(octets: &[u8], law: u32, total: u64, out: &mut [u8]) -> u32 {
    black_box(second::mend::mend(octets, law, total, out)).err().unwrap_or(0)
}

#[inline(never)]
pub fn proved_file_read(octets: &[u8], set: u32, out: &mut [u8], items: &mut [u16]) -> u32 {
    let mut report = [0; 6];
    let ending = g7110::raw::file_read(octets, set, out, items, &mut report);
    black_box(&report);
    ending
}

#[inline(never)]
pub fn second_file_read(octets: &[u8], set: u32, out: &mut [u8], items: &mut [u16]) -> u32 {
    black_box(second::recording::read_file(octets, set, out, items)).ending
}

#[cfg(feature = "writer")]
#[inline(never)]
pub fn proved_file_write(samples: &[u8], items: &[u16], law: u32, set: u32, out: &mut [u8]) -> u32 {
    let mut report = [0];
    let ending = g7110::raw::file_write(samples, items, law, set, out, &mut report);
    black_box(&report);
    ending
}

#[cfg(feature = "writer")]
#[inline(never)]
pub fn second_file_write(samples: &[u8], items: &[u16], law: u32, set: u32, out: &mut [u8]) -> u32 {
    black_box(second::recording::write_file(samples, items, law, set, out)).err().unwrap_or(0)
}

#[cfg(feature = "writer")]
#[inline(never)]
pub fn proved_why(samples: &[u8], law: u32, set: u32, text: &mut [u8; g7110::WHY_TEXT]) -> u32 {
    let mut report = [0];
    let ending = g7110::raw::why(samples, law, set, text, &mut report);
    black_box(&report);
    ending
}

/// The lines too, as the proved call writes them.
#[cfg(feature = "writer")]
#[inline(never)]
pub fn second_why(samples: &[u8], law: u32, set: u32) -> u32 {
    black_box(second::why::why(samples, law, set).map(|why| second::why::lines(&why))).err().unwrap_or(0)
}
