//! The functions of include/g7110.h as they are: a number comes back, and a report, where there is one, is written in every case.
//! This is the only file with unsafe code. A slice brings a pointer that is good for its length, and two slices, one
//! of them mutable, don't overlap: that is all that the header asks.

#![allow(unsafe_code)]

extern "C" {
    fn g7110_read(
        octets: *const u8,
        octets_len: usize,
        law: u32,
        set: u32,
        out: *mut u8,
        out_len: usize,
        report: *mut [u64; 5],
    ) -> u32;
    #[cfg(feature = "writer")]
    fn g7110_write(
        samples: *const u8,
        samples_len: usize,
        law: u32,
        set: u32,
        out: *mut u8,
        out_len: usize,
        report: *mut [u64; 3],
    ) -> u32;
    fn g7110_walk(
        octets: *const u8,
        octets_len: usize,
        law: u32,
        set: u32,
        out: *mut u8,
        out_len: usize,
        report: *mut [u64; 5],
    ) -> u32;
    #[cfg(feature = "writer")]
    fn g7110_why(
        samples: *const u8,
        samples_len: usize,
        law: u32,
        set: u32,
        text: *mut [u8; 512],
        report: *mut [u64; 1],
    ) -> u32;
    fn g7110_to_linear(samples: *const u8, samples_len: usize, law: u32, out: *mut i16, out_len: usize) -> u32;
    fn g7110_from_linear(linear: *const i16, linear_len: usize, law: u32, out: *mut u8, out_len: usize) -> u32;
    fn g7110_store_save(
        block: *const u8,
        block_len: usize,
        table: *const u32,
        table_len: usize,
        out: *mut u8,
        out_len: usize,
        report: *mut [u64; 1],
    ) -> u32;
    fn g7110_store_load(
        text: *const u8,
        text_len: usize,
        block: *const u8,
        block_len: usize,
        table: *mut u32,
        table_len: usize,
    ) -> u32;
    fn g7110_settings_save(state: *mut [u32; 41], text: *const u8, text_len: usize, report: *mut [u64; 1]) -> u32;
    fn g7110_settings_back(state: *mut [u32; 41], revision: u32, report: *mut [u64; 1]) -> u32;
    fn g7110_settings_read(state: *const [u32; 41], revision: u32, text: *mut [u8; 80], report: *mut [u64; 1]) -> u32;
    fn g7110_settings_wipe(state: *mut [u32; 41]) -> u32;
    fn g7110_settings_get(state: *const [u32; 41], revision: u32, report: *mut [u64; 4]) -> u32;
    fn g7110_settings_kept(state: *const [u32; 41], report: *mut [u64; 8]) -> u32;
    fn g7110_mend_why(octets: *const u8, octets_len: usize, law: u32, total: u64, report: *mut [u64; 8]) -> u32;
    fn g7110_mend(
        octets: *const u8,
        octets_len: usize,
        law: u32,
        total: u64,
        out: *mut u8,
        out_len: usize,
        report: *mut [u64; 4],
    ) -> u32;
    fn g7110_store_cells(size: u64) -> u64;
    fn g7110_store_put(
        block: *mut u8, block_len: usize, table: *mut u32, table_len: usize, law: u32, number: u32, octets: *const u8,
        octets_len: usize, report: *mut [u64; 2],
    ) -> u32;
    fn g7110_store_get(
        block: *const u8, block_len: usize, table: *const u32, table_len: usize, number: u32, report: *mut [u64; 2],
    ) -> u32;
    fn g7110_store_info(
        block: *const u8, block_len: usize, table: *const u32, table_len: usize, number: u32, report: *mut [u64; 5],
    ) -> u32;
    fn g7110_store_at(
        block: *const u8, block_len: usize, table: *const u32, table_len: usize, index: u64, report: *mut [u64; 6],
    ) -> u32;
    fn g7110_store_totals(
        block: *const u8, block_len: usize, table: *const u32, table_len: usize, report: *mut [u64; 4],
    ) -> u32;
    fn g7110_store_delete(block: *const u8, block_len: usize, table: *mut u32, table_len: usize, number: u32) -> u32;
    fn g7110_file_read(
        octets: *const u8,
        octets_len: usize,
        set: u32,
        out: *mut u8,
        out_len: usize,
        items: *mut u16,
        items_len: usize,
        report: *mut [u64; 6],
    ) -> u32;
    fn g7110_file_write(
        samples: *const u8,
        samples_len: usize,
        items: *const u16,
        items_len: usize,
        law: u32,
        set: u32,
        out: *mut u8,
        out_len: usize,
        report: *mut [u64; 1],
    ) -> u32;
    fn g7110_store_jump(
        block: *const u8, block_len: usize, table: *const u32, table_len: usize, number: u32, sample: u64,
        report: *mut [u64; 4],
    ) -> u32;
    fn g7110_store_try(
        block: *const u8, block_len: usize, table: *const u32, table_len: usize, law: u32, number: u32, octets: *const u8,
        octets_len: usize, report: *mut [u64; 2],
    ) -> u32;
    fn g7110_store_next(
        block: *const u8, block_len: usize, table: *const u32, table_len: usize, report: *mut [u64; 4],
    ) -> u32;
    fn g7110_store_moved(
        block: *const u8, block_len: usize, table: *mut u32, table_len: usize, number: u32, to: u64,
    ) -> u32;
    fn g7110_store_renumber(
        block: *const u8, block_len: usize, table: *mut u32, table_len: usize, number: u32, to: u32,
    ) -> u32;
    fn g7110_move_step(
        block: *mut u8, block_len: usize, spare: *mut u8, spare_len: usize, record: *const [u32; 8], next: *mut [u32; 8],
    ) -> u32;
    fn g7110_version() -> u32;
    fn g7110_check(octets: *const u8, octets_len: usize, law: u32, set: u32, report: *mut [u64; 5]) -> u32;
    fn g7110_head(octets: *const u8, octets_len: usize, set: u32, report: *mut [u64; 2]) -> u32;
    fn g7110_file_head(octets: *const u8, octets_len: usize, report: *mut [u64; 2]) -> u32;
    fn g7110_file_next(
        octets: *const u8, octets_len: usize, at: u64, law: u32, set: u32, out: *mut u8, out_len: usize,
        report: *mut [u64; 6],
    ) -> u32;
    fn g7110_to_master(samples: *const u8, samples_len: usize, law: u32, out: *mut i16, out_len: usize) -> u32;
    fn g7110_from_master(master: *const i16, master_len: usize, law: u32, out: *mut u8, out_len: usize) -> u32;
}

/// The ending; the report is samples, octets, bits, tool and the refusal's bit.
pub fn read(octets: &[u8], law: u32, set: u32, out: &mut [u8], report: &mut [u64; 5]) -> u32 {
    // SAFETY: both slices and the report are live for the call, and the borrows keep them apart.
    unsafe { g7110_read(octets.as_ptr(), octets.len(), law, set, out.as_mut_ptr(), out.len(), report) }
}

/// The ending; the report is octets, bits and tool.
#[cfg(feature = "writer")]
pub fn write(samples: &[u8], law: u32, set: u32, out: &mut [u8], report: &mut [u64; 3]) -> u32 {
    // SAFETY: as in `read`.
    unsafe { g7110_write(samples.as_ptr(), samples.len(), law, set, out.as_mut_ptr(), out.len(), report) }
}

/// The ending; the report is the octets of text.
#[cfg(feature = "writer")]
pub fn why(samples: &[u8], law: u32, set: u32, text: &mut [u8; 512], report: &mut [u64; 1]) -> u32 {
    // SAFETY: as in `read`, of the text too.
    unsafe { g7110_why(samples.as_ptr(), samples.len(), law, set, text, report) }
}

/// The ending; the report is frames, octets, samples, tool and the refusal's bit.
pub fn walk(octets: &[u8], law: u32, set: u32, out: &mut [u8], report: &mut [u64; 5]) -> u32 {
    // SAFETY: as in `read`.
    unsafe { g7110_walk(octets.as_ptr(), octets.len(), law, set, out.as_mut_ptr(), out.len(), report) }
}

/// The ending; the linear values stand in `out`.
pub fn to_linear(samples: &[u8], law: u32, out: &mut [i16]) -> u32 {
    // SAFETY: as in `read`; a slice of i16 is aligned.
    unsafe { g7110_to_linear(samples.as_ptr(), samples.len(), law, out.as_mut_ptr(), out.len()) }
}

/// The ending; the octets stand in `out`.
pub fn from_linear(linear: &[i16], law: u32, out: &mut [u8]) -> u32 {
    // SAFETY: as in `to_linear`.
    unsafe { g7110_from_linear(linear.as_ptr(), linear.len(), law, out.as_mut_ptr(), out.len()) }
}

/// The ending; the report is the octets of text.
pub fn store_save(block: &[u8], table: &[u32], out: &mut [u8], report: &mut [u64; 1]) -> u32 {
    let (b, t) = (block.as_ptr(), table.as_ptr());
    // SAFETY: as in `read`; a slice of u32 is aligned.
    unsafe { g7110_store_save(b, block.len(), t, table.len(), out.as_mut_ptr(), out.len(), report) }
}

/// The ending; the table is what the call leaves.
pub fn store_load(text: &[u8], block: &[u8], table: &mut [u32]) -> u32 {
    let (x, b) = (text.as_ptr(), block.as_ptr());
    // SAFETY: as in `store_save`.
    unsafe { g7110_store_load(x, text.len(), b, block.len(), table.as_mut_ptr(), table.len()) }
}

/// The ending; the report is the new revision.
pub fn settings_save(state: &mut [u32; 41], text: &[u8], report: &mut [u64; 1]) -> u32 {
    // SAFETY: as in `read`, of the state too.
    unsafe { g7110_settings_save(state, text.as_ptr(), text.len(), report) }
}

/// The ending; the report is the new revision.
pub fn settings_back(state: &mut [u32; 41], revision: u32, report: &mut [u64; 1]) -> u32 {
    // SAFETY: as in `settings_save`.
    unsafe { g7110_settings_back(state, revision, report) }
}

/// The ending; the report is the octets of text.
pub fn settings_read(state: &[u32; 41], revision: u32, text: &mut [u8; 80], report: &mut [u64; 1]) -> u32 {
    // SAFETY: as in `settings_save`.
    unsafe { g7110_settings_read(state, revision, text, report) }
}

/// The ending, which is 0.
pub fn settings_wipe(state: &mut [u32; 41]) -> u32 {
    // SAFETY: as in `settings_save`.
    unsafe { g7110_settings_wipe(state) }
}

/// The ending; the report is octets of the result, frames kept, octets kept and samples filled.
pub fn mend(octets: &[u8], law: u32, total: u64, out: &mut [u8], report: &mut [u64; 4]) -> u32 {
    // SAFETY: as in `read`.
    unsafe { g7110_mend(octets.as_ptr(), octets.len(), law, total, out.as_mut_ptr(), out.len(), report) }
}

/// The ending; the report is law, set, block and greeting.
pub fn settings_get(state: &[u32; 41], revision: u32, report: &mut [u64; 4]) -> u32 {
    // SAFETY: as in `settings_save`.
    unsafe { g7110_settings_get(state, revision, report) }
}

/// The ending, which is 0; the report is the numbers of the kept revisions, then 0.
pub fn settings_kept(state: &[u32; 41], report: &mut [u64; 8]) -> u32 {
    // SAFETY: as in `settings_save`.
    unsafe { g7110_settings_kept(state, report) }
}

/// The ending; the report is that of `mend`, and how its walk stopped: number, place, tool and bit.
pub fn mend_why(octets: &[u8], law: u32, total: u64, report: &mut [u64; 8]) -> u32 {
    // SAFETY: as in `read`.
    unsafe { g7110_mend_why(octets.as_ptr(), octets.len(), law, total, report) }
}

/// How many cells a store's table needs for a block of a size.
pub fn store_cells(size: u64) -> u64 {
    // SAFETY: a number in, a number out.
    unsafe { g7110_store_cells(size) }
}

/// The ending; the report is the start and the octets moved.
pub fn store_put(
    block: &mut [u8], table: &mut [u32], law: u32, number: u32, octets: &[u8], report: &mut [u64; 2],
) -> u32 {
    let (b, t) = (block.as_mut_ptr(), table.as_mut_ptr());
    // SAFETY: as in `read`; a slice of u32 is aligned.
    unsafe { g7110_store_put(b, block.len(), t, table.len(), law, number, octets.as_ptr(), octets.len(), report) }
}

/// The ending; the report is the start and the octets.
pub fn store_get(block: &[u8], table: &[u32], number: u32, report: &mut [u64; 2]) -> u32 {
    // SAFETY: as in `store_put`.
    unsafe { g7110_store_get(block.as_ptr(), block.len(), table.as_ptr(), table.len(), number, report) }
}

/// The ending; the report is start, octets, law, samples and how many marks.
pub fn store_info(block: &[u8], table: &[u32], number: u32, report: &mut [u64; 5]) -> u32 {
    // SAFETY: as in `store_put`.
    unsafe { g7110_store_info(block.as_ptr(), block.len(), table.as_ptr(), table.len(), number, report) }
}

/// The ending; the report is number, start, octets, law, samples and how many marks.
pub fn store_at(block: &[u8], table: &[u32], index: u64, report: &mut [u64; 6]) -> u32 {
    // SAFETY: as in `store_put`.
    unsafe { g7110_store_at(block.as_ptr(), block.len(), table.as_ptr(), table.len(), index, report) }
}

/// The ending; the report is greetings, octets held, octets free and the largest gap.
pub fn store_totals(block: &[u8], table: &[u32], report: &mut [u64; 4]) -> u32 {
    // SAFETY: as in `store_put`.
    unsafe { g7110_store_totals(block.as_ptr(), block.len(), table.as_ptr(), table.len(), report) }
}

/// The ending.
pub fn store_delete(block: &[u8], table: &mut [u32], number: u32) -> u32 {
    // SAFETY: as in `store_put`.
    unsafe { g7110_store_delete(block.as_ptr(), block.len(), table.as_mut_ptr(), table.len(), number) }
}

/// The ending; the report is law, items, octets behind the heading, samples, tool and the refusal's bit.
pub fn file_read(octets: &[u8], set: u32, out: &mut [u8], items: &mut [u16], report: &mut [u64; 6]) -> u32 {
    let (out, out_len, items, items_len) = (out.as_mut_ptr(), out.len(), items.as_mut_ptr(), items.len());
    // SAFETY: as in `read`; a slice of u16 is aligned.
    unsafe { g7110_file_read(octets.as_ptr(), octets.len(), set, out, out_len, items, items_len, report) }
}

/// The ending; the report is the octets of the file.
pub fn file_write(samples: &[u8], items: &[u16], law: u32, set: u32, out: &mut [u8], report: &mut [u64; 1]) -> u32 {
    let (s, s_len, i, i_len) = (samples.as_ptr(), samples.len(), items.as_ptr(), items.len());
    // SAFETY: as in `file_read`.
    unsafe { g7110_file_write(s, s_len, i, i_len, law, set, out.as_mut_ptr(), out.len(), report) }
}

/// The ending; the report is the frame, its place in the greeting, the sample's place in the frame and the frames read.
pub fn store_jump(block: &[u8], table: &[u32], number: u32, sample: u64, report: &mut [u64; 4]) -> u32 {
    // SAFETY: as in `store_put`.
    unsafe { g7110_store_jump(block.as_ptr(), block.len(), table.as_ptr(), table.len(), number, sample, report) }
}

/// The ending; the report is the start and the octets moved, as of `store_put`, and nothing is changed.
pub fn store_try(block: &[u8], table: &[u32], law: u32, number: u32, octets: &[u8], report: &mut [u64; 2]) -> u32 {
    // SAFETY: as in `store_put`.
    unsafe {
        g7110_store_try(
            block.as_ptr(),
            block.len(),
            table.as_ptr(),
            table.len(),
            law,
            number,
            octets.as_ptr(),
            octets.len(),
            report,
        )
    }
}

/// The ending; the report is the greeting's number, where it lies, where it goes and its octets.
pub fn store_next(block: &[u8], table: &[u32], report: &mut [u64; 4]) -> u32 {
    // SAFETY: as in `store_put`.
    unsafe { g7110_store_next(block.as_ptr(), block.len(), table.as_ptr(), table.len(), report) }
}

/// The ending.
pub fn store_moved(block: &[u8], table: &mut [u32], number: u32, to: u64) -> u32 {
    // SAFETY: as in `store_put`.
    unsafe { g7110_store_moved(block.as_ptr(), block.len(), table.as_mut_ptr(), table.len(), number, to) }
}

/// The ending.
pub fn store_renumber(block: &[u8], table: &mut [u32], number: u32, to: u32) -> u32 {
    // SAFETY: as in `store_put`.
    unsafe { g7110_store_renumber(block.as_ptr(), block.len(), table.as_mut_ptr(), table.len(), number, to) }
}

/// The ending; where it is 0, `next` is the record after the step.
pub fn move_step(block: &mut [u8], spare: &mut [u8], record: &[u32; 8], next: &mut [u32; 8]) -> u32 {
    // SAFETY: both slices and both records are live for the call, and the borrows keep them apart.
    unsafe { g7110_move_step(block.as_mut_ptr(), block.len(), spare.as_mut_ptr(), spare.len(), record, next) }
}

/// The archive's version.
pub fn version() -> u32 {
    // SAFETY: nothing is lent.
    unsafe { g7110_version() }
}

/// The ending; the report is that of `walk`, with room never short.
pub fn check(octets: &[u8], law: u32, set: u32, report: &mut [u64; 5]) -> u32 {
    // SAFETY: as in `read`.
    unsafe { g7110_check(octets.as_ptr(), octets.len(), law, set, report) }
}

/// The ending; the report is tool and samples.
pub fn head(octets: &[u8], set: u32, report: &mut [u64; 2]) -> u32 {
    // SAFETY: as in `read`.
    unsafe { g7110_head(octets.as_ptr(), octets.len(), set, report) }
}

/// The ending; the report is the law and the heading's octets.
pub fn file_head(octets: &[u8], report: &mut [u64; 2]) -> u32 {
    // SAFETY: as in `read`.
    unsafe { g7110_file_head(octets.as_ptr(), octets.len(), report) }
}

/// The ending; the report is kind, samples, octets, tool, the refusal's bit and the next place.
pub fn file_next(octets: &[u8], at: u64, law: u32, set: u32, out: &mut [u8], report: &mut [u64; 6]) -> u32 {
    // SAFETY: as in `read`.
    unsafe { g7110_file_next(octets.as_ptr(), octets.len(), at, law, set, out.as_mut_ptr(), out.len(), report) }
}

/// The ending; the master's values stand in `out`.
pub fn to_master(samples: &[u8], law: u32, out: &mut [i16]) -> u32 {
    // SAFETY: as in `to_linear`.
    unsafe { g7110_to_master(samples.as_ptr(), samples.len(), law, out.as_mut_ptr(), out.len()) }
}

/// The ending; the octets stand in `out`.
pub fn from_master(master: &[i16], law: u32, out: &mut [u8]) -> u32 {
    // SAFETY: as in `to_linear`.
    unsafe { g7110_from_master(master.as_ptr(), master.len(), law, out.as_mut_ptr(), out.len()) }
}
