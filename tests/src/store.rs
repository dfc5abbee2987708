//! A greeting store that fills its gaps (document 02, R-6), with marks, jumps and large blocks: a back end
//! asked call by call beside a model in plain vectors, the second program's. [`Keeps`] is a back end, [`Stores`] asks it, checks the whole block
//! and the whole table, and each promise on its own answers. [`script`] reads tests/vectors/store.txt and moves.txt.
//!
//! What lasts over a cut of power ([`Lasting`]) is written by a driver ([`Drives`]) in the order of docs/STORE.md, and [`Cutter`] cuts
//! its writes.

mod asked;
mod cuts;
mod damage;
mod draw;
mod drives;
mod first;
mod frames;
mod keeps;
mod lasting;
mod promises;
mod rows;
mod script;
mod stores;

pub use asked::{a_fresh_store, Asked};
pub use cuts::{held, Cuts, Cutter, Held, Plan, Wanted};
pub use damage::{damaged, Damaged, DAMAGES};
pub use draw::{
    change, large_profiles, profiles, short_frames, some_call, some_jump, some_move, some_store, Profile, PARTS,
};
pub use drives::{accepted, turned, AsTold, Drives, Running};
pub use first::{first_line, FIRST_LINES};
pub use frames::{a_greeting, frames_of, Frames};
pub use keeps::{Keeps, Record, Told};
pub use lasting::{page_octets, Lasting, Part, Write};
pub use rows::{asks_for_form, early_text_of, is_large, lowest_gap, rows_of, sane, text_of, whole_text_of};
pub use script::{script, Step};
pub use stores::{Call, Stores};

pub const ROOM: u32 = 4;
pub const LAW: u32 = 12;
pub const NUMBER: u32 = 15;
pub const TAKEN: u32 = 16;
pub const ABSENT: u32 = 17;
pub const BAD: u32 = 18;
pub const FULL: u32 = 19;
pub const NOROOM: u32 = 20;
pub const BEYOND: u32 = 21;
pub const TABLE: u32 = 26;
pub const MOVE: u32 = 27;
/// The endings by name.
pub const ENDINGS: [(&str, u32); 12] = [
    ("ok", 0),
    ("ROOM", ROOM),
    ("LAW", LAW),
    ("NUMBER", NUMBER),
    ("TAKEN", TAKEN),
    ("ABSENT", ABSENT),
    ("BAD", BAD),
    ("FULL", FULL),
    ("NOROOM", NOROOM),
    ("BEYOND", BEYOND),
    ("TABLE", TABLE),
    ("MOVE", MOVE),
];

pub fn ending_name(ending: u32) -> &'static str {
    ENDINGS.iter().find(|(_, number)| *number == ending).map_or("another", |(name, _)| name)
}

/// The block of a box without settings, and the greatest number of greetings.
pub const BLOCK: usize = 16_384;
pub const GREETINGS: usize = 32;
/// The greatest block.
pub const MOST_BLOCK: usize = 1_048_576;
/// The greatest start, octet count and block of a table without R-11's first line, and that line.
pub const MOST_WITHOUT: usize = 65_535;
pub const FORM: &[u8] = b"form=2\n";

/// Room that any table of a block is saved in, whatever its numbers say: the first line (7 octets), 32 times the lines of where a
/// greeting lies (13, 14 and 15), its law (6) and samples (19), and a line of 27 octets for each mark that the table has room for.
pub const fn saved_room(block: usize) -> usize {
    let size = if block < MOST_BLOCK { block } else { MOST_BLOCK };
    7 + 32 * 67 + 27 * (size / 64 + 32)
}

/// Where parts of a table begin: how many greetings, and their rows; how many, and law, samples and marks of each; all marks.
pub const ROWS: usize = 0;
pub const MORE_ROWS: usize = 97;
pub const MARKS: usize = 194;
