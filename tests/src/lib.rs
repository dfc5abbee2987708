//! What is run and compared. Vectors are lines of text in `vectors/`; a back end is an implementation of
//! [`Codec`]; [`check`] runs one vector, and its neighbours, on one back end. docs/TESTING.md has the line format.
//!
//! A [`Pair`] asks two back ends the same. [`forms`], [`digits`], [`faults`], [`frames`] and [`streams`] make what they are asked,
//! and a [`Table`] counts what was met. [`settings`] does the same for a box's settings, [`why`] for the lines that say why a
//! tool was taken, [`mend`] for a greeting that is mended, [`store`] for the
//! greetings of a box, [`told_store`] for what these tell of themselves, [`file`] for the recordings of studios. [`wrong`] has back ends that must be found out.

#![deny(unsafe_code)]

mod codec;
mod compare;
pub mod digits;
pub mod docs;
pub mod faults;
pub mod file;
pub mod forms;
pub mod frames;
pub mod further;
pub mod fuzz;
pub mod measure;
pub mod mend;
pub mod met;
mod notation;
mod pair;
pub mod program;
pub mod published;
pub mod recordings;
pub mod settings;
mod share;
pub mod stack;
pub mod store;
pub mod streams;
mod table;
pub mod told_store;
pub mod tools;
mod vectors;
pub mod why;
pub mod windows;
pub mod wrong;

pub use codec::{Codec, Proved, Read, Second, Walk, Write};
pub use compare::{check, check_firsts, Compared};
pub use notation::{bits, octets};
pub use pair::Pair;
pub use share::{goes_on, in_tenth, share, tenth, tenths};
pub use table::{say, Table};
pub use vectors::{firsts, vectors, Ask, Call, First, Settled, Vector};

/// The endings of document 01 by name, in the order of their numbers; 0 is an accepted call.
pub const ENDINGS: [&str; 14] = [
    "ok", "SHORT", "PREFIX", "TOOL", "ROOM", "CASE", "METHOD", "RUN", "PLACE", "ALIGN", "LENGTH", "SET", "LAW", "LONG",
];

/// The tools that are carried; tool 11 came with document 02, R-14. A set has a bit for each, in this order.
pub const TOOLS: [u32; 8] = [1, 2, 3, 4, 5, 6, 7, 11];
/// The set of all of them; and the listing program's, which is that of before R-14.
pub const ALL_TOOLS: u32 = 255;
pub const LISTED_TOOLS: u32 = 127;

/// What a tool adds to a set; one that is not carried adds nothing.
pub fn set_of(tool: u32) -> u32 {
    TOOLS.iter().position(|known| *known == tool).map_or(0, |at| 1 << at)
}

/// A writer's set at random.
pub fn odd_set(rng: &mut second::gen::Prng) -> u32 {
    rng.below(ALL_TOOLS as usize + 1) as u32 | 1
}

/// Octets of the longest stream that a walk takes (document 02, R-11), and of the longest that the listing program takes.
pub const MOST: usize = 1_048_576;
pub const MOST_LISTED: usize = 65_535;

/// The number of an ending that is known here by name.
pub fn ending(name: &str) -> Option<u32> {
    ENDINGS.iter().position(|known| *known == name).map(|at| at as u32)
}
