//! A damaged greeting, mended: document 02, R-12. The header says what is kept and what is filled.

use crate::{raw, Law};
use std::fmt;

/// Samples of a greeting that is mended, at most.
pub const MOST_TOTAL: u64 = 1_000_000;

/// Why a greeting was not mended. Then nothing was written.
#[derive(Clone, Copy, Debug, PartialEq, Eq)]
pub enum Refusal {
    /// A refusal of document 01: the greeting or the result is too long, or the output too short.
    Frame(crate::Refusal),
    /// The total is not a multiple of 40, or above 1,000,000.
    Total,
}

impl Refusal {
    /// The refusal of an ending that is not 0.
    fn of(ending: u32) -> Refusal {
        match ending {
            4 => Refusal::Frame(crate::Refusal::Room),
            13 => Refusal::Frame(crate::Refusal::Long),
            22 => Refusal::Total,
            _ => unreachable!("the header has no ending {ending} of this call"),
        }
    }

    /// The number in the header.
    pub fn number(self) -> u32 {
        match self {
            Refusal::Frame(why) => why.number(),
            Refusal::Total => 22,
        }
    }
}

impl fmt::Display for Refusal {
    fn fmt(&self, f: &mut fmt::Formatter) -> fmt::Result {
        match self {
            Refusal::Frame(why) => why.fmt(f),
            Refusal::Total => f.write_str("the total is not a multiple of 40, or above 1,000,000"),
        }
    }
}

impl std::error::Error for Refusal {}

/// A mended greeting: its octets, and what was kept and filled.
#[derive(Clone, Copy, Debug, PartialEq, Eq)]
pub struct Mended {
    /// Octets of the result, at the start of what was lent.
    pub octets: usize,
    /// Frames kept, pads too.
    pub frames: usize,
    /// Octets kept: the greeting's first.
    pub kept: usize,
    /// Samples that plus zeros fill, behind those kept.
    pub filled: usize,
}

/// Mends a greeting whose true total of samples is known, into the octets lent.
pub fn mend(octets: &[u8], law: Law, total: u64, out: &mut [u8]) -> Result<Mended, Refusal> {
    let mut report = [0; 4];
    match raw::mend(octets, law.number(), total, out, &mut report) {
        0 => {
            let [octets, frames, kept, filled] = report.map(|number| number as usize);
            Ok(Mended { octets, frames, kept, filled })
        }
        ending => Err(Refusal::of(ending)),
    }
}

/// What [`mend`] would answer with room enough, and how the walk of what is kept stopped.
#[derive(Clone, Copy, Debug, PartialEq, Eq)]
pub struct Why {
    pub mended: Mended,
    /// The refusal's number in the header; 0 where the walk went to the end, or up to the total.
    pub stop: u32,
    /// The tool of a refused frame, where it is G7110_TOOL.
    pub tool: u32,
    /// The refused frame's bad bit, counted from its start, which is `mended.kept`.
    pub bit: usize,
}

/// How much of a greeting a mending keeps, and why it ends there. Nothing is written.
pub fn why(octets: &[u8], law: Law, total: u64) -> Result<Why, Refusal> {
    let mut report = [0; 8];
    match raw::mend_why(octets, law.number(), total, &mut report) {
        0 => {
            let [octets, frames, kept, filled, _, _, _, bit] = report.map(|number| number as usize);
            let mended = Mended { octets, frames, kept, filled };
            Ok(Why { mended, stop: report[4] as u32, tool: report[6] as u32, bit })
        }
        ending => Err(Refusal::of(ending)),
    }
}
