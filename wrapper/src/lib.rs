//! G.711.0 frames of the eight carried tools, read, written and walked by the proved code of libg7110.a; frames of samples
//! converted to linear values and back; [`why`] a frame takes its tool; a box's [`settings`], saved and put back; a damaged
//! greeting, [`mending`] it; a [`store`] of greetings, its table [`saved`] and loaded; and a [`recording`] of a studio, whose lost
//! frames are handed on as lost.
//!
//! include/g7110.h is the manual; the names here are its names. No call uses the heap.

#![deny(unsafe_code)]

pub mod mending;
pub mod raw;
#[cfg(feature = "writer")]
mod reasons;
pub mod recording;
pub mod saved;
pub mod settings;
pub mod store;

#[cfg(feature = "writer")]
pub use reasons::{why, Reasons, State, TOOLS, WHY_TEXT};

use std::fmt;

/// The law of the samples. It is not in the octets.
#[derive(Clone, Copy, Debug, PartialEq, Eq)]
pub enum Law {
    A,
    Mu,
}

impl Law {
    fn number(self) -> u32 {
        match self {
            Law::A => 0,
            Law::Mu => 1,
        }
    }
}

/// The header's version.
pub const VERSION: u32 = 13;
/// Its major and minor: an addition, after which all that was there answers as it did, is minor.
pub const VERSION_MAJOR: u32 = 4;
pub const VERSION_MINOR: u32 = 1;
/// Octets of stack that a call uses at most: a bound from the archive's instructions, and measured; not proved.
pub const STACK: usize = 10_240;
/// Every carried tool. Tool t, 1 to 7, adds 2^(t-1) to a set, tool 11 adds 128; a writer's set is odd.
pub const ALL_TOOLS: u32 = 255;
/// All but tool 11: what every version reads, and so what boxes in the field are sent.
pub const FIELD_TOOLS: u32 = 127;
/// Samples of the longest frame.
pub const MAX_SAMPLES: usize = 320;
/// Octets of the longest written frame.
pub const MAX_WRITTEN: usize = 321;
/// Octets of the longest accepted frame.
pub const MAX_FRAME: usize = 402;
/// Octets of the longest stream that a walk takes.
pub const MAX_STREAM: usize = 1_048_576;

/// Why a call was refused.
#[derive(Clone, Copy, Debug, PartialEq, Eq)]
pub enum Refusal {
    Short,
    Prefix,
    /// The tool that is not carried, or not in the set.
    Tool(u32),
    Room,
    Case,
    Method,
    Run,
    Place,
    Align,
    Length,
    Set,
    Law,
    Long,
}

impl Refusal {
    /// The refusal of an ending that is not 0.
    fn of(ending: u32, tool: u64) -> Refusal {
        match ending {
            1 => Refusal::Short,
            2 => Refusal::Prefix,
            3 => Refusal::Tool(tool as u32),
            4 => Refusal::Room,
            5 => Refusal::Case,
            6 => Refusal::Method,
            7 => Refusal::Run,
            8 => Refusal::Place,
            9 => Refusal::Align,
            10 => Refusal::Length,
            11 => Refusal::Set,
            12 => Refusal::Law,
            13 => Refusal::Long,
            _ => unreachable!("the header has no ending {ending}"),
        }
    }

    /// The number in the header.
    pub fn number(self) -> u32 {
        match self {
            Refusal::Short => 1,
            Refusal::Prefix => 2,
            Refusal::Tool(_) => 3,
            Refusal::Room => 4,
            Refusal::Case => 5,
            Refusal::Method => 6,
            Refusal::Run => 7,
            Refusal::Place => 8,
            Refusal::Align => 9,
            Refusal::Length => 10,
            Refusal::Set => 11,
            Refusal::Law => 12,
            Refusal::Long => 13,
        }
    }
}

impl fmt::Display for Refusal {
    fn fmt(&self, f: &mut fmt::Formatter) -> fmt::Result {
        f.write_str(match self {
            Refusal::Tool(tool) => return write!(f, "tool {tool} is not carried, or not in the set"),
            Refusal::Short => "the octets end before the frame does",
            Refusal::Prefix => "the first octet is not assigned",
            Refusal::Room => "the output has too little room",
            Refusal::Case => "the range case or its flag is not allowed",
            Refusal::Method => "there is no method 110",
            Refusal::Run => "a run is longer than the places left",
            Refusal::Place => "a listed place is too great or does not rise, or five samples of tool 11 are no digits",
            Refusal::Align => "a filling bit is not 0",
            Refusal::Length => "a frame has 0, 40, 80, 160, 240 or 320 samples",
            Refusal::Set => "the tool set is above 255, or even for a writer",
            Refusal::Law => "the law is above 1",
            Refusal::Long => "the stream has more than 1,048,576 octets",
        })
    }
}

impl std::error::Error for Refusal {}

/// Why a frame was refused, and which bit was bad: counted from 0 at the frame's start, the first missing one for SHORT.
/// It is 0 for PREFIX, TOOL, ROOM and for what no frame can be blamed for.
#[derive(Clone, Copy, Debug, PartialEq, Eq)]
pub struct Refused {
    pub why: Refusal,
    pub bit: usize,
}

impl fmt::Display for Refused {
    fn fmt(&self, f: &mut fmt::Formatter) -> fmt::Result {
        write!(f, "{}, at bit {}", self.why, self.bit)
    }
}

impl std::error::Error for Refused {}

/// A frame that was read; its samples stand at the start of the output.
#[derive(Clone, Copy, Debug, PartialEq, Eq)]
pub struct Read {
    pub samples: usize,
    pub octets: usize,
    pub bits: usize,
    pub tool: u32,
}

/// A frame that was written; its octets stand at the start of the output.
#[derive(Clone, Copy, Debug, PartialEq, Eq)]
pub struct Written {
    pub octets: usize,
    pub bits: usize,
    pub tool: u32,
}

/// The frames that a walk kept; their samples stand at the start of the output.
#[derive(Clone, Copy, Debug, PartialEq, Eq)]
pub struct Walk {
    pub frames: usize,
    /// Octets of the frames kept, and so the place of the frame that was refused.
    pub octets: usize,
    pub samples: usize,
    /// What ended the walk before the stream's end.
    pub refused: Option<Refused>,
}

/// Reads one frame at the start of the octets. What is refused leaves the output as it was.
pub fn read(octets: &[u8], law: Law, set: u32, out: &mut [u8]) -> Result<Read, Refused> {
    let mut report = [0; 5];
    let ending = raw::read(octets, law.number(), set, out, &mut report);
    let [samples, octets, bits, tool, bit] = report;
    match ending {
        0 => Ok(Read { samples: samples as usize, octets: octets as usize, bits: bits as usize, tool: tool as u32 }),
        _ => Err(Refused { why: Refusal::of(ending, tool), bit: bit as usize }),
    }
}

/// Writes one frame in the chosen form: of the set's tools that apply, the fewest octets.
#[cfg(feature = "writer")]
pub fn write(samples: &[u8], law: Law, set: u32, out: &mut [u8]) -> Result<Written, Refusal> {
    let mut report = [0; 3];
    let ending = raw::write(samples, law.number(), set, out, &mut report);
    let [octets, bits, tool] = report;
    match ending {
        0 => Ok(Written { octets: octets as usize, bits: bits as usize, tool: tool as u32 }),
        _ => Err(Refusal::of(ending, tool)),
    }
}

/// Walks a stream, frame after frame, to its end or to a frame that is refused.
pub fn walk(octets: &[u8], law: Law, set: u32, out: &mut [u8]) -> Walk {
    let mut report = [0; 5];
    let ending = raw::walk(octets, law.number(), set, out, &mut report);
    let [frames, octets, samples, tool, bit] = report;
    let refused = (ending != 0).then(|| Refused { why: Refusal::of(ending, tool), bit: bit as usize });
    Walk { frames: frames as usize, octets: octets as usize, samples: samples as usize, refused }
}

/// Converts a frame of samples to linear values of 001's section 6.8: 13 bits for A-law, 14 for mu-law. What is refused
/// leaves the output as it was.
pub fn to_linear(samples: &[u8], law: Law, out: &mut [i16]) -> Result<(), Refusal> {
    match raw::to_linear(samples, law.number(), out) {
        0 => Ok(()),
        ending => Err(Refusal::of(ending, 0)),
    }
}

/// Converts a frame of linear values, in the same scale, to samples; other values are clipped.
pub fn from_linear(linear: &[i16], law: Law, out: &mut [u8]) -> Result<(), Refusal> {
    match raw::from_linear(linear, law.number(), out) {
        0 => Ok(()),
        ending => Err(Refusal::of(ending, 0)),
    }
}

/// The version of the archive that is linked.
pub fn version() -> u32 {
    raw::version()
}

/// Judges a stream with no room for its samples: what [`walk`] tells with room never short.
pub fn check(octets: &[u8], law: Law, set: u32) -> Walk {
    let mut report = [0; 5];
    let ending = raw::check(octets, law.number(), set, &mut report);
    let [frames, octets, samples, tool, bit] = report;
    let refused = (ending != 0).then(|| Refused { why: Refusal::of(ending, tool), bit: bit as usize });
    Walk { frames: frames as usize, octets: octets as usize, samples: samples as usize, refused }
}

/// What a frame's first one or two octets tell; a pad is tool 0 with no samples.
#[derive(Clone, Copy, Debug, PartialEq, Eq)]
pub struct Head {
    pub tool: u32,
    pub samples: usize,
}

/// Tells the tool and the samples of the frame at the start; its body is not looked at.
pub fn head(octets: &[u8], set: u32) -> Result<Head, Refusal> {
    let mut report = [0; 2];
    match (raw::head(octets, set, &mut report), report) {
        (0, [tool, samples]) => Ok(Head { tool: tool as u32, samples: samples as usize }),
        (ending, [tool, _]) => Err(Refusal::of(ending, tool)),
    }
}

/// As [`to_linear`], the values brought to the 16 bits of a master.
pub fn to_master(samples: &[u8], law: Law, out: &mut [i16]) -> Result<(), Refusal> {
    match raw::to_master(samples, law.number(), out) {
        0 => Ok(()),
        ending => Err(Refusal::of(ending, 0)),
    }
}

/// As [`from_linear`], of a master's values of 16 bits.
pub fn from_master(master: &[i16], law: Law, out: &mut [u8]) -> Result<(), Refusal> {
    match raw::from_master(master, law.number(), out) {
        0 => Ok(()),
        ending => Err(Refusal::of(ending, 0)),
    }
}
