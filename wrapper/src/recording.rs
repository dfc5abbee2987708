//! A recording from a studio, the storage file of RFC 7655: document 02, R-1. The header has the file's form, and says which
//! part of it is remembered. A lost frame is handed on as lost, never as silence.

use crate::{raw, Law};
use std::fmt;

/// What is added to a loss's length in a list of items; a frame is its number of samples.
pub const LOSS: u16 = 32_768;
/// Octets of the heading.
pub const HEADING: usize = 10;
/// Octets of the longest file, its heading too.
pub const MAX_FILE: usize = 1_048_586;

/// Why a file was refused.
#[derive(Clone, Copy, Debug, PartialEq, Eq)]
pub enum Refusal {
    /// The first ten octets are not a heading.
    Head,
    /// A refusal of document 01.
    Frame(crate::Refusal),
}

impl Refusal {
    /// The refusal of an ending that is not 0.
    fn of(ending: u32, tool: u64) -> Refusal {
        match ending {
            14 => Refusal::Head,
            _ => Refusal::Frame(crate::Refusal::of(ending, tool)),
        }
    }

    /// The number in the header.
    pub fn number(self) -> u32 {
        match self {
            Refusal::Head => 14,
            Refusal::Frame(why) => why.number(),
        }
    }
}

impl fmt::Display for Refusal {
    fn fmt(&self, f: &mut fmt::Formatter) -> fmt::Result {
        match self {
            Refusal::Head => f.write_str("the file does not begin with a heading"),
            Refusal::Frame(why) => why.fmt(f),
        }
    }
}

impl std::error::Error for Refusal {}

/// Why an item was refused, and which bit of it was bad.
#[derive(Clone, Copy, Debug, PartialEq, Eq)]
pub struct Refused {
    pub why: Refusal,
    pub bit: usize,
}

/// What was read of a file: all of it, or what stands before the item that was refused.
#[derive(Clone, Copy, Debug, PartialEq, Eq)]
pub struct Recording {
    /// The heading's, where there is one.
    pub law: Option<Law>,
    /// Frames, pads and losses, at the start of the list lent.
    pub items: usize,
    /// Octets behind the heading of these items, and so the place of the one that was refused.
    pub octets: usize,
    /// Samples of the frames, at the start of the output. A loss has none.
    pub samples: usize,
    /// What ended the reading before the file's end.
    pub refused: Option<Refused>,
}

impl Recording {
    /// The items one by one, of the list and the output that were lent to [`read`].
    pub fn each<'a>(&self, list: &'a [u16], out: &'a [u8]) -> Items<'a> {
        Items { list: list[..self.items].iter(), sound: &out[..self.samples] }
    }
}

/// One item of a recording.
#[derive(Clone, Copy, Debug, PartialEq, Eq)]
pub enum Item<'a> {
    /// A frame's samples; a pad has none.
    Frame(&'a [u8]),
    /// A lost frame: how many samples are lost, if that is known. Whoever plays it must not take it for sound.
    Lost(Option<usize>),
}

/// An iterator over the items of a recording.
#[derive(Clone, Debug)]
pub struct Items<'a> {
    list: std::slice::Iter<'a, u16>,
    sound: &'a [u8],
}

impl<'a> Iterator for Items<'a> {
    type Item = Item<'a>;

    fn next(&mut self) -> Option<Item<'a>> {
        let item = *self.list.next()?;
        if item >= LOSS {
            let lost = usize::from(item - LOSS);
            return Some(Item::Lost((lost > 0).then_some(lost)));
        }
        let (frame, rest) = self.sound.split_at(usize::from(item));
        self.sound = rest;
        Some(Item::Frame(frame))
    }

    fn size_hint(&self) -> (usize, Option<usize>) {
        self.list.size_hint()
    }
}

impl ExactSizeIterator for Items<'_> {}

/// Reads a file: its frames' samples to the start of the output, its items to that of the list.
pub fn read(octets: &[u8], set: u32, out: &mut [u8], list: &mut [u16]) -> Recording {
    let mut report = [0; 6];
    let ending = raw::file_read(octets, set, out, list, &mut report);
    let [law, items, octets, samples, tool, bit] = report;
    let why = (ending != 0).then(|| Refusal::of(ending, tool));
    let none = matches!(why, Some(Refusal::Head | Refusal::Frame(crate::Refusal::Set)));
    let law = (!none).then_some(if law == 0 { Law::A } else { Law::Mu });
    let refused = why.map(|why| Refused { why, bit: bit as usize });
    Recording { law, items: items as usize, octets: octets as usize, samples: samples as usize, refused }
}

/// Writes a file of these items, the frames' samples one after another; gives its octets. What is refused leaves the output
/// as it was.
pub fn write(samples: &[u8], list: &[u16], law: Law, set: u32, out: &mut [u8]) -> Result<usize, Refusal> {
    let mut report = [0];
    match raw::file_write(samples, list, law.number(), set, out, &mut report) {
        0 => Ok(report[0] as usize),
        ending => Err(Refusal::of(ending, 0)),
    }
}

/// The law that a file's heading says, if it begins with one.
pub fn head(octets: &[u8]) -> Option<Law> {
    let mut report = [0; 2];
    let ending = raw::file_head(octets, &mut report);
    (ending == 0).then_some(if report[0] == 0 { Law::A } else { Law::Mu })
}

/// One item of a file, and where the next one stands.
#[derive(Clone, Copy, Debug, PartialEq, Eq)]
pub struct Next<'a> {
    pub item: Item<'a>,
    pub octets: usize,
    /// The tool of its frame, of an erasure frame too; the octet 01 has none.
    pub tool: u32,
    pub place: u64,
}

/// Reads the item at a place of the octets that stand behind the heading; a frame's samples to the start of the output. From place 0
/// on, one after another, these are the items of [`read`].
pub fn next<'a>(octets: &[u8], at: u64, law: Law, set: u32, out: &'a mut [u8]) -> Result<Next<'a>, Refused> {
    let mut report = [0; 6];
    let ending = raw::file_next(octets, at, law.number(), set, out, &mut report);
    let [kind, samples, octets, tool, bit, place] = report;
    if ending != 0 {
        return Err(Refused { why: Refusal::of(ending, tool), bit: bit as usize });
    }
    let samples = samples as usize;
    let item = if kind == 1 { Item::Lost((samples > 0).then_some(samples)) } else { Item::Frame(&out[..samples]) };
    Ok(Next { item, octets: octets as usize, tool: tool as u32, place })
}
