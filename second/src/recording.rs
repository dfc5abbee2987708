//! The storage file of studios (document 02, R-1): a heading, then frames and
//! marks for lost frames. The heading and the two marks stand here and nowhere
//! else: they are remembered, and not taken from the RFC itself.

use crate::law::ALL_TOOLS;
use crate::read::{read_frame, ReadReport};
use crate::walk::MOST_OCTETS;
use crate::write::write_frame;
use crate::MOST_SAMPLES;

/// What a heading begins with. The letter of the law follows.
const NAME: &[u8] = b"#!G7110";
/// The letters, by the number of the law.
const LETTERS: [u8; 2] = [b'A', b'M'];
/// Behind the letter: a line feed, and the only version there is.
const VERSION: &[u8] = &[0x0A, 0x00];
/// A lost frame whose length is not known.
pub(crate) const LOST: u8 = 0x01;
/// Samples of an erasure frame, by law: all of them 0++, or all 0--, which
/// are the signed numbers 1 and -2.
const ERASED: [[u8; 2]; 2] = [[0xD4, 0x54], [0xFE, 0x7E]];

/// What is added to the length of a loss in a list of items.
pub const LOSS: u16 = 32_768;

const LENGTHS: [u16; 6] = [0, 40, 80, 160, 240, 320];

const ROOM: u32 = 4;
const LENGTH: u32 = 10;
const SET: u32 = 11;
const LAW: u32 = 12;
const LONG: u32 = 13;
const HEAD: u32 = 14;

#[derive(Clone, Copy, Debug, Default, PartialEq, Eq)]
pub struct FileReport {
    /// 0, or the number of the refusal that ended the reading.
    pub ending: u32,
    pub law: u32,
    /// Items read, pads and losses among them.
    pub items: usize,
    /// Octets of these items, counted from the heading's end; so also the
    /// place of an item that is refused.
    pub octets: usize,
    /// Samples of the frames alone.
    pub samples: usize,
    pub tool: u32,
    pub bit: usize,
}

/// Reads a file: the samples of its frames to `out`, and each item to `items`,
/// a frame as its length, a loss as `LOSS` plus its length, 0 if not known.
pub fn read_file(octets: &[u8], set: u32, out: &mut [u8], items: &mut [u16]) -> FileReport {
    let mut report = FileReport::default();
    if set > ALL_TOOLS {
        return FileReport { ending: SET, ..report };
    }
    let Some(law) = (0..2).find(|&law| octets.starts_with(&heading(law))) else {
        return FileReport { ending: HEAD, ..report };
    };
    report.law = law;
    let body = &octets[heading(law).len()..];
    if body.len() > MOST_OCTETS {
        return FileReport { ending: LONG, ..report };
    }
    while report.octets < body.len() {
        let Some(place) = items.get_mut(report.items) else {
            return FileReport { ending: ROOM, ..report };
        };
        match read_item(&body[report.octets..], law, set, out.len() - report.samples) {
            Ok(item) => {
                let end = report.samples + item.samples.len();
                out[report.samples..end].copy_from_slice(&item.samples);
                *place = item.code;
                report.items += 1;
                report.octets += item.octets;
                report.samples = end;
            }
            Err(ReadReport { ending, tool, bit, .. }) => {
                return FileReport { ending, tool, bit, ..report };
            }
        }
    }
    report
}

struct Item {
    /// What it is in a list of items.
    code: u16,
    octets: usize,
    /// None but a frame's: those of a loss are not sound.
    samples: Vec<u8>,
}

/// The item at the start of `rest`, of which there is at least one octet. An
/// erasure frame is read as any frame is, and then kept back.
fn read_item(rest: &[u8], law: u32, set: u32, room: usize) -> Result<Item, ReadReport> {
    if rest[0] == LOST {
        return Ok(Item { code: LOSS, octets: 1, samples: vec![] });
    }
    let mut held = [0; MOST_SAMPLES];
    let frame = read_frame(rest, law, set, &mut held[..room.min(MOST_SAMPLES)]);
    if frame.ending != 0 {
        return Err(frame);
    }
    let samples = &held[..frame.samples];
    let (code, octets) = (frame.samples as u16, frame.octets);
    if is_erased(samples, law) {
        Ok(Item { code: LOSS + code, octets, samples: vec![] })
    } else {
        Ok(Item { code, octets, samples: samples.to_vec() })
    }
}

/// Writes a file of these items, the frames' samples one after another. Gives
/// the octets of the whole file, or the number of the refusal: then nothing is
/// written.
pub fn write_file(samples: &[u8], items: &[u16], law: u32, set: u32, out: &mut [u8]) -> Result<usize, u32> {
    if law > 1 {
        return Err(LAW);
    }
    if set > ALL_TOOLS || set % 2 == 0 {
        return Err(SET);
    }
    if !items.iter().all(|&item| LENGTHS.contains(&(item % LOSS))) {
        return Err(LENGTH);
    }
    let frames = items.iter().filter(|&&item| item < LOSS);
    if frames.map(|&item| usize::from(item)).sum::<usize>() != samples.len() {
        return Err(LENGTH);
    }
    let mut file = heading(law);
    let mut rest = samples;
    for &item in items {
        let length = usize::from(item % LOSS);
        if item == LOSS {
            file.push(LOST);
        } else if item > LOSS {
            file.extend(form(&vec![ERASED[law as usize][0]; length], law, set));
        } else {
            let (frame, behind) = rest.split_at(length);
            file.extend(form(frame, law, set));
            rest = behind;
        }
    }
    if file.len() - heading(law).len() > MOST_OCTETS {
        return Err(LONG);
    }
    out.get_mut(..file.len()).ok_or(ROOM)?.copy_from_slice(&file);
    Ok(file.len())
}

/// The heading of a law's file.
pub fn heading(law: u32) -> Vec<u8> {
    [NAME, &[LETTERS[law as usize]], VERSION].concat()
}

/// Whether samples are those of an erasure frame; a pad has none and is none.
pub fn is_erased(samples: &[u8], law: u32) -> bool {
    let all = |erased: u8| samples.iter().all(|&sample| sample == erased);
    !samples.is_empty() && ERASED[law as usize].into_iter().any(all)
}

fn form(frame: &[u8], law: u32, set: u32) -> Vec<u8> {
    let mut octets = [0; MOST_SAMPLES + 1];
    let wrote = write_frame(frame, law, set, &mut octets);
    octets[..wrote.octets].to_vec()
}
