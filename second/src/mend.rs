//! Mending a damaged greeting (document 02, R-12).

use crate::law::ALL_TOOLS;
use crate::read::read_frame;
use crate::walk::{walk, MOST_OCTETS};
use crate::MOST_SAMPLES;

const ROOM: u32 = 4;
const LAW: u32 = 12;
const LONG: u32 = 13;
const TOTAL: u32 = 22;

const MOST_TOTAL: u64 = 1_000_000;

/// Constant plus zero frames, the longest first: samples, and the one octet.
const FILLING: [(usize, u8); 5] = [(320, 0x31), (240, 0x21), (160, 0xC1), (80, 0x81), (40, 0x41)];

#[derive(Clone, Copy, Debug, Default, PartialEq, Eq)]
pub struct Mended {
    /// Octets of the result.
    pub octets: usize,
    pub frames_kept: usize,
    pub octets_kept: usize,
    pub samples_filled: usize,
}

/// Writes the mended greeting to the start of `out`, or gives the number of
/// the refusal: then nothing is written.
pub fn mend(octets: &[u8], law: u32, total: u64, out: &mut [u8]) -> Result<Mended, u32> {
    if law > 1 {
        return Err(LAW);
    }
    if octets.len() > MOST_OCTETS {
        return Err(LONG);
    }
    if total % 40 != 0 || total > MOST_TOTAL {
        return Err(TOTAL);
    }
    let kept = keep(octets, law, total as usize);
    let samples_filled = total as usize - kept.samples;
    let mut result = octets[..kept.octets].to_vec();
    result.extend(filling(samples_filled));
    if result.len() > MOST_OCTETS {
        return Err(LONG);
    }
    out.get_mut(..result.len()).ok_or(ROOM)?.copy_from_slice(&result);
    Ok(Mended {
        octets: result.len(),
        frames_kept: kept.frames,
        octets_kept: kept.octets,
        samples_filled,
    })
}

/// Octets, frames kept, octets kept, samples filled, then how the walk of what
/// is kept stopped: number (0 where it went to the end or up to the total),
/// place, tool, bit. Refused as [`mend`], less ROOM: then the report is zeros.
pub fn mend_why(octets: &[u8], law: u32, total: u64) -> (u32, [u64; 8]) {
    if law > 1 {
        return (LAW, [0; 8]);
    }
    if octets.len() > MOST_OCTETS {
        return (LONG, [0; 8]);
    }
    if total % 40 != 0 || total > MOST_TOTAL {
        return (TOTAL, [0; 8]);
    }
    // As the walk with all tools and room `total` stops.
    let stop = walk(octets, law, ALL_TOOLS, &mut vec![0; total as usize]);
    let filled = total - stop.samples as u64;
    let result = stop.octets as u64 + filling_octets(filled);
    if result > MOST_OCTETS as u64 {
        return (LONG, [0; 8]);
    }
    // ROOM is how the walk says that the total is reached; its tool and bit are 0.
    let number = if stop.ending == ROOM { 0 } else { stop.ending };
    let (frames, kept) = (stop.frames as u64, stop.octets as u64);
    let (number, tool) = (u64::from(number), u64::from(stop.tool));
    (0, [result, frames, kept, filled, number, kept, tool, stop.bit as u64])
}

/// How many frames of plus zeros fill so many samples, an octet each: those of
/// 320, then for 40 times 0 to 7 none, 40, 80, 80 and 40, 160, 160 and 40, 240,
/// 240 and 40.
fn filling_octets(samples: u64) -> u64 {
    const REST: [u64; 8] = [0, 1, 1, 2, 1, 2, 1, 2];
    samples / 320 + REST[(samples % 320 / 40) as usize]
}

#[derive(Default)]
struct Kept {
    frames: usize,
    octets: usize,
    samples: usize,
}

/// The whole frames from the start, up to the first that is refused or that
/// would pass the total. A pad never passes it, so pads at the total are kept.
fn keep(octets: &[u8], law: u32, total: usize) -> Kept {
    let mut kept = Kept::default();
    while kept.octets < octets.len() {
        let frame = read_frame(&octets[kept.octets..], law, ALL_TOOLS, &mut [0; MOST_SAMPLES]);
        if frame.ending != 0 || kept.samples + frame.samples > total {
            break;
        }
        kept.frames += 1;
        kept.octets += frame.octets;
        kept.samples += frame.samples;
    }
    kept
}

/// Frames of plus zeros for so many samples.
fn filling(samples: usize) -> Vec<u8> {
    let mut octets = vec![];
    let mut left = samples;
    for (length, octet) in FILLING {
        while left >= length {
            octets.push(octet);
            left -= length;
        }
    }
    octets
}
