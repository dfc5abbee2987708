//! A file of studios, piece by piece: its heading, and one item at a place.

use crate::law::ALL_TOOLS;
use crate::read::read_frame;
use crate::recording::{heading, is_erased, LOST};
use crate::walk::MOST_OCTETS;
use crate::MOST_SAMPLES;

const SHORT: u32 = 1;
const SET: u32 = 11;
const LAW: u32 = 12;
const LONG: u32 = 13;
const HEAD: u32 = 14;

/// What an item is.
const FRAME: u64 = 0;
const LOSS: u64 = 1;

/// Law, 10; HEAD if the octets don't begin with a heading. Any octets may
/// follow; no LONG.
pub fn file_head(octets: &[u8]) -> (u32, [u64; 2]) {
    for law in [0, 1] {
        let heading = heading(law);
        if octets.get(..heading.len()) == Some(&heading[..]) {
            return (0, [u64::from(law), heading.len() as u64]);
        }
    }
    (HEAD, [0; 2])
}

/// One item at place `at` behind the heading (`octets` is what stands behind
/// the heading): kind (0 frame, 1 loss), samples (of a loss its length, 0 where
/// not known), octets, tool, bit, the next place. A loss writes nothing.
/// Refused with LAW, SET, LONG, SHORT where `at` is not below the octets, then
/// the frame's; a refused one reports 0, 0, 0, tool, bit, at.
pub fn file_next(octets: &[u8], at: u64, law: u32, set: u32, out: &mut [u8]) -> (u32, [u64; 6]) {
    let refused =
        |number: u32, tool: u32, bit: usize| (number, [0, 0, 0, u64::from(tool), bit as u64, at]);
    if law > 1 {
        return refused(LAW, 0, 0);
    }
    if set > ALL_TOOLS {
        return refused(SET, 0, 0);
    }
    // All octets count, not only those from `at` on.
    if octets.len() > MOST_OCTETS {
        return refused(LONG, 0, 0);
    }
    // A place that is below the octets goes into a usize.
    if at >= octets.len() as u64 {
        return refused(SHORT, 0, 0);
    }
    let rest = &octets[at as usize..];
    if rest[0] == LOST {
        return (0, [LOSS, 0, 1, 0, 0, at + 1]);
    }
    // An erasure frame needs its room while it is read, and then writes
    // nothing, so every frame is read beside the room that is lent.
    let mut held = [0; MOST_SAMPLES];
    let room = out.len().min(MOST_SAMPLES);
    let frame = read_frame(rest, law, set, &mut held[..room]);
    if frame.ending != 0 {
        return refused(frame.ending, frame.tool, frame.bit);
    }
    let samples = &held[..frame.samples];
    let kind = if is_erased(samples, law) { LOSS } else { FRAME };
    if kind == FRAME {
        out[..samples.len()].copy_from_slice(samples);
    }
    let used = frame.octets as u64;
    (0, [kind, frame.samples as u64, used, u64::from(frame.tool), 0, at + used])
}
