//! A stream judged without room for its samples.

use crate::read::{self, read_frame};
use crate::walk::MOST_OCTETS;
use crate::MOST_SAMPLES;

const LONG: u32 = 13;

/// Frames, octets (the place), samples, tool, bit, as the walk with room never
/// short; before them 0, or the number of the refusal: LAW, SET, LONG, then the
/// frame's. A refused one keeps the frames before it, as a walk does.
pub fn check(octets: &[u8], law: u32, set: u32) -> (u32, [u64; 5]) {
    if let Err(refusal) = read::check(law, set) {
        return (refusal.number(), [0; 5]);
    }
    if octets.len() > MOST_OCTETS {
        return (LONG, [0; 5]);
    }
    // One frame's room, used over and over: no frame is longer.
    let mut room = [0; MOST_SAMPLES];
    let (mut frames, mut at, mut samples) = (0, 0, 0);
    while at < octets.len() {
        let frame = read_frame(&octets[at..], law, set, &mut room);
        if frame.ending != 0 {
            let (tool, bit) = (u64::from(frame.tool), frame.bit as u64);
            return (frame.ending, [frames, at as u64, samples, tool, bit]);
        }
        frames += 1;
        at += frame.octets;
        samples += frame.samples as u64;
    }
    (0, [frames, at as u64, samples, 0, 0])
}
