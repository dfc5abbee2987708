//! Linear masters of 16 bits: linear values, and the shift that brings a
//! master to 001's scale.

use crate::linear::{from_linear, to_linear};
use crate::MOST_SAMPLES;

const ROOM: u32 = 4;

/// The shift of the tools: 3 for A, 2 for mu.
const SHIFTS: [u32; 2] = [3, 2];

/// As to_linear with the shift of the tools, left on the way out. Gives 0, or
/// LAW, LENGTH, ROOM: then all of `out` is as lent.
pub fn to_master(samples: &[u8], law: u32, out: &mut [i16]) -> u32 {
    let mut values = [0; MOST_SAMPLES];
    let number = to_linear(samples, law, &mut values);
    if number != 0 {
        return number;
    }
    let Some(master) = out.get_mut(..samples.len()) else {
        return ROOM;
    };
    for (place, value) in master.iter_mut().zip(values) {
        // At most 4,032 times 8, or 8,031 times 4.
        *place = value * (1 << SHIFTS[law as usize]);
    }
    0
}

/// As from_linear with the shift of the tools, arithmetic right on the way in.
/// Gives 0, or LAW, LENGTH, ROOM: then all of `out` is as lent.
pub fn from_master(master: &[i16], law: u32, out: &mut [u8]) -> u32 {
    // A law that is none has no shift, and is refused before any value is used.
    let shift = SHIFTS.get(law as usize).copied().unwrap_or(0);
    let values: Vec<i16> = master.iter().map(|&value| value >> shift).collect();
    from_linear(&values, law, out)
}
