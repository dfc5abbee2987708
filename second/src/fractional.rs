//! Fractional-bit frames, tool 11 (document 02, R-14; 001, 7.11 and 8.9).
//!
//! A row of table 7-28 is a list of values, and a sample's digit is the place
//! of its value in that list. Digits below 2 or 4 have 1 or 2 bits each. Of
//! others, five samples are one number V in that base, the first sample its
//! lowest digit. Either way a frame is a row of numbers of equal width, so one
//! and two bits are read and written here as groups of one sample.

use crate::bits::{BitReader, BitWriter};
use crate::law::{number_of, Law};
use crate::refusal::Refusal;
use crate::MOST_SAMPLES;

/// The rows of table 7-28 as signed numbers, the least first, in the order of
/// their prefixes. A row has -1 or leaves it out; nothing else is left out.
static ROWS: [&[i8]; 12] = [
    &[0, 1],
    &[-2, -1, 0, 1],
    &[-2, 0],
    &[-2, 0, 1],
    &[-2, -1, 0],
    &[-1, 0, 1],
    &[-3, -2, 0, 1],
    &[-2, -1, 0, 1, 2],
    &[-2, 0, 1, 2],
    &[-3, -2, -1, 0, 1, 2],
    &[-3, -2, 0, 1, 2],
    &[-4, -3, -2, 0, 1, 2],
];

const LEAST: i8 = -4;

/// The first octets of a length: the first row's, and how many rows it has.
const fn first_octets(samples: usize) -> (u8, u8) {
    match samples {
        40 => (2, 12),
        80 => (14, 6),
        160 => (20, 4),
        240 => (24, 4),
        _ => (28, 4),
    }
}

/// The length that a first octet from 02 to 1F says.
pub(crate) const fn samples_of(octet: u8) -> usize {
    const LENGTHS: [usize; 5] = [40, 80, 160, 240, 320];
    let mut index = 0;
    loop {
        let (first, rows) = first_octets(LENGTHS[index]);
        if octet < first + rows || index == 4 {
            return LENGTHS[index];
        }
        index += 1;
    }
}

/// How numbers in a base lie in the octets.
struct Groups {
    /// Samples of one number.
    samples: usize,
    /// Bits of one number.
    bits: u32,
    /// What a number must be below.
    limit: u32,
}

impl Groups {
    fn in_base(base: usize) -> Groups {
        let (samples, bits) = match base {
            2 => (1, 1),
            3 => (5, 8),
            4 => (1, 2),
            5 => (5, 12),
            _ => (5, 13),
        };
        Groups { samples, bits, limit: (base as u32).pow(samples as u32) }
    }
}

/// Reads a frame whose first octet is one of its length's. A number that no
/// digits make is PLACE, as soon as all its bits are there. The numbers of a
/// frame fill whole octets, so there is no filling to check.
pub(crate) fn read(octets: &[u8], law: Law, frame: &mut [u8]) -> Result<usize, Refusal> {
    let (first, _) = first_octets(frame.len());
    let row = ROWS[usize::from(octets[0] - first)];
    let base = row.len() as u32;
    let groups = Groups::in_base(row.len());
    let mut by_digit = [0; 6];
    for (sample, &value) in by_digit.iter_mut().zip(row) {
        *sample = law.sample_of(value);
    }

    let mut bits = BitReader::new(octets, 8);
    // A refusal may come with the last number, so the samples wait here.
    let mut held = [0; MOST_SAMPLES];
    for group in held[..frame.len()].chunks_exact_mut(groups.samples) {
        let starts = bits.position();
        let mut number = bits.take(groups.bits)?;
        if number >= groups.limit {
            return Err(Refusal::Place { bit: starts });
        }
        for sample in group {
            *sample = by_digit[(number % base) as usize];
            number /= base;
        }
    }
    frame.copy_from_slice(&held[..frame.len()]);
    Ok(bits.position())
}

/// Tool 11's form of a frame, measured and not yet written.
pub(crate) struct Fractional {
    row: usize,
    samples: usize,
}

impl Fractional {
    /// The form of a frame whose least and greatest are a row's that its
    /// length has, and that has -1 just as the row does.
    pub fn measure(samples: &[u8], law: Law) -> Option<Fractional> {
        let numbers = || samples.iter().map(|&sample| number_of(sample ^ law.plus));
        let (least, greatest) = (numbers().min()?, numbers().max()?);
        let minus_ones = numbers().any(|number| number == -1);
        let (_, rows) = first_octets(samples.len());
        let row = ROWS[..usize::from(rows)].iter().position(|row| {
            row[0] == least && row[row.len() - 1] == greatest && row.contains(&-1) == minus_ones
        })?;
        Some(Fractional { row, samples: samples.len() })
    }

    pub fn octets(&self) -> usize {
        let groups = Groups::in_base(ROWS[self.row].len());
        1 + self.samples / groups.samples * groups.bits as usize / 8
    }

    /// Writes the form into octets that it just fills.
    pub fn write(&self, samples: &[u8], law: Law, form: &mut [u8]) {
        let row = ROWS[self.row];
        let groups = Groups::in_base(row.len());
        let mut digits = [0; 7];
        for (digit, &value) in (0..).zip(row) {
            digits[(value - LEAST) as usize] = digit;
        }
        let (first, _) = first_octets(self.samples);
        let mut bits = BitWriter::new(form);
        bits.put(u32::from(first) + self.row as u32, 8);
        for group in samples.chunks_exact(groups.samples) {
            let digit = |&sample: &u8| digits[(number_of(sample ^ law.plus) - LEAST) as usize];
            // The last sample is the highest digit.
            let number = group.iter().rev().map(digit).fold(0, |v, digit| v * row.len() as u32 + digit);
            bits.put(number, groups.bits);
        }
        bits.finish();
    }
}

#[cfg(test)]
mod tests {
    use super::*;

    #[test]
    fn lengths_share_the_first_octets() {
        let lengths: Vec<usize> = (0x02..=0x1F).map(samples_of).collect();
        let all = [(40, 12), (80, 6), (160, 4), (240, 4), (320, 4)];
        let expected: Vec<usize> = all.into_iter().flat_map(|(n, count)| vec![n; count]).collect();
        assert_eq!(lengths, expected);
    }

    /// (7-77) and the table's R': a digit is the value less the least, and one
    /// less where -1 is left out below it.
    #[test]
    fn digits_are_the_normalised_values() {
        for row in ROWS {
            assert!(row.windows(2).all(|two| two[0] < two[1]));
            let left_out = i8::from(row[0] < -1 && !row.contains(&-1));
            for (digit, &value) in (0..).zip(row) {
                let expected = if value < -1 { value - row[0] } else { value - row[0] - left_out };
                assert_eq!(digit, expected, "{row:?}");
            }
        }
    }

    /// Every number of a group fits its bits, and no fewer would do.
    #[test]
    fn bits_are_just_enough() {
        for base in 2..=6 {
            let groups = Groups::in_base(base);
            assert!(groups.limit <= 1 << groups.bits && groups.limit > 1 << (groups.bits - 1));
            for samples in [40, 80, 160, 240, 320] {
                assert_eq!(samples / groups.samples * groups.bits as usize % 8, 0);
            }
        }
    }
}
