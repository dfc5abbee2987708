//! What the first octet of a frame says.

use crate::fractional;
use crate::refusal::Refusal;

/// Standing in a table entry for "6 or 8, the second octet decides".
const UNDECIDED: u8 = 14;
/// Standing in a table entry for a first octet nobody assigned.
const UNASSIGNED: u8 = 15;

#[derive(Clone, Copy, Debug, PartialEq, Eq)]
pub(crate) struct Opening {
    pub samples: u16,
    pub tool: u8,
    /// Bits of the prefix. Only tool 6 has fewer than 8: its body starts
    /// inside the first octet.
    pub prefix_bits: u8,
}

static OPENINGS: [Opening; 256] = all_openings();

/// Reads the opening of a frame: PREFIX first, then the tool, which in four
/// first octets hangs on the first bit of the second one.
#[inline]
pub(crate) fn decide(octets: &[u8]) -> Result<Opening, Refusal> {
    let &first = octets.first().ok_or(Refusal::short(octets))?;
    let mut opening = OPENINGS[first as usize];
    if opening.tool >= UNDECIDED {
        if opening.tool == UNASSIGNED {
            return Err(Refusal::Prefix);
        }
        let &second = octets.get(1).ok_or(Refusal::short(octets))?;
        opening.tool = if second & 0x80 == 0 { 8 } else { 6 };
    }
    Ok(opening)
}

/// The whole first octet of tools 1 to 5 and 7.
pub(crate) fn octet_for(tool: u8, samples: usize) -> u8 {
    let rest = match (tool, samples) {
        (7, 240 | 320) => 5,
        (7, _) => 6,
        _ => tool - 1,
    };
    length_code(samples) | rest
}

/// Tool 6's prefix and its number of bits.
pub(crate) fn rice_prefix(samples: usize, minus_commoner: bool) -> (u32, u32) {
    let bits = u32::from(rice_prefix_bits(samples));
    let tool = if bits == 7 { 0b100 } else { 0b010 };
    let length = u32::from(length_code(samples)) >> (8 - bits);
    (length | tool | u32::from(minus_commoner), bits)
}

const fn length_code(samples: usize) -> u8 {
    match samples {
        40 => 0x40,
        80 => 0x80,
        160 => 0xC0,
        240 => 0x20,
        _ => 0x30,
    }
}

const fn rice_prefix_bits(samples: usize) -> u8 {
    match samples {
        240 | 320 => 7,
        _ => 5,
    }
}

const fn all_openings() -> [Opening; 256] {
    let mut all = [Opening { samples: 0, tool: UNASSIGNED, prefix_bits: 8 }; 256];
    let mut octet = 0;
    while octet < 256 {
        all[octet] = opening(octet as u8);
        octet += 1;
    }
    all
}

const fn opening(octet: u8) -> Opening {
    let (samples, tool) = match octet {
        0x00 => (0, 0),
        0x01 => (0, UNASSIGNED),
        0x02..=0x1F => (fractional::samples_of(octet), 11),
        0x20..=0x2F => (240, tool_after_four_bits(octet & 0x0F)),
        0x30..=0x3F => (320, tool_after_four_bits(octet & 0x0F)),
        0x40..=0x7F => (40, tool_after_two_bits(40, octet & 0x3F)),
        0x80..=0xBF => (80, tool_after_two_bits(80, octet & 0x3F)),
        0xC0..=0xFF => (160, tool_after_two_bits(160, octet & 0x3F)),
    };
    let prefix_bits = match tool {
        6 | UNDECIDED => rice_prefix_bits(samples),
        _ => 8,
    };
    Opening { samples: samples as u16, tool, prefix_bits }
}

const fn tool_after_four_bits(rest: u8) -> u8 {
    match rest {
        0x0..=0x4 => rest + 1,
        0x5 => 7,
        0x6 | 0x7 => 10,
        0x8 | 0xA => UNDECIDED,
        0x9 | 0xB => 6,
        _ => 9,
    }
}

const fn tool_after_two_bits(samples: usize, rest: u8) -> u8 {
    match rest {
        0x00..=0x04 => rest + 1,
        0x05 if samples == 40 => 12,
        0x06 if samples != 40 => 7,
        0x08..=0x0F if samples == 40 => 13,
        0x08..=0x0F if samples == 160 => 10,
        // Both bits after 010 or 011 lie in this octet.
        0x10..=0x1F if rest & 0x06 == 0 => 8,
        0x10..=0x1F => 6,
        0x20..=0x3F => 9,
        _ => UNASSIGNED,
    }
}

#[cfg(test)]
mod tests {
    use super::*;

    /// The list of document 01, range by range; tool 11's lengths as 001's
    /// table 7-28 has them.
    fn listed(first: u8) -> (u16, u8) {
        const BOTH: u8 = UNDECIDED;
        let spans: &[(u8, u8, u16, u8)] = &[
            (0x00, 0x00, 0, 0),
            (0x02, 0x0D, 40, 11),
            (0x0E, 0x13, 80, 11),
            (0x14, 0x17, 160, 11),
            (0x18, 0x1B, 240, 11),
            (0x1C, 0x1F, 320, 11),
            (0x20, 0x20, 240, 1),
            (0x21, 0x21, 240, 2),
            (0x22, 0x22, 240, 3),
            (0x23, 0x23, 240, 4),
            (0x24, 0x24, 240, 5),
            (0x25, 0x25, 240, 7),
            (0x26, 0x27, 240, 10),
            (0x28, 0x28, 240, BOTH),
            (0x29, 0x29, 240, 6),
            (0x2A, 0x2A, 240, BOTH),
            (0x2B, 0x2B, 240, 6),
            (0x2C, 0x2F, 240, 9),
            (0x30, 0x30, 320, 1),
            (0x31, 0x31, 320, 2),
            (0x32, 0x32, 320, 3),
            (0x33, 0x33, 320, 4),
            (0x34, 0x34, 320, 5),
            (0x35, 0x35, 320, 7),
            (0x36, 0x37, 320, 10),
            (0x38, 0x38, 320, BOTH),
            (0x39, 0x39, 320, 6),
            (0x3A, 0x3A, 320, BOTH),
            (0x3B, 0x3B, 320, 6),
            (0x3C, 0x3F, 320, 9),
            (0x40, 0x40, 40, 1),
            (0x41, 0x41, 40, 2),
            (0x42, 0x42, 40, 3),
            (0x43, 0x43, 40, 4),
            (0x44, 0x44, 40, 5),
            (0x45, 0x45, 40, 12),
            (0x48, 0x4F, 40, 13),
            (0x50, 0x51, 40, 8),
            (0x52, 0x57, 40, 6),
            (0x58, 0x59, 40, 8),
            (0x5A, 0x5F, 40, 6),
            (0x60, 0x7F, 40, 9),
            (0x80, 0x80, 80, 1),
            (0x81, 0x81, 80, 2),
            (0x82, 0x82, 80, 3),
            (0x83, 0x83, 80, 4),
            (0x84, 0x84, 80, 5),
            (0x86, 0x86, 80, 7),
            (0x90, 0x91, 80, 8),
            (0x92, 0x97, 80, 6),
            (0x98, 0x99, 80, 8),
            (0x9A, 0x9F, 80, 6),
            (0xA0, 0xBF, 80, 9),
            (0xC0, 0xC0, 160, 1),
            (0xC1, 0xC1, 160, 2),
            (0xC2, 0xC2, 160, 3),
            (0xC3, 0xC3, 160, 4),
            (0xC4, 0xC4, 160, 5),
            (0xC6, 0xC6, 160, 7),
            (0xC8, 0xCF, 160, 10),
            (0xD0, 0xD1, 160, 8),
            (0xD2, 0xD7, 160, 6),
            (0xD8, 0xD9, 160, 8),
            (0xDA, 0xDF, 160, 6),
            (0xE0, 0xFF, 160, 9),
        ];
        for &(low, high, samples, tool) in spans {
            if (low..=high).contains(&first) {
                return (samples, tool);
            }
        }
        (0, UNASSIGNED)
    }

    #[test]
    fn table_is_the_list() {
        for first in 0..=255u8 {
            let opening = OPENINGS[first as usize];
            let (samples, tool) = listed(first);
            assert_eq!(opening.tool, tool, "{first:02X}");
            if tool != UNASSIGNED {
                assert_eq!(opening.samples, samples, "{first:02X}");
            }
        }
        let unassigned: Vec<u8> = (0..=255).filter(|&f| listed(f).1 == UNASSIGNED).collect();
        let mut expected = vec![0x01, 0x46, 0x47, 0x85, 0x87];
        expected.extend(0x88..=0x8F);
        expected.extend([0xC5, 0xC7]);
        assert_eq!(unassigned, expected);
        println!("first octets compared: 256");
    }

    #[test]
    fn written_prefixes_are_read_back() {
        for samples in [40usize, 80, 160, 240, 320] {
            for tool in [1u8, 2, 3, 4, 5, 7] {
                if tool == 7 && samples == 40 {
                    continue;
                }
                let opening = OPENINGS[octet_for(tool, samples) as usize];
                assert_eq!((opening.tool, opening.samples as usize), (tool, samples));
            }
            for minus in [false, true] {
                let (prefix, bits) = rice_prefix(samples, minus);
                assert_eq!(prefix & 1 == 1, minus);
                // Followed by the S code 10, the smallest that fits in any length.
                let two = (prefix << (16 - bits) | 0b10 << (14 - bits)) as u16;
                let opening = decide(&two.to_be_bytes()).unwrap();
                assert_eq!((opening.tool, opening.samples as usize), (6, samples));
                assert_eq!(u32::from(opening.prefix_bits), bits);
            }
        }
    }

    #[test]
    fn only_four_octets_wait_for_the_second() {
        let waiting: Vec<u8> =
            (0..=255u8).filter(|&f| decide(&[f]) == Err(Refusal::Short { bit: 8 })).collect();
        assert_eq!(waiting, [0x28, 0x2A, 0x38, 0x3A]);
    }
}
