//! The two laws, seen through their plus zero.
//!
//! Every tool carried here works with samples near zero, and near zero both
//! laws look alike once a sample is XORed with the law's plus zero:
//!
//! | signed number | XOR with plus zero |
//! |---|---|
//! | 0 | 00 |
//! | -1 | 80 |
//! | 1 | 01 |
//! | -2 | 81 |
//!
//! So the low bit and the top bit say everything about a sample from -2 to 1.
//! Only tool 11 goes farther, to -4 and 2, and asks for the signed number: the
//! code without its top bit, turned round below zero.

use crate::refusal::Refusal;

#[derive(Clone, Copy, Debug, PartialEq, Eq)]
pub(crate) struct Law {
    /// The octet of plus zero.
    pub plus: u8,
}

/// What the sign bit alone makes of plus zero: minus zero.
pub(crate) const SIGN: u8 = 0x80;

impl Law {
    pub const A: Law = Law { plus: 0xD5 };
    pub const MU: Law = Law { plus: 0xFF };

    pub fn from_number(number: u32) -> Result<Law, Refusal> {
        match number {
            0 => Ok(Law::A),
            1 => Ok(Law::MU),
            _ => Err(Refusal::Law),
        }
    }

    #[inline]
    pub fn minus(self) -> u8 {
        self.plus ^ SIGN
    }

    /// The sample of a signed number.
    pub fn sample_of(self, number: i8) -> u8 {
        let code = if number < 0 { SIGN | !number as u8 } else { number as u8 };
        self.plus ^ code
    }
}

/// The signed number of a sample's XOR code.
#[inline]
pub(crate) fn number_of(code: u8) -> i8 {
    let number = (code & !SIGN) as i8;
    if code & SIGN == 0 {
        number
    } else {
        !number
    }
}

/// All tools that are carried: 1 to 7, and tool 11 with 128.
pub(crate) const ALL_TOOLS: u32 = 255;

/// A tool set as a reader takes it: any of the eight tools.
pub(crate) fn check_reader_set(set: u32) -> Result<(), Refusal> {
    if set > ALL_TOOLS {
        Err(Refusal::Set)
    } else {
        Ok(())
    }
}

/// A writer's set must hold tool 1, the only one every frame can fall back on.
pub(crate) fn check_writer_set(set: u32) -> Result<(), Refusal> {
    if set > ALL_TOOLS || set & 1 == 0 {
        Err(Refusal::Set)
    } else {
        Ok(())
    }
}

/// Whether tool 0 to 13 may be used under a set of at most 255. The pad is
/// always there; of those above tool 7 only tool 11 ever is.
#[inline]
pub(crate) fn holds(set: u32, tool: u8) -> bool {
    // One bit for each tool: those of 1 to 7 move up by one, 128 to bit 11.
    let tools = 1 | (set & 127) << 1 | (set & 128) << 4;
    tools >> tool & 1 == 1
}

#[cfg(test)]
mod tests {
    use super::*;

    fn signed(law: Law, sample: u8) -> i8 {
        let mask = if law == Law::A { 0x55 } else { 0x7F };
        let y = ((sample ^ mask) & 0x7F) as i16;
        (if sample >= 128 { y } else { -y - 1 }) as i8
    }

    #[test]
    fn xor_codes_match_the_signed_numbers() {
        for law in [Law::A, Law::MU] {
            let mut seen = [false; 256];
            for sample in 0..=255u8 {
                let number = signed(law, sample);
                assert_eq!(number_of(sample ^ law.plus), number);
                assert_eq!(law.sample_of(number), sample);
                seen[(i16::from(number) + 128) as usize] = true;
                let code = sample ^ law.plus;
                let expected = match number {
                    0 => 0x00,
                    -1 => 0x80,
                    1 => 0x01,
                    -2 => 0x81,
                    _ => {
                        assert_ne!(code & 0x7E, 0);
                        continue;
                    }
                };
                assert_eq!(code, expected);
            }
            assert!(seen.iter().all(|&s| s), "the map is one to one");
        }
        assert_eq!((Law::A.plus, Law::A.minus()), (0xD5, 0x55));
        assert_eq!((Law::MU.plus, Law::MU.minus()), (0xFF, 0x7F));
    }

    #[test]
    fn sets_hold_their_tools() {
        for set in 0..=255u32 {
            for tool in 0..=13u8 {
                let expected = match tool {
                    0 => true,
                    1..=7 => set >> (tool - 1) & 1 == 1,
                    11 => set >= 128,
                    _ => false,
                };
                assert_eq!(holds(set, tool), expected);
            }
        }
    }
}
