//! Tool 7's range cases: which values are coded, and in what order.
//!
//! A value is given by its XOR code (see `law`), so that it serves both laws.

pub(crate) const ONE: u8 = 0x01;
pub(crate) const MINUS_ONE: u8 = 0x80;
pub(crate) const MINUS_TWO: u8 = 0x81;

/// The values of a case under a flag, or nothing where that flag or, for the
/// frame length, that case isn't allowed.
pub(crate) fn values(case: u32, flag: u32, samples: usize) -> Option<&'static [u8]> {
    match (case, flag) {
        (0, _) if samples < 240 => None,
        (0, 1) => Some(&[ONE, MINUS_ONE, MINUS_TWO]),
        (0, 0) => Some(&[MINUS_ONE, ONE, MINUS_TWO]),
        (1, 1) => Some(&[ONE, MINUS_ONE]),
        (1, 0) => Some(&[MINUS_ONE, ONE]),
        (2, 0) => Some(&[MINUS_ONE, MINUS_TWO]),
        (3, 1) => Some(&[ONE]),
        _ => None,
    }
}

/// The case of a frame of -2 to 1 with some 0 in it, by which of the other
/// values it holds.
pub(crate) fn case_of(ones: bool, minus_ones: bool, minus_twos: bool, samples: usize) -> Option<u32> {
    // The greatest is 1 or 0 by the first; the least is -2, -1 or 0 by the rest.
    match (ones, minus_twos, minus_ones) {
        (true, true, _) if samples >= 240 => Some(0),
        (true, false, true) => Some(1),
        (false, true, _) => Some(2),
        (true, false, false) => Some(3),
        _ => None,
    }
}

/// Bits of a place listed among `places` places: ceil(log2(places)). Among no
/// places there is no logarithm, and no bits are read.
pub(crate) fn place_bits(places: usize) -> u32 {
    usize::BITS - places.saturating_sub(1).leading_zeros()
}

#[cfg(test)]
mod tests {
    use super::*;

    #[test]
    fn place_bits_is_the_rounded_up_logarithm() {
        for places in 0..=320usize {
            let least = (0..).find(|&b| 1usize << b >= places).unwrap();
            assert_eq!(place_bits(places), least);
        }
    }
}
