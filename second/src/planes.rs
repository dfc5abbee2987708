//! Frames as rows of single bits.
//!
//! A sample within -2 to 1 is told by two bits of its XOR code, so a frame of
//! such samples is two rows of bits. In these rows the next place of a value
//! is found by one instruction, not sample by sample.

use crate::law::SIGN;
use crate::MOST_SAMPLES;

const WORDS: usize = MOST_SAMPLES / 64;

/// One bit for each sample, the first sample in the lowest bit of the first
/// word: a lowest bit is the cheapest to find and to take off.
#[derive(Clone, Copy, Debug, PartialEq, Eq)]
pub(crate) struct Plane {
    words: [u64; WORDS],
}

const EVERY_LOW_BIT: u64 = 0x0101_0101_0101_0101;
const EVERY_TOP_BIT: u64 = 0x8080_8080_8080_8080;

/// The low bits of eight octets as one octet; whichever octet of the word is
/// the lowest gives the lowest bit. The factor moves each bit into the
/// product's top octet; the other products fall below or beyond it and no two
/// of them meet.
#[inline]
pub(crate) fn gather_low_bits(eight: u64) -> u8 {
    ((eight & EVERY_LOW_BIT).wrapping_mul(0x0102_0408_1020_4080) >> 56) as u8
}

/// The other way about, but into the top bits of the eight octets.
#[inline]
pub(crate) fn spread_to_top_bits(octet: u8) -> u64 {
    let alone = (u64::from(octet) * EVERY_LOW_BIT) & 0x8040_2010_0804_0201;
    // Any bit left in an octet now carries into its top bit, and no farther.
    (alone + !EVERY_TOP_BIT) & EVERY_TOP_BIT
}

/// An octet in every one of eight places.
#[inline]
pub(crate) fn eight_of(octet: u8) -> u64 {
    u64::from(octet) * EVERY_LOW_BIT
}

impl Plane {
    pub const EMPTY: Plane = Plane { words: [0; WORDS] };

    /// The first `samples` places.
    #[inline]
    pub fn full(samples: usize) -> Plane {
        Plane { words: std::array::from_fn(|i| lowest(samples.saturating_sub(64 * i))) }
    }

    /// The bit `1 << shift` of every sample's XOR code.
    #[inline]
    fn of_code_bit(samples: &[u8], plus: u8, shift: u32) -> Plane {
        let mut plane = Plane::EMPTY;
        let flip = eight_of(plus);
        for (index, eight) in samples.chunks_exact(8).enumerate() {
            let codes = u64::from_le_bytes(eight.try_into().unwrap()) ^ flip;
            let bits = u64::from(gather_low_bits(codes >> shift));
            plane.words[index / 8] |= bits << (index % 8 * 8);
        }
        plane
    }

    /// The places of the samples below zero.
    #[inline]
    pub fn of_signs(samples: &[u8], plus: u8) -> Plane {
        Plane::of_code_bit(samples, plus, SIGN.trailing_zeros())
    }

    /// In a frame within -2 to 1, the places of 1 and -2.
    #[inline]
    pub fn of_low_bits(samples: &[u8], plus: u8) -> Plane {
        Plane::of_code_bit(samples, plus, 0)
    }

    #[inline]
    pub fn insert(&mut self, place: usize) {
        self.words[place / 64] |= 1 << (place % 64);
    }

    /// Puts up to 32 bits, first place lowest, at a place divisible by 32.
    #[inline]
    pub fn insert_row(&mut self, place: usize, row: u32) {
        self.words[place / 64] |= u64::from(row) << (place % 64);
    }

    #[inline]
    fn zip(&self, other: &Plane, with: impl Fn(u64, u64) -> u64) -> Plane {
        Plane { words: std::array::from_fn(|i| with(self.words[i], other.words[i])) }
    }

    #[inline]
    pub fn and(&self, other: &Plane) -> Plane {
        self.zip(other, |a, b| a & b)
    }

    #[inline]
    pub fn and_not(&self, other: &Plane) -> Plane {
        self.zip(other, |a, b| a & !b)
    }

    #[inline]
    pub fn or(&self, other: &Plane) -> Plane {
        self.zip(other, |a, b| a | b)
    }

    #[inline]
    pub fn count(&self) -> usize {
        self.words.iter().map(|word| word.count_ones() as usize).sum()
    }

    #[inline]
    pub fn is_empty(&self) -> bool {
        self.words.iter().fold(0, |any, word| any | word) == 0
    }

    /// Calls `found` with each place in turn.
    #[inline]
    pub fn each_place(&self, mut found: impl FnMut(usize)) {
        for (index, &word) in self.words.iter().enumerate() {
            let mut set = word;
            while set != 0 {
                found(64 * index + set.trailing_zeros() as usize);
                set &= set - 1;
            }
        }
    }

    /// Calls `found` with each place in turn, counted among the places that
    /// are not in `gone`.
    #[inline]
    pub fn each_place_without(&self, gone: &Plane, mut found: impl FnMut(usize)) {
        let mut gone_before = 0;
        for (index, (&word, &gone)) in self.words.iter().zip(&gone.words).enumerate() {
            let mut set = word;
            while set != 0 {
                let inside = set.trailing_zeros();
                let gone_here = (gone & lowest(inside as usize)).count_ones() as usize;
                found(64 * index + inside as usize - gone_before - gone_here);
                set &= set - 1;
            }
            gone_before += gone.count_ones() as usize;
        }
    }

    /// Turns places counted among those of `onto` into places of the frame.
    #[inline]
    pub fn moved_onto(&self, onto: &Plane) -> Plane {
        let mut from = 0;
        Plane {
            words: onto.words.map(|mask| {
                let count = mask.count_ones() as usize;
                let bits = self.word_from(from) & lowest(count);
                from += count;
                deposit(bits, mask)
            }),
        }
    }

    /// The 64 bits that start at a place; past the end they are 0.
    #[inline]
    fn word_from(&self, place: usize) -> u64 {
        let word = |index: usize| self.words.get(index).copied().unwrap_or(0);
        let (index, shift) = (place / 64, place % 64);
        // In two steps, since shifting by 64 is not defined.
        word(index) >> shift | word(index + 1) << 1 << (63 - shift)
    }

    /// The octets of a frame within -2 to 1, given the places of its samples
    /// below zero and of its 1s and -2s.
    #[inline]
    pub fn write_samples(signs: &Plane, low_bits: &Plane, plus: u8, frame: &mut [u8]) {
        let plus = eight_of(plus);
        for (index, eight) in frame.chunks_exact_mut(8).enumerate() {
            let octet = |plane: &Plane| (plane.words[index / 8] >> (index % 8 * 8)) as u8;
            let codes = spread_to_top_bits(octet(signs)) | spread_to_top_bits(octet(low_bits)) >> 7;
            eight.copy_from_slice(&(plus ^ codes).to_le_bytes());
        }
    }
}

/// The lowest `count` bits, all 64 if it is more.
#[inline]
fn lowest(count: usize) -> u64 {
    if count < 64 {
        (1 << count) - 1
    } else {
        u64::MAX
    }
}

/// Lays the low bits of `bits`, in turn, into the set bits of `mask`, of which
/// there must be enough for all that are 1: in six steps, each moving by 1, 2, 4, ... 32 places those bits whose way is odd at
/// that step. The masks of the steps are found from the smallest on, the bits
/// then moved from the largest on.
#[inline]
fn deposit(bits: u64, mask: u64) -> u64 {
    if bits == 0 || mask == u64::MAX {
        return bits;
    }
    let mut moves = [0; 6];
    let mut left = mask;
    // Each bit's way is the number of clear bits below it.
    let mut clear = !mask << 1;
    for (step, moved) in moves.iter_mut().enumerate() {
        let mut odd = clear;
        for shift in [1, 2, 4, 8, 16, 32] {
            odd ^= odd << shift;
        }
        *moved = odd & left;
        left = (left ^ *moved) | *moved >> (1 << step);
        clear &= !odd;
    }
    let mut laid = bits;
    for (step, moved) in moves.iter().enumerate().rev() {
        laid = (laid & !moved) | ((laid << (1 << step)) & moved);
    }
    laid & mask
}

#[cfg(test)]
mod tests {
    use super::*;
    use crate::gen::Prng;

    #[test]
    fn bits_are_gathered_and_spread_in_order() {
        for octet in 0..=255u8 {
            let spread = spread_to_top_bits(octet);
            for (index, part) in spread.to_be_bytes().into_iter().enumerate() {
                assert_eq!(part, (octet << index) & 0x80);
            }
            assert_eq!(gather_low_bits(spread >> 7), octet);
            assert_eq!(gather_low_bits(spread >> 7 | 0xFEFE_FEFE_FEFE_FEFE), octet);
        }
    }

    #[test]
    fn deposited_bits_fill_the_mask_in_turn() {
        let mut rng = Prng::new(22);
        for round in 0..200_000 {
            let mask = match round % 4 {
                0 => rng.next_u64(),
                1 => rng.next_u64() & rng.next_u64() & rng.next_u64(),
                2 => rng.next_u64() | rng.next_u64() | rng.next_u64(),
                _ => *rng.pick(&[0, 1, 1 << 63, u64::MAX, u64::MAX >> 1, u64::MAX << 1]),
            };
            let bits = rng.next_u64() & lowest(mask.count_ones() as usize);
            let mut expected = 0;
            let mut next = 0;
            for place in 0..64 {
                if mask >> place & 1 == 1 {
                    expected |= (bits >> next & 1) << place;
                    next += 1;
                }
            }
            assert_eq!(deposit(bits, mask), expected, "{bits:X} {mask:X}");
        }
    }

    #[test]
    fn places_are_counted_among_those_left() {
        let mut rng = Prng::new(21);
        for _ in 0..5_000 {
            let length = *rng.pick(&[40usize, 80, 160, 240, 320]);
            let spread = 2 + rng.below(9);
            let codes: Vec<u8> = (0..length)
                .map(|_| [0x80, 0x01, 0x81, 0, 0, 0, 0, 0, 0, 0, 0][rng.below(spread)])
                .collect();
            let samples: Vec<u8> = codes.iter().map(|c| c ^ 0xD5).collect();
            let signs = Plane::of_signs(&samples, 0xD5);
            let low_bits = Plane::of_low_bits(&samples, 0xD5);
            let ones = low_bits.and_not(&signs);
            let minus_twos = low_bits.and(&signs);
            let minus_ones = signs.and_not(&low_bits);
            let gone = ones.or(&minus_ones);

            let mut ours = Vec::new();
            minus_twos.each_place_without(&gone, |place| ours.push(place));
            let left: Vec<u8> = codes.iter().copied().filter(|&c| c == 0 || c == 0x81).collect();
            let theirs: Vec<usize> = (0..left.len()).filter(|&i| left[i] == 0x81).collect();
            assert_eq!(ours, theirs);
            assert_eq!(minus_twos.count(), theirs.len());
            assert_eq!(minus_twos.is_empty(), theirs.is_empty());

            let mut among = Plane::EMPTY;
            theirs.iter().for_each(|&place| among.insert(place));
            assert_eq!(among.moved_onto(&Plane::full(length).and_not(&gone)), minus_twos);

            let mut plain = Vec::new();
            ones.each_place(|place| plain.push(place));
            let all: Vec<usize> = (0..length).filter(|&i| codes[i] == 0x01).collect();
            assert_eq!(plain, all);

            let mut back = vec![0; length];
            Plane::write_samples(&signs, &low_bits, 0xD5, &mut back);
            assert_eq!(back, samples);
        }
    }
}
