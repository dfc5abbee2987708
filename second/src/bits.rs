//! Bits in octets, highest first.

use crate::refusal::Refusal;

/// Reads bits through a 64-bit window whose top bit is the next bit.
///
/// The rare, long paths take and give the whole reader by value. Were they
/// lent it, its window would have to live in memory and not in a register.
#[derive(Clone, Copy)]
pub(crate) struct BitReader<'a> {
    octets: &'a [u8],
    /// The first octet that is not wholly counted in `good`.
    next: usize,
    /// The top `good` bits are the next bits. What lies below them is either
    /// 0 or already the bits that follow, so ORing these in again is harmless.
    window: u64,
    /// At most 63, so that shifting a window by it is always defined.
    good: u32,
}

impl<'a> BitReader<'a> {
    /// Starts at bit `skip`, which must lie in the first octet or just past it.
    #[inline]
    pub fn new(octets: &'a [u8], skip: u32) -> Self {
        let mut reader = BitReader { octets, next: 0, window: 0, good: 0 };
        reader.refill();
        reader.drop_bits(skip);
        reader
    }

    /// Bits read so far, the skipped ones included.
    #[inline]
    pub fn position(&self) -> usize {
        self.next * 8 - self.good as usize
    }

    /// Brings `good` to 56 or more, or to all that is left.
    #[inline(always)]
    fn refill(&mut self) {
        let rest = &self.octets[self.next..];
        let (ahead, most) = match rest.first_chunk::<8>() {
            Some(eight) => (u64::from_be_bytes(*eight), 8),
            None => (tail_word(self.octets, rest.len()), rest.len()),
        };
        let whole = ((63 - self.good) as usize / 8).min(most);
        self.window |= ahead >> self.good;
        self.next += whole;
        self.good += 8 * whole as u32;
    }

    /// Drops bits that are known to be good.
    #[inline]
    fn drop_bits(&mut self, count: u32) {
        self.window <<= count;
        self.good -= count;
    }

    /// The next bits without taking them; past the end they read as 0.
    #[inline]
    pub fn peek(&mut self, count: u32) -> u32 {
        if self.good < count {
            self.refill();
        }
        top_bits(self.window, count)
    }

    /// Drops bits after a `peek` of at least as many.
    #[inline]
    pub fn accept(&mut self, count: u32) -> Result<(), Refusal> {
        if self.good < count {
            return Err(Refusal::short(self.octets));
        }
        self.drop_bits(count);
        Ok(())
    }

    /// The next `count` bits, at most 32, as a number.
    #[inline]
    pub fn take(&mut self, count: u32) -> Result<u32, Refusal> {
        let value = self.peek(count);
        self.accept(count)?;
        Ok(value)
    }

    /// One Rice code of parameter `s`. More than `most_zeros` zeros are RUN,
    /// however few bits follow them.
    ///
    /// A whole code with too many zeros is given as it is: its number is more
    /// than `most_zeros`, longer than any places left, so RUN as well.
    #[inline(always)]
    pub fn rice(&mut self, s: u32, most_zeros: usize) -> Result<usize, Refusal> {
        if let Some(value) = self.rice_in_window(s) {
            return Ok(value);
        }
        self.refill();
        if let Some(value) = self.rice_in_window(s) {
            return Ok(value);
        }
        let (after, value) = self.rice_across_windows(s, most_zeros)?;
        *self = after;
        Ok(value)
    }

    /// The next Rice code, if it lies wholly in the window.
    #[inline(always)]
    fn rice_in_window(&mut self, s: u32) -> Option<usize> {
        let zeros = self.window.leading_zeros();
        let length = zeros + 1 + s;
        if length > self.good {
            return None;
        }
        // The closing 1 is kept as the number's top bit, then taken off.
        let low = (self.window << zeros >> (63 - s)) as usize & ((1 << s) - 1);
        self.drop_bits(length);
        Some((zeros as usize) << s | low)
    }

    #[inline(never)]
    fn rice_across_windows(mut self, s: u32, most_zeros: usize) -> Result<(Self, usize), Refusal> {
        let code_starts = self.position();
        let mut zeros = 0;
        loop {
            self.refill();
            let here = self.window.leading_zeros().min(self.good);
            zeros += here as usize;
            if zeros > most_zeros {
                return Err(Refusal::Run { bit: code_starts });
            }
            if here < self.good {
                self.drop_bits(here + 1);
                break;
            }
            if here == 0 {
                return Err(Refusal::short(self.octets));
            }
            self.drop_bits(here);
        }
        let low = self.take(s)? as usize;
        Ok((self, zeros << s | low))
    }

    /// Checks that the rest of the octet now being read is 0.
    #[inline]
    pub fn check_filling(&self) -> Result<(), Refusal> {
        let position = self.position();
        let (octet, inside) = (position / 8, position % 8);
        if inside == 0 {
            return Ok(());
        }
        let filling = self.octets[octet] & (0xFF >> inside);
        match filling.leading_zeros() as usize {
            8 => Ok(()),
            first_one => Err(Refusal::Align { bit: 8 * octet + first_one }),
        }
    }
}

/// The last `count` octets, fewer than 8, at the top of a word.
#[inline]
fn tail_word(octets: &[u8], count: usize) -> u64 {
    match octets.last_chunk::<8>() {
        // In two steps, since shifting by 64 is not defined.
        Some(eight) => u64::from_be_bytes(*eight) << (8 * (7 - count)) << 8,
        None => short_word(&octets[octets.len() - count..]),
    }
}

#[inline(never)]
fn short_word(octets: &[u8]) -> u64 {
    octets.iter().rev().fold(0, |word, &octet| word >> 8 | u64::from(octet) << 56)
}

/// The top `count` bits, 0 to 32, as a number.
#[inline]
fn top_bits(window: u64, count: u32) -> u32 {
    // In two steps, since shifting by 64 is not defined.
    (window >> 1 >> (63 - count)) as u32
}

/// Writes bits through an accumulator, four octets at a time. The octets lent
/// must hold all that is put; nothing beyond the last octet is touched.
pub(crate) struct BitWriter<'a> {
    out: &'a mut [u8],
    next: usize,
    /// The low `held` bits wait to be stored; what lies above is stale.
    pending: u64,
    /// Below 32 between calls.
    held: u32,
}

impl<'a> BitWriter<'a> {
    #[inline]
    pub fn new(out: &'a mut [u8]) -> Self {
        BitWriter { out, next: 0, pending: 0, held: 0 }
    }

    /// Puts the low `count` bits, at most 32, of a value that has no more.
    #[inline]
    pub fn put(&mut self, value: u32, count: u32) {
        self.pending = self.pending << count | u64::from(value);
        self.held += count;
        if self.held >= 32 {
            self.held -= 32;
            let four = (self.pending >> self.held) as u32;
            self.out[self.next..self.next + 4].copy_from_slice(&four.to_be_bytes());
            self.next += 4;
        }
    }

    /// Puts `zeros` zeros, then the low `count` bits of a value.
    #[inline]
    pub fn put_after_zeros(&mut self, zeros: usize, value: u32, count: u32) {
        let mut zeros = zeros as u32;
        while zeros + count > 32 {
            let here = zeros.min(32);
            self.put(0, here);
            zeros -= here;
        }
        self.put(value, zeros + count);
    }

    /// The Rice code of `value` under parameter `s`.
    #[inline]
    pub fn put_rice(&mut self, value: usize, s: u32) {
        let low = value as u32 & ((1 << s) - 1);
        self.put_after_zeros(value >> s, 1 << s | low, s + 1);
    }

    /// Fills the last octet with 0 bits and gives the number of bits put.
    #[inline]
    pub fn finish(mut self) -> usize {
        let bits = self.next * 8 + self.held as usize;
        while self.held > 0 {
            let here = self.held.min(8);
            self.held -= here;
            let part = (self.pending >> self.held) as u8;
            self.out[self.next] = part << (8 - here);
            self.next += 1;
        }
        bits
    }
}

#[cfg(test)]
mod tests {
    use super::*;
    use crate::gen::Prng;

    /// Bits one at a time, by the text.
    struct Slow<'a> {
        octets: &'a [u8],
        at: usize,
    }

    impl Slow<'_> {
        fn bit(&mut self) -> Result<usize, Refusal> {
            let short = Refusal::Short { bit: self.at };
            let octet = *self.octets.get(self.at / 8).ok_or(short)?;
            let bit = octet >> (7 - self.at % 8) & 1;
            self.at += 1;
            Ok(bit as usize)
        }

        fn number(&mut self, count: u32) -> Result<usize, Refusal> {
            let mut value = 0;
            for _ in 0..count {
                value = value * 2 + self.bit()?;
            }
            Ok(value)
        }

        fn rice(&mut self, s: u32, most_zeros: usize) -> Result<usize, Refusal> {
            let start = self.at;
            let mut zeros = 0;
            while self.bit()? == 0 {
                zeros += 1;
                if zeros == most_zeros + 1 {
                    return Err(Refusal::Run { bit: start });
                }
            }
            Ok((zeros << s) + self.number(s)?)
        }
    }

    fn sparse_octets(rng: &mut Prng) -> Vec<u8> {
        let length = rng.below(90);
        let density = [1, 2, 4, 16, 64, 256, 1024][rng.below(7)];
        (0..length)
            .map(|_| (0..8).fold(0, |octet, _| octet << 1 | u8::from(rng.below(density) == 0)))
            .collect()
    }

    #[test]
    fn windowed_rice_is_the_bitwise_one() {
        let mut rng = Prng::new(11);
        let (mut codes, mut refused) = (0u64, 0u64);
        for _ in 0..200_000 {
            let octets = sparse_octets(&mut rng);
            if octets.is_empty() {
                continue;
            }
            let skip = rng.below(9) as u32;
            let most = [40, 80, 160, 240, 320][rng.below(5)];
            let mut fast = BitReader::new(&octets, skip);
            let mut slow = Slow { octets: &octets, at: skip as usize };
            loop {
                let s = 1 + rng.below(9) as u32;
                let start = fast.position();
                let ours = fast.rice(s, most);
                let theirs = slow.rice(s, most);
                // A whole code with too many zeros is left to the caller, who
                // finds it longer than the places left.
                let ours = match ours {
                    Ok(v) if v >> s > most => Err(Refusal::Run { bit: start }),
                    other => other,
                };
                assert_eq!(ours, theirs);
                if ours.is_err() {
                    refused += 1;
                    break;
                }
                assert_eq!(fast.position(), slow.at);
                codes += 1;
            }
        }
        println!("Rice codes compared: {codes}, refusals compared: {refused}");
    }

    #[test]
    fn taken_numbers_are_the_bitwise_ones() {
        let mut rng = Prng::new(12);
        let mut compared = 0u64;
        for _ in 0..100_000 {
            let octets = sparse_octets(&mut rng);
            if octets.is_empty() {
                continue;
            }
            let mut fast = BitReader::new(&octets, 8);
            let mut slow = Slow { octets: &octets, at: 8 };
            loop {
                compared += 1;
                let count = rng.below(33) as u32;
                let ours = fast.take(count).map(|v| v as usize);
                assert_eq!(ours, slow.number(count));
                if ours.is_err() {
                    break;
                }
                assert_eq!(fast.position(), slow.at);
                let mut filling = slow.at..slow.at.next_multiple_of(8);
                let wrong = filling.find(|&at| octets[at / 8] << (at % 8) & 0x80 != 0);
                let judged = wrong.map_or(Ok(()), |bit| Err(Refusal::Align { bit }));
                assert_eq!(fast.check_filling(), judged);
            }
        }
        println!("bit numbers compared: {compared}");
    }

    #[test]
    fn written_bits_are_the_bits_put() {
        let mut rng = Prng::new(13);
        for _ in 0..50_000 {
            let mut expected = Vec::new();
            let mut out = [0xA7u8; 400];
            let mut writer = BitWriter::new(&mut out);
            for _ in 0..rng.below(24) {
                if rng.below(2) == 0 {
                    let (value, s) = (rng.below(321), 1 + rng.below(9) as u32);
                    writer.put_rice(value, s);
                    expected.resize(expected.len() + (value >> s), 0);
                    expected.push(1);
                    expected.extend((0..s).rev().map(|b| (value >> b & 1) as u8));
                } else {
                    let count = rng.below(33) as u32;
                    let value = (rng.next_u64() & ((1u64 << count) - 1)) as u32;
                    writer.put(value, count);
                    expected.extend((0..count).rev().map(|b| (value >> b & 1) as u8));
                }
                if expected.len() > 2400 {
                    break;
                }
            }
            assert_eq!(writer.finish(), expected.len());
            let whole = expected.len().div_ceil(8);
            expected.resize(whole * 8, 0);
            for (index, octet) in out[..whole].iter().enumerate() {
                let bits = &expected[8 * index..8 * index + 8];
                assert_eq!(*octet, bits.iter().fold(0, |o, b| o << 1 | b));
            }
            assert!(out[whole..].iter().all(|&o| o == 0xA7));
        }
    }
}
