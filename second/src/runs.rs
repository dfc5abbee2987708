//! Runs over D places: reading them, and for the writer finding them once and
//! measuring them for every S.

use crate::bits::{BitReader, BitWriter};
use crate::refusal::Refusal;
use crate::MOST_SAMPLES;

/// Reads runs until `places` places are filled and calls `mark` with each
/// place of the rarer kind.
#[inline]
pub(crate) fn read_runs(
    bits: &mut BitReader,
    s: u32,
    frame_samples: usize,
    places: usize,
    mut mark: impl FnMut(usize),
) -> Result<(), Refusal> {
    let mut filled = 0;
    while filled < places {
        let run = bits.rice(s, frame_samples)?;
        if run > places - filled {
            return Err(Refusal::Run { bit: bits.position() - rice_bits(run, s) });
        }
        filled += run;
        // A run up to the end has its closing sample only imagined.
        if filled < places {
            mark(filled);
            filled += 1;
        }
    }
    Ok(())
}

/// Bits of the code of a run: its zeros, a 1 and the low bits.
fn rice_bits(run: usize, s: u32) -> usize {
    (run >> s) + 1 + s as usize
}

/// The runs of a row of places.
pub(crate) struct Runs {
    lengths: [u16; MOST_SAMPLES],
    count: usize,
    /// Places dealt with so far, an imagined closing sample counted too.
    covered: usize,
    places: usize,
}

impl Runs {
    /// To be followed by `close_at` for every place of the rarer kind, rising,
    /// and by `end`.
    #[inline]
    pub fn over(places: usize) -> Runs {
        Runs { lengths: [0; MOST_SAMPLES], count: 0, covered: 0, places }
    }

    #[inline]
    pub fn close_at(&mut self, place: usize) {
        self.lengths[self.count] = (place - self.covered) as u16;
        self.count += 1;
        self.covered = place + 1;
    }

    /// Adds the run up to the end, unless the last place closed one.
    #[inline]
    pub fn end(&mut self) {
        if self.covered < self.places {
            self.lengths[self.count] = (self.places - self.covered) as u16;
            self.count += 1;
            self.covered = self.places + 1;
        }
    }

    #[inline]
    fn all(&self) -> &[u16] {
        &self.lengths[..self.count]
    }

    /// Bits of all runs under `s`.
    #[inline]
    fn bits(&self, s: u32) -> usize {
        // All runs together are at most the frame's places: u16 holds the sum.
        let zeros: u16 = self.all().iter().map(|&run| run >> s).sum();
        usize::from(zeros) + self.count * (s as usize + 1)
    }

    /// The S from 1 to `most_s` with the fewest bits of its code and of the
    /// runs, the smaller one on a tie, and these bits. Codes must not get
    /// shorter with S.
    #[inline]
    pub fn best_s(&self, most_s: u32, code_bits: impl Fn(u32) -> usize) -> (u32, usize) {
        let mut run_bits = self.bits(1);
        let mut best = (1, code_bits(1) + run_bits);
        for s in 2..=most_s {
            let before = run_bits;
            run_bits = self.bits(s);
            // A larger S adds one low bit to every run and takes off half of
            // its zeros, rounded up. As the zeros get fewer with S, so does
            // what is taken off: once nothing is gained, nothing will be.
            if run_bits >= before {
                break;
            }
            let bits = code_bits(s) + run_bits;
            if bits < best.1 {
                best = (s, bits);
            }
        }
        best
    }

    #[inline]
    pub fn put(&self, bits: &mut BitWriter, s: u32) {
        for &run in self.all() {
            bits.put_rice(usize::from(run), s);
        }
    }

    /// One bit for each place, 1 for the rarer kind.
    #[inline]
    pub fn put_as_row(&self, bits: &mut BitWriter) {
        let (closed, open) = self.all().split_at(self.closed());
        for &run in closed {
            bits.put_after_zeros(usize::from(run), 1, 1);
        }
        for &run in open {
            bits.put_after_zeros(usize::from(run), 0, 0);
        }
    }

    /// The places of the rarer kind, `width` bits each.
    #[inline]
    pub fn put_as_places(&self, bits: &mut BitWriter, width: u32) {
        let mut place = 0;
        for &run in &self.all()[..self.closed()] {
            place += u32::from(run);
            bits.put(place, width);
            place += 1;
        }
    }

    /// Runs whose closing sample is there.
    #[inline]
    fn closed(&self) -> usize {
        self.count - usize::from(self.covered > self.places)
    }
}
