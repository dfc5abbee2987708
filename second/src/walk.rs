//! Reading the frames of a stream.

use crate::law::Law;
use crate::read::{check, read_one, Frame};
use crate::refusal::Refusal;

/// The longest stream a walk takes (document 02, R-11).
pub(crate) const MOST_OCTETS: usize = 1_048_576;

#[derive(Clone, Copy, Debug, PartialEq, Eq)]
pub struct WalkReport {
    /// 0, or the number of the refusal that ended the walk.
    pub ending: u32,
    /// Frames accepted, pads among them.
    pub frames: usize,
    /// Octets of the frames accepted.
    pub octets: usize,
    /// Samples of the frames accepted.
    pub samples: usize,
    /// Where the refused frame starts; the stream's length at a clean end.
    pub place: usize,
    pub tool: u32,
    /// The bit a refusal points at, counted from the refused frame's start.
    pub bit: usize,
}

/// Reads frame after frame until the octets are used up or one is refused.
/// The samples of the frames read stand together at the start of `out`; what
/// lies beyond them stays as lent.
pub fn walk(octets: &[u8], law: u32, set: u32, out: &mut [u8]) -> WalkReport {
    let mut tally = Tally::default();
    let end = match check_stream(octets, law, set) {
        Ok(law) => tally.read_all(octets, law, set, out),
        Err(refusal) => Err(refusal),
    };
    let (ending, tool, bit) = match end {
        Ok(()) => (0, 0, 0),
        Err(refusal) => (refusal.number(), refusal.tool(), refusal.bit()),
    };
    WalkReport {
        ending,
        frames: tally.frames,
        octets: tally.octets,
        samples: tally.samples,
        // The next frame starts where the last one ended, refused or not.
        place: tally.octets,
        tool,
        bit,
    }
}

/// LAW and SET, then LONG.
fn check_stream(octets: &[u8], law: u32, set: u32) -> Result<Law, Refusal> {
    let law = check(law, set)?;
    if octets.len() > MOST_OCTETS {
        return Err(Refusal::Long);
    }
    Ok(law)
}

/// The frames accepted so far.
#[derive(Default)]
struct Tally {
    frames: usize,
    octets: usize,
    samples: usize,
}

impl Tally {
    fn read_all(&mut self, octets: &[u8], law: Law, set: u32, out: &mut [u8]) -> Result<(), Refusal> {
        while self.octets < octets.len() {
            let frame = read_one(&octets[self.octets..], law, set, &mut out[self.samples..])?;
            self.add(frame);
        }
        Ok(())
    }

    #[inline]
    fn add(&mut self, frame: Frame) {
        self.frames += 1;
        self.octets += frame.octets();
        self.samples += frame.samples;
    }
}
