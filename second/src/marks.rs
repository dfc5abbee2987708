//! What the walk gives of a greeting (document 02, R-8): its samples, and a
//! mark for frames 0, 64, 128 and so on. And the jump to a sample from such a
//! mark.

use crate::law::ALL_TOOLS;
use crate::read::read_frame;
use crate::walk::MOST_OCTETS;
use crate::MOST_SAMPLES;

/// Frames from one mark to the next, pads counted.
pub const FRAMES_A_MARK: usize = 64;

/// What lies before a frame, counted from the greeting's start.
#[derive(Clone, Copy, Debug, PartialEq, Eq)]
pub struct Mark {
    pub octets: usize,
    pub samples: usize,
}

/// What a walk over all of a greeting gives.
#[derive(Clone, Debug, Default, PartialEq, Eq)]
pub struct Walked {
    pub samples: usize,
    pub marks: Vec<Mark>,
}

/// What a jump reports.
#[derive(Clone, Copy, Debug, PartialEq, Eq)]
pub struct Jump {
    /// Counted from 0, pads among them.
    pub frame: usize,
    /// Where the frame starts, from the greeting's start.
    pub place: usize,
    /// The sample's place in the frame.
    pub within: usize,
    /// Frames read, from the mark's up to and including this one.
    pub read: usize,
}

/// Samples and marks of a greeting; none if the walk with a set, room never
/// short, refuses it, or if it is empty.
pub fn walk_greeting(octets: &[u8], law: u32, set: u32) -> Option<Walked> {
    if octets.is_empty() || octets.len() > MOST_OCTETS {
        return None;
    }
    let mut walked = Walked::default();
    let mut at = 0;
    let mut frames = 0;
    while at < octets.len() {
        let (length, samples) = frame_at(octets, at, law, set)?;
        // A mark stands for a frame that is there: it comes with its frame.
        if frames % FRAMES_A_MARK == 0 {
            walked.marks.push(Mark { octets: at, samples: walked.samples });
        }
        frames += 1;
        at += length;
        walked.samples += samples;
    }
    Some(walked)
}

/// The frame of a greeting that holds a sample. None where the marks, which
/// may say anything, don't lead to it: a frame is refused, or 64 of them don't
/// reach the sample.
pub fn jump(octets: &[u8], law: u32, marks: &[Mark], sample: usize) -> Option<Jump> {
    let at_mark = mark_of(marks, sample);
    let mark = marks.get(at_mark)?;
    let (mut place, mut before) = (mark.octets, mark.samples);
    if before > sample {
        return None;
    }
    for passed in 0..FRAMES_A_MARK {
        let (length, samples) = frame_at(octets, place, law, ALL_TOOLS)?;
        if sample < before + samples {
            let frame = FRAMES_A_MARK * at_mark + passed;
            return Some(Jump { frame, place, within: sample - before, read: passed + 1 });
        }
        place += length;
        before += samples;
    }
    None
}

/// The last mark at or before the sample, if marks rise; found by halving, so
/// it is one of them, and always the same one, whatever they say.
fn mark_of(marks: &[Mark], sample: usize) -> usize {
    let (mut low, mut high) = (0, marks.len());
    while high - low > 1 {
        let middle = low + (high - low) / 2;
        if marks[middle].samples <= sample {
            low = middle;
        } else {
            high = middle;
        }
    }
    low
}

/// Octets and samples of the frame at a place of a greeting. No octets are
/// left at its end, or past it, and so no frame.
fn frame_at(octets: &[u8], place: usize, law: u32, set: u32) -> Option<(usize, usize)> {
    let frame = read_frame(octets.get(place..)?, law, set, &mut [0; MOST_SAMPLES]);
    (frame.ending == 0).then_some((frame.octets, frame.samples))
}
