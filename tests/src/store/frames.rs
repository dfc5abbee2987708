//! Greetings to put, and all their frames: what marks and jumps are held against.

use super::Told;
use crate::streams::Stream;
use crate::{Codec, ALL_TOOLS, MOST};
use second::gen::Prng;
use second::store::Mark;

/// All frames of a greeting: octets and samples before each, and behind the last.
#[derive(Clone, Debug, Default, PartialEq, Eq)]
pub struct Frames {
    /// Of each frame the octets and the samples before it.
    pub before: Vec<(usize, usize)>,
    pub octets: usize,
    pub samples: usize,
}

/// The frames that a reader takes one by one, to the greeting's end; none if it refuses one, or a walk is given too much.
pub fn frames_of(reader: &dyn Codec, octets: &[u8], law: u32) -> Option<Frames> {
    let mut frames = Frames::default();
    while frames.octets < octets.len() {
        let read = reader.read(&octets[frames.octets..], law, ALL_TOOLS, &mut [0; 320]);
        if read.ending != 0 || read.octets == 0 {
            return None;
        }
        frames.before.push((frames.octets, frames.samples));
        frames.octets += read.octets;
        frames.samples += read.samples;
    }
    (!octets.is_empty() && octets.len() <= MOST).then_some(frames)
}

impl Frames {
    /// One of each 64.
    pub fn marks(&self) -> Vec<Mark> {
        self.before.iter().step_by(64).map(|&(octets, samples)| Mark { octets, samples }).collect()
    }

    /// What a jump to a sample tells: the last frame at or before it is the one that holds it, as pads are before others.
    pub fn holding(&self, sample: usize) -> Told {
        let frame = self.before.partition_point(|(_, samples)| *samples <= sample) - 1;
        let (octets, samples) = self.before[frame];
        Told::jumped([frame, octets, sample - samples, frame % 64 + 1])
    }
}

/// Octets that the walk takes: frames, then pads up to so many.
pub fn a_greeting(octets: usize, rng: &mut Prng) -> Vec<u8> {
    let mut greeting = Stream::mixed(octets, 1, rng).octets;
    greeting.resize(octets, 0);
    greeting
}
