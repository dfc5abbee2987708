//! The three calls, whoever answers them. Another back end is one more implementation of [`Codec`].

use crate::program;

/// What one call of the reader reports.
#[derive(Clone, Copy, Debug, PartialEq, Eq)]
pub struct Read {
    pub ending: u32,
    pub tool: u32,
    pub samples: usize,
    pub octets: usize,
    pub bits: usize,
    pub bit: usize,
}

/// What one call of the writer reports.
#[derive(Clone, Copy, Debug, PartialEq, Eq)]
pub struct Write {
    pub ending: u32,
    pub tool: u32,
    pub octets: usize,
    pub bits: usize,
}

/// What one walk reports.
#[derive(Clone, Copy, Debug, PartialEq, Eq)]
pub struct Walk {
    pub ending: u32,
    pub tool: u32,
    pub frames: usize,
    pub octets: usize,
    pub samples: usize,
    pub place: usize,
    pub bit: usize,
}

/// A back end. The length of `out` is the room that is lent.
pub trait Codec {
    fn name(&self) -> &str;

    /// Whether the back end writes.
    fn writes(&self) -> bool {
        true
    }

    fn read(&self, octets: &[u8], law: u32, set: u32, out: &mut [u8]) -> Read;
    fn write(&self, samples: &[u8], law: u32, set: u32, out: &mut [u8]) -> Write;
    fn walk(&self, octets: &[u8], law: u32, set: u32, out: &mut [u8]) -> Walk;

    /// The text of the listing program, where the back end has one.
    fn listing(&self, _input: &[u8]) -> Option<Vec<u8>> {
        None
    }
}

/// The independent second program.
pub struct Second;

impl Codec for Second {
    fn name(&self) -> &str {
        "second"
    }

    fn read(&self, octets: &[u8], law: u32, set: u32, out: &mut [u8]) -> Read {
        let got = second::read_frame(octets, law, set, out);
        Read {
            ending: got.ending,
            tool: got.tool,
            samples: got.samples,
            octets: got.octets,
            bits: got.bits,
            bit: got.bit,
        }
    }

    fn write(&self, samples: &[u8], law: u32, set: u32, out: &mut [u8]) -> Write {
        let got = second::write_frame(samples, law, set, out);
        Write { ending: got.ending, tool: got.tool, octets: got.octets, bits: got.bits }
    }

    fn walk(&self, octets: &[u8], law: u32, set: u32, out: &mut [u8]) -> Walk {
        let got = second::walk(octets, law, set, out);
        Walk {
            ending: got.ending,
            tool: got.tool,
            frames: got.frames,
            octets: got.octets,
            samples: got.samples,
            place: got.place,
            bit: got.bit,
        }
    }

    fn listing(&self, input: &[u8]) -> Option<Vec<u8>> {
        Some(second::listing(input))
    }
}

/// What a report holds before a call. All of it is written in every case.
const UNWRITTEN: u64 = u64::MAX;

/// The proved code, through the static library; its listing is the program's.
pub struct Proved;

impl Codec for Proved {
    fn name(&self) -> &str {
        "proved"
    }

    fn writes(&self) -> bool {
        cfg!(feature = "writer")
    }

    fn read(&self, octets: &[u8], law: u32, set: u32, out: &mut [u8]) -> Read {
        let mut report = [UNWRITTEN; 5];
        let ending = g7110::raw::read(octets, law, set, out, &mut report);
        let [samples, octets, bits, tool, bit] = report.map(|number| number as usize);
        Read { ending, tool: tool as u32, samples, octets, bits, bit }
    }

    #[cfg(not(feature = "writer"))]
    fn write(&self, _samples: &[u8], _law: u32, _set: u32, _out: &mut [u8]) -> Write {
        panic!("the proved writer is not there yet")
    }

    #[cfg(feature = "writer")]
    fn write(&self, samples: &[u8], law: u32, set: u32, out: &mut [u8]) -> Write {
        let mut report = [UNWRITTEN; 3];
        let ending = g7110::raw::write(samples, law, set, out, &mut report);
        let [octets, bits, tool] = report;
        Write { ending, tool: tool as u32, octets: octets as usize, bits: bits as usize }
    }

    /// The C call reports the place once: it is the octets kept.
    fn walk(&self, octets: &[u8], law: u32, set: u32, out: &mut [u8]) -> Walk {
        let mut report = [UNWRITTEN; 5];
        let ending = g7110::raw::walk(octets, law, set, out, &mut report);
        let [frames, octets, samples, tool, bit] = report.map(|number| number as usize);
        Walk { ending, tool: tool as u32, frames, octets, samples, place: octets, bit }
    }

    fn listing(&self, input: &[u8]) -> Option<Vec<u8>> {
        Some(program::listing(input))
    }
}
