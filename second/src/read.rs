//! Reading one frame.

use crate::bits::BitReader;
use crate::first_octet::{decide, Opening};
use crate::fractional;
use crate::law::{check_reader_set, holds, Law, SIGN};
use crate::planes::{eight_of, spread_to_top_bits, Plane};
use crate::refusal::Refusal;
use crate::runs::read_runs;
use crate::s_codes;
use crate::value_rows::{place_bits, values};
use crate::MOST_SAMPLES;

#[derive(Clone, Copy, Debug, PartialEq, Eq)]
pub struct ReadReport {
    /// 0, or the number of the refusal.
    pub ending: u32,
    pub samples: usize,
    pub octets: usize,
    pub bits: usize,
    pub tool: u32,
    /// The bit a refusal points at, counted from the frame's start.
    pub bit: usize,
}

/// Reads one frame at the start of `octets`. The length of `out` is the room;
/// an accepted frame's N samples go to `out[..N]` and the rest stays as lent.
/// A refused call leaves all of `out` as lent.
pub fn read_frame(octets: &[u8], law: u32, set: u32, out: &mut [u8]) -> ReadReport {
    let read = check(law, set).and_then(|law| read_one(octets, law, set, out));
    match read {
        Ok(frame) => ReadReport {
            ending: 0,
            samples: frame.samples,
            octets: frame.octets(),
            bits: frame.bits,
            tool: u32::from(frame.tool),
            bit: 0,
        },
        Err(refusal) => ReadReport {
            ending: refusal.number(),
            samples: 0,
            octets: 0,
            bits: 0,
            tool: refusal.tool(),
            bit: refusal.bit(),
        },
    }
}

/// LAW before SET, once for a call or a whole walk.
pub(crate) fn check(law: u32, set: u32) -> Result<Law, Refusal> {
    let law = Law::from_number(law)?;
    check_reader_set(set)?;
    Ok(law)
}

/// An accepted frame.
#[derive(Clone, Copy)]
pub(crate) struct Frame {
    pub samples: usize,
    pub bits: usize,
    pub tool: u8,
}

impl Frame {
    #[inline]
    pub fn octets(&self) -> usize {
        self.bits.div_ceil(8)
    }
}

/// The one-frame reader behind the single call, the walk and the listing. The
/// law and the set are known to be good.
#[inline]
pub(crate) fn read_one(octets: &[u8], law: Law, set: u32, out: &mut [u8]) -> Result<Frame, Refusal> {
    let opening = decide(octets)?;
    if !holds(set, opening.tool) {
        return Err(Refusal::Tool(opening.tool));
    }
    let samples = usize::from(opening.samples);
    let frame = out.get_mut(..samples).ok_or(Refusal::Room)?;
    let bits = match opening.tool {
        0 => 8,
        1 => read_uncompressed(octets, frame)?,
        2 => fill(frame, law.plus),
        3 => fill(frame, law.minus()),
        4 => read_constant(octets, frame)?,
        5 => read_binary(octets, law, frame)?,
        6 => read_rice(octets, opening, law, frame)?,
        7 => read_value_location(octets, law, frame)?,
        _ => fractional::read(octets, law, frame)?,
    };
    Ok(Frame { samples, bits, tool: opening.tool })
}

fn fill(frame: &mut [u8], octet: u8) -> usize {
    frame.fill(octet);
    8
}

fn read_uncompressed(octets: &[u8], frame: &mut [u8]) -> Result<usize, Refusal> {
    let body = octets.get(1..1 + frame.len()).ok_or(Refusal::short(octets))?;
    frame.copy_from_slice(body);
    Ok(8 + 8 * frame.len())
}

fn read_constant(octets: &[u8], frame: &mut [u8]) -> Result<usize, Refusal> {
    let &octet = octets.get(1).ok_or(Refusal::short(octets))?;
    frame.fill(octet);
    Ok(16)
}

fn read_binary(octets: &[u8], law: Law, frame: &mut [u8]) -> Result<usize, Refusal> {
    let body = octets.get(1..1 + frame.len() / 8).ok_or(Refusal::short(octets))?;
    // A 1 is minus zero, and minus zero is plus zero with its top bit turned.
    let plus = eight_of(law.plus);
    for (eight, &bits) in frame.chunks_exact_mut(8).zip(body) {
        eight.copy_from_slice(&(plus ^ spread_to_top_bits(bits)).to_be_bytes());
    }
    Ok(8 + frame.len())
}

fn read_rice(octets: &[u8], opening: Opening, law: Law, frame: &mut [u8]) -> Result<usize, Refusal> {
    let prefix_bits = u32::from(opening.prefix_bits);
    let minus_commoner = octets[0] >> (8 - prefix_bits) & 1 == 1;
    let (common, rare) =
        if minus_commoner { (law.minus(), law.plus) } else { (law.plus, law.minus()) };

    let samples = frame.len();
    let mut bits = BitReader::new(octets, prefix_bits);
    let s = read_s(&mut bits, samples)?;
    // A refusal may come with the last bit, so the samples wait here for it.
    let mut held = [common; MOST_SAMPLES];
    read_runs(&mut bits, s, samples, samples, |place| held[place] = rare)?;
    bits.check_filling()?;
    frame.copy_from_slice(&held[..samples]);
    Ok(bits.position())
}

#[inline]
fn read_s(bits: &mut BitReader, samples: usize) -> Result<u32, Refusal> {
    let next_six = bits.peek(s_codes::LONGEST);
    let found = s_codes::find(samples, next_six as usize);
    bits.accept(u32::from(found.bits))?;
    Ok(u32::from(found.s))
}

fn read_value_location(octets: &[u8], law: Law, frame: &mut [u8]) -> Result<usize, Refusal> {
    let samples = frame.len();
    let mut bits = BitReader::new(octets, 8);
    let case_starts = bits.position();
    let case = bits.take(2)?;
    let flag = bits.take(1)?;
    let values = values(case, flag, samples).ok_or(Refusal::Case { bit: case_starts })?;

    let mut signs = Plane::EMPTY;
    let mut low_bits = Plane::EMPTY;
    let mut empty = Plane::full(samples);
    let mut places = samples;
    for &value in values {
        let mut taken = read_value(&mut bits, samples, places)?;
        if places < samples {
            taken = taken.moved_onto(&empty);
        }
        // Nothing need be left, neither for 0 nor for the values to come.
        places -= taken.count();
        empty = empty.and_not(&taken);
        if value & SIGN != 0 {
            signs = signs.or(&taken);
        }
        if value & 1 != 0 {
            low_bits = low_bits.or(&taken);
        }
    }
    bits.check_filling()?;
    Plane::write_samples(&signs, &low_bits, law.plus, frame);
    Ok(bits.position())
}

/// Reads the places of one value, counted among the `places` still empty.
///
/// Where none is empty a row has no bits and there is no run to read, so the
/// methods up to 101 end with their own three bits and mean none.
#[inline]
fn read_value(bits: &mut BitReader, samples: usize, places: usize) -> Result<Plane, Refusal> {
    let mut taken = Plane::EMPTY;
    let method_starts = bits.position();
    match bits.take(3)? {
        0b000 => read_row(bits, places, &mut taken)?,
        s @ 0b001..=0b100 => read_runs(bits, s, samples, places, |place| taken.insert(place))?,
        0b101 => {}
        0b110 => return Err(Refusal::Method { bit: method_starts }),
        _ => read_listed(bits, places, &mut taken)?,
    }
    Ok(taken)
}

#[inline]
fn read_row(bits: &mut BitReader, places: usize, taken: &mut Plane) -> Result<(), Refusal> {
    for place in (0..places).step_by(32) {
        let here = (places - place).min(32) as u32;
        let row = bits.take(here)? << (32 - here);
        taken.insert_row(place, row.reverse_bits());
    }
    Ok(())
}

/// A list has at least one place, and none is below 0: where no place is
/// empty, the two bits of the count are read and the first place is refused.
#[inline]
fn read_listed(bits: &mut BitReader, places: usize, taken: &mut Plane) -> Result<(), Refusal> {
    let count = bits.take(2)? + 1;
    let width = place_bits(places);
    let mut least = 0;
    for _ in 0..count {
        // A place of no bits starts where the bits before it end.
        let place_starts = bits.position();
        let place = bits.take(width)? as usize;
        if place < least || place >= places {
            return Err(Refusal::Place { bit: place_starts });
        }
        taken.insert(place);
        least = place + 1;
    }
    Ok(())
}
