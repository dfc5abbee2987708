//! Writing one frame.

use crate::bits::BitWriter;
use crate::first_octet::{octet_for, rice_prefix};
use crate::fractional::Fractional;
use crate::law::{check_writer_set, holds, Law, SIGN};
use crate::planes::{gather_low_bits, Plane};
use crate::refusal::Refusal;
use crate::runs::Runs;
use crate::s_codes;
use crate::value_rows::{self, case_of, place_bits};

#[derive(Clone, Copy, Debug, PartialEq, Eq)]
pub struct WriteReport {
    /// 0, or the number of the refusal.
    pub ending: u32,
    pub octets: usize,
    pub bits: usize,
    pub tool: u32,
}

/// Writes the chosen form of the frame `samples` to the start of `out`.
/// Everything past the form stays as lent; a refusal leaves all of it so.
pub fn write_frame(samples: &[u8], law: u32, set: u32, out: &mut [u8]) -> WriteReport {
    match write_checked(samples, law, set, out) {
        Ok(form) => WriteReport {
            ending: 0,
            octets: form.bits.div_ceil(8),
            bits: form.bits,
            tool: u32::from(form.tool),
        },
        Err(refusal) => {
            WriteReport { ending: refusal.number(), octets: 0, bits: 0, tool: refusal.tool() }
        }
    }
}

/// A form that was written.
struct Form {
    bits: usize,
    tool: u8,
}

fn write_checked(samples: &[u8], law: u32, set: u32, out: &mut [u8]) -> Result<Form, Refusal> {
    let law = Law::from_number(law)?;
    check_writer_set(set)?;
    match samples.len() {
        0 => write_octets(0, &[0x00], out),
        40 | 80 | 160 | 240 | 320 => write_chosen(samples, law, set, out),
        _ => Err(Refusal::Length),
    }
}

/// Takes the tools in an order that makes the first form found the chosen one.
/// Only value-location and fractional bits are held against each other: either
/// may be the shorter one, and on a tie value-location comes first.
fn write_chosen(samples: &[u8], law: Law, set: u32, out: &mut [u8]) -> Result<Form, Refusal> {
    let spread = Spread::of(samples, law);
    if spread.equal {
        if let Some(tool) = equal_tool(samples[0], law, set) {
            return write_equal(tool, samples, out);
        }
    }
    if spread.is_two_zeros() {
        return write_two_zeros(samples, law, set, out);
    }
    let fractional = if spread.is_in_rows() && holds(set, 11) { Fractional::measure(samples, law) } else { None };
    if spread.is_near_zero() && samples.len() >= 80 && holds(set, 7) {
        if let Some(form) = ValueLocation::encode(samples, law) {
            if fractional.as_ref().is_none_or(|other| form.octets() <= other.octets()) {
                return form.write(out);
            }
        }
    }
    match fractional {
        Some(form) => write_fractional(&form, samples, law, out),
        None => write_uncompressed(samples, out),
    }
}

/// What all samples of a frame have in common.
struct Spread {
    equal: bool,
    /// The bits in which any sample differs from plus zero.
    codes: u8,
}

impl Spread {
    #[inline]
    fn of(samples: &[u8], law: Law) -> Spread {
        let mut any = 0;
        let mut every = 0xFF;
        for &sample in samples {
            any |= sample;
            every &= sample;
        }
        // A bit differs from plus zero somewhere if it is 1 in any sample
        // where plus zero has 0, or not 1 in every sample where that has 1.
        Spread { equal: any == every, codes: (any & !law.plus) | (!every & law.plus) }
    }

    #[inline]
    fn is_two_zeros(&self) -> bool {
        self.codes & !SIGN == 0
    }

    /// Within -2 to 1.
    #[inline]
    fn is_near_zero(&self) -> bool {
        self.codes & !(SIGN | 1) == 0
    }

    /// Within -4 to 3: no row of tool 11 goes farther.
    #[inline]
    fn is_in_rows(&self) -> bool {
        self.codes & !(SIGN | 3) == 0
    }
}

/// The tool for a frame of equal samples. One octet can't be beaten; two can
/// at most be met, by Rice, which comes later in the order.
fn equal_tool(octet: u8, law: Law, set: u32) -> Option<u8> {
    if octet == law.plus && holds(set, 2) {
        Some(2)
    } else if octet == law.minus() && holds(set, 3) {
        Some(3)
    } else if holds(set, 4) {
        Some(4)
    } else {
        None
    }
}

/// Binary or Rice, or else the plain octets: both are far shorter than those.
fn write_two_zeros(samples: &[u8], law: Law, set: u32, out: &mut [u8]) -> Result<Form, Refusal> {
    match (holds(set, 5), holds(set, 6)) {
        (false, false) => write_uncompressed(samples, out),
        (true, false) => write_binary(samples, out),
        (binary, true) => {
            let signs = Plane::of_signs(samples, law.plus);
            let minus = signs.count();
            if binary && rice_is_too_long(minus.min(samples.len() - minus), samples.len()) {
                return write_binary(samples, out);
            }
            let form = Rice::measure(&signs, minus, samples.len());
            let binary_octets = 1 + samples.len() / 8;
            if binary && binary_octets <= form.bits.div_ceil(8) {
                return write_binary(samples, out);
            }
            form.write(out)
        }
    }
}

/// Whether Rice needs at least binary's octets, told by the count of the rarer
/// zero alone: no runs need be looked for in a frame of about half and half.
///
/// A run v has S + 1 bits and at least (v - (2^S - 1)) / 2^S zeros. With r
/// closing samples among N the runs are N - r places, so all of them have at
/// least r * S + N / 2^S bits. From r = N / 4 on this is least for S = 1.
fn rice_is_too_long(rarer: usize, samples: usize) -> bool {
    let (_, prefix_bits) = rice_prefix(samples, false);
    let shortest_code = usize::from(s_codes::codes(samples)[0].bits);
    let least = prefix_bits as usize + shortest_code + rarer + samples / 2;
    rarer >= samples / 4 && least > samples
}

fn write_octets(tool: u8, form: &[u8], out: &mut [u8]) -> Result<Form, Refusal> {
    lend(out, form.len())?.copy_from_slice(form);
    Ok(Form { bits: 8 * form.len(), tool })
}

fn write_equal(tool: u8, samples: &[u8], out: &mut [u8]) -> Result<Form, Refusal> {
    let first = octet_for(tool, samples.len());
    match tool {
        4 => write_octets(tool, &[first, samples[0]], out),
        _ => write_octets(tool, &[first], out),
    }
}

fn write_uncompressed(samples: &[u8], out: &mut [u8]) -> Result<Form, Refusal> {
    let form = lend(out, 1 + samples.len())?;
    form[0] = octet_for(1, samples.len());
    form[1..].copy_from_slice(samples);
    Ok(Form { bits: 8 * form.len(), tool: 1 })
}

fn write_binary(samples: &[u8], out: &mut [u8]) -> Result<Form, Refusal> {
    let form = lend(out, 1 + samples.len() / 8)?;
    form[0] = octet_for(5, samples.len());
    for (octet, eight) in form[1..].iter_mut().zip(samples.chunks_exact(8)) {
        // Both laws have the top bit clear in minus zero, which is a 1 here.
        let turned = !u64::from_be_bytes(eight.try_into().unwrap());
        *octet = gather_low_bits(turned >> SIGN.trailing_zeros());
    }
    Ok(Form { bits: 8 * form.len(), tool: 5 })
}

/// Never longer than the plain octets: at most 13 bits for five samples.
fn write_fractional(form: &Fractional, samples: &[u8], law: Law, out: &mut [u8]) -> Result<Form, Refusal> {
    let octets = lend(out, form.octets())?;
    form.write(samples, law, octets);
    Ok(Form { bits: 8 * octets.len(), tool: 11 })
}

/// The octets a form needs.
fn lend(out: &mut [u8], octets: usize) -> Result<&mut [u8], Refusal> {
    out.get_mut(..octets).ok_or(Refusal::Room)
}

/// Tool 6 with its best S, measured and not yet written.
struct Rice {
    samples: usize,
    minus_commoner: bool,
    s: u32,
    runs: Runs,
    bits: usize,
}

impl Rice {
    fn measure(signs: &Plane, minus: usize, samples: usize) -> Rice {
        // One comparison serves both the counting and the mark.
        let minus_commoner = 2 * minus > samples;
        let rarer = if minus_commoner { Plane::full(samples).and_not(signs) } else { *signs };
        let mut runs = Runs::over(samples);
        rarer.each_place(|place| runs.close_at(place));
        runs.end();

        let (_, prefix_bits) = rice_prefix(samples, minus_commoner);
        let codes = s_codes::codes(samples);
        let (s, bits) =
            runs.best_s(codes.len() as u32, |s| usize::from(codes[s as usize - 1].bits));
        Rice { samples, minus_commoner, s, runs, bits: prefix_bits as usize + bits }
    }

    fn write(&self, out: &mut [u8]) -> Result<Form, Refusal> {
        let mut bits = BitWriter::new(lend(out, self.bits.div_ceil(8))?);
        let (prefix, prefix_bits) = rice_prefix(self.samples, self.minus_commoner);
        bits.put(prefix, prefix_bits);
        let code = s_codes::codes(self.samples)[self.s as usize - 1];
        bits.put(u32::from(code.code), u32::from(code.bits));
        self.runs.put(&mut bits, self.s);
        Ok(Form { bits: bits.finish(), tool: 6 })
    }
}

/// Tool 7's form. How long it gets is known only once every value has found
/// its method, and it is short, so it is made here and copied when it fits.
struct ValueLocation {
    octets: [u8; ValueLocation::MOST_OCTETS],
    bits: usize,
}

impl ValueLocation {
    /// 11 bits, then three values of at most 3 + 320 bits: no method is taken
    /// that needs more bits than there are places.
    const MOST_OCTETS: usize = 123;

    /// The form of a frame within -2 to 1, if the tool applies. It is always
    /// shorter than the frame's plain octets: at most 123 of 240 or 320, or,
    /// with two values, 11 + 2 * 163 bits of 160 and 11 + 2 * 83 bits of 80.
    fn encode(samples: &[u8], law: Law) -> Option<ValueLocation> {
        let length = samples.len();
        let signs = Plane::of_signs(samples, law.plus);
        let lows = Plane::of_low_bits(samples, law.plus);
        let ones = lows.and_not(&signs);
        let minus_ones = signs.and_not(&lows);
        let minus_twos = lows.and(&signs);

        let case =
            case_of(!ones.is_empty(), !minus_ones.is_empty(), !minus_twos.is_empty(), length)?;
        let above = ones.count();
        let (first_below, second_below) = (minus_ones.count(), minus_twos.count());
        let zeros = length - above - first_below - second_below;
        if zeros < above.max(first_below).max(second_below) {
            return None;
        }
        let flag = u32::from(above >= first_below + second_below);

        let mut form = ValueLocation { octets: [0; Self::MOST_OCTETS], bits: 0 };
        let mut bits = BitWriter::new(&mut form.octets);
        bits.put(u32::from(octet_for(7, length)), 8);
        bits.put(case << 1 | flag, 3);
        let mut gone = Plane::EMPTY;
        let mut places = length;
        for &value in value_rows::values(case, flag, length)? {
            let plane = match value {
                value_rows::ONE => &ones,
                value_rows::MINUS_ONE => &minus_ones,
                _ => &minus_twos,
            };
            places -= put_value(&mut bits, plane, &gone, places);
            gone = gone.or(plane);
        }
        form.bits = bits.finish();
        Some(form)
    }

    fn octets(&self) -> usize {
        self.bits.div_ceil(8)
    }

    fn write(&self, out: &mut [u8]) -> Result<Form, Refusal> {
        let octets = self.octets();
        lend(out, octets)?.copy_from_slice(&self.octets[..octets]);
        Ok(Form { bits: self.bits, tool: 7 })
    }
}

/// Puts one value by the method it calls for; gives its number of places.
fn put_value(bits: &mut BitWriter, plane: &Plane, gone: &Plane, places: usize) -> usize {
    let count = plane.count();
    if count == 0 {
        bits.put(0b101, 3);
        return 0;
    }
    let mut runs = Runs::over(places);
    if gone.is_empty() {
        plane.each_place(|place| runs.close_at(place));
    } else {
        plane.each_place_without(gone, |place| runs.close_at(place));
    }
    runs.end();

    let (s, run_bits) = runs.best_s(4, |_| 0);
    let width = place_bits(places);
    if run_bits > places {
        bits.put(0b000, 3);
        runs.put_as_row(bits);
    } else if count <= 4 && run_bits > count * width as usize + 2 {
        bits.put(0b111, 3);
        bits.put(count as u32 - 1, 2);
        runs.put_as_places(bits, width);
    } else {
        bits.put(s, 3);
        runs.put(bits, s);
    }
    count
}
