//! Samples as linear values, and back: equations (6-1) to (6-8) of 001, in its
//! own scale of 13 bits for A-law and 14 bits for mu-law.
//!
//! The equations stand here one below the other, each law by itself. Nothing
//! is shared between the laws and nothing is looked up, so that a slip in one
//! of them is not hidden by the other. Every division either leaves no rest or
//! is rounded down, so whole numbers are enough.

use crate::refusal::Refusal;

/// The linear value of one sample, or the number of the refusal.
pub fn linear_of(octet: u8, law: u32) -> Result<i16, u32> {
    let value = to_linear_by(law).map_err(Refusal::number)?;
    Ok(value(octet))
}

/// The sample of one linear value, or the number of the refusal. A value
/// outside the law's scale is clipped.
pub fn octet_of(value: i16, law: u32) -> Result<u8, u32> {
    let octet = from_linear_by(law).map_err(Refusal::number)?;
    Ok(octet(value))
}

/// Turns the samples of a frame into linear values. Gives 0, or the number of
/// the refusal: then all of `out` is as lent. So is what lies past the frame.
pub fn to_linear(samples: &[u8], law: u32, out: &mut [i16]) -> u32 {
    let done = to_linear_by(law).and_then(|value| each_of_frame(samples, out, value));
    done.map_or_else(Refusal::number, |()| 0)
}

/// Turns the linear values of a frame into samples, by the same rules.
pub fn from_linear(values: &[i16], law: u32, out: &mut [u8]) -> u32 {
    let done = from_linear_by(law).and_then(|octet| each_of_frame(values, out, octet));
    done.map_or_else(Refusal::number, |()| 0)
}

fn to_linear_by(law: u32) -> Result<fn(u8) -> i16, Refusal> {
    match law {
        0 => Ok(a_to_linear),
        1 => Ok(mu_to_linear),
        _ => Err(Refusal::Law),
    }
}

fn from_linear_by(law: u32) -> Result<fn(i16) -> u8, Refusal> {
    match law {
        0 => Ok(linear_to_a),
        1 => Ok(linear_to_mu),
        _ => Err(Refusal::Law),
    }
}

/// LENGTH, then ROOM; then every value by itself.
fn each_of_frame<Given: Copy, Made>(
    given: &[Given],
    out: &mut [Made],
    made_of: fn(Given) -> Made,
) -> Result<(), Refusal> {
    if ![0, 40, 80, 160, 240, 320].contains(&given.len()) {
        return Err(Refusal::Length);
    }
    let frame = out.get_mut(..given.len()).ok_or(Refusal::Room)?;
    for (place, &value) in frame.iter_mut().zip(given) {
        *place = made_of(value);
    }
    Ok(())
}

/// (6-1), (6-2).
fn a_to_linear(octet: u8) -> i16 {
    let x = i32::from(octet);
    let s = x & 0x80;
    let y = (x ^ 0x55) & 0x7F;
    let e = y / 16;
    let m = y & 0x0F;
    let size = if e > 0 {
        two_to(e - 1) * (16 * m + 8 + 256) / 8
    } else {
        (16 * m + 8) / 8
    };
    with_polarity(size, s)
}

/// (6-3), (6-4). Both zeros are 0: plus and minus are lost there.
fn mu_to_linear(octet: u8) -> i16 {
    let x = i32::from(octet);
    let s = x & 0x80;
    let y = (x ^ 0x7F) & 0x7F;
    let e = y / 16;
    let m = y & 0x0F;
    let size = (two_to(e) * (8 * m + 128 + 4) - 132) / 4;
    with_polarity(size, s)
}

/// (6-5), (6-6).
fn linear_to_a(value: i16) -> u8 {
    let x = i32::from(value);
    let m = if x >= 0 { x.min(4095) } else { -x.max(-4096) - 1 };
    let e = exponent(m);
    let y = (16 * e + m / two_to(e + 1)) ^ 0x55;
    with_top_bit(y, x)
}

/// (6-7), (6-8).
fn linear_to_mu(value: i16) -> u8 {
    let x = i32::from(value);
    let m = if x >= 0 { (x + 33).min(8191) } else { -(x - 33).max(-8192) - 1 };
    let e = exponent(m);
    let y = (16 * (e - 1) + m / two_to(e + 1)) ^ 0x7F;
    with_top_bit(y, x)
}

/// The last choice of (6-2) and (6-4). The sizes are at most 4,032 and 8,031.
fn with_polarity(size: i32, s: i32) -> i16 {
    let value = if s == 0x80 { size } else { -size };
    value as i16
}

/// The logarithm to 2 of m / 64 + 1, rounded up, where m / 64 is rounded down
/// first: the least number of which the power is not less.
fn exponent(m: i32) -> i32 {
    let of = m / 64 + 1;
    let mut e = 0;
    while two_to(e) < of {
        e += 1;
    }
    e
}

/// The last choice of (6-6) and (6-8): the top bit says plus.
fn with_top_bit(y: i32, x: i32) -> u8 {
    let octet = if x >= 0 { y ^ 0x80 } else { y };
    octet as u8
}

fn two_to(power: i32) -> i32 {
    1 << power
}
