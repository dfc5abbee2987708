//! Frames drawn so that every S, method and tie of a writer comes.

use crate::forms::{rows, Row};
use second::gen::{make_frame, sample_of, Kind, Often, Pattern, Prng};

/// Frames that are one run, or nearly: the greatest S.
pub const SINGLE: [Kind; 6] = [
    Kind::AllPlus,
    Kind::AllMinus,
    Kind::TwoZeros(Pattern::Last),
    Kind::TwoZeros(Pattern::AllButLast),
    Kind::TwoZeros(Pattern::First),
    Kind::TwoZeros(Pattern::Exactly(1)),
];

/// Places of a value whose runs, with S = 1, have about as many bits as places: 1 and 2 have as many, 0 has one more,
/// 3 has one fewer.
fn even_runs(length: usize, rng: &mut Prng) -> Vec<bool> {
    let odd = rng.chance(1, 3);
    let mut flags = Vec::new();
    while flags.len() < length {
        let run = if odd { *rng.pick(&[0, 1, 2, 3, 1, 2]) } else { 1 + rng.below(2) };
        flags.resize(flags.len() + run, false);
        flags.push(true);
    }
    flags.truncate(length);
    flags
}

/// A frame in which a value's bits are about even with the places, for one value of a row or for two.
pub fn even_frame(length: usize, law: u32, rng: &mut Prng) -> Vec<u8> {
    let Some(row) = rows(length).get(rng.below(rows(length).len().max(1))) else {
        return make_frame(Kind::TwoZeros(Pattern::Every(2)), length, law, rng);
    };
    let mut numbers = vec![0; length];
    for value in row.values {
        if rng.chance(1, 3) {
            let at = rng.below(length);
            numbers[at] = *value;
            continue;
        }
        let empty: Vec<usize> = (0..length).filter(|at| numbers[*at] == 0).collect();
        let flags = even_runs(empty.len(), rng);
        let stretch = if rng.flip() { empty.len() } else { rng.below(empty.len() + 1) };
        empty.iter().zip(flags).take(stretch).filter(|(_, flag)| *flag).for_each(|(at, _)| numbers[*at] = *value);
    }
    numbers.iter().map(|number| sample_of(*number, law)).collect()
}

/// A frame with a few of each value; in some, 1 comes at least as often as all below 0 together.
pub fn few_frame(length: usize, law: u32, rng: &mut Prng) -> Vec<u8> {
    let mut few = |most: usize| Often::Times(1 + rng.below(most));
    let (mut ones, mut minus_ones, mut minus_twos) = (few(6), few(6), few(6));
    if rng.chance(1, 8) {
        minus_ones = Often::Never;
    }
    if rng.chance(1, 3) {
        ones = Often::Times(2 + rng.below(3));
        (minus_ones, minus_twos) = (Often::Times(rng.below(2)), Often::Times(1));
    }
    let kind = Kind::Range { case: *rng.pick(&[0, 0, 1, 2, 3]), ones, minus_ones, minus_twos };
    make_frame(kind, length, law, rng)
}

/// A frame of 0 and 1 for which value-location and tool 11 (document 02, R-14) need about as many octets.
pub fn near_tie_frame(length: usize, law: u32, rng: &mut Prng) -> Vec<u8> {
    let part = 26 + rng.below(12);
    (0..length).map(|_| sample_of(i32::from(rng.chance(part, 100)), law)).collect()
}

/// The two zeros, the rarer one as often as suits one S or another.
pub fn scattered(rng: &mut Prng) -> Pattern {
    let most = 4 << rng.below(6);
    Pattern::Scattered { part: 1, whole: 2 + rng.below(most) }
}

/// Such parts of the places left, in hundredths, that each method comes; 0 is a few places.
const SHARES: [usize; 7] = [0, 3, 7, 14, 25, 33, 46];

/// What part of the places left each value takes: any; or two of them as much as they can, and the others a few.
fn shares(values: usize, rng: &mut Prng) -> Vec<usize> {
    let mut shares: Vec<usize> = (0..values).map(|_| *rng.pick(&SHARES)).collect();
    if rng.chance(1, 3) {
        shares.fill(0);
        let last = rng.below(values);
        shares[last] = 46;
        if last > 0 {
            shares[rng.below(last)] = 33;
        }
    }
    shares
}

/// A frame of a row in which each value takes some part of what those before it left.
fn shared_frame(row: Row, length: usize, law: u32, rng: &mut Prng) -> Vec<u8> {
    let mut numbers = vec![0; length];
    let mut empty: Vec<usize> = (0..length).collect();
    rng.shuffle(&mut empty);
    for (value, share) in row.values.iter().zip(shares(row.values.len(), rng)) {
        let count = match share {
            0 => rng.below(6),
            _ => empty.len() * share * (90 + rng.below(16)) / 10_000,
        };
        empty.drain(..count.min(empty.len())).for_each(|at| numbers[at] = *value);
    }
    numbers.iter().map(|number| sample_of(*number, law)).collect()
}

/// A frame of any row of its length, or of the two zeros if there is none.
pub fn located_frame(length: usize, law: u32, rng: &mut Prng) -> Vec<u8> {
    match rows(length) {
        [] => make_frame(Kind::TwoZeros(*rng.pick(Pattern::ALL)), length, law, rng),
        rows => shared_frame(*rng.pick(rows), length, law, rng),
    }
}
