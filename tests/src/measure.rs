//! What a frame is and what a written form says, worked out the slow way from document 01: for counting what a
//! comparison has met, and for finding ties. No answer is judged by it.

use crate::forms::{place_width, run_lengths, s_codes, Row, ROWS};
use second::gen::sample_of;

/// The signed numbers of samples.
pub fn numbers(samples: &[u8], law: u32) -> Vec<i32> {
    let mut map = [0; 256];
    for number in -128..=127 {
        map[usize::from(sample_of(number, law))] = number;
    }
    samples.iter().map(|sample| map[usize::from(*sample)]).collect()
}

/// The bits of some runs under S.
pub fn run_bits(runs: &[usize], s: usize) -> usize {
    runs.iter().map(|v| (v >> s) + 1 + s).sum()
}

/// The fewest bits over S = 1 and up, `more` added for each S, and how many of them need as few.
fn fewest(runs: &[usize], more: &[usize]) -> (usize, usize) {
    let bits: Vec<usize> = more.iter().enumerate().map(|(at, more)| more + run_bits(runs, at + 1)).collect();
    let least = *bits.iter().min().expect("there is an S");
    (least, bits.iter().filter(|bits| **bits == least).count())
}

/// A frame of the two zeros, as tool 6 would write it.
pub struct Zeros {
    pub marks_tie: bool,
    pub s_ties: bool,
    pub octets: usize,
}

/// None if another sample comes.
pub fn zeros(numbers: &[i32]) -> Option<Zeros> {
    if numbers.iter().any(|number| *number != 0 && *number != -1) {
        return None;
    }
    let length = numbers.len();
    let minus = numbers.iter().filter(|number| **number == -1).count();
    let rarer = if 2 * minus > length { 0 } else { -1 };
    let runs = run_lengths(&numbers.iter().map(|number| *number == rarer).collect::<Vec<_>>());
    let codes: Vec<usize> = s_codes(length).iter().map(|code| code.len()).collect();
    let (bits, ways) = fewest(&runs, &codes);
    let prefix = if length >= 240 { 7 } else { 5 };
    Some(Zeros { marks_tie: 2 * minus == length, s_ties: ways > 1, octets: (prefix + bits).div_ceil(8) })
}

/// One value of a value-location frame.
pub struct Value {
    pub count: usize,
    pub places: usize,
    pub runs: Vec<usize>,
    /// L: the fewest bits of runs.
    pub least: usize,
    pub s_ties: bool,
}

impl Value {
    /// The bits of a list without its count less one.
    pub fn list_bits(&self) -> usize {
        self.count * place_width(self.places)
    }
}

/// The values of a row, each over the places that those before it left.
pub fn values(numbers: &[i32], row: Row) -> Vec<Value> {
    let mut left = numbers.to_vec();
    let mut values = Vec::new();
    for value in row.values {
        let flags: Vec<bool> = left.iter().map(|number| number == value).collect();
        let runs = run_lengths(&flags);
        let (least, ways) = fewest(&runs, &[0; 4]);
        let count = flags.iter().filter(|flag| **flag).count();
        values.push(Value { count, places: left.len(), runs, least, s_ties: ways > 1 });
        left.retain(|number| number != value);
    }
    values
}

/// Bits of a form, from a place on.
fn number(octets: &[u8], at: usize, width: usize) -> usize {
    (at..at + width).fold(0, |sum, bit| sum << 1 | usize::from(octets[bit / 8] >> (7 - bit % 8) & 1))
}

/// The S of a written form of tool 6.
pub fn s_of(octets: &[u8], length: usize) -> usize {
    let prefix = if length >= 240 { 7 } else { 5 };
    let says = |code: &&str| {
        let wanted = usize::from_str_radix(code, 2).expect("a code is of bits");
        8 * octets.len() >= prefix + code.len() && number(octets, prefix, code.len()) == wanted
    };
    1 + s_codes(length).iter().position(says).expect("a form of tool 6 has a code of S")
}

/// The row of a written form of tool 7, and the method of each of its values.
pub fn methods_of(octets: &[u8], numbers: &[i32]) -> (Row, Vec<usize>) {
    let (case, flag) = (number(octets, 8, 2), number(octets, 10, 1));
    let row = *ROWS.iter().find(|row| (row.case, row.flag) == (case, flag)).expect("a written form has a row");
    let mut at = 11;
    let mut methods = Vec::new();
    for value in values(numbers, row) {
        let method = number(octets, at, 3);
        at += 3 + match method {
            0 => value.places,
            7 => 2 + value.list_bits(),
            5 => 0,
            s => run_bits(&value.runs, s),
        };
        methods.push(method);
    }
    (row, methods)
}
