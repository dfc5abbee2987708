//! A reader and a writer by the text alone: one bit at a time, every form
//! made in full, nothing shared with the library.
#![allow(dead_code)]

use second::{ReadReport, WriteReport};
use std::sync::atomic::{AtomicU64, Ordering};

/// How often the writer's rules called for each method of tool 7.
pub static METHODS: [AtomicU64; 8] = [const { AtomicU64::new(0) }; 8];

pub const SHORT: u32 = 1;
pub const PREFIX: u32 = 2;
pub const TOOL: u32 = 3;
pub const ROOM: u32 = 4;
pub const CASE: u32 = 5;
pub const METHOD: u32 = 6;
pub const RUN: u32 = 7;
pub const PLACE: u32 = 8;
pub const ALIGN: u32 = 9;
pub const LENGTH: u32 = 10;
pub const SET: u32 = 11;
pub const LAW: u32 = 12;
pub const LONG: u32 = 13;

pub const LENGTHS: [usize; 5] = [40, 80, 160, 240, 320];

/// A refusal, the tool and the bit that it gives.
pub type Refused = (u32, u32, usize);

pub fn refused_read((ending, tool, bit): Refused) -> ReadReport {
    ReadReport { ending, samples: 0, octets: 0, bits: 0, tool, bit }
}

pub fn refused_write(ending: u32) -> WriteReport {
    WriteReport { ending, octets: 0, bits: 0, tool: 0 }
}

fn mask(law: u32) -> u8 {
    [0x55, 0x7F][law as usize]
}

pub fn signed(sample: u8, law: u32) -> i32 {
    let y = i32::from((sample ^ mask(law)) & 0x7F);
    if sample >= 128 {
        y
    } else {
        -y - 1
    }
}

pub fn sample(number: i32, law: u32) -> u8 {
    (0..=255u8).find(|&s| signed(s, law) == number).unwrap()
}

// ------------------------------------------------------------------ reader

struct Bits<'a> {
    octets: &'a [u8],
    at: usize,
}

impl Bits<'_> {
    fn bit(&mut self) -> Result<usize, Refused> {
        let Some(octet) = self.octets.get(self.at / 8) else { return Err((SHORT, 0, self.at)) };
        let bit = (octet >> (7 - self.at % 8)) & 1;
        self.at += 1;
        Ok(bit as usize)
    }

    fn number(&mut self, count: usize) -> Result<usize, Refused> {
        let mut value = 0;
        for _ in 0..count {
            value = 2 * value + self.bit()?;
        }
        Ok(value)
    }

    fn rice(&mut self, s: usize, n: usize) -> Result<usize, Refused> {
        let code = self.at;
        let mut zeros = 0;
        while self.bit()? == 0 {
            zeros += 1;
            if zeros == n + 1 {
                return Err((RUN, 0, code));
            }
        }
        Ok(zeros * 2usize.pow(s as u32) + self.number(s)?)
    }

    /// One truth for each of `d` places: whether it is of the other kind.
    fn runs(&mut self, s: usize, n: usize, d: usize) -> Result<Vec<bool>, Refused> {
        let mut row = Vec::new();
        while row.len() < d {
            let code = self.at;
            let v = self.rice(s, n)?;
            if v > d - row.len() {
                return Err((RUN, 0, code));
            }
            for _ in 0..v {
                row.push(false);
            }
            if row.len() < d {
                row.push(true);
            }
        }
        Ok(row)
    }

    fn filling(&mut self) -> Result<(), Refused> {
        while self.at % 8 != 0 {
            let here = self.at;
            if self.bit()? == 1 {
                return Err((ALIGN, 0, here));
            }
        }
        Ok(())
    }
}

/// Samples and tool of a first octet; 68 stands for 6 or 8.
fn first_octet(octet: u8) -> Option<(usize, u32)> {
    Some(match octet {
        0x00 => (0, 0),
        0x02..=0x1F => (fractional_row(octet).0, 11),
        0x20..=0x3F => {
            let n = if octet < 0x30 { 240 } else { 320 };
            let tool = match octet % 16 {
                0 => 1,
                1 => 2,
                2 => 3,
                3 => 4,
                4 => 5,
                5 => 7,
                6 | 7 => 10,
                8..=11 => 68,
                _ => 9,
            };
            (n, tool)
        }
        0x40..=0x44 => (40, u32::from(octet) - 0x3F),
        0x45 => (40, 12),
        0x48..=0x4F => (40, 13),
        0x50..=0x5F => (40, 68),
        0x60..=0x7F => (40, 9),
        0x80..=0x84 => (80, u32::from(octet) - 0x7F),
        0x86 => (80, 7),
        0x90..=0x9F => (80, 68),
        0xA0..=0xBF => (80, 9),
        0xC0..=0xC4 => (160, u32::from(octet) - 0xBF),
        0xC6 => (160, 7),
        0xC8..=0xCF => (160, 10),
        0xD0..=0xDF => (160, 68),
        0xE0..=0xFF => (160, 9),
        _ => return None,
    })
}

/// Table 7-28 as it is printed: R', the distinctive values within the frame,
/// the prefix codes for 40, 80, 160, 240 and 320 samples.
pub const TABLE_7_28: [(usize, &[i32], &[u8]); 12] = [
    (2, &[0, 1], &[2, 14, 20, 24, 28]),
    (2, &[-2, 0], &[4, 16, 22, 26, 30]),
    (3, &[-2, -1, 0], &[6, 18]),
    (3, &[-1, 0, 1], &[7, 19]),
    (3, &[-2, 0, 1], &[5, 17, 23, 27, 31]),
    (4, &[-2, -1, 0, 1], &[3, 15, 21, 25, 29]),
    (4, &[-3, -2, 0, 1], &[8]),
    (4, &[-2, 0, 1, 2], &[10]),
    (5, &[-2, -1, 0, 1, 2], &[9]),
    (5, &[-3, -2, 0, 1, 2], &[12]),
    (6, &[-3, -2, -1, 0, 1, 2], &[11]),
    (6, &[-4, -3, -2, 0, 1, 2], &[13]),
];

/// N, R', X_min and the flag delta of -1 for a prefix of table 7-28. The flag
/// is 1 where -1 lies inside the values' range and is not one of them.
fn fractional_row(octet: u8) -> (usize, usize, i32, i32) {
    for (reduced, values, prefixes) in TABLE_7_28 {
        if let Some(at) = prefixes.iter().position(|&prefix| prefix == octet) {
            let delta = i32::from(values[0] < -1 && !values.contains(&-1));
            return (LENGTHS[at], reduced, values[0], delta);
        }
    }
    panic!("not in table 7-28: {octet}");
}

/// Table 7-27: bits of each V.
fn bits_of_v(reduced: usize) -> usize {
    match reduced {
        3 => 8,
        5 => 12,
        _ => 13,
    }
}

pub fn s_codes(n: usize) -> Vec<&'static str> {
    match n {
        40 => vec!["01", "10", "110", "1110", "1111"],
        80 => vec!["01", "10", "1100", "1101", "1110", "1111"],
        _ => vec!["01", "10", "1100", "1101", "11100", "11101", "11110", "111110", "111111"],
    }
}

fn row_values(case: usize, flag: usize, n: usize) -> Option<Vec<i32>> {
    let fits = if case == 0 { n >= 240 } else { n >= 80 };
    if !fits {
        return None;
    }
    match (case, flag) {
        (0, 1) => Some(vec![1, -1, -2]),
        (0, 0) => Some(vec![-1, 1, -2]),
        (1, 1) => Some(vec![1, -1]),
        (1, 0) => Some(vec![-1, 1]),
        (2, 0) => Some(vec![-1, -2]),
        (3, 1) => Some(vec![1]),
        _ => None,
    }
}

fn ceil_log2(d: usize) -> usize {
    let mut width = 0;
    while 2usize.pow(width as u32) < d {
        width += 1;
    }
    width
}

/// Whether a set holds a tool: 2^(t - 1) for tools 1 to 7, 128 for tool 11.
fn holds(set: u32, tool: u32) -> bool {
    match tool {
        0 => true,
        1..=7 => (set / 2u32.pow(tool - 1)) % 2 == 1,
        11 => set / 128 == 1,
        _ => false,
    }
}

/// A frame's samples, bits and tool.
type Frame = (Vec<u8>, usize, u32);

fn frame(octets: &[u8], law: u32, set: u32, room: usize) -> Result<Frame, Refused> {
    if octets.is_empty() {
        return Err((SHORT, 0, 0));
    }
    let Some((n, tool)) = first_octet(octets[0]) else { return Err((PREFIX, 0, 0)) };
    let length_bits = if n >= 240 { 4 } else { 2 };

    let mut tool = tool;
    if tool == 68 {
        let mut bits = Bits { octets, at: length_bits + 3 };
        // The second bit matters only after a first bit of 0.
        tool = if bits.bit()? == 1 || bits.bit()? == 1 { 6 } else { 8 };
    }
    if !holds(set, tool) {
        return Err((TOOL, tool, 0));
    }
    if room < n {
        return Err((ROOM, 0, 0));
    }

    let (plus, minus) = (sample(0, law), sample(-1, law));
    let mut bits = Bits { octets, at: 8 };
    let samples: Vec<u8> = match tool {
        0 => vec![],
        1 => {
            let mut samples = vec![];
            for _ in 0..n {
                samples.push(bits.number(8)? as u8);
            }
            samples
        }
        2 => vec![plus; n],
        3 => vec![minus; n],
        4 => vec![bits.number(8)? as u8; n],
        5 => {
            let mut samples = vec![];
            for _ in 0..n {
                samples.push(if bits.bit()? == 1 { minus } else { plus });
            }
            samples
        }
        6 => {
            bits.at = length_bits + 2;
            let (common, other) = if bits.bit()? == 1 { (minus, plus) } else { (plus, minus) };
            let mut code = String::new();
            let s = loop {
                code.push(if bits.bit()? == 1 { '1' } else { '0' });
                if let Some(index) = s_codes(n).iter().position(|&c| c == code) {
                    break index + 1;
                }
            };
            let row = bits.runs(s, n, n)?;
            row.iter().map(|&o| if o { other } else { common }).collect()
        }
        11 => {
            let (_, reduced, least, delta) = fractional_row(octets[0]);
            let base = reduced as i32;
            let mut numbers: Vec<i32> = vec![];
            if reduced == 2 {
                // (8-23)
                for _ in 0..n {
                    numbers.push(if bits.bit()? == 0 { least } else { least + (1 + delta) });
                }
            } else {
                if reduced == 4 {
                    // (8-24)
                    for _ in 0..n {
                        numbers.push(bits.number(2)? as i32 + least);
                    }
                } else {
                    // (8-26) and (8-27)
                    for _ in 0..n / 5 {
                        let first = bits.at;
                        let v = bits.number(bits_of_v(reduced))? as i32;
                        if v >= base.pow(5) {
                            return Err((PLACE, 0, first));
                        }
                        let mut l = [0; 5];
                        let mut w = v;
                        for m in (1..=4).rev() {
                            l[m] = w / base.pow(m as u32);
                            w -= l[m] * base.pow(m as u32);
                        }
                        l[0] = w;
                        numbers.extend(l.map(|l| l + least));
                    }
                }
                // (8-25) and (8-28)
                for x in &mut numbers {
                    if *x >= -1 {
                        *x += delta;
                    }
                }
            }
            numbers.iter().map(|&number| sample(number, law)).collect()
        }
        _ => {
            let range_case = bits.at;
            let case = bits.number(2)?;
            let flag = bits.number(1)?;
            let Some(values) = row_values(case, flag, n) else {
                return Err((CASE, 0, range_case));
            };
            let mut numbers = vec![0; n];
            let mut empty: Vec<usize> = (0..n).collect();
            for value in values {
                let d = empty.len();
                let method = bits.at;
                let row = match bits.number(3)? {
                    0 => {
                        let mut row = vec![];
                        for _ in 0..d {
                            row.push(bits.bit()? == 1);
                        }
                        row
                    }
                    s @ 1..=4 => bits.runs(s, n, d)?,
                    5 => vec![false; d],
                    6 => return Err((METHOD, 0, method)),
                    _ => {
                        let count = bits.number(2)? + 1;
                        let mut row = vec![false; d];
                        let mut last = None;
                        for _ in 0..count {
                            let listed = bits.at;
                            let place = bits.number(ceil_log2(d))?;
                            if place >= d || Some(place) <= last {
                                return Err((PLACE, 0, listed));
                            }
                            row[place] = true;
                            last = Some(place);
                        }
                        row
                    }
                };
                for place in 0..d {
                    if row[place] {
                        numbers[empty[place]] = value;
                    }
                }
                empty = (0..d).filter(|&place| !row[place]).map(|place| empty[place]).collect();
            }
            numbers.iter().map(|&number| sample(number, law)).collect()
        }
    };
    let used = bits.at;
    bits.filling()?;
    assert_eq!(samples.len(), n);
    Ok((samples, used, tool))
}

/// What `read_frame` must report, and what must stand in `out` after it.
pub fn read(octets: &[u8], law: u32, set: u32, out: &[u8]) -> (ReadReport, Vec<u8>) {
    if law > 1 {
        return (refused_read((LAW, 0, 0)), out.to_vec());
    }
    if set > 255 {
        return (refused_read((SET, 0, 0)), out.to_vec());
    }
    match frame(octets, law, set, out.len()) {
        Err(refused) => (refused_read(refused), out.to_vec()),
        Ok((samples, bits, tool)) => {
            let mut after = out.to_vec();
            after[..samples.len()].copy_from_slice(&samples);
            let octets = if bits % 8 == 0 { bits / 8 } else { bits / 8 + 1 };
            (ReadReport { ending: 0, samples: samples.len(), octets, bits, tool, bit: 0 }, after)
        }
    }
}

// ------------------------------------------------------------------ writer

fn rice_text(s: usize, v: usize) -> String {
    let low: String =
        (0..s).rev().map(|bit| if v >> bit & 1 == 1 { '1' } else { '0' }).collect();
    "0".repeat(v >> s) + "1" + &low
}

fn run_lengths(row: &[bool]) -> Vec<usize> {
    let mut runs = vec![];
    let mut run = 0;
    for &other in row {
        if other {
            runs.push(run);
            run = 0;
        } else {
            run += 1;
        }
    }
    if row.last() == Some(&false) {
        runs.push(run);
    }
    runs
}

fn runs_text(s: usize, row: &[bool]) -> String {
    run_lengths(row).iter().map(|&v| rice_text(s, v)).collect()
}

fn number_text(value: usize, count: usize) -> String {
    (0..count).rev().map(|bit| if value >> bit & 1 == 1 { '1' } else { '0' }).collect()
}

fn length_text(n: usize) -> &'static str {
    match n {
        40 => "01",
        80 => "10",
        160 => "11",
        240 => "0010",
        _ => "0011",
    }
}

fn whole_prefix(tool: usize, n: usize) -> String {
    let rest = match (tool, n >= 240) {
        (7, true) => "0101".to_string(),
        (7, false) => "000110".to_string(),
        (_, true) => number_text(tool - 1, 4),
        (_, false) => number_text(tool - 1, 6),
    };
    length_text(n).to_string() + &rest
}

fn octets_of(text: &str) -> Vec<u8> {
    let mut bits: Vec<u8> = text.bytes().map(|b| b - b'0').collect();
    while bits.len() % 8 != 0 {
        bits.push(0);
    }
    bits.chunks(8).map(|eight| eight.iter().fold(0, |octet, bit| octet << 1 | bit)).collect()
}

fn shortest(texts: Vec<String>) -> (usize, String) {
    // min_by_key takes the first of equals: the smaller S.
    texts.into_iter().enumerate().min_by_key(|(_, text)| text.len()).unwrap()
}

fn rice_form(numbers: &[i32]) -> String {
    let n = numbers.len();
    let minus = numbers.iter().filter(|&&x| x == -1).count();
    let plus = numbers.iter().filter(|&&x| x == 0).count();
    let (mark, common) = if minus > plus { ("1", -1) } else { ("0", 0) };
    let row: Vec<bool> = numbers.iter().map(|&x| x != common).collect();
    let forms = s_codes(n)
        .iter()
        .enumerate()
        .map(|(index, code)| code.to_string() + &runs_text(index + 1, &row))
        .collect();
    let (_, best) = shortest(forms);
    length_text(n).to_string() + if n >= 240 { "10" } else { "01" } + mark + &best
}

fn value_location_form(numbers: &[i32]) -> Option<String> {
    let n = numbers.len();
    let least = *numbers.iter().min().unwrap();
    let greatest = *numbers.iter().max().unwrap();
    let case = match (least, greatest) {
        (-2, 1) => 0,
        (-1, 1) => 1,
        (-2, 0) => 2,
        (0, 1) => 3,
        _ => return None,
    };
    let count = |value: i32| numbers.iter().filter(|&&x| x == value).count();
    if (-128..128).any(|value| count(value) > count(0)) {
        return None;
    }
    let above = numbers.iter().filter(|&&x| x > 0).count();
    let below = numbers.iter().filter(|&&x| x < 0).count();
    let flag = usize::from(above >= below);
    if n < 80 || (case == 0 && n < 240) {
        return None;
    }
    let values = row_values(case, flag, n).unwrap();
    let mut text = whole_prefix(7, n) + &number_text(case, 2) + &number_text(flag, 1);
    let mut left = numbers.to_vec();
    for value in values {
        let row: Vec<bool> = left.iter().map(|&x| x == value).collect();
        let d = row.len();
        let occurs = row.iter().filter(|&&o| o).count();
        let (index, runs) = shortest((1..=4).map(|s| runs_text(s, &row)).collect());
        let method = if occurs == 0 {
            5
        } else if runs.len() > d {
            0
        } else if occurs <= 4 && runs.len() > occurs * ceil_log2(d) + 2 {
            7
        } else {
            index + 1
        };
        METHODS[method].fetch_add(1, Ordering::Relaxed);
        text += &number_text(method, 3);
        match method {
            5 => {}
            0 => text.extend(row.iter().map(|&o| if o { '1' } else { '0' })),
            7 => {
                text += &number_text(occurs - 1, 2);
                for place in (0..d).filter(|&place| row[place]) {
                    text += &number_text(place, ceil_log2(d));
                }
            }
            _ => text += &runs,
        }
        left.retain(|&x| x != value);
    }
    Some(text)
}

/// Tool 11's form by (7-77) and (7-78), of the printed row whose least and
/// greatest are the frame's, with -1 in it or not as in the frame.
fn fractional_form(numbers: &[i32]) -> Option<String> {
    let n = numbers.len();
    let length = LENGTHS.iter().position(|&length| length == n).unwrap();
    let x_min = *numbers.iter().min().unwrap();
    let x_max = *numbers.iter().max().unwrap();
    let minus_one = numbers.contains(&-1);
    let is_row = |values: &[i32]| {
        values.first() == Some(&x_min) && values.last() == Some(&x_max) && values.contains(&-1) == minus_one
    };
    let (reduced, _, prefixes) = TABLE_7_28.into_iter().find(|(_, values, _)| is_row(values))?;
    let prefix = *prefixes.get(length)?;
    let (_, _, _, delta) = fractional_row(prefix);
    let l = |&x: &i32| (if x < -1 { x - x_min } else { x - x_min - delta }) as usize;
    let digits: Vec<usize> = numbers.iter().map(l).collect();
    let mut text = number_text(usize::from(prefix), 8);
    match reduced {
        2 => text.extend(digits.iter().map(|&l| number_text(l, 1))),
        4 => text.extend(digits.iter().map(|&l| number_text(l, 2))),
        _ => {
            for block in digits.chunks(5) {
                let term = |m: usize| block[m] * reduced.pow(m as u32);
                let v = term(0) + term(1) + term(2) + term(3) + term(4);
                text += &number_text(v, bits_of_v(reduced));
            }
        }
    }
    Some(text)
}

/// Every form the set's tools have for a frame, in the order of preference.
pub fn all_forms(samples: &[u8], law: u32, set: u32) -> Vec<(u32, String)> {
    let n = samples.len();
    let numbers: Vec<i32> = samples.iter().map(|&s| signed(s, law)).collect();
    let equal = samples.iter().all(|&s| s == samples[0]);
    let two_zeros = numbers.iter().all(|&x| x == 0 || x == -1);
    let mut forms = vec![];
    if numbers.iter().all(|&x| x == 0) {
        forms.push((2, whole_prefix(2, n)));
    }
    if numbers.iter().all(|&x| x == -1) {
        forms.push((3, whole_prefix(3, n)));
    }
    if equal {
        forms.push((4, whole_prefix(4, n) + &number_text(samples[0] as usize, 8)));
    }
    if two_zeros {
        let row: String = numbers.iter().map(|&x| if x == -1 { '1' } else { '0' }).collect();
        forms.push((5, whole_prefix(5, n) + &row));
        forms.push((6, rice_form(&numbers)));
    }
    if let Some(form) = value_location_form(&numbers) {
        forms.push((7, form));
    }
    if let Some(form) = fractional_form(&numbers) {
        forms.push((11, form));
    }
    let plain: String = samples.iter().map(|&s| number_text(s as usize, 8)).collect();
    forms.push((1, whole_prefix(1, n) + &plain));
    forms.retain(|&(tool, _)| holds(set, tool));
    forms
}

/// What `write_frame` must report, and what must stand in `out` after it.
pub fn write(samples: &[u8], law: u32, set: u32, out: &[u8]) -> (WriteReport, Vec<u8>) {
    let refused = |number| (refused_write(number), out.to_vec());
    if law > 1 {
        return refused(LAW);
    }
    if set > 255 || set % 2 == 0 {
        return refused(SET);
    }
    if ![0, 40, 80, 160, 240, 320].contains(&samples.len()) {
        return refused(LENGTH);
    }
    let (tool, text) = if samples.is_empty() {
        (0, "00000000".to_string())
    } else {
        let forms = all_forms(samples, law, set);
        forms.into_iter().min_by_key(|(_, text)| text.len().div_ceil(8)).unwrap()
    };
    let octets = octets_of(&text);
    if octets.len() > out.len() {
        return refused(ROOM);
    }
    let mut after = out.to_vec();
    after[..octets.len()].copy_from_slice(&octets);
    (WriteReport { ending: 0, octets: octets.len(), bits: text.len(), tool }, after)
}
