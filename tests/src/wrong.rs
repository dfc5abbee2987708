//! Back ends that are wrong about tool 11 (document 02, R-14) in one way each: the second program, turned. Vectors and comparisons
//! must find every one.

use crate::digits::{Digits, TABLE};
use crate::forms::LENGTHS;
use crate::measure::numbers;
use crate::{ending, set_of, Codec, Read, Second, Walk, Write, ALL_TOOLS, LISTED_TOOLS};
use second::gen::sample_of;

/// The ways that show in reading.
pub const READING: [&str; 14] = [
    "takes the number R'^5 for 0",
    "reads digits from the high end",
    "reads the 1 of {0, 1} as 2",
    "reads tool 11 with set 127",
    "takes 1F for a pad",
    "keeps the old sets",
    "judges a number before it is whole",
    "asks for all octets before it judges a number",
    "gives a number's last bit",
    "says RUN of a number",
    "needs the row's least and greatest",
    "reads A-law as mu-law",
    "judges the body before the room",
    "leaves -1 out of every row",
];

/// The ways that show in writing.
pub const WRITING: [&str; 9] = [
    "writes digits from the high end",
    "has no row {0, 1}",
    "puts tool 11 before value-location",
    "puts tool 11 before all others",
    "puts tool 11 behind all others",
    "writes tool 11 with set 127",
    "takes 128 for a writer's set",
    "writes a wider row where the length has none",
    "keeps the old sets",
];

/// A back end that is wrong in one of the ways.
pub struct Wrong(pub &'static str);

/// The row of a first octet, and its length.
fn row_of(first: u8) -> Option<(&'static Digits, usize)> {
    TABLE.iter().find_map(|row| LENGTHS.into_iter().find(|n| row.first(*n) == Some(first)).map(|n| (row, n)))
}

/// A number among bits, highest bit first; bits that are missing count 0.
fn bits_at(octets: &[u8], at: usize, width: usize) -> usize {
    let bit = |at: usize| octets.get(at / 8).map_or(0, |octet| usize::from(octet >> (7 - at % 8) & 1));
    (at..at + width).fold(0, |sum, at| sum << 1 | bit(at))
}

fn clear_bits(octets: &mut [u8], at: usize, width: usize) {
    (at..at + width).for_each(|at| octets[at / 8] &= !(0x80 >> (at % 8)));
}

fn refused(name: &str, bit: usize) -> Read {
    Read { ending: ending(name).expect("a name of document 01"), tool: 0, samples: 0, octets: 0, bits: 0, bit }
}

fn turned_round(samples: &[u8]) -> Vec<u8> {
    samples.chunks(5).flat_map(|five| five.iter().rev().copied()).collect()
}

impl Wrong {
    /// The set that it goes by.
    fn set(&self, set: u32) -> u32 {
        match self.0 {
            "reads tool 11 with set 127" | "writes tool 11 with set 127" if set == LISTED_TOOLS => ALL_TOOLS,
            "takes 128 for a writer's set" if set == set_of(11) => set | 1,
            "keeps the old sets" if set > LISTED_TOOLS => ALL_TOOLS + 1,
            _ => set,
        }
    }

    /// What becomes of an accepted frame of tool 11.
    fn accepted(&self, got: Read, row: &Digits, law: u32, out: &mut [u8]) -> Read {
        let samples = &mut out[..got.samples];
        let mut swap = |from: i32, to: i32| {
            let (from, to) = (sample_of(from, law), sample_of(to, law));
            samples.iter_mut().filter(|sample| **sample == from).for_each(|sample| *sample = to);
        };
        match self.0 {
            "reads digits from the high end" if row.width().is_some() => {
                let turned = turned_round(samples);
                samples.copy_from_slice(&turned);
            }
            "reads the 1 of {0, 1} as 2" if row.values == [0, 1] => swap(1, 2),
            "leaves -1 out of every row" if row.least() < -1 && row.has_minus_one() => {
                (-1..=row.greatest()).rev().for_each(|value| swap(value, value + 1));
            }
            _ => {}
        }
        got
    }

    /// What becomes of a refused one.
    fn refused(&self, got: Read, row: &Digits, octets: &[u8], whole: usize) -> Read {
        let width = row.width().unwrap_or(1);
        let place = ending("PLACE") == Some(got.ending);
        match self.0 {
            "asks for all octets before it judges a number" if place && octets.len() < whole => {
                refused("SHORT", 8 * octets.len())
            }
            "gives a number's last bit" if place => Read { bit: got.bit + width - 1, ..got },
            "says RUN of a number" if place => refused("RUN", got.bit),
            "judges a number before it is whole" if ending("SHORT") == Some(got.ending) && row.width().is_some() => {
                let start = 8 + (8 * octets.len() - 8) / width * width;
                match bits_at(octets, start, width) >= row.numbers() {
                    true => refused("PLACE", start),
                    false => got,
                }
            }
            _ => got,
        }
    }

    /// A frame of tool 11 that is in the set.
    fn digits(&self, octets: &[u8], law: u32, set: u32, out: &mut [u8], row: &Digits, length: usize) -> Read {
        let (mut octets, lent) = (octets.to_vec(), out.to_vec());
        let law_read = if self.0 == "reads A-law as mu-law" { 1 } else { law };
        let mut got = Second.read(&octets, law_read, set, out);
        while self.0 == "takes the number R'^5 for 0"
            && ending("PLACE") == Some(got.ending)
            && bits_at(&octets, got.bit, row.width().unwrap_or(0)) == row.numbers()
        {
            clear_bits(&mut octets, got.bit, row.width().unwrap_or(0));
            got = Second.read(&octets, law, set, out);
        }
        if self.0 == "judges the body before the room" && ending("ROOM") == Some(got.ending) {
            let body = Second.read(&octets, law, set, &mut [0; 320]);
            return if body.ending == 0 { got } else { body };
        }
        if got.ending != 0 {
            return self.refused(got, row, &octets, row.octets(length));
        }
        if self.0 == "needs the row's least and greatest" {
            let mut held = [0; 320];
            Second.read(&octets, 1, set, &mut held);
            let numbers = numbers(&held[..length], 1);
            if !numbers.contains(&row.least()) || !numbers.contains(&row.greatest()) {
                out.copy_from_slice(&lent);
                return refused("PLACE", 8);
            }
        }
        self.accepted(got, row, law, out)
    }

    /// The frame with set 129, if tool 11 is in the set and applies.
    fn alone(&self, samples: &[u8], law: u32, set: u32) -> Option<Write> {
        let wrote = Second.write(samples, law, 1 | set & set_of(11), &mut [0; 321]);
        (wrote.ending == 0 && wrote.tool == 11).then_some(wrote)
    }
}

impl Codec for Wrong {
    fn name(&self) -> &str {
        self.0
    }

    fn read(&self, octets: &[u8], law: u32, set: u32, out: &mut [u8]) -> Read {
        let set = self.set(set);
        let ours = octets.first().and_then(|first| row_of(*first)).filter(|_| law < 2 && set <= ALL_TOOLS);
        match ours {
            Some(_) if self.0 == "takes 1F for a pad" && octets[0] == 0x1F => Second.read(&[0x00], law, set, out),
            Some((row, length)) if set & set_of(11) > 0 => self.digits(octets, law, set, out, row, length),
            _ => Second.read(octets, law, set, out),
        }
    }

    fn write(&self, samples: &[u8], law: u32, set: u32, out: &mut [u8]) -> Write {
        let set = self.set(set);
        let wrote = Second.write(samples, law, set, &mut [0; 321]);
        let alone = self.alone(samples, law, set);
        let Some(alone) = alone.filter(|_| wrote.ending == 0) else {
            return self.write_no_row(samples, law, set, out);
        };
        let only = set & !set_of(11);
        match self.0 {
            "writes digits from the high end" if wrote.tool == 11 => {
                Second.write(&turned_round(samples), law, 129, out)
            }
            "has no row {0, 1}" if numbers(samples, law).iter().all(|value| [0, 1].contains(value)) => {
                Second.write(samples, law, only, out)
            }
            "puts tool 11 before value-location" if wrote.tool == 7 && wrote.octets == alone.octets => {
                Second.write(samples, law, 129, out)
            }
            "puts tool 11 before all others" => Second.write(samples, law, 129, out),
            "puts tool 11 behind all others" if wrote.tool == 11 => Second.write(samples, law, only, out),
            _ => Second.write(samples, law, set, out),
        }
    }

    fn walk(&self, octets: &[u8], law: u32, set: u32, out: &mut [u8]) -> Walk {
        Second.walk(octets, law, self.set(set), out)
    }

    fn listing(&self, input: &[u8]) -> Option<Vec<u8>> {
        Second.listing(input)
    }
}

impl Wrong {
    /// A frame that tool 11 has no row for, or that is not in the set.
    fn write_no_row(&self, samples: &[u8], law: u32, set: u32, out: &mut [u8]) -> Write {
        let wide = self.0 == "writes a wider row where the length has none" && law < 2;
        if wide && set % 2 == 1 && set <= ALL_TOOLS && set & set_of(11) > 0 && !samples.is_empty() {
            let row = TABLE.iter().find(|row| row.values == [-2, -1, 0, 1]).expect("it is there");
            let values = numbers(samples, law);
            let form = values.iter().all(|value| row.values.contains(value)).then(|| row.form(&values, law)).flatten();
            let octets = form.map(|form| form.octets()).unwrap_or_default();
            let wrote = Second.write(samples, law, set, &mut [0; 321]);
            if !octets.is_empty() && wrote.octets > octets.len() && octets.len() <= out.len() {
                out[..octets.len()].copy_from_slice(&octets);
                return Write { ending: 0, tool: 11, octets: octets.len(), bits: 8 * octets.len() };
            }
        }
        Second.write(samples, law, set, out)
    }
}
