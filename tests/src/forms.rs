//! Forms of frames put together bit by bit, each with the fields it is made of and the samples it stands for. They are
//! chosen with no eye to their size: a writer would make few of them. Nothing here is shared with a reader or a writer.

use crate::digits::some_digits;
use second::gen::{sample_of, Pattern, Prng};

pub const LENGTHS: [usize; 5] = [40, 80, 160, 240, 320];

/// What a bit of a form belongs to. Runs and values are numbered from 0.
#[derive(Clone, Copy, Debug, PartialEq, Eq, PartialOrd, Ord)]
pub enum Field {
    Prefix,
    Samples,
    Constant,
    Binary,
    SCode,
    /// The zeros of a run, and the one that ends them.
    Zeros(usize),
    Low,
    Case,
    Method(usize),
    Row,
    Count,
    Place(usize),
    /// Samples of tool 11 with bits of their own; and its numbers, of five samples each, from 0.
    Digits,
    Fives(usize),
    Filling,
}

/// Bits put one after another, and where each field starts.
#[derive(Clone, Debug, Default)]
pub struct Bits {
    bits: Vec<bool>,
    fields: Vec<(usize, Field)>,
}

impl Bits {
    pub fn field(&mut self, field: Field) {
        self.fields.push((self.bits.len(), field));
    }

    pub fn len(&self) -> usize {
        self.bits.len()
    }

    pub fn is_empty(&self) -> bool {
        self.bits.is_empty()
    }

    pub fn text(&mut self, text: &str) {
        self.bits.extend(text.bytes().map(|bit| bit == b'1'));
    }

    pub fn number(&mut self, value: usize, width: usize) {
        self.bits.extend((0..width).rev().map(|bit| value >> bit & 1 == 1));
    }

    pub fn zeros(&mut self, count: usize) {
        self.bits.resize(self.bits.len() + count, false);
    }

    pub fn flags(&mut self, flags: &[bool]) {
        self.bits.extend(flags);
    }

    /// Rice(S, v), as the run of this number.
    pub fn rice(&mut self, s: usize, v: usize, run: usize) {
        self.field(Field::Zeros(run));
        self.zeros(v >> s);
        self.bits.push(true);
        self.field(Field::Low);
        self.number(v, s);
    }

    /// The runs of flags; a run at the end has its closing sample imagined. Gives the number of runs.
    pub fn runs(&mut self, s: usize, flags: &[bool]) -> usize {
        let lengths = run_lengths(flags);
        for (run, v) in lengths.iter().enumerate() {
            self.rice(s, *v, run);
        }
        lengths.len()
    }

    /// The field of a bit; a bit past the last one is filling.
    pub fn field_at(&self, bit: usize) -> Field {
        if bit >= self.bits.len() {
            return Field::Filling;
        }
        let after = self.fields.partition_point(|(start, _)| *start <= bit);
        self.fields[after - 1].1
    }

    /// Where the last run's code, range case, method or listed place starts: the bit that a refusal there gives.
    pub fn last_start(&self) -> usize {
        self.fields.iter().rev().find(|(_, field)| *field != Field::Low).expect("a form has a prefix").0
    }

    /// Whole octets, the last one filled with 0 bits.
    pub fn octets(&self) -> Vec<u8> {
        let octet = |bits: &[bool]| (0..8).fold(0, |sum, at| sum << 1 | u8::from(bits.get(at) == Some(&true)));
        self.bits.chunks(8).map(octet).collect()
    }
}

/// The runs over some places: the places before each flag, and those after the last flag, if there are any.
pub fn run_lengths(flags: &[bool]) -> Vec<usize> {
    let mut lengths = Vec::new();
    let mut run = 0;
    for flag in flags {
        if *flag {
            lengths.push(run);
            run = 0;
        } else {
            run += 1;
        }
    }
    if run > 0 {
        lengths.push(run);
    }
    lengths
}

/// The bits of a listed place among so many: ceil(log2 D).
pub fn place_width(places: usize) -> usize {
    (0..).find(|width| 1 << width >= places).expect("a number has a width")
}

/// An accepted form.
#[derive(Clone, Debug)]
pub struct Form {
    pub bits: Bits,
    pub tool: u32,
    pub samples: Vec<u8>,
}

impl Form {
    pub fn octets(&self) -> Vec<u8> {
        self.bits.octets()
    }

    pub fn length(&self) -> usize {
        self.samples.len()
    }
}

fn length_code(length: usize) -> &'static str {
    match length {
        40 => "01",
        80 => "10",
        160 => "11",
        240 => "0010",
        320 => "0011",
        _ => panic!("no frame has {length} samples"),
    }
}

/// The first octet of tools 1 to 5 and 7.
fn first(tool: usize, length: usize) -> Bits {
    let mut bits = Bits::default();
    bits.field(Field::Prefix);
    bits.text(length_code(length));
    let width = 8 - bits.len();
    let code = match (tool, length) {
        (7, 240 | 320) => 5,
        (7, _) => 6,
        _ => tool - 1,
    };
    bits.number(code, width);
    bits
}

/// The codes of S = 1 and up.
pub fn s_codes(length: usize) -> &'static [&'static str] {
    match length {
        40 => &["01", "10", "110", "1110", "1111"],
        80 => &["01", "10", "1100", "1101", "1110", "1111"],
        _ => &["01", "10", "1100", "1101", "11100", "11101", "11110", "111110", "111111"],
    }
}

/// Tool 6 up to its runs.
pub fn rice_start(length: usize, minus_marked: bool, s: usize) -> Bits {
    let mut bits = Bits::default();
    bits.field(Field::Prefix);
    bits.text(length_code(length));
    bits.text(if length >= 240 { "10" } else { "01" });
    bits.text(if minus_marked { "1" } else { "0" });
    bits.field(Field::SCode);
    bits.text(s_codes(length)[s - 1]);
    bits
}

/// A range case, a flag, and the values that follow them in turn.
#[derive(Clone, Copy, Debug)]
pub struct Row {
    pub case: usize,
    pub flag: usize,
    pub values: &'static [i32],
}

/// The rows of document 01; the first two need 240 samples or more.
pub const ROWS: [Row; 6] = [
    Row { case: 0, flag: 1, values: &[1, -1, -2] },
    Row { case: 0, flag: 0, values: &[-1, 1, -2] },
    Row { case: 1, flag: 1, values: &[1, -1] },
    Row { case: 1, flag: 0, values: &[-1, 1] },
    Row { case: 2, flag: 0, values: &[-1, -2] },
    Row { case: 3, flag: 1, values: &[1] },
];

pub fn rows(length: usize) -> &'static [Row] {
    const ALL: &[Row] = &ROWS;
    match length {
        240 | 320 => ALL,
        80 | 160 => &ALL[2..],
        _ => &[],
    }
}

/// Tool 7 in the making: the numbers laid so far, and the places still empty.
pub struct Located {
    pub bits: Bits,
    pub numbers: Vec<i32>,
    pub empty: Vec<usize>,
}

impl Located {
    pub fn start(length: usize, case: usize, flag: usize) -> Located {
        let mut bits = first(7, length);
        bits.field(Field::Case);
        bits.number(case, 2);
        bits.number(flag, 1);
        Located { bits, numbers: vec![0; length], empty: (0..length).collect() }
    }

    pub fn method(&mut self, value: usize, method: usize) {
        self.bits.field(Field::Method(value));
        self.bits.number(method, 3);
    }

    /// Puts one value's flags by a method that can say them.
    pub fn put(&mut self, index: usize, value: i32, method: usize, flags: &[bool]) {
        self.method(index, method);
        match method {
            0 => {
                self.bits.field(Field::Row);
                self.bits.flags(flags);
            }
            1..=4 => drop(self.bits.runs(method, flags)),
            5 => {}
            7 => self.list(&(0..flags.len()).filter(|at| flags[*at]).collect::<Vec<_>>()),
            _ => panic!("no method {method}"),
        }
        self.lay(value, flags);
    }

    /// Method 111 after its three bits.
    pub fn list(&mut self, places: &[usize]) {
        self.bits.field(Field::Count);
        self.bits.number(places.len() - 1, 2);
        let width = place_width(self.empty.len());
        for (at, place) in places.iter().enumerate() {
            self.bits.field(Field::Place(at));
            self.bits.number(*place, width);
        }
    }

    /// Lays a value at the places of its flags; the others stay empty.
    pub fn lay(&mut self, value: i32, flags: &[bool]) {
        let mut left = Vec::new();
        for (place, flag) in self.empty.iter().zip(flags) {
            match flag {
                true => self.numbers[*place] = value,
                false => left.push(*place),
            }
        }
        self.empty = left;
    }

    /// Puts a value into all empty places but so many.
    fn put_all_but(&mut self, index: usize, value: i32, method: usize, keep: usize, rng: &mut Prng) {
        let mut flags: Vec<bool> = (0..self.empty.len()).map(|place| place >= keep).collect();
        rng.shuffle(&mut flags);
        self.put(index, value, method, &flags);
    }

    /// Puts values until only the one of this number is still to come, each by any method that leaves enough places.
    pub fn put_before(&mut self, row: Row, index: usize, keep: usize, rng: &mut Prng) {
        for (at, value) in row.values[..index].iter().enumerate() {
            let (method, flags) = any_value(self.empty.len(), keep, rng);
            self.put(at, *value, method, &flags);
        }
    }
}

/// Flags of any kind, with at least so many places left free.
fn any_flags(places: usize, keep: usize, rng: &mut Prng) -> Vec<bool> {
    if places == 0 {
        return Vec::new();
    }
    let mut flags = match rng.below(12) {
        0 => vec![false; places],
        1 => vec![true; places],
        _ => rng.pick(Pattern::ALL).row(places, rng),
    };
    if rng.chance(1, 4) {
        flags.iter_mut().for_each(|flag| *flag = !*flag);
    }
    while flags.iter().filter(|flag| !**flag).count() < keep.min(places) {
        let free = rng.below(places);
        flags[free] = false;
    }
    flags
}

/// A method and flags that it can say, with at least so many places left free.
fn any_value(places: usize, keep: usize, rng: &mut Prng) -> (usize, Vec<bool>) {
    let free = places.saturating_sub(keep);
    match *rng.pick(&[0, 1, 2, 3, 4, 5, 7]) {
        7 if free > 0 => {
            let count = 1 + rng.below(free.min(4));
            let mut flags: Vec<bool> = (0..places).map(|place| place < count).collect();
            rng.shuffle(&mut flags);
            (7, flags)
        }
        5 | 7 => (5, vec![false; places]),
        method => (method, any_flags(places, keep, rng)),
    }
}

fn samples(numbers: &[i32], law: u32) -> Vec<u8> {
    numbers.iter().map(|number| sample_of(*number, law)).collect()
}

/// A form of a carried tool; there is none of tool 7 with 40 samples.
pub fn any_form(tool: u32, length: usize, law: u32, rng: &mut Prng) -> Option<Form> {
    let mut numbers = vec![0; length];
    let bits = match tool {
        0 => return Some(pad()),
        1 => return Some(plain_form(length, rng)),
        2 => first(2, length),
        3 => {
            numbers.fill(-1);
            first(3, length)
        }
        4 => return Some(constant_form(length, rng.octet())),
        5 => {
            let flags = any_flags(length, 0, rng);
            numbers.iter_mut().zip(&flags).for_each(|(number, flag)| *number = -i32::from(*flag));
            let mut bits = first(5, length);
            bits.field(Field::Binary);
            bits.flags(&flags);
            bits
        }
        6 => {
            let (flags, minus_marked) = (any_flags(length, 0, rng), rng.flip());
            let s = 1 + rng.below(s_codes(length).len());
            numbers.iter_mut().zip(&flags).for_each(|(number, rare)| *number = -i32::from(*rare != minus_marked));
            let mut bits = rice_start(length, minus_marked, s);
            bits.runs(s, &flags);
            bits
        }
        7 => {
            let row = *pick(rows(length), rng)?;
            let mut located = Located::start(length, row.case, row.flag);
            located.put_before(row, row.values.len(), rng.below(2), rng);
            numbers = located.numbers;
            located.bits
        }
        11 => return Some(some_digits(length, law, rng)),
        _ => panic!("tool {tool} is not carried"),
    };
    Some(Form { bits, tool, samples: samples(&numbers, law) })
}

fn pick<'a, T>(from: &'a [T], rng: &mut Prng) -> Option<&'a T> {
    (!from.is_empty()).then(|| rng.pick(from))
}

pub fn pad() -> Form {
    let mut bits = Bits::default();
    bits.field(Field::Prefix);
    bits.zeros(8);
    Form { bits, tool: 0, samples: Vec::new() }
}

pub fn plain_form(length: usize, rng: &mut Prng) -> Form {
    let samples = rng.octets(length);
    let mut bits = first(1, length);
    bits.field(Field::Samples);
    samples.iter().for_each(|sample| bits.number(usize::from(*sample), 8));
    Form { bits, tool: 1, samples }
}

fn constant_form(length: usize, octet: u8) -> Form {
    let mut bits = first(4, length);
    bits.field(Field::Constant);
    bits.number(usize::from(octet), 8);
    Form { bits, tool: 4, samples: vec![octet; length] }
}

/// A form of tool 7 in which one value fills all places that are empty but so many, by D bits, runs or a list, and the
/// values after it, if there are any, go on by the method `next`. A list has at most 4 places, so it fills those that the
/// value before it has left.
pub fn filled_form(length: usize, law: u32, fills: Fills, rng: &mut Prng) -> Option<Form> {
    let Fills { row, value, by, left, next } = fills;
    let mut located = Located::start(length, row.case, row.flag);
    if by == 7 {
        located.put_before(row, value.checked_sub(1)?, left + 4, rng);
        let keep = (left + 1 + rng.below(4)).min(located.empty.len());
        located.put_all_but(value - 1, row.values[value - 1], rng.below(5), keep, rng);
    } else {
        located.put_before(row, value, left + 1, rng);
    }
    located.put_all_but(value, row.values[value], by, left, rng);
    for (at, number) in row.values.iter().enumerate().skip(value + 1) {
        let places = located.empty.len();
        match next {
            7 => located.put(at, *number, if places > 0 { 7 } else { 5 }, &vec![true; places]),
            5 => located.put(at, *number, 5, &vec![false; places]),
            _ => {
                let flags = any_flags(places, 0, rng);
                located.put(at, *number, next, &flags);
            }
        }
    }
    Some(Form { bits: located.bits, tool: 7, samples: samples(&located.numbers, law) })
}

/// Which value of a row fills the places, by which method, how many it leaves, and the method of the values after it.
#[derive(Clone, Copy, Debug)]
pub struct Fills {
    pub row: Row,
    pub value: usize,
    pub by: usize,
    pub left: usize,
    pub next: usize,
}

/// A form of any tool and length.
pub fn some_form(law: u32, rng: &mut Prng) -> Form {
    form_of(&[0, 1, 2, 3, 4, 5, 6, 6, 6, 7, 7, 7, 7, 11, 11, 11], law, rng)
}

/// A form of any tool that the listing program takes.
pub fn listed_form(law: u32, rng: &mut Prng) -> Form {
    form_of(&[0, 1, 2, 3, 4, 5, 6, 6, 6, 7, 7, 7, 7], law, rng)
}

fn form_of(tools: &[u32], law: u32, rng: &mut Prng) -> Form {
    loop {
        let tool = *rng.pick(tools);
        let length = *rng.pick(&LENGTHS);
        if let Some(form) = any_form(tool, length, law, rng) {
            return form;
        }
    }
}
