//! Codes of runs for a reader that takes zeros from windows of bits: one that starts at a chosen bit of an octet, with a
//! chosen number of zeros, in octets that end at a chosen place. Made bit by bit; nothing is shared with a reader.

use crate::forms::{rice_start, rows, s_codes, Bits, Located, Row, LENGTHS};
use second::gen::{sample_of, Prng};

/// How many zeros a code has.
#[derive(Clone, Copy, Debug, PartialEq, Eq)]
pub enum Zeros {
    Number(usize),
    /// N less one, N, and N and one more, which is RUN whatever follows.
    LessThanN,
    N,
    PastN,
}

/// Around the octets and words that a window may be made of, and around N.
pub const ZEROS: [Zeros; 15] = [
    Zeros::Number(0),
    Zeros::Number(1),
    Zeros::Number(7),
    Zeros::Number(8),
    Zeros::Number(24),
    Zeros::Number(25),
    Zeros::Number(31),
    Zeros::Number(32),
    Zeros::Number(33),
    Zeros::Number(63),
    Zeros::Number(64),
    Zeros::Number(65),
    Zeros::LessThanN,
    Zeros::N,
    Zeros::PastN,
];

impl Zeros {
    pub fn name(self) -> String {
        match self {
            Zeros::Number(zeros) => zeros.to_string(),
            Zeros::LessThanN => "N - 1".into(),
            Zeros::N => "N".into(),
            Zeros::PastN => "N + 1".into(),
        }
    }

    /// The zeros in a frame of so many samples; none where this number is not below N - 1.
    fn of(self, length: usize) -> Option<usize> {
        match self {
            Zeros::Number(zeros) => (zeros < length - 1).then_some(zeros),
            Zeros::LessThanN => Some(length - 1),
            Zeros::N => Some(length),
            Zeros::PastN => Some(length + 1),
        }
    }

    /// The zeros after whole octets: every N is a multiple of 8.
    fn past_octets(self) -> usize {
        match self {
            Zeros::Number(zeros) => zeros % 8,
            Zeros::LessThanN => 7,
            Zeros::N => 0,
            Zeros::PastN => 1,
        }
    }
}

/// Where the octets end.
#[derive(Clone, Copy, Debug, PartialEq, Eq)]
pub enum Cut {
    /// Nowhere before the frame does; the code is accepted.
    Accepted,
    /// Nowhere before the code does; it is longer than the places left.
    TooLong,
    /// Between two zeros of the code.
    InZeros,
    /// After the zeros, the one being the first bit that is missing; of N + 1 zeros no one follows.
    BeforeOne,
    /// Between the one and the low bits.
    AfterOne,
    InLow,
    /// After so many octets, the first being the one in which the code starts: inside a window of 32 bits, at its edge
    /// (4), at that of one that starts with the code (5), and at those of the window after it (8, 9).
    Inside,
    Octets(usize),
}

pub const CUTS: [Cut; 11] = [
    Cut::Accepted,
    Cut::TooLong,
    Cut::InZeros,
    Cut::BeforeOne,
    Cut::AfterOne,
    Cut::InLow,
    Cut::Inside,
    Cut::Octets(4),
    Cut::Octets(5),
    Cut::Octets(8),
    Cut::Octets(9),
];

impl Cut {
    pub fn name(self) -> String {
        match self {
            Cut::Accepted => "accepted".into(),
            Cut::TooLong => "too long".into(),
            Cut::InZeros => "in zeros".into(),
            Cut::BeforeOne => "before 1".into(),
            Cut::AfterOne => "after 1".into(),
            Cut::InLow => "in low bits".into(),
            Cut::Inside => "1-3 octets".into(),
            Cut::Octets(octets) => format!("{octets} octets"),
        }
    }

    /// Whether octets can end so in a code that starts at this bit of an octet and has these zeros.
    pub fn possible(self, tool: u32, start: usize, zeros: Zeros) -> bool {
        let around_n = !matches!(zeros, Zeros::Number(_));
        // The bit of an octet at which the one stands, and that after it.
        let one = (start + zeros.past_octets()) % 8;
        let low = (one + 1) % 8;
        match self {
            // N - 1 zeros are more places than N, whatever S is.
            Cut::Accepted => !around_n,
            Cut::InZeros => match zeros {
                Zeros::Number(zeros) => start + zeros > 8,
                _ => true,
            },
            Cut::BeforeOne => one == 0,
            Cut::AfterOne => low == 0 && zeros != Zeros::PastN,
            Cut::InLow if zeros == Zeros::PastN => false,
            // Tool 7 has at most 4 low bits, tool 6 at most 9.
            Cut::InLow if tool == 7 => low > 4,
            // 9 low bits that fill an octet: with S = 9 every code starts at an odd bit, for those before it have 10.
            Cut::InLow => low > 0 || start % 2 == 1,
            _ => true,
        }
    }
}

/// A code in its frame.
struct Code {
    bits: Bits,
    /// The bit at which the code starts, its zeros, whether a one follows them, and how many low bits.
    start: usize,
    zeros: usize,
    has_one: bool,
    s: usize,
    /// How many bits must be there for the answer.
    judged: usize,
    /// The signed numbers of an accepted frame; none for RUN.
    numbers: Option<Vec<i32>>,
}

/// What is asked of a reader, and the samples it must give; none where it must refuse.
pub struct Asked {
    pub octets: Vec<u8>,
    pub refusal: Option<&'static str>,
    /// The bit of the refusal: the first that is missing, or the first of the code; 0 where it accepts.
    pub bit: usize,
    pub samples: Vec<u8>,
    pub bits: usize,
}

/// One input of a cell, if the numbers drawn allow one.
pub fn draw(tool: u32, start: usize, zeros: Zeros, cut: Cut, law: u32, rng: &mut Prng) -> Option<Asked> {
    let length = *rng.pick(if tool == 7 { &LENGTHS[1..] } else { &LENGTHS });
    let code = code(tool, length, zeros.of(length)?, start, rng)?;
    let octets = code.cut(cut, rng)?;
    let there = code.judged <= 8 * octets.len();
    let (refusal, bit) = match (&code.numbers, there) {
        (_, false) => (Some("SHORT"), 8 * octets.len()),
        (None, true) => (Some("RUN"), code.start),
        (Some(_), true) => (None, 0),
    };
    let numbers = code.numbers.filter(|_| refusal.is_none()).unwrap_or_default();
    let samples = numbers.iter().map(|number| sample_of(*number, law)).collect();
    Some(Asked { octets, refusal, bit, samples, bits: code.judged })
}

impl Code {
    /// The octets, as many as the cut leaves; bits behind a fault, and octets behind the frame, are anything.
    fn cut(&self, cut: Cut, rng: &mut Prng) -> Option<Vec<u8>> {
        let own = self.start / 8;
        let one = self.start + self.zeros;
        let low = one + 1;
        let end = self.judged.div_ceil(8);
        let left = match cut {
            Cut::Accepted => self.numbers.is_some().then(|| end + rng.below(2) * rng.below(12)),
            Cut::TooLong => self.numbers.is_none().then(|| end + rng.below(2) * rng.below(12)),
            Cut::InZeros => border(self.start, one, rng),
            Cut::BeforeOne => (one % 8 == 0).then_some(one / 8),
            Cut::AfterOne | Cut::InLow if !self.has_one => None,
            Cut::AfterOne => (low % 8 == 0).then_some(low / 8),
            Cut::InLow => border(low, low + self.s, rng),
            Cut::Inside => Some(own + 1 + rng.below(3)),
            Cut::Octets(octets) => Some(own + octets),
        }?;
        let mut octets = self.bits.octets();
        if self.numbers.is_none() && self.judged % 8 != 0 {
            *octets.last_mut()? |= rng.octet() >> (self.judged % 8);
        }
        let behind = rng.octet();
        while octets.len() < left {
            octets.push(*rng.pick(&[0x00, 0xFF, 0x01, 0x80, behind]));
        }
        octets.truncate(left);
        Some(octets)
    }
}

/// A whole octet's end strictly between two bits, if there is one.
fn border(from: usize, to: usize, rng: &mut Prng) -> Option<usize> {
    let ends: Vec<usize> = (from / 8 + 1..to.div_ceil(8)).collect();
    (!ends.is_empty()).then(|| *rng.pick(&ends))
}

/// A frame with a code of so many zeros that starts at this bit of an octet.
fn code(tool: u32, length: usize, zeros: usize, start: usize, rng: &mut Prng) -> Option<Code> {
    match tool {
        6 => in_tool_6(length, zeros, start, rng),
        _ => in_tool_7(length, zeros, start, rng),
    }
}

fn in_tool_6(length: usize, zeros: usize, start: usize, rng: &mut Prng) -> Option<Code> {
    let (s, minus_marked) = (1 + rng.below(s_codes(length).len()), rng.flip());
    let bits = rice_start(length, minus_marked, s);
    let mut runs = Runs { bits, s, flags: Vec::new(), places: length };
    let (start, ended) = runs.put_code(length, zeros, start, rng)?;
    let judged = runs.bits.len();
    let numbers = ended.then(|| runs.flags.iter().map(|rare| -i32::from(*rare != minus_marked)).collect());
    Some(Code { bits: runs.bits, start, zeros, has_one: zeros <= length, s, judged, numbers })
}

fn in_tool_7(length: usize, zeros: usize, start: usize, rng: &mut Prng) -> Option<Code> {
    let row: Row = *rng.pick(rows(length));
    let (index, s) = (rng.below(row.values.len()), 1 + rng.below(4));
    let mut located = Located::start(length, row.case, row.flag);
    located.put_before(row, index, 1, rng);
    located.method(index, s);
    let bits = std::mem::take(&mut located.bits);
    let mut runs = Runs { bits, s, flags: Vec::new(), places: located.empty.len() };
    let (start, ended) = runs.put_code(length, zeros, start, rng)?;
    located.bits = runs.bits;
    if ended {
        // Frames in which no place is left have a comparison of their own.
        if runs.flags.iter().all(|flag| *flag) {
            return None;
        }
        located.lay(row.values[index], &runs.flags);
        for (at, value) in row.values.iter().enumerate().skip(index + 1) {
            put_later(&mut located, at, *value, rng);
        }
    }
    let Located { bits, numbers, .. } = located;
    let (judged, numbers) = (bits.len(), ended.then_some(numbers));
    Some(Code { bits, start, zeros, has_one: zeros <= length, s, judged, numbers })
}

/// A value after the one with the code: none, or one place by runs.
fn put_later(located: &mut Located, index: usize, value: i32, rng: &mut Prng) {
    let places = located.empty.len();
    let mut flags = vec![false; places];
    if places > 1 && rng.flip() {
        flags[rng.below(places)] = true;
        located.put(index, value, 1 + rng.below(4), &flags);
    } else {
        located.put(index, value, 5, &flags);
    }
}

/// Runs in the making.
struct Runs {
    bits: Bits,
    s: usize,
    flags: Vec<bool>,
    places: usize,
}

/// Codes at most that are put to come to a bit of an octet.
const MOST_STEPS: usize = 24;

impl Runs {
    fn left(&self) -> usize {
        self.places - self.flags.len()
    }

    /// A run, its closing sample imagined where no place is left for it.
    fn put(&mut self, v: usize) {
        self.bits.rice(self.s, v, 0);
        self.flags.resize(self.flags.len() + v, false);
        if self.left() > 0 {
            self.flags.push(true);
        }
    }

    /// Some runs up to a bit of an octet, then a code of so many zeros. Gives its start, and whether it is accepted; then
    /// the runs after it are there too.
    fn put_code(&mut self, length: usize, zeros: usize, start: usize, rng: &mut Prng) -> Option<(usize, bool)> {
        // Sometimes few places are left, so that a short run is too long.
        let few = 1 + rng.below(40);
        if rng.flip() && self.left() > few + 1 {
            self.put(self.left() - few - 1);
        }
        self.align(start, rng)?;
        let at = self.bits.len();
        if zeros > length {
            self.bits.zeros(zeros);
            return Some((at, false));
        }
        let v = zeros << self.s | rng.below(1 << self.s);
        if v > self.left() {
            self.bits.rice(self.s, v, 0);
            return Some((at, false));
        }
        self.put(v);
        while self.left() > 0 {
            let (most, any) = (self.left(), rng.below(self.left() + 1));
            self.put(*rng.pick(&[most, most - 1, any]));
        }
        Some((at, true))
    }

    /// Short runs until the next code starts at this bit of an octet and has a place.
    fn align(&mut self, start: usize, rng: &mut Prng) -> Option<()> {
        for _ in 0..MOST_STEPS {
            if self.bits.len() % 8 == start && rng.chance(3, 4) {
                return Some(());
            }
            let v = *rng.pick(&[0, 1, 1 << self.s]);
            if v + 1 >= self.left() {
                return None;
            }
            self.put(v);
        }
        None
    }
}
