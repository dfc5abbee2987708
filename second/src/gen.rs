//! Makes frames and forms for tests: frames of every kind, good forms that no
//! writer would choose, and damaged octets.
//!
//! Everything here goes bit by bit and shares no table and no bit code with
//! the reader and the writer, so that a slip there is not repeated here.

/// A small generator of repeatable numbers (splitmix64).
#[derive(Clone, Debug)]
pub struct Prng {
    state: u64,
}

impl Prng {
    pub fn new(seed: u64) -> Prng {
        Prng { state: seed }
    }

    pub fn next_u64(&mut self) -> u64 {
        self.state = self.state.wrapping_add(0x9E37_79B9_7F4A_7C15);
        let mut mixed = self.state;
        mixed = (mixed ^ (mixed >> 30)).wrapping_mul(0xBF58_476D_1CE4_E5B9);
        mixed = (mixed ^ (mixed >> 27)).wrapping_mul(0x94D0_49BB_1331_11EB);
        mixed ^ (mixed >> 31)
    }

    /// A number from 0 up to, not including, `limit`.
    pub fn below(&mut self, limit: usize) -> usize {
        ((u128::from(self.next_u64()) * limit as u128) >> 64) as usize
    }

    pub fn octet(&mut self) -> u8 {
        self.next_u64() as u8
    }

    pub fn octets(&mut self, count: usize) -> Vec<u8> {
        (0..count).map(|_| self.octet()).collect()
    }

    /// True `part` times out of `whole`.
    pub fn chance(&mut self, part: usize, whole: usize) -> bool {
        self.below(whole) < part
    }

    pub fn flip(&mut self) -> bool {
        self.chance(1, 2)
    }

    pub fn pick<'a, T>(&mut self, from: &'a [T]) -> &'a T {
        &from[self.below(from.len())]
    }

    pub fn shuffle<T>(&mut self, items: &mut [T]) {
        for last in (1..items.len()).rev() {
            items.swap(last, self.below(last + 1));
        }
    }
}

pub const LENGTHS: [usize; 5] = [40, 80, 160, 240, 320];

/// The sample of a signed number from -128 to 127.
pub fn sample_of(number: i32, law: u32) -> u8 {
    let mask = if law == 0 { 0x55 } else { 0x7F };
    if number >= 0 {
        0x80 | (number as u8 ^ mask)
    } else {
        (-number - 1) as u8 ^ mask
    }
}

fn samples_of(numbers: &[i32], law: u32) -> Vec<u8> {
    numbers.iter().map(|&number| sample_of(number, law)).collect()
}

// ---------------------------------------------------------------- frames

/// Where the ones of a row of places lie.
#[derive(Clone, Copy, Debug, PartialEq, Eq)]
pub enum Pattern {
    /// Each place on its own, `part` out of `whole`.
    Scattered { part: usize, whole: usize },
    /// Exactly so many, anywhere.
    Exactly(usize),
    /// Half of the places, anywhere.
    Half,
    /// One more than half of the places, anywhere.
    HalfAndOne,
    /// Stretches of one kind, each about so long.
    Bursts(usize),
    /// Every so many places, starting anywhere in the first stretch.
    Every(usize),
    /// The first place only.
    First,
    /// The last place only.
    Last,
    /// All but the last place.
    AllButLast,
    /// The first half.
    FirstHalf,
    /// The last half.
    LastHalf,
    /// Scattered, and the last place for sure.
    EndsOnOne(usize),
}

impl Pattern {
    pub const ALL: &'static [Pattern] = &[
        Pattern::Scattered { part: 1, whole: 300 },
        Pattern::Scattered { part: 1, whole: 100 },
        Pattern::Scattered { part: 1, whole: 64 },
        Pattern::Scattered { part: 1, whole: 30 },
        Pattern::Scattered { part: 1, whole: 16 },
        Pattern::Scattered { part: 1, whole: 8 },
        Pattern::Scattered { part: 1, whole: 5 },
        Pattern::Scattered { part: 1, whole: 3 },
        Pattern::Scattered { part: 1, whole: 2 },
        Pattern::Scattered { part: 2, whole: 3 },
        Pattern::Scattered { part: 7, whole: 8 },
        Pattern::Scattered { part: 49, whole: 50 },
        Pattern::Exactly(1),
        Pattern::Exactly(2),
        Pattern::Exactly(3),
        Pattern::Exactly(4),
        Pattern::Exactly(5),
        Pattern::Half,
        Pattern::HalfAndOne,
        Pattern::Bursts(3),
        Pattern::Bursts(10),
        Pattern::Bursts(40),
        Pattern::Every(2),
        Pattern::Every(3),
        Pattern::Every(7),
        Pattern::Every(33),
        Pattern::First,
        Pattern::Last,
        Pattern::AllButLast,
        Pattern::FirstHalf,
        Pattern::LastHalf,
        Pattern::EndsOnOne(10),
        Pattern::EndsOnOne(60),
    ];

    pub fn row(self, places: usize, rng: &mut Prng) -> Vec<bool> {
        let exactly = |count: usize, rng: &mut Prng| {
            let mut row: Vec<bool> = (0..places).map(|place| place < count).collect();
            rng.shuffle(&mut row);
            row
        };
        match self {
            Pattern::Scattered { part, whole } => {
                (0..places).map(|_| rng.chance(part, whole)).collect()
            }
            Pattern::Exactly(count) => exactly(count, rng),
            Pattern::Half => exactly(places / 2, rng),
            Pattern::HalfAndOne => exactly(places / 2 + 1, rng),
            Pattern::Bursts(about) => {
                let mut kind = rng.flip();
                (0..places)
                    .map(|_| {
                        kind ^= rng.chance(1, about);
                        kind
                    })
                    .collect()
            }
            Pattern::Every(step) => {
                let start = rng.below(step);
                (0..places).map(|place| place % step == start).collect()
            }
            Pattern::First => (0..places).map(|place| place == 0).collect(),
            Pattern::Last => (0..places).map(|place| place + 1 == places).collect(),
            Pattern::AllButLast => (0..places).map(|place| place + 1 != places).collect(),
            Pattern::FirstHalf => (0..places).map(|place| place < places / 2).collect(),
            Pattern::LastHalf => (0..places).map(|place| place >= places / 2).collect(),
            Pattern::EndsOnOne(whole) => {
                (0..places).map(|place| place + 1 == places || rng.chance(1, whole)).collect()
            }
        }
    }
}

/// How often one value comes in a value-location frame.
#[derive(Clone, Copy, Debug, PartialEq, Eq)]
pub enum Often {
    Never,
    Times(usize),
    OneIn(usize),
}

/// A near miss of some tool's frames.
#[derive(Clone, Copy, Debug, PartialEq, Eq)]
pub enum Miss {
    /// Equal samples but one.
    AlmostConstant,
    /// The two zeros, and one sample of -2 or 1.
    ZerosAndOneMore,
    /// The two zeros, and one far sample.
    ZerosAndOneFar,
    /// A range case's frame, and one sample of 2 or -3.
    RangeAndOneMore,
    /// A range case's frame in which another value comes once more than 0,
    /// or twice more where no third value can make the number odd.
    ZeroNotCommonest,
    /// A range case's frame in which another value is as frequent as 0.
    ZeroAsCommon,
    /// A range case's frame without any 0.
    NoZero,
    /// -2 to -1, or 1 to 2: no row has them.
    NoRow,
    /// -2 to 1, which the shorter lengths don't allow.
    WideRange,
    /// Numbers near zero whose least, greatest and -1 no row of tool 11 has.
    NoDigits,
    /// A row's frame of tool 11, and one sample of -1, or just past its ends.
    DigitsAndOneMore,
}

impl Miss {
    pub const ALL: &'static [Miss] = &[
        Miss::AlmostConstant,
        Miss::ZerosAndOneMore,
        Miss::ZerosAndOneFar,
        Miss::RangeAndOneMore,
        Miss::ZeroNotCommonest,
        Miss::ZeroAsCommon,
        Miss::NoZero,
        Miss::NoRow,
        Miss::WideRange,
        Miss::NoDigits,
        Miss::DigitsAndOneMore,
    ];
}

/// A kind of frame.
#[derive(Clone, Copy, Debug, PartialEq, Eq)]
pub enum Kind {
    RandomOctets,
    /// Speech-like: small numbers around zero.
    Quiet,
    Constant,
    AllPlus,
    AllMinus,
    TwoZeros(Pattern),
    /// A range case, and how often 1, -1 and -2 come where the case has them.
    Range { case: usize, ones: Often, minus_ones: Often, minus_twos: Often },
    /// A row of tool 11, from 0 to 11, also where the length doesn't have it;
    /// its least, greatest and -1 come, and any other value one in so many
    /// times, 0 the other times.
    Digits { row: usize, one_in: usize },
    NearMiss(Miss),
}

/// The values of tool 11's rows, in the order of their prefixes.
pub const DIGIT_ROWS: [&[i32]; 12] = [
    &[0, 1],
    &[-2, -1, 0, 1],
    &[-2, 0],
    &[-2, 0, 1],
    &[-2, -1, 0],
    &[-1, 0, 1],
    &[-3, -2, 0, 1],
    &[-2, -1, 0, 1, 2],
    &[-2, 0, 1, 2],
    &[-3, -2, -1, 0, 1, 2],
    &[-3, -2, 0, 1, 2],
    &[-4, -3, -2, 0, 1, 2],
];

/// How many of these rows a length has, and its first row's prefix.
pub fn digit_rows(length: usize) -> (usize, u8) {
    match length {
        40 => (12, 2),
        80 => (6, 14),
        160 => (4, 20),
        240 => (4, 24),
        320 => (4, 28),
        _ => panic!("no such frame length: {length}"),
    }
}

/// Least and greatest of the four range cases.
pub const RANGES: [(i32, i32); 4] = [(-2, 1), (-1, 1), (-2, 0), (0, 1)];

/// Every kind of frame, the value-location ones in many densities.
pub fn all_kinds() -> Vec<Kind> {
    let mut kinds =
        vec![Kind::RandomOctets, Kind::Quiet, Kind::Constant, Kind::AllPlus, Kind::AllMinus];
    kinds.extend(Pattern::ALL.iter().map(|&pattern| Kind::TwoZeros(pattern)));
    let often = [
        Often::Never,
        Often::Times(1),
        Often::Times(2),
        Often::Times(4),
        Often::Times(5),
        Often::OneIn(40),
        Often::OneIn(12),
        Often::OneIn(6),
        Often::OneIn(4),
        Often::OneIn(3),
    ];
    for (case, &(least, greatest)) in RANGES.iter().enumerate() {
        let choices = |there: bool| if there { &often[..] } else { &often[..1] };
        for &ones in choices(greatest == 1) {
            for &minus_ones in choices(least <= -1) {
                for &minus_twos in choices(least == -2) {
                    kinds.push(Kind::Range { case, ones, minus_ones, minus_twos });
                }
            }
        }
    }
    for row in 0..DIGIT_ROWS.len() {
        kinds.extend([1, 3, 10, 40].map(|one_in| Kind::Digits { row, one_in }));
    }
    kinds.extend(Miss::ALL.iter().map(|&miss| Kind::NearMiss(miss)));
    kinds
}

/// A frame of `length` samples.
pub fn make_frame(kind: Kind, length: usize, law: u32, rng: &mut Prng) -> Vec<u8> {
    match kind {
        Kind::RandomOctets => rng.octets(length),
        Kind::Quiet => {
            let reach = 1 + rng.below(6) as i32;
            let numbers: Vec<i32> =
                (0..length).map(|_| rng.below(2 * reach as usize + 1) as i32 - reach).collect();
            samples_of(&numbers, law)
        }
        Kind::Constant => vec![rng.octet(); length],
        Kind::AllPlus => vec![sample_of(0, law); length],
        Kind::AllMinus => vec![sample_of(-1, law); length],
        Kind::TwoZeros(pattern) => {
            let row = pattern.row(length, rng);
            row.iter().map(|&minus| sample_of(-i32::from(minus), law)).collect()
        }
        Kind::Range { case, ones, minus_ones, minus_twos } => {
            samples_of(&range_numbers(case, [ones, minus_ones, minus_twos], length, rng), law)
        }
        Kind::Digits { row, one_in } => samples_of(&digit_numbers(row, one_in, length, rng), law),
        Kind::NearMiss(miss) => samples_of(&near_miss(miss, length, rng), law),
    }
}

/// Numbers of a row of tool 11, told by its least, its greatest and -1.
fn digit_numbers(row: usize, one_in: usize, length: usize, rng: &mut Prng) -> Vec<i32> {
    let values = DIGIT_ROWS[row];
    let mut numbers: Vec<i32> =
        (0..length).map(|_| if rng.chance(1, one_in) { *rng.pick(values) } else { 0 }).collect();
    let mut told = vec![values[0], values[values.len() - 1]];
    if values.contains(&-1) {
        told.push(-1);
    }
    let start = rng.below(length);
    for (step, value) in told.into_iter().enumerate() {
        numbers[(start + 7 * step) % length] = value;
    }
    numbers
}

/// Numbers of a range case. Its least and greatest always come, so the frame
/// is the case's; a middle value comes as asked.
fn range_numbers(case: usize, often: [Often; 3], length: usize, rng: &mut Prng) -> Vec<i32> {
    let mut numbers = vec![0; length];
    let (least, greatest) = RANGES[case];
    let mut order: Vec<usize> = (0..length).collect();
    rng.shuffle(&mut order);
    let mut free = order.into_iter();
    for (value, often) in [1, -1, -2].into_iter().zip(often) {
        if value < least || value > greatest {
            continue;
        }
        let mut count = match often {
            Often::Never => 0,
            Often::Times(count) => count,
            Often::OneIn(whole) => (0..length).filter(|_| rng.chance(1, whole)).count(),
        };
        if value == least || value == greatest {
            count = count.max(1);
        }
        for place in free.by_ref().take(count) {
            numbers[place] = value;
        }
    }
    numbers
}

fn any_range(rng: &mut Prng, length: usize) -> Vec<i32> {
    let case = rng.below(4);
    let often = [0; 3].map(|_| {
        *rng.pick(&[Often::Times(1), Often::Times(4), Often::OneIn(20), Often::OneIn(6)])
    });
    range_numbers(case, often, length, rng)
}

fn near_miss(miss: Miss, length: usize, rng: &mut Prng) -> Vec<i32> {
    let somewhere = rng.below(length);
    match miss {
        Miss::AlmostConstant => {
            let value = *rng.pick(&[0, -1, 1, -2, 50, -90]);
            let mut numbers = vec![value; length];
            numbers[somewhere] = *rng.pick(&[0, -1, 1, -2, 51, -91]);
            numbers
        }
        Miss::ZerosAndOneMore | Miss::ZerosAndOneFar => {
            let pattern = *rng.pick(Pattern::ALL);
            let row = pattern.row(length, rng);
            let mut numbers: Vec<i32> = row.iter().map(|&minus| -i32::from(minus)).collect();
            numbers[somewhere] = if miss == Miss::ZerosAndOneMore {
                *rng.pick(&[1, -2])
            } else {
                *rng.pick(&[2, -3, 127, -128, 64, -64])
            };
            numbers
        }
        Miss::RangeAndOneMore => {
            let mut numbers = any_range(rng, length);
            numbers[somewhere] = *rng.pick(&[2, -3]);
            numbers
        }
        Miss::ZeroNotCommonest | Miss::ZeroAsCommon => {
            let (least, greatest) = *rng.pick(&RANGES);
            let others: Vec<i32> = [1, -1, -2]
                .into_iter()
                .filter(|value| (least..=greatest).contains(value))
                .collect();
            // The rest goes to the ends of the range so that it stays a row's.
            let common = *rng.pick(&others);
            let rest: Vec<i32> = others.iter().copied().filter(|&value| value != common).collect();
            let fewer = miss == Miss::ZeroNotCommonest;
            let (spare, zeros) = if rest.is_empty() {
                (0, length / 2 - usize::from(fewer))
            } else {
                let spare = 2 + 2 * rng.below(length / 8) + usize::from(fewer);
                (spare, (length - spare) / 2)
            };
            let mut numbers = vec![0; zeros];
            for index in 0..spare {
                numbers.push(rest[index % rest.len()]);
            }
            numbers.resize(length, common);
            rng.shuffle(&mut numbers);
            numbers
        }
        Miss::NoZero => {
            let (least, greatest) = *rng.pick(&RANGES[..2]);
            let mut numbers: Vec<i32> =
                (0..length).map(|_| if rng.flip() { greatest } else { least }).collect();
            numbers[somewhere] = least;
            numbers[(somewhere + 1) % length] = greatest;
            numbers
        }
        Miss::NoRow => {
            let (one, other) = *rng.pick(&[(-2, -1), (1, 2), (0, 2), (-3, 0), (-3, -2)]);
            let whole = 2 + rng.below(30);
            (0..length).map(|_| if rng.chance(1, whole) { other } else { one }).collect()
        }
        Miss::NoDigits => {
            let (least, greatest) = *rng.pick(&[(-3, 1), (-4, 2), (-4, 1), (-3, 0), (-1, 2), (0, 2), (-2, 3), (-5, 2)]);
            let values: Vec<i32> = (least..=greatest).collect();
            let mut numbers: Vec<i32> = (0..length).map(|_| *rng.pick(&values)).collect();
            for (step, value) in [least, greatest, -1].into_iter().filter(|value| values.contains(value)).enumerate() {
                numbers[(somewhere + 7 * step) % length] = value;
            }
            numbers
        }
        Miss::DigitsAndOneMore => {
            let row = rng.below(DIGIT_ROWS.len());
            let mut numbers = digit_numbers(row, 2, length, rng);
            let values = DIGIT_ROWS[row];
            numbers[somewhere] = *rng.pick(&[-1, values[0] - 1, values[values.len() - 1] + 1]);
            numbers
        }
        Miss::WideRange => {
            let often = [Often::OneIn(9), Often::OneIn(9), Often::OneIn(9)];
            range_numbers(0, often, length, rng)
        }
    }
}

// ---------------------------------------------------------------- forms

/// A good form with what a reader must make of it.
#[derive(Clone, Debug, PartialEq, Eq)]
pub struct MadeForm {
    pub octets: Vec<u8>,
    pub samples: Vec<u8>,
    pub bits: usize,
    pub tool: u32,
}

/// Bits put one by one.
#[derive(Clone, Debug, Default)]
pub struct BitString {
    bits: Vec<bool>,
}

impl BitString {
    pub fn text(&mut self, zeros_and_ones: &str) {
        self.bits.extend(zeros_and_ones.chars().map(|c| c == '1'));
    }

    pub fn number(&mut self, value: usize, count: u32) {
        self.bits.extend((0..count).rev().map(|bit| value >> bit & 1 == 1));
    }

    pub fn rice(&mut self, s: u32, value: usize) {
        for _ in 0..value >> s {
            self.bits.push(false);
        }
        self.bits.push(true);
        self.number(value, s);
    }

    /// The runs of a row in which `true` is the rarer kind.
    pub fn runs(&mut self, s: u32, row: &[bool]) {
        let mut run = 0;
        for &rare in row {
            if rare {
                self.rice(s, run);
                run = 0;
            } else {
                run += 1;
            }
        }
        if run > 0 {
            self.rice(s, run);
        }
    }

    pub fn row(&mut self, row: &[bool]) {
        self.bits.extend_from_slice(row);
    }

    pub fn len(&self) -> usize {
        self.bits.len()
    }

    pub fn is_empty(&self) -> bool {
        self.bits.is_empty()
    }

    /// The octets, the last one filled with 0 bits.
    pub fn octets(&self) -> Vec<u8> {
        let fold = |bits: &[bool]| {
            (0..8).fold(0, |octet, bit| octet << 1 | u8::from(bits.get(bit) == Some(&true)))
        };
        self.bits.chunks(8).map(fold).collect()
    }

    fn into_form(self, samples: Vec<u8>, tool: u32) -> MadeForm {
        MadeForm { octets: self.octets(), samples, bits: self.len(), tool }
    }
}

fn length_prefix(length: usize) -> &'static str {
    match length {
        40 => "01",
        80 => "10",
        160 => "11",
        240 => "0010",
        320 => "0011",
        _ => panic!("no such frame length: {length}"),
    }
}

/// The prefix of tools 1 to 5 and 7.
fn prefix(tool: u32, length: usize) -> BitString {
    let mut bits = BitString::default();
    bits.text(length_prefix(length));
    let long = length >= 240;
    let (code, count) = match (tool, long) {
        (7, true) => (0b0101, 4),
        (7, false) => (0b000110, 6),
        (1..=5, true) => (tool as usize - 1, 4),
        (1..=5, false) => (tool as usize - 1, 6),
        _ => panic!("no such whole prefix: {tool}"),
    };
    bits.number(code, count);
    bits
}

/// The codes of S = 1 and up.
pub fn s_code_texts(length: usize) -> &'static [&'static str] {
    match length {
        40 => &["01", "10", "110", "1110", "1111"],
        80 => &["01", "10", "1100", "1101", "1110", "1111"],
        _ => &["01", "10", "1100", "1101", "11100", "11101", "11110", "111110", "111111"],
    }
}

/// A good form of a tool, 0 to 7 or 11, chosen with no eye to its size. Nothing
/// for tool 7 with 40 samples: there is no such form.
pub fn make_form(tool: u32, length: usize, law: u32, rng: &mut Prng) -> Option<MadeForm> {
    let (plus, minus) = (sample_of(0, law), sample_of(-1, law));
    Some(match tool {
        0 => MadeForm { octets: vec![0], samples: vec![], bits: 8, tool: 0 },
        1 => {
            let kinds = all_kinds();
            let samples = make_frame(*rng.pick(&kinds), length, law, rng);
            uncompressed_form(&samples)
        }
        2 => prefix(2, length).into_form(vec![plus; length], 2),
        3 => prefix(3, length).into_form(vec![minus; length], 3),
        4 => {
            let any = rng.octet();
            let octet = *rng.pick(&[plus, minus, sample_of(1, law), 0x00, 0xFF, any, any]);
            let mut bits = prefix(4, length);
            bits.number(usize::from(octet), 8);
            bits.into_form(vec![octet; length], 4)
        }
        5 => binary_form(&any_row(length, rng), law),
        6 => {
            let s = 1 + rng.below(s_code_texts(length).len()) as u32;
            rice_form(&any_row(length, rng), rng.flip(), s, law)
        }
        7 if length == 40 => return None,
        7 => value_location_form(length, law, rng),
        11 => {
            let row = rng.below(digit_rows(length).0);
            // Some of its values at least, be they none that tell the row.
            let values = DIGIT_ROWS[row];
            let some = 1 + rng.below(values.len());
            let from = rng.below(values.len());
            let digits: Vec<usize> =
                (0..length).map(|_| (from + rng.below(some)) % values.len()).collect();
            digit_form(row, &digits, law)
        }
        _ => panic!("not a carried tool: {tool}"),
    })
}

/// Tool 11 for the digits of a row, which need not have the row's ends.
pub fn digit_form(row: usize, digits: &[usize], law: u32) -> MadeForm {
    let values = DIGIT_ROWS[row];
    let base = values.len();
    let mut bits = BitString::default();
    bits.number(usize::from(digit_rows(digits.len()).1) + row, 8);
    let (five, width) = match base {
        2 => (1, 1),
        4 => (1, 2),
        3 => (5, 8),
        5 => (5, 12),
        _ => (5, 13),
    };
    for group in digits.chunks(five) {
        let mut number = 0;
        let mut weight = 1;
        for digit in group {
            number += digit * weight;
            weight *= base;
        }
        bits.number(number, width);
    }
    let samples = digits.iter().map(|&digit| sample_of(values[digit], law)).collect();
    bits.into_form(samples, 11)
}

/// Any row at all: one kind only, patterns, and the patterns turned round.
fn any_row(places: usize, rng: &mut Prng) -> Vec<bool> {
    match rng.below(12) {
        0 => vec![false; places],
        1 => vec![true; places],
        _ => {
            let turned = rng.chance(1, 3);
            let pattern = *rng.pick(Pattern::ALL);
            pattern.row(places, rng).into_iter().map(|one| one ^ turned).collect()
        }
    }
}

/// All places but five at most, so that the next value has few or none.
fn all_but_a_few(places: usize, rng: &mut Prng) -> Vec<bool> {
    let free = rng.below(6).min(places);
    let mut row: Vec<bool> = (0..places).map(|place| place >= free).collect();
    rng.shuffle(&mut row);
    row
}

pub fn uncompressed_form(samples: &[u8]) -> MadeForm {
    let mut bits = prefix(1, samples.len());
    for &sample in samples {
        bits.number(usize::from(sample), 8);
    }
    bits.into_form(samples.to_vec(), 1)
}

/// Tool 5 for the row of minus zeros.
pub fn binary_form(minus: &[bool], law: u32) -> MadeForm {
    let mut bits = prefix(5, minus.len());
    bits.row(minus);
    let samples = minus.iter().map(|&m| sample_of(-i32::from(m), law)).collect();
    bits.into_form(samples, 5)
}

/// Tool 6 for the row of rarer zeros, which need not be rarer at all, under
/// either mark and any S of the length.
pub fn rice_form(rare: &[bool], minus_marked: bool, s: u32, law: u32) -> MadeForm {
    let length = rare.len();
    let mut bits = BitString::default();
    bits.text(length_prefix(length));
    bits.text(if length >= 240 { "10" } else { "01" });
    bits.text(if minus_marked { "1" } else { "0" });
    bits.text(s_code_texts(length)[s as usize - 1]);
    bits.runs(s, rare);
    let samples = rare.iter().map(|&r| sample_of(-i32::from(r != minus_marked), law)).collect();
    bits.into_form(samples, 6)
}

/// A range case and flag with the values they code in turn.
pub struct Row {
    pub case: usize,
    pub flag: usize,
    pub values: &'static [i32],
}

/// The rows a length of 80 or more allows.
pub fn allowed_rows(length: usize) -> &'static [Row] {
    const ROWS: [Row; 6] = [
        Row { case: 0, flag: 1, values: &[1, -1, -2] },
        Row { case: 0, flag: 0, values: &[-1, 1, -2] },
        Row { case: 1, flag: 1, values: &[1, -1] },
        Row { case: 1, flag: 0, values: &[-1, 1] },
        Row { case: 2, flag: 0, values: &[-1, -2] },
        Row { case: 3, flag: 1, values: &[1] },
    ];
    const ALL: &[Row] = &ROWS;
    match length {
        240 | 320 => ALL,
        80 | 160 => &ALL[2..],
        _ => &[],
    }
}

/// Tool 7 with any row, any places and any method that can say them.
pub fn value_location_form(length: usize, law: u32, rng: &mut Prng) -> MadeForm {
    let row = rng.pick(allowed_rows(length));
    let mut bits = prefix(7, length);
    bits.number(row.case, 2);
    bits.number(row.flag, 1);

    let mut numbers = vec![0; length];
    let mut empty: Vec<usize> = (0..length).collect();
    for &value in row.values {
        let taken = put_any_value(&mut bits, empty.len(), rng);
        let mut left = Vec::new();
        for (&place, taken) in empty.iter().zip(taken) {
            if taken {
                numbers[place] = value;
            } else {
                left.push(place);
            }
        }
        empty = left;
    }
    bits.into_form(samples_of(&numbers, law), 7)
}

/// The start of a tool 7 form whose values so far take every place while at
/// least one value is still to come: its method bits are what must follow.
pub fn filled_start(length: usize, rng: &mut Prng) -> BitString {
    let rows: Vec<&Row> = allowed_rows(length).iter().filter(|row| row.values.len() > 1).collect();
    let row = *rng.pick(&rows);
    let mut bits = prefix(7, length);
    bits.number(row.case, 2);
    bits.number(row.flag, 1);

    let before = rng.below(row.values.len() - 1);
    let mut places = length;
    for _ in 0..before {
        let taken = put_any_value(&mut bits, places, rng);
        places -= taken.iter().filter(|&&one| one).count();
    }
    let method = rng.below(5);
    bits.number(method, 3);
    match method {
        0 => bits.row(&vec![true; places]),
        s => bits.runs(s as u32, &vec![true; places]),
    }
    bits
}

/// Puts one value by any method and gives the row of its places: none of
/// them, all of them, or any others.
fn put_any_value(bits: &mut BitString, places: usize, rng: &mut Prng) -> Vec<bool> {
    let method = *rng.pick(&[0usize, 1, 2, 3, 4, 5, 7]);
    // A list has at least one place, so where none is left it can't be used.
    let method = if method == 7 && places == 0 { 5 } else { method };
    let row = match method {
        5 => vec![false; places],
        7 => {
            let most = places.min(4);
            // As many as are left, where a list can say them all.
            let count = if rng.chance(1, 4) { most } else { 1 + rng.below(most) };
            let mut row: Vec<bool> = (0..places).map(|place| place < count).collect();
            rng.shuffle(&mut row);
            row
        }
        _ if rng.chance(1, 8) => all_but_a_few(places, rng),
        _ => any_row(places, rng),
    };
    bits.number(method, 3);
    match method {
        0 => bits.row(&row),
        5 => {}
        7 => {
            let listed: Vec<usize> = (0..places).filter(|&place| row[place]).collect();
            bits.number(listed.len() - 1, 2);
            let width = (0..).find(|&width| 1usize << width >= places).unwrap_or(0);
            for place in listed {
                bits.number(place, width);
            }
        }
        s => bits.runs(s as u32, &row),
    }
    row
}

/// A good form of any carried tool, length and law, the pad among them.
pub fn make_any_form(law: u32, rng: &mut Prng) -> MadeForm {
    loop {
        // The tools with most to go wrong come most often.
        let tool = *rng.pick(&[0, 1, 2, 3, 4, 5, 6, 6, 6, 7, 7, 7, 7, 11, 11]);
        let length = *rng.pick(&LENGTHS);
        if let Some(form) = make_form(tool, length, law, rng) {
            return form;
        }
    }
}

// ---------------------------------------------------------------- damage

/// What was done to octets.
#[derive(Clone, Copy, Debug, PartialEq, Eq)]
pub enum Damage {
    FlippedBit,
    FlippedBits,
    Cut,
    ReplacedOctet,
    ReplacedFirst,
    DroppedOctet,
    InsertedOctet,
    Zeroed,
    LastBitSet,
    Lengthened,
}

impl Damage {
    pub const ALL: &'static [Damage] = &[
        Damage::FlippedBit,
        Damage::FlippedBits,
        Damage::Cut,
        Damage::ReplacedOctet,
        Damage::ReplacedFirst,
        Damage::DroppedOctet,
        Damage::InsertedOctet,
        Damage::Zeroed,
        Damage::LastBitSet,
        Damage::Lengthened,
    ];
}

/// A damaged copy of octets, of which there must be at least one.
pub fn damage(octets: &[u8], how: Damage, rng: &mut Prng) -> Vec<u8> {
    let mut damaged = octets.to_vec();
    let place = rng.below(octets.len());
    match how {
        Damage::FlippedBit => damaged[place] ^= 1 << rng.below(8),
        Damage::FlippedBits => {
            for _ in 0..2 + rng.below(6) {
                let place = rng.below(octets.len());
                damaged[place] ^= 1 << rng.below(8);
            }
        }
        Damage::Cut => damaged.truncate(place),
        Damage::ReplacedOctet => damaged[place] = rng.octet(),
        Damage::ReplacedFirst => damaged[0] = rng.octet(),
        Damage::DroppedOctet => drop(damaged.remove(place)),
        Damage::InsertedOctet => damaged.insert(place, rng.octet()),
        Damage::Zeroed => {
            // From some octet after the first on: long rows of zeros.
            let from = place.max(1).min(octets.len());
            damaged[from..].fill(0);
            let more = rng.below(60);
            damaged.resize(damaged.len() + more, 0);
        }
        Damage::LastBitSet => {
            let last = damaged.len() - 1;
            damaged[last] |= 1 << rng.below(3);
        }
        Damage::Lengthened => {
            let more = 1 + rng.below(20);
            damaged.extend(rng.octets(more));
        }
    }
    damaged
}

/// Octets damaged in some way.
pub fn damage_somehow(octets: &[u8], rng: &mut Prng) -> Vec<u8> {
    let how = *rng.pick(Damage::ALL);
    damage(octets, how, rng)
}
