//! Faulty frames, each made to be refused at one place: a form that is right up to there, then the fault, then
//! anything. What is cut off before the fault is SHORT; what follows it changes nothing.

use crate::digits;
use crate::ending;
use crate::forms::{any_form, place_width, rice_start, rows, s_codes, Bits, Field, Form, Located, Row, LENGTHS};
use second::gen::Prng;

/// A frame that is refused in its body.
#[derive(Clone, Debug)]
pub struct Faulty {
    pub octets: Vec<u8>,
    pub length: usize,
    /// The name of the refusal, and the place that raises it.
    pub refusal: &'static str,
    pub place: String,
    /// How many bits must be there for the refusal.
    pub judged: usize,
    /// The bit that the refusal gives (document 02, R-7).
    pub bit: usize,
}

/// Octets, how many of their bits must be there for the refusal, and the bit that it gives.
type Made = (Vec<u8>, usize, usize);

impl Faulty {
    /// The octets that must be there for the refusal; with fewer it is SHORT.
    pub fn needed(&self) -> usize {
        self.judged.div_ceil(8)
    }

    pub fn ending(&self) -> u32 {
        ending(self.refusal).expect("a name of document 01")
    }
}

/// The ways in which a body of tool 6, 7 or 11 is refused, SHORT left out. The number is the value, 1 to 3, of tool 7.
#[derive(Clone, Copy, Debug, PartialEq, Eq)]
pub enum Fault {
    RiceZeros,
    RiceLong,
    RiceFilling,
    Case,
    Method(usize),
    ValueZeros(usize),
    ValueLong(usize),
    PlaceBeyond(usize),
    PlaceNotRising(usize),
    /// A list where no place is left; and one of more places than the single one that is left.
    NoneLeft(usize),
    OneLeft(usize),
    ValueFilling,
    /// Five samples of tool 11 whose number is too great for so many values: 3, 5 or 6.
    Fives(usize),
}

/// Every fault, in the order in which they are listed.
pub fn all() -> Vec<Fault> {
    let mut all = vec![Fault::RiceZeros, Fault::RiceLong, Fault::RiceFilling, Fault::Case];
    let numbered: [fn(usize) -> Fault; 7] = [
        Fault::Method,
        Fault::ValueZeros,
        Fault::ValueLong,
        Fault::PlaceBeyond,
        Fault::PlaceNotRising,
        Fault::NoneLeft,
        Fault::OneLeft,
    ];
    for fault in numbered {
        all.extend((1..=3).map(fault));
    }
    all.push(Fault::ValueFilling);
    all.extend([3, 5, 6].map(Fault::Fives));
    all
}

impl Fault {
    pub fn refusal(self) -> &'static str {
        match self {
            Fault::RiceZeros | Fault::RiceLong | Fault::ValueZeros(_) | Fault::ValueLong(_) => "RUN",
            Fault::RiceFilling | Fault::ValueFilling => "ALIGN",
            Fault::Case => "CASE",
            Fault::Method(_) => "METHOD",
            _ => "PLACE",
        }
    }

    pub fn place(self) -> String {
        match self {
            Fault::RiceZeros => "tool 6, zero N + 1".into(),
            Fault::RiceLong => "tool 6, a run too long".into(),
            Fault::RiceFilling => "tool 6, filling".into(),
            Fault::Case => "tool 7, case, flag or N".into(),
            Fault::Method(value) => format!("value {value}, method 110"),
            Fault::ValueZeros(value) => format!("value {value}, zero N + 1"),
            Fault::ValueLong(value) => format!("value {value}, a run too long"),
            Fault::PlaceBeyond(value) => format!("value {value}, place not below D"),
            Fault::PlaceNotRising(value) => format!("value {value}, place not rising"),
            Fault::NoneLeft(value) => format!("value {value}, a list where no place is left"),
            Fault::OneLeft(value) => format!("value {value}, a list too long for the place left"),
            Fault::ValueFilling => "tool 7, filling".into(),
            Fault::Fives(values) => format!("tool 11, five samples of {values} values"),
        }
    }

    /// Whether a frame of this length can have it. The first value has all places left.
    pub fn possible(self, length: usize) -> bool {
        match self {
            Fault::RiceZeros | Fault::RiceLong | Fault::RiceFilling | Fault::Fives(3) => true,
            Fault::Fives(_) => length == 40,
            Fault::NoneLeft(1) | Fault::OneLeft(1) => false,
            Fault::Method(3)
            | Fault::ValueZeros(3)
            | Fault::ValueLong(3)
            | Fault::PlaceBeyond(3)
            | Fault::PlaceNotRising(3)
            | Fault::NoneLeft(3)
            | Fault::OneLeft(3) => length >= 240,
            _ => length >= 80,
        }
    }

    /// A frame with this fault, if the numbers drawn allow one.
    pub fn make(self, length: usize, rng: &mut Prng) -> Option<Faulty> {
        let made = match self {
            Fault::RiceZeros | Fault::RiceLong => self.rice_run(length, rng),
            Fault::RiceFilling => filling(&any_form(6, length, 1, rng)?, rng),
            Fault::ValueFilling => filling(&any_form(7, length, 1, rng)?, rng),
            Fault::Case => Some(wrong_case(length, rng)),
            Fault::Fives(values) => too_great(values, length, rng),
            Fault::Method(value)
            | Fault::ValueZeros(value)
            | Fault::ValueLong(value)
            | Fault::PlaceBeyond(value)
            | Fault::PlaceNotRising(value)
            | Fault::NoneLeft(value)
            | Fault::OneLeft(value) => self.in_value(length, value - 1, rng),
        };
        let (mut octets, judged, bit) = made?;
        let more = rng.below(6);
        octets.extend(rng.octets(more));
        Some(Faulty { octets, length, refusal: self.refusal(), place: self.place(), judged, bit })
    }

    fn rice_run(self, length: usize, rng: &mut Prng) -> Option<Made> {
        let s = 1 + rng.below(s_codes(length).len());
        let mut bits = rice_start(length, rng.flip(), s);
        let left = runs_before(&mut bits, s, length, rng);
        match self {
            Fault::RiceZeros => endless(&mut bits, length),
            _ => too_long(&mut bits, s, left, length, rng)?,
        }
        Some(with_any_filling(&bits, rng))
    }

    fn in_value(self, length: usize, index: usize, rng: &mut Prng) -> Option<Made> {
        let able: Vec<_> = rows(length).iter().filter(|row| row.values.len() > index).collect();
        let row = **able.get(rng.below(able.len().max(1)))?;
        let mut located = match self {
            Fault::NoneLeft(_) => nearly_full(length, row, index, 0, rng)?,
            Fault::OneLeft(_) => nearly_full(length, row, index, 1, rng)?,
            _ => {
                let mut located = Located::start(length, row.case, row.flag);
                located.put_before(row, index, 1, rng);
                located
            }
        };
        let left = located.empty.len();
        let s = 1 + rng.below(4);
        match self {
            Fault::Method(_) => located.method(index, 6),
            Fault::ValueZeros(_) => {
                located.method(index, s);
                runs_before(&mut located.bits, s, left, rng);
                endless(&mut located.bits, length);
            }
            Fault::ValueLong(_) => {
                located.method(index, s);
                let left = runs_before(&mut located.bits, s, left, rng);
                too_long(&mut located.bits, s, left, length, rng)?;
            }
            Fault::PlaceBeyond(_) => beyond(&mut located, index, rng)?,
            Fault::PlaceNotRising(_) => not_rising(&mut located, index, rng),
            _ => listed_in_vain(&mut located, index, rng),
        }
        Some(with_any_filling(&located.bits, rng))
    }
}

/// A run's code of N + 1 zeros.
fn endless(bits: &mut Bits, length: usize) {
    bits.field(Field::Zeros(9));
    bits.zeros(length + 1);
}

/// The octets of bits that end at a fault, the rest of the last octet being anything. The refusal gives the first bit of
/// what is at fault: the run's code, the listed place, the range case, the method or the number of five samples.
fn with_any_filling(bits: &Bits, rng: &mut Prng) -> Made {
    let judged = bits.len();
    let mut octets = bits.octets();
    if judged % 8 != 0 {
        *octets.last_mut().expect("there are bits") |= rng.octet() >> (judged % 8);
    }
    (octets, judged, bits.last_start())
}

/// A good form with one filling bit or more set, if it has any; the refusal gives the first of them.
fn filling(form: &Form, rng: &mut Prng) -> Option<Made> {
    let judged = form.bits.len();
    let room = (8 - judged % 8) % 8;
    if room == 0 {
        return None;
    }
    let mut octets = form.octets();
    let set = 1 + rng.below((1 << room) - 1) as u8;
    *octets.last_mut()? |= set;
    let bit = 8 * (octets.len() - 1) + set.leading_zeros() as usize;
    Some((octets, judged, bit))
}

/// A range case, flag and length that no row has; all that follows is anything.
fn wrong_case(length: usize, rng: &mut Prng) -> Made {
    loop {
        let (case, flag) = (rng.below(4), rng.below(2));
        if !rows(length).iter().any(|row| (row.case, row.flag) == (case, flag)) {
            let located = Located::start(length, case, flag);
            return with_any_filling(&located.bits, rng);
        }
    }
}

/// Five samples whose number no digits make, after others that are good.
fn too_great(values: usize, length: usize, rng: &mut Prng) -> Option<Made> {
    let able: Vec<_> = digits::rows(length).into_iter().filter(|row| row.base() == values).collect();
    let row = *able.get(rng.below(able.len().max(1)))?;
    let (mut bits, width) = (row.start(length)?, row.width()?);
    let good = rng.below(length / 5);
    for at in 0..=good {
        let (least, limit) = if at < good { (0, row.numbers()) } else { (row.numbers(), 1 << width) };
        let number = if rng.chance(1, 3) { least } else { least + rng.below(limit - least) };
        bits.field(Field::Fives(at));
        bits.number(number, width);
    }
    Some(with_any_filling(&bits, rng))
}

/// Some good runs, short enough that a place is left; gives the places left.
fn runs_before(bits: &mut Bits, s: usize, places: usize, rng: &mut Prng) -> usize {
    let mut left = places;
    for run in 0..rng.below(4) {
        let v = rng.below(left);
        if v + 1 >= left {
            break;
        }
        bits.rice(s, v, run);
        left -= v + 1;
    }
    left
}

/// A run longer than the places left, with at most N zeros; often by one.
fn too_long(bits: &mut Bits, s: usize, left: usize, length: usize, rng: &mut Prng) -> Option<()> {
    let most = (length << s) + (1 << s) - 1;
    let v = match rng.below(3) {
        0 => left + 1,
        1 => left + 1 + rng.below(20),
        _ => left + 1 + rng.below(most - left),
    };
    (v <= most).then(|| bits.rice(s, v, 9))
}

/// Values that leave so many places to the value of this number, which is not the first.
fn nearly_full(length: usize, row: Row, index: usize, keep: usize, rng: &mut Prng) -> Option<Located> {
    let mut located = Located::start(length, row.case, row.flag);
    located.put_before(row, index.checked_sub(1)?, keep, rng);
    let places = located.empty.len();
    let mut flags: Vec<bool> = (0..places).map(|place| place >= keep).collect();
    rng.shuffle(&mut flags);
    let method = if flags.contains(&true) { rng.below(5) } else { 5 };
    located.put(index - 1, row.values[index - 1], method, &flags);
    Some(located)
}

/// A list that has more places than are left, which are none or one. A place of no bits is 0: where none is left the first
/// is not below D, and where one is left the second does not rise.
fn listed_in_vain(located: &mut Located, index: usize, rng: &mut Prng) {
    let left = located.empty.len();
    located.method(index, 7);
    located.bits.field(Field::Count);
    located.bits.number(left + rng.below(4 - left), 2);
    (0..=left).for_each(|at| located.bits.field(Field::Place(at)));
}

/// A list of which one place is not below D, if so great a place can be said at all.
fn beyond(located: &mut Located, index: usize, rng: &mut Prng) -> Option<()> {
    let places = located.empty.len();
    let greatest = (1 << place_width(places)) - 1;
    if greatest < places {
        return None;
    }
    let good = rng.below(4.min(places + 1));
    let mut list = rising(places, good, rng);
    list.push(places + rng.below(greatest - places + 1));
    listed(located, index, &list, rng);
    Some(())
}

/// A list of which one place is the one before it, or a lower one.
fn not_rising(located: &mut Located, index: usize, rng: &mut Prng) {
    let places = located.empty.len();
    let good = 1 + rng.below(3.min(places));
    let mut list = rising(places, good, rng);
    let last = list[good - 1];
    list.push(if rng.flip() { last } else { rng.below(last + 1) });
    listed(located, index, &list, rng);
}

/// So many places that rise.
fn rising(places: usize, count: usize, rng: &mut Prng) -> Vec<usize> {
    let mut all: Vec<usize> = (0..places).collect();
    rng.shuffle(&mut all);
    all.truncate(count);
    all.sort();
    all
}

/// Method 111 with a count of at least these places; those that are left out would follow.
fn listed(located: &mut Located, index: usize, places: &[usize], rng: &mut Prng) {
    located.method(index, 7);
    located.bits.field(Field::Count);
    located.bits.number(places.len() - 1 + rng.below(5 - places.len()), 2);
    let width = place_width(located.empty.len());
    for (at, place) in places.iter().enumerate() {
        located.bits.field(Field::Place(at));
        located.bits.number(*place, width);
    }
}

/// Where a form that is cut in a field is SHORT, in words.
pub fn short_place(tool: u32, field: Field) -> String {
    match field {
        Field::Prefix => "no octets".into(),
        Field::Samples => "tool 1, samples".into(),
        Field::Constant => "tool 4, the octet".into(),
        Field::Binary => "tool 5, bits".into(),
        Field::SCode => "tool 6, code of S".into(),
        Field::Zeros(0) => format!("tool {tool}, zeros of a first run"),
        Field::Zeros(_) => format!("tool {tool}, zeros of a later run"),
        Field::Low => format!("tool {tool}, low bits"),
        Field::Case => "tool 7, range case".into(),
        Field::Method(value) => format!("tool 7, method {}", value + 1),
        Field::Row => "tool 7, D bits".into(),
        Field::Count => "tool 7, count".into(),
        Field::Place(0) => "tool 7, a first place".into(),
        Field::Place(_) => "tool 7, a later place".into(),
        Field::Digits => "tool 11, bits of samples".into(),
        Field::Fives(0) => "tool 11, first five samples".into(),
        Field::Fives(_) => "tool 11, later five samples".into(),
        Field::Filling => panic!("no frame is cut in its filling"),
    }
}

/// Every place at which a good form can be cut, with the lengths where it can. The first method is in the octet of
/// the range case, so no frame is cut there.
pub fn short_places() -> Vec<(String, &'static [usize])> {
    const ALL: &[usize] = &LENGTHS;
    let (from_80, from_240) = (&ALL[1..], &ALL[3..]);
    let fields = [
        (1, Field::Samples, ALL),
        (4, Field::Constant, ALL),
        (5, Field::Binary, ALL),
        (6, Field::SCode, ALL),
        (6, Field::Zeros(0), ALL),
        (6, Field::Zeros(1), ALL),
        (6, Field::Low, ALL),
        (7, Field::Case, from_80),
        (7, Field::Method(1), from_80),
        (7, Field::Method(2), from_240),
        (7, Field::Row, from_80),
        (7, Field::Zeros(0), from_80),
        (7, Field::Zeros(1), from_80),
        (7, Field::Low, from_80),
        (7, Field::Count, from_80),
        (7, Field::Place(0), from_80),
        (7, Field::Place(1), from_80),
        (11, Field::Digits, ALL),
        (11, Field::Fives(0), ALL),
        (11, Field::Fives(1), ALL),
    ];
    fields.iter().map(|(tool, field, lengths)| (short_place(*tool, *field), *lengths)).collect()
}
