//! A box's settings, saved and put back (document 02, R-13): two back ends asked the same, call by call, and a history
//! of all that was ever saved to hold both against. [`script`] reads tests/vectors/settings.txt.

use crate::{Proved, Second};
use second::gen::Prng;

pub type State = [u32; 41];
/// Nothing saved yet.
pub const FRESH: State = [0; 41];
/// Octets lent for a text.
const LENT: usize = 80;

pub const LINE: u32 = 23;
pub const GONE: u32 = 24;
pub const SPENT: u32 = 25;
/// The refusals by name.
const REFUSALS: [(&str, u32); 3] = [("LINE", LINE), ("GONE", GONE), ("SPENT", SPENT)];

/// The keys of the lines, with the least and the greatest value of each.
pub const LINES: [(&str, u32, u32); 4] =
    [("law", 0, 1), ("set", 0, 255), ("block", 1, 1_048_576), ("greeting", 0, 65_535)];

/// What a call answers: its number, and its report.
#[derive(Clone, Copy, Debug, PartialEq, Eq)]
pub struct Told {
    pub ending: u32,
    pub told: u64,
}

impl Told {
    pub fn refused(ending: u32) -> Told {
        Told { ending, told: 0 }
    }

    pub fn of(answer: Result<u64, u32>) -> Told {
        match answer {
            Ok(told) => Told { ending: 0, told },
            Err(ending) => Told::refused(ending),
        }
    }
}

/// A back end: the four calls, whoever answers them.
pub trait Keeper {
    fn save(&self, state: &mut State, text: &[u8]) -> Told;
    fn back(&self, state: &mut State, revision: u32) -> Told;
    fn read(&self, state: &State, revision: u32, text: &mut [u8; LENT]) -> Told;
    fn wipe(&self, state: &mut State) -> Told;
}

impl Keeper for Second {
    fn save(&self, state: &mut State, text: &[u8]) -> Told {
        Told::of(second::settings::save(state, text).map(u64::from))
    }

    fn back(&self, state: &mut State, revision: u32) -> Told {
        Told::of(second::settings::back(state, revision).map(u64::from))
    }

    fn read(&self, state: &State, revision: u32, text: &mut [u8; LENT]) -> Told {
        let said = second::settings::read(state, revision);
        if let Ok(said) = &said {
            text[..said.len()].copy_from_slice(said);
        }
        Told::of(said.map(|said| said.len() as u64))
    }

    fn wipe(&self, state: &mut State) -> Told {
        second::settings::wipe(state);
        Told::of(Ok(0))
    }
}

impl Keeper for Proved {
    fn save(&self, state: &mut State, text: &[u8]) -> Told {
        let mut report = [u64::MAX];
        let ending = g7110::raw::settings_save(state, text, &mut report);
        Told { ending, told: report[0] }
    }

    fn back(&self, state: &mut State, revision: u32) -> Told {
        let mut report = [u64::MAX];
        let ending = g7110::raw::settings_back(state, revision, &mut report);
        Told { ending, told: report[0] }
    }

    fn read(&self, state: &State, revision: u32, text: &mut [u8; LENT]) -> Told {
        let mut report = [u64::MAX];
        let ending = g7110::raw::settings_read(state, revision, text, &mut report);
        Told { ending, told: report[0] }
    }

    fn wipe(&self, state: &mut State) -> Told {
        Told { ending: g7110::raw::settings_wipe(state), told: 0 }
    }
}

/// A call, and what it is given.
#[derive(Clone, Debug, PartialEq, Eq)]
pub enum Call {
    Save(Vec<u8>),
    Back(u32),
    Read(u32),
    Wipe,
}

impl Call {
    pub fn name(&self) -> &'static str {
        match self {
            Call::Save(_) => "save",
            Call::Back(_) => "back",
            Call::Read(_) => "read",
            Call::Wipe => "wipe",
        }
    }

    fn words(&self) -> String {
        match self {
            Call::Save(text) => format!("save {}", text.escape_ascii()),
            Call::Back(revision) => format!("back {revision}"),
            Call::Read(revision) => format!("read {revision}"),
            Call::Wipe => "wipe".to_string(),
        }
    }
}

/// Numbers and octets before and after what is lent. They belong to the caller.
const MARGIN: usize = 16;
/// What lies there, and in the text that is lent, in turn.
const FILLS: [u8; 2] = [0xA7, 0x58];
/// Differences shown at most; they are all counted.
const SHOWN: usize = 20;

/// What is lent to a call, margins and all.
#[derive(Clone, PartialEq, Eq)]
struct Lent {
    numbers: [u32; MARGIN + 41 + MARGIN],
    octets: [u8; MARGIN + LENT + MARGIN],
}

impl Lent {
    fn new(state: &State, fill: u8) -> Lent {
        let mut lent = Lent { numbers: [u32::from(fill); 41 + 2 * MARGIN], octets: [fill; LENT + 2 * MARGIN] };
        lent.numbers[MARGIN..MARGIN + 41].copy_from_slice(state);
        lent
    }

    fn state(&mut self) -> &mut State {
        (&mut self.numbers[MARGIN..MARGIN + 41]).try_into().expect("41 numbers")
    }

    fn make(&mut self, keeper: &dyn Keeper, call: &Call) -> Told {
        let state: &mut State = (&mut self.numbers[MARGIN..MARGIN + 41]).try_into().expect("41 numbers");
        let text: &mut [u8; LENT] = (&mut self.octets[MARGIN..MARGIN + LENT]).try_into().expect("80 octets");
        match call {
            Call::Save(text) => keeper.save(state, text),
            Call::Back(revision) => keeper.back(state, *revision),
            Call::Read(revision) => keeper.read(state, *revision, text),
            Call::Wipe => keeper.wipe(state),
        }
    }
}

/// The two back ends, and what differed.
pub struct Keepers<'a> {
    one: &'a dyn Keeper,
    other: &'a dyn Keeper,
    /// The text that the last call read.
    pub text: Vec<u8>,
    pub calls: usize,
    pub differences: usize,
    shown: Vec<String>,
}

impl<'a> Keepers<'a> {
    pub fn new(one: &'a dyn Keeper, other: &'a dyn Keeper) -> Keepers<'a> {
        Keepers { one, other, text: Vec::new(), calls: 0, differences: 0, shown: Vec::new() }
    }

    /// Makes a call on both, from one state; gives the second one's answer, and leaves its state.
    pub fn call(&mut self, state: &mut State, call: &Call) -> Told {
        let fill = FILLS[self.calls % 2];
        self.calls += 1;
        let before = Lent::new(state, fill);
        let [mut one, mut other] = [before.clone(), before.clone()];
        let got = one.make(self.one, call);
        let wanted = other.make(self.other, call);
        if got != wanted {
            self.differ(state, call, &format!("{got:?}, wanted {wanted:?}"));
        } else if one.numbers != other.numbers {
            self.differ(state, call, &format!("left {:?}, wanted {:?}", one.numbers, other.numbers));
        } else if one.octets != other.octets {
            let [one, other] = [one.octets, other.octets].map(|octets| octets.escape_ascii().to_string());
            self.differ(state, call, &format!("lent text is {one}, wanted {other}"));
        } else if let Some(fault) = outside(call, wanted, &before, &other) {
            self.differ(state, call, fault);
        }
        let read = if matches!(call, Call::Read(_)) { (wanted.told as usize).min(LENT) } else { 0 };
        self.text = other.octets[MARGIN..MARGIN + read].to_vec();
        *state = *other.state();
        wanted
    }

    /// Makes a call, and holds its answer against the one that is known.
    pub fn call_as(&mut self, state: &mut State, call: &Call, known: Told) {
        let before = *state;
        let got = self.call(state, call);
        if got != known {
            self.differ(&before, call, &format!("{got:?}, and it should be {known:?}"));
        }
    }

    pub fn differ(&mut self, state: &State, call: &Call, fault: &str) {
        self.differences += 1;
        if self.shown.len() < SHOWN {
            self.shown.push(format!("{} on {state:?}: {fault}", call.words()));
        }
    }

    pub fn shown(&self) -> &[String] {
        &self.shown
    }

    /// Fails if anything differed.
    pub fn close(&self) {
        assert!(self.differences == 0, "{} differences\n{}", self.differences, self.shown.join("\n"));
    }
}

/// What holds of any call, whatever was lent: a refusal changes nothing and reports 0; a text that is read changes only
/// the octets reported; no other call changes the text, and no reading the state.
fn outside(call: &Call, told: Told, before: &Lent, after: &Lent) -> Option<&'static str> {
    if told.ending != 0 && (told.told != 0 || before != after) {
        return Some("both changed or reported something, and refused");
    }
    let read = match call {
        Call::Read(_) if before.numbers != after.numbers => return Some("both changed the state by reading"),
        Call::Read(_) => told.told as usize,
        _ => 0,
    };
    let past = (MARGIN + read).min(after.octets.len());
    let as_lent = before.octets[..MARGIN] == after.octets[..MARGIN] && before.octets[past..] == after.octets[past..];
    (!as_lent || read > LENT).then_some("both wrote past the octets of their report")
}

/// The text of four values.
pub fn text_of<T: std::fmt::Display>(values: [T; 4]) -> Vec<u8> {
    let [law, set, block, greeting] = values;
    format!("law={law}\nset={set}\nblock={block}\ngreeting={greeting}\n").into_bytes()
}

/// The values that a text says: read loosely, then written again and held against it.
pub fn values_of(text: &[u8]) -> Option<[u32; 4]> {
    let said = std::str::from_utf8(text).ok()?;
    let numbers = said.split('\n').filter_map(|line| line.split('=').nth(1)?.parse().ok());
    let values: [u32; 4] = numbers.collect::<Vec<u32>>().try_into().ok()?;
    let inside = (0..4).all(|at| (LINES[at].1..=LINES[at].2).contains(&values[at]));
    (inside && text_of(values) == text).then_some(values)
}

/// All that was ever saved, in its order, and where the last wipe was. It knows what each call must answer and leave.
pub struct History {
    /// The last number given before the first of them.
    first: u32,
    saved: Vec<[u32; 4]>,
    wiped: usize,
}

impl History {
    /// Of a box that has given so many numbers and keeps nothing.
    pub fn new(first: u32) -> History {
        History { first, saved: Vec::new(), wiped: 0 }
    }

    /// The state that such a box has.
    pub fn state(&self) -> State {
        let mut state = FRESH;
        state[0] = self.last();
        let kept = self.wiped.max(self.saved.len().saturating_sub(8))..self.saved.len();
        for (row, at) in state[1..].chunks_exact_mut(5).zip(kept) {
            row[0] = self.first + 1 + at as u32;
            row[1..].copy_from_slice(&self.saved[at]);
        }
        state
    }

    pub fn last(&self) -> u32 {
        self.first + self.saved.len() as u32
    }

    /// The values kept under a number.
    fn kept(&self, revision: u32) -> Option<[u32; 4]> {
        let at = (revision.checked_sub(self.first)? as usize).checked_sub(1)?;
        let values = *self.saved.get(at)?;
        (at >= self.wiped && at + 8 >= self.saved.len()).then_some(values)
    }

    /// What is kept under a number, as text.
    pub fn text(&self, revision: u32) -> Option<Vec<u8>> {
        self.kept(revision).map(text_of)
    }

    /// The answer of a call, which is noted.
    pub fn answer(&mut self, call: &Call) -> Told {
        match call {
            Call::Save(text) => self.add(values_of(text), LINE),
            Call::Back(revision) => self.add(self.kept(*revision), GONE),
            Call::Read(revision) => Told::of(self.text(*revision).map(|text| text.len() as u64).ok_or(GONE)),
            Call::Wipe => {
                self.wiped = self.saved.len();
                Told::of(Ok(0))
            }
        }
    }

    fn add(&mut self, values: Option<[u32; 4]>, without: u32) -> Told {
        let Some(values) = values else { return Told::refused(without) };
        if self.last() == u32::MAX {
            return Told::refused(SPENT);
        }
        self.saved.push(values);
        Told::of(Ok(u64::from(self.last())))
    }
}

/// Values of the lines: ends of their ranges, and any between.
pub fn some_values(rng: &mut Prng) -> [u32; 4] {
    LINES.map(|(_, least, greatest)| match rng.below(4) {
        0 => least,
        1 => greatest,
        _ => least + rng.below((greatest - least) as usize + 1) as u32,
    })
}

/// A text: most are of the form, some are damaged.
pub fn some_text(rng: &mut Prng) -> Vec<u8> {
    let text = text_of(some_values(rng));
    match rng.below(8) {
        0 => {
            let (name, line) = (*rng.pick(&DAMAGES), rng.below(4));
            damaged(name, line, rng).unwrap_or(text)
        }
        1 => second::gen::damage_somehow(&text, rng),
        _ => text,
    }
}

/// Ways to damage a text, or a line of it. None of these is taken.
pub const DAMAGES: [&str; 22] = [
    "another order",
    "left out",
    "twice",
    "an empty line",
    "no 0A",
    "CR LF",
    "CR for 0A",
    "a space before",
    "a space after =",
    "a space after",
    "a plus sign",
    "a minus sign",
    "a leading zero",
    "no number",
    "a letter",
    "upper case",
    "an octet 0",
    "one below the range",
    "one past the range",
    "come round at 32 bits",
    "come round at 64 bits",
    "40 digits",
];

/// A text that is damaged in this way at line 0 to 3, where that can be.
pub fn damaged(name: &str, line: usize, rng: &mut Prng) -> Option<Vec<u8>> {
    let values = some_values(rng);
    let (key, least, greatest) = LINES[line];
    let value = u128::from(values[line]);
    let mut lines: Vec<String> = (0..4).map(|at| format!("{}={}\n", LINES[at].0, values[at])).collect();
    let number = |number: u128| format!("{key}={number}\n");
    let whole = lines[line].clone();
    let said = whole.trim_end();
    lines[line] = match name {
        "another order" => {
            lines.swap(line, (line + 1 + rng.below(3)) % 4);
            return Some(lines.concat().into_bytes());
        }
        "left out" => String::new(),
        "twice" => whole.repeat(2),
        "an empty line" => format!("\n{whole}"),
        "no 0A" => said.to_string(),
        "CR LF" => format!("{said}\r\n"),
        "CR for 0A" => format!("{said}\r"),
        "a space before" => format!(" {whole}"),
        "a space after =" => whole.replace('=', "= "),
        "a space after" => format!("{said} \n"),
        "a plus sign" => whole.replace('=', "=+"),
        "a minus sign" => whole.replace('=', "=-"),
        "a leading zero" => whole.replace('=', "=0"),
        "no number" => format!("{key}=\n"),
        "a letter" => format!("{said}{}\n", char::from(*rng.pick(b"abcdefxX.,_"))),
        "upper case" => whole.to_uppercase(),
        "an octet 0" => {
            let at = rng.below(whole.len() + 1);
            [&whole[..at], "\0", &whole[at..]].concat()
        }
        "one below the range" if least > 0 => number(u128::from(least) - 1),
        "one below the range" => return None,
        "one past the range" => number(u128::from(greatest) + 1),
        "come round at 32 bits" => number(value + (1 + rng.below(9) as u128) * (1 << 32)),
        "come round at 64 bits" => number(value + (1 + rng.below(9) as u128) * (1 << 64)),
        "40 digits" => {
            let more: String = (0..39).map(|_| char::from(b'0' + rng.below(10) as u8)).collect();
            format!("{key}={}{more}\n", 1 + rng.below(9))
        }
        _ => panic!("no damage is called {name}"),
    };
    Some(lines.concat().into_bytes())
}

/// A revision: one of the state's, one near its last number, or any other.
pub fn some_revision(state: &State, rng: &mut Prng) -> u32 {
    match rng.below(8) {
        0 => rng.next_u64() as u32,
        1 => *rng.pick(&[0, 1, u32::MAX]),
        2 | 3 => state[0].wrapping_add(1).wrapping_sub(rng.below(12) as u32),
        _ => state[1 + 5 * rng.below(8)],
    }
}

/// A call that suits a state, or one that does not.
pub fn some_call(state: &State, rng: &mut Prng) -> Call {
    match rng.below(40) {
        0..=19 => Call::Save(some_text(rng)),
        20..=31 => Call::Back(some_revision(state, rng)),
        32..=38 => Call::Read(some_revision(state, rng)),
        _ => Call::Wipe,
    }
}

/// Kinds of content that the 41 numbers may have.
pub const CELLS: [&str; 6] =
    ["any numbers", "few numbers", "equal numbers", "rows of 0 between", "all the greatest", "one number changed"];

/// Content of such a kind; the last number given is 0, near the end, or any.
pub fn some_cells(kind: &str, rng: &mut Prng) -> State {
    let mut state: State = match kind {
        "any numbers" => std::array::from_fn(|_| rng.next_u64() as u32),
        "few numbers" => std::array::from_fn(|_| rng.below(4) as u32),
        "equal numbers" => {
            let number = 1 + rng.next_u64() as u32 / 2;
            std::array::from_fn(|at| if at % 5 == 1 { number } else { rng.next_u64() as u32 })
        }
        "rows of 0 between" => {
            let mut state: State = std::array::from_fn(|_| 1 + rng.below(9) as u32);
            (0..8).filter(|_| rng.flip()).for_each(|row| state[1 + 5 * row] = 0);
            state
        }
        "all the greatest" => [u32::MAX; 41],
        "one number changed" => {
            let mut history = History::new(rng.below(3) as u32 * 1_000);
            for _ in 0..rng.below(20) {
                history.answer(&Call::Save(text_of(some_values(rng))));
            }
            let mut state = history.state();
            let at = if rng.chance(1, 4) { 0 } else { rng.below(41) };
            state[at] = *rng.pick(&[0, 1, state[0], u32::MAX]);
            return state;
        }
        _ => panic!("no content is called {kind}"),
    };
    state[0] = match rng.below(5) {
        0 => 0,
        1 => u32::MAX,
        2 => u32::MAX - 1,
        _ => rng.next_u64() as u32,
    };
    state
}

/// A line of tests/vectors/settings.txt.
#[derive(Clone, Debug, PartialEq, Eq)]
pub enum Step {
    /// A part of this name begins, on a fresh state.
    Part(String),
    /// The state is set to this.
    Cells(State),
    /// A call, what it answers, and the text that it reads.
    Makes(Call, Told, Vec<u8>),
    /// The state is now this.
    Leaves(State),
}

/// The lines of a file of vectors.
pub fn script(text: &str) -> Result<Vec<Step>, String> {
    let lines = text.lines().filter(|line| !line.is_empty() && !line.starts_with('#'));
    lines.map(|line| step(line).ok_or_else(|| format!("not understood: {line}"))).collect()
}

fn step(line: &str) -> Option<Step> {
    let (kind, rest) = line.split_once(' ').unwrap_or((line, ""));
    match kind {
        "part" => Some(Step::Part(rest.to_string())),
        "cells" => cells(rest).map(Step::Cells),
        "state" => cells(rest).map(Step::Leaves),
        "wipe" if rest.is_empty() => Some(Step::Makes(Call::Wipe, Told::of(Ok(0)), Vec::new())),
        "save" | "back" | "read" => {
            let (given, wanted) = rest.rsplit_once(" -> ")?;
            let refused = REFUSALS.iter().find(|(name, _)| *name == wanted).map(|(_, number)| Told::refused(*number));
            let call = match kind {
                "save" => Call::Save(octets(given)),
                "back" => Call::Back(given.parse().ok()?),
                _ => Call::Read(given.parse().ok()?),
            };
            match (refused, &call) {
                (Some(refused), _) => Some(Step::Makes(call, refused, Vec::new())),
                (None, Call::Read(_)) => {
                    let text = octets(wanted);
                    Some(Step::Makes(call, Told::of(Ok(text.len() as u64)), text))
                }
                _ => Some(Step::Makes(call, Told::of(Ok(wanted.parse().ok()?)), Vec::new())),
            }
        }
        _ => None,
    }
}

/// A text of the file: a bar is octet 0A; `\r` and `\0` are 0D and 00.
fn octets(text: &str) -> Vec<u8> {
    text.replace('|', "\n").replace("\\r", "\r").replace("\\0", "\0").into_bytes()
}

/// A state by its numbers that are not 0: PLACE=NUMBER, or PLACE=NUMBER,NUMBER.. from that place on.
fn cells(text: &str) -> Option<State> {
    let mut state = FRESH;
    for word in text.split_whitespace() {
        let (place, numbers) = word.split_once('=')?;
        let from: usize = place.parse().ok()?;
        for (at, number) in (from..).zip(numbers.split(',')) {
            *state.get_mut(at)? = number.parse().ok()?;
        }
    }
    Some(state)
}
