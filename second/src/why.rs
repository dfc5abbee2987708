//! Why a frame is written with the tool it is (document 02, R-10).
//!
//! The writer looks for its form by short cuts. Here nothing is cut short:
//! each tool is asked in turn whether it applies and, if so, how many bits its
//! form has, from a plain list of the frame's signed numbers.

/// The tools in the order of their lines; so also of their bits in a set.
pub const TOOLS: [u8; 8] = [1, 2, 3, 4, 5, 6, 7, 11];

/// Which of two tools with as many octets comes first.
const TIE_ORDER: [u8; TOOLS.len()] = [2, 3, 4, 5, 6, 7, 11, 1];

const LENGTH: u32 = 10;
const SET: u32 = 11;
const LAW: u32 = 12;

/// What there is to say of one tool.
#[derive(Clone, Copy, Debug, PartialEq, Eq)]
pub enum State {
    /// It is not in the set.
    Out,
    /// It doesn't apply: the number of the first condition that fails.
    No(u8),
    /// It applies: the octets of its form.
    Fits(usize),
}

#[derive(Clone, Copy, Debug, PartialEq, Eq)]
pub struct Why {
    /// Of tools 1 to 7 and 11, in this order.
    pub states: [State; TOOLS.len()],
    /// The tool that the writer takes; 0 for a frame of no samples.
    pub winner: u8,
    /// Whether another tool of the set needs as few octets.
    pub by_tie: bool,
}

/// Says why, or gives the number of the refusal: the writer's, without ROOM.
pub fn why(samples: &[u8], law: u32, set: u32) -> Result<Why, u32> {
    if law > 1 {
        return Err(LAW);
    }
    if set > 255 || set % 2 == 0 {
        return Err(SET);
    }
    if ![0, 40, 80, 160, 240, 320].contains(&samples.len()) {
        return Err(LENGTH);
    }
    let numbers: Vec<i32> = samples.iter().map(|&sample| signed(sample, law)).collect();
    let mut states = [State::Out; TOOLS.len()];
    for (index, state) in states.iter_mut().enumerate() {
        if set >> index & 1 == 1 {
            *state = match bits_by(TOOLS[index], &numbers) {
                Ok(bits) => State::Fits(bits.div_ceil(8)),
                Err(condition) => State::No(condition),
            };
        }
    }
    Ok(judged(states))
}

/// The lines of an answer.
pub fn lines(why: &Why) -> Vec<u8> {
    let mut text = String::new();
    for (tool, state) in TOOLS.iter().zip(&why.states) {
        text += &match state {
            State::Out => format!("tool={tool} state=out why=0 octets=0\n"),
            State::No(condition) => format!("tool={tool} state=no why={condition} octets=0\n"),
            State::Fits(octets) => format!("tool={tool} state=fits why=0 octets={octets}\n"),
        };
    }
    let by = if why.by_tie { "tie" } else { "octets" };
    text += &format!("winner={} by={by}\n", why.winner);
    text.into_bytes()
}

/// Names the winner. Where no tool fits, the frame has no samples: a pad.
fn judged(states: [State; TOOLS.len()]) -> Why {
    let octets_of = |tool: u8| match states[TOOLS.iter().position(|&other| other == tool)?] {
        State::Fits(octets) => Some(octets),
        _ => None,
    };
    let Some(fewest) = TIE_ORDER.iter().filter_map(|&tool| octets_of(tool)).min() else {
        return Why { states, winner: 0, by_tie: false };
    };
    let as_few: Vec<u8> =
        TIE_ORDER.into_iter().filter(|&tool| octets_of(tool) == Some(fewest)).collect();
    Why { states, winner: as_few[0], by_tie: as_few.len() > 1 }
}

/// Document 01's signed number of a sample.
fn signed(sample: u8, law: u32) -> i32 {
    let mask = if law == 0 { 0x55 } else { 0x7F };
    let y = i32::from((sample ^ mask) & 0x7F);
    if sample >= 128 {
        y
    } else {
        -y - 1
    }
}

/// The bits of a tool's form, or the first of its conditions that fails. A
/// frame of no samples fails the first condition of every tool.
fn bits_by(tool: u8, numbers: &[i32]) -> Result<usize, u8> {
    let applies = |condition: bool| if condition && !numbers.is_empty() { Ok(()) } else { Err(1) };
    let all = |number: i32| numbers.iter().all(|&other| other == number);
    let two_zeros = || numbers.iter().all(|&number| number == 0 || number == -1);
    match tool {
        1 => applies(true).map(|()| 8 + 8 * numbers.len()),
        2 => applies(all(0)).map(|()| 8),
        3 => applies(all(-1)).map(|()| 8),
        4 => applies(numbers.first().is_some_and(|&first| all(first))).map(|()| 16),
        5 => applies(two_zeros()).map(|()| 8 + numbers.len()),
        6 => applies(two_zeros()).map(|()| rice_bits(numbers)),
        7 => value_location_bits(numbers),
        _ => fractional_bits(numbers).ok_or(1),
    }
}

/// The runs of a row of places: the places before each rare one and, unless
/// the last place is one, those behind the last of them.
fn runs(rare: &[bool]) -> Vec<usize> {
    let mut parts: Vec<usize> = rare.split(|&is_rare| is_rare).map(<[bool]>::len).collect();
    if parts.last() == Some(&0) {
        parts.pop();
    }
    parts
}

fn bits_of_runs(runs: &[usize], s: usize) -> usize {
    runs.iter().map(|run| run / (1 << s) + 1 + s).sum()
}

/// Bits of the codes of S = 1 and up.
fn s_code_bits(samples: usize) -> &'static [usize] {
    match samples {
        40 => &[2, 2, 3, 4, 4],
        80 => &[2, 2, 4, 4, 4, 4],
        _ => &[2, 2, 4, 4, 5, 5, 5, 6, 6],
    }
}

fn rice_bits(numbers: &[i32]) -> usize {
    let samples = numbers.len();
    let minus = numbers.iter().filter(|&&number| number == -1).count();
    let rarer = if minus > samples - minus { 0 } else { -1 };
    let rare: Vec<bool> = numbers.iter().map(|&number| number == rarer).collect();
    let runs = runs(&rare);
    // The length code, then three bits of which the last is the mark.
    let prefix = if samples >= 240 { 7 } else { 5 };
    let codes = s_code_bits(samples).iter().enumerate();
    let bits = codes.map(|(index, code)| code + bits_of_runs(&runs, index + 1));
    prefix + bits.min().unwrap()
}

/// A row of the table: its values in turn, by flag.
fn row_values(least: i32, greatest: i32, samples: usize, flag: bool) -> Option<&'static [i32]> {
    match (least, greatest, flag) {
        (-2, 1, _) if samples < 240 => None,
        (-2, 1, true) => Some(&[1, -1, -2]),
        (-2, 1, false) => Some(&[-1, 1, -2]),
        (-1, 1, true) => Some(&[1, -1]),
        (-1, 1, false) => Some(&[-1, 1]),
        (-2, 0, false) => Some(&[-1, -2]),
        (0, 1, true) => Some(&[1]),
        _ => None,
    }
}

/// Conditions: 1 the length, 2 the row, 3 the frequency of 0.
fn value_location_bits(numbers: &[i32]) -> Result<usize, u8> {
    let samples = numbers.len();
    if samples < 80 {
        return Err(1);
    }
    let least = *numbers.iter().min().unwrap();
    let greatest = *numbers.iter().max().unwrap();
    let count = |value: i32| numbers.iter().filter(|&&number| number == value).count();
    let above = numbers.iter().filter(|&&number| number > 0).count();
    let below = numbers.iter().filter(|&&number| number < 0).count();
    let values = row_values(least, greatest, samples, above >= below).ok_or(2)?;
    if (least..=greatest).any(|value| count(value) > count(0)) {
        return Err(3);
    }
    let mut left = numbers.to_vec();
    let mut bits = 8 + 2 + 1;
    for &value in values {
        bits += 3 + value_bits(&left, value);
        left.retain(|&number| number != value);
    }
    Ok(bits)
}

/// The bits of tool 11's form, if there is a row for the frame.
fn fractional_bits(numbers: &[i32]) -> Option<usize> {
    let samples = numbers.len();
    let (least, greatest) = (*numbers.iter().min()?, *numbers.iter().max()?);
    // How many rows a length with this one has at least, and the row's base.
    let (at_least, base) = match (least, greatest, numbers.contains(&-1)) {
        (0, 1, false) => (4, 2),
        (-2, 1, true) => (4, 4),
        (-2, 0, false) => (4, 2),
        (-2, 1, false) => (4, 3),
        (-2, 0, true) => (6, 3),
        (-1, 1, true) => (6, 3),
        (-3, 1, false) => (12, 4),
        (-2, 2, true) => (12, 5),
        (-2, 2, false) => (12, 4),
        (-3, 2, true) => (12, 6),
        (-3, 2, false) => (12, 5),
        (-4, 2, false) => (12, 6),
        _ => return None,
    };
    let rows = match samples {
        40 => 12,
        80 => 6,
        _ => 4,
    };
    // Table 7-27, by bits for every five samples.
    let of_five = match base {
        2 => 5,
        3 => 8,
        4 => 10,
        5 => 12,
        _ => 13,
    };
    (at_least <= rows).then_some(8 + samples / 5 * of_five)
}

/// The bits of one value behind its method, over the places still empty.
fn value_bits(left: &[i32], value: i32) -> usize {
    let rare: Vec<bool> = left.iter().map(|&number| number == value).collect();
    let count = rare.iter().filter(|&&is_rare| is_rare).count();
    if count == 0 {
        return 0;
    }
    let places = left.len();
    let runs = runs(&rare);
    let fewest = (1..=4).map(|s| bits_of_runs(&runs, s)).min().unwrap();
    let width = (0..).find(|&width| 1 << width >= places).unwrap();
    if fewest > places {
        places
    } else if count <= 4 && fewest > count * width + 2 {
        2 + count * width
    } else {
        fewest
    }
}
