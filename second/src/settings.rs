//! Settings that can be put back (document 02, R-13).
//!
//! A state is 41 cells: the last number given, then eight places for a
//! revision, five cells each. Any content of the cells is a state. Each call
//! takes the state apart into the list of revisions it means, does its work on
//! that list, and puts it together again only if nothing is refused.

/// The last number, then eight times number, law, set, block, greeting.
pub type State = [u32; 41];

/// A fresh box: nothing saved, no number given.
pub const FRESH: State = [0; 41];

const MOST_KEPT: usize = 8;

const LINE: u32 = 23;
const GONE: u32 = 24;
const SPENT: u32 = 25;

/// The lines in their order, with the least and the greatest value of each.
const LINES: [(&str, u32, u32); 4] =
    [("law", 0, 1), ("set", 0, 255), ("block", 1, 1_048_576), ("greeting", 0, 65_535)];

/// The values of a revision, in the order of the lines.
type Values = [u32; 4];

#[derive(Clone, Copy)]
struct Revision {
    number: u32,
    values: Values,
}

/// What a state means: the last number and the revisions kept, oldest first.
struct Opened {
    last: u32,
    kept: Vec<Revision>,
}

/// Saves the settings that the text says. Gives the new revision's number, or
/// the number of the refusal: then the state is as it was.
pub fn save(state: &mut State, text: &[u8]) -> Result<u32, u32> {
    let values = parse(text).ok_or(LINE)?;
    add(state, values)
}

/// Saves the values of a kept revision under a new number, which is given.
pub fn back(state: &mut State, revision: u32) -> Result<u32, u32> {
    let values = find(state, revision).ok_or(GONE)?;
    add(state, values)
}

/// The text of a kept revision.
pub fn read(state: &State, revision: u32) -> Result<Vec<u8>, u32> {
    let values = find(state, revision).ok_or(GONE)?;
    let mut text = String::new();
    for ((key, _, _), value) in LINES.iter().zip(values) {
        text += &format!("{key}={value}\n");
    }
    Ok(text.into_bytes())
}

/// Law, set, block, greeting, as they stand in a kept revision, behind 0; or
/// GONE and zeros.
pub fn get(state: &State, revision: u32) -> (u32, [u64; 4]) {
    match find(state, revision) {
        Some(values) => (0, values.map(u64::from)),
        None => (GONE, [0; 4]),
    }
}

/// Numbers of the kept revisions, the oldest first, then 0. A number in two
/// rows is told twice.
pub fn kept(state: &State) -> [u64; 8] {
    let mut numbers = [0; MOST_KEPT];
    for (place, revision) in numbers.iter_mut().zip(opened(state).kept) {
        *place = u64::from(revision.number);
    }
    numbers
}

/// Empties the list; the numbering runs on.
pub fn wipe(state: &mut State) {
    let last = opened(state).last;
    *state = closed(&Opened { last, kept: vec![] });
}

/// Adds a revision numbered one more than the last; a ninth pushes out the
/// oldest.
fn add(state: &mut State, values: Values) -> Result<u32, u32> {
    let mut opened = opened(state);
    let number = opened.last.checked_add(1).ok_or(SPENT)?;
    opened.last = number;
    opened.kept.push(Revision { number, values });
    if opened.kept.len() > MOST_KEPT {
        opened.kept.remove(0);
    }
    *state = closed(&opened);
    Ok(number)
}

/// The values kept under a number. Of two with one number the first is meant;
/// no revision has the number 0.
fn find(state: &State, revision: u32) -> Option<Values> {
    let kept = opened(state).kept;
    let found = kept.iter().find(|kept| kept.number == revision)?;
    Some(found.values)
}

/// A place is empty exactly when its number is 0.
fn opened(state: &State) -> Opened {
    let places = state[1..].chunks_exact(5);
    let revision = |place: &[u32]| Revision {
        number: place[0],
        values: [place[1], place[2], place[3], place[4]],
    };
    let revisions = places.map(revision);
    Opened { last: state[0], kept: revisions.filter(|kept| kept.number != 0).collect() }
}

/// The revisions from the first place on, and 0 in the places behind them.
fn closed(opened: &Opened) -> State {
    let mut state = FRESH;
    state[0] = opened.last;
    for (place, revision) in state[1..].chunks_exact_mut(5).zip(&opened.kept) {
        place[0] = revision.number;
        place[1..].copy_from_slice(&revision.values);
    }
    state
}

/// Four lines and nothing else: a key, `=`, a decimal, octet 0A.
fn parse(text: &[u8]) -> Option<Values> {
    let mut values = [0; 4];
    let mut rest = text;
    for (value, (key, least, greatest)) in values.iter_mut().zip(LINES) {
        let after_key = rest.strip_prefix(key.as_bytes())?.strip_prefix(b"=")?;
        let end = after_key.iter().position(|&octet| octet == b'\n')?;
        let number = decimal(&after_key[..end])?;
        if !(u64::from(least)..=u64::from(greatest)).contains(&number) {
            return None;
        }
        *value = number as u32;
        rest = &after_key[end + 1..];
    }
    rest.is_empty().then_some(values)
}

/// A decimal without leading zeros, of any number of digits. One that is too
/// large for any line stays too large, and never comes round again.
fn decimal(digits: &[u8]) -> Option<u64> {
    if digits.is_empty() || (digits[0] == b'0' && digits.len() > 1) {
        return None;
    }
    let mut number = 0u64;
    for &digit in digits {
        if !digit.is_ascii_digit() {
            return None;
        }
        number = number.saturating_mul(10).saturating_add(u64::from(digit - b'0'));
    }
    Some(number)
}
