//! The lines of tests/vectors/store.txt and moves.txt.

use super::{Call, Record, Told, ENDINGS, MOVE};
use crate::octets;

/// A line.
#[derive(Clone, Debug, PartialEq, Eq)]
pub enum Step {
    /// A part of this name begins, on a fresh block of these octets.
    Part(String, Vec<u8>),
    /// A call, and what it answers.
    Makes(Call, Told),
    /// What is saved.
    Saves(Vec<u8>),
    /// The block is now this.
    Block(Vec<u8>),
    /// The table's numbers from one on are now these.
    Cells(usize, Vec<u32>),
    /// The table's numbers from one on are changed to these, behind the back end's back.
    Lends(usize, Vec<u32>),
    /// The block's octets from one on, the same.
    Writes(usize, Vec<u8>),
    /// The spare is these octets from here on.
    Spare(Vec<u8>),
    /// The spare is now this.
    SpareIs(Vec<u8>),
    /// A step of this record, and the record after it, or that it is refused.
    Steps(Record, Result<Record, u32>),
}

/// The lines of a file of vectors; its head has their form.
pub fn script(text: &str) -> Result<Vec<Step>, String> {
    let lines = text.lines().filter(|line| !line.is_empty() && !line.starts_with('#'));
    lines.map(|line| step(line).ok_or_else(|| format!("not understood: {line}"))).collect()
}

fn step(line: &str) -> Option<Step> {
    let mut words = line.split_whitespace();
    let kind = words.next()?;
    let words: Vec<&str> = words.collect();
    let (given, wanted) = match words.iter().position(|word| *word == "->") {
        Some(at) => (&words[..at], &words[at + 1..]),
        None => (&words[..], &[][..]),
    };
    let number = || given.first()?.parse().ok();
    match (kind, given) {
        ("part", [name, block]) => Some(Step::Part(name.to_string(), octets(block).ok()?)),
        ("block", [block]) => Some(Step::Block(octets(block).ok()?)),
        ("write", [at, block]) => Some(Step::Writes(at.parse().ok()?, octets(block).ok()?)),
        ("cells", [at]) => Some(Step::Cells(at.parse().ok()?, numbers(wanted)?)),
        ("lend", [at, cells @ ..]) => Some(Step::Lends(at.parse().ok()?, numbers(cells)?)),
        ("put", given) => Some(Step::Makes(put(given)?, told(wanted)?)),
        ("try", given) => match put(given)? {
            Call::Put(law, number, octets) => Some(Step::Makes(Call::Try(law, number, octets), told(wanted)?)),
            _ => None,
        },
        ("next", []) => Some(Step::Makes(Call::Next, told(wanted)?)),
        ("moved", [_, to]) => Some(Step::Makes(Call::Moved(number()?, to.parse().ok()?), told(wanted)?)),
        ("renumber", [_, to]) => Some(Step::Makes(Call::Renumber(number()?, to.parse().ok()?), told(wanted)?)),
        ("spare", []) => Some(match wanted {
            [] => Step::Spare(Vec::new()),
            [spare] => Step::SpareIs(octets(spare).ok()?),
            _ => return None,
        }),
        ("spare", [spare]) => Some(Step::Spare(octets(spare).ok()?)),
        ("step", given) => {
            let after = if wanted == ["MOVE"] { Err(MOVE) } else { Ok(record(wanted)?) };
            Some(Step::Steps(record(given)?, after))
        }
        ("get", [_]) => Some(Step::Makes(Call::Get(number()?), told(wanted)?)),
        ("delete", [_]) => Some(Step::Makes(Call::Delete(number()?), told(wanted)?)),
        ("jump", [_, sample]) => Some(Step::Makes(Call::Jump(number()?, sample.parse().ok()?), told(wanted)?)),
        ("save", []) => Some(Step::Saves(lines_of(wanted.first().unwrap_or(&"")))),
        ("save", [room]) => Some(Step::Makes(Call::Save(room.parse().ok()?), told(wanted)?)),
        ("load", []) => Some(Step::Makes(Call::Load(Vec::new()), told(wanted)?)),
        ("load", [text]) => Some(Step::Makes(Call::Load(lines_of(text)), told(wanted)?)),
        _ => None,
    }
}

/// A put of law 1, or of the law that its last word says.
fn put(given: &[&str]) -> Option<Call> {
    let (law, given) = match given {
        [given @ .., last] if last.starts_with("law=") => (last[4..].parse().ok()?, given),
        _ => (1, given),
    };
    match given {
        [number] => Some(Call::Put(law, number.parse().ok()?, Vec::new())),
        [number, greeting] => Some(Call::Put(law, number.parse().ok()?, octets(greeting).ok()?)),
        _ => None,
    }
}

/// `ok`, a refusal by its name, or the two or four numbers of a report.
fn told(wanted: &[&str]) -> Option<Told> {
    match wanted {
        ["ok"] => Some(Told::ok(0, 0)),
        [name] => ENDINGS.iter().find(|(known, _)| known == name).map(|(_, number)| Told::refused(*number)),
        [one, other] => Some(Told::ok(one.parse().ok()?, other.parse().ok()?)),
        [frame, place, within, read] => {
            let report = [frame, place, within, read].map(|number| number.parse().ok());
            Some(Told::jumped([report[0]?, report[1]?, report[2]?, report[3]?]))
        }
        _ => None,
    }
}

fn record(words: &[&str]) -> Option<Record> {
    numbers(words)?.try_into().ok()
}

fn numbers(words: &[&str]) -> Option<Vec<u32>> {
    let numbers: Vec<u32> = words.iter().map(|word| word.parse().ok()).collect::<Option<_>>()?;
    (!numbers.is_empty()).then_some(numbers)
}

/// A text of the file: a bar is octet 0A; `\r`, `\s` and `\0` are 0D, a space and 00.
fn lines_of(text: &str) -> Vec<u8> {
    let text = text.replace('|', "\n").replace("\\r", "\r").replace("\\0", "\0");
    text.replace("\\s", " ").into_bytes()
}
