//! The lines of the vector files, read strictly: a word that is not known is a fault of the file.

use crate::notation::{bits, octet, octets};
use crate::{ending, Read, Walk, Write};
use std::collections::BTreeSet;

/// What is asked: some octets or samples, a law, a set, and the room that is lent.
#[derive(Clone, Debug)]
pub struct Ask {
    pub given: Vec<u8>,
    pub law: u32,
    pub set: u32,
    pub room: usize,
}

/// A call and what it must answer: the report, and the octets at the start of the output.
#[derive(Clone, Debug)]
pub enum Call {
    Read(Ask, Read, Vec<u8>),
    Write(Ask, Write, Vec<u8>),
    Walk(Ask, Walk, Vec<u8>),
    List(Vec<u8>, Vec<u8>),
}

/// One line.
#[derive(Clone, Debug)]
pub struct Vector {
    pub name: String,
    pub call: Call,
}

/// What a first octet says.
#[derive(Clone, Copy, Debug, PartialEq, Eq)]
pub enum Settled {
    Unassigned,
    Tool(u32),
    Carried { tool: u32, length: usize },
}

/// A first octet; with `next`, a second octet is needed to settle the tool.
#[derive(Clone, Debug)]
pub struct First {
    pub octet: u8,
    pub next: Option<Vec<u8>>,
    pub settled: Settled,
}

/// The vectors of a file, or its first fault.
pub fn vectors(text: &str) -> Result<Vec<Vector>, String> {
    let mut names = BTreeSet::new();
    lines(text, |words| {
        let found = vector(words)?;
        match names.insert((words.kind.to_string(), found.name.clone())) {
            true => Ok(vec![found]),
            false => Err(format!("{} stands twice", found.name)),
        }
    })
}

/// The first octets of a file, or its first fault.
pub fn firsts(text: &str) -> Result<Vec<First>, String> {
    lines(text, first)
}

/// A line taken apart: `KIND NAME key=value.. -> ENDING rest`.
struct Words<'a> {
    kind: &'a str,
    name: &'a str,
    given: Fields<'a>,
    ending: &'a str,
    wanted: &'a str,
}

fn lines<T>(text: &str, mut one: impl FnMut(&mut Words) -> Result<Vec<T>, String>) -> Result<Vec<T>, String> {
    let mut found = Vec::new();
    for (at, line) in text.lines().enumerate() {
        if line.trim().is_empty() || line.starts_with('#') {
            continue;
        }
        let read = words(line).and_then(|mut words| {
            let more = one(&mut words)?;
            words.given.end()?;
            Ok(more)
        });
        found.extend(read.map_err(|fault| format!("line {}: {fault}", at + 1))?);
    }
    Ok(found)
}

fn words(line: &str) -> Result<Words<'_>, String> {
    let (asked, wanted) = line.split_once(" -> ").ok_or("no ' -> '")?;
    let mut asked = asked.split_whitespace();
    let kind = asked.next().ok_or("no kind")?;
    let name = asked.next().ok_or("no name")?;
    let wanted = wanted.trim();
    let (ending, wanted) = wanted.split_once(' ').unwrap_or((wanted, ""));
    Ok(Words { kind, name, given: Fields::of(asked)?, ending, wanted })
}

fn vector(words: &mut Words) -> Result<Vector, String> {
    let name = words.name.to_string();
    if words.kind == "list" {
        if words.ending != "text" {
            return Err("a list line wants 'text'".into());
        }
        let input = words.given.octets("octets")?.ok_or("no octets")?;
        return Ok(Vector { name, call: Call::List(input, words.wanted.replace('|', "\n").into_bytes()) });
    }
    let ended = ending(words.ending).ok_or(format!("no ending {}", words.ending))?;
    let mut wanted = Fields::of(words.wanted.split_whitespace())?;
    let law = words.given.number("law", 1)?;
    let set = words.given.number("set", 127)?;
    let (given, room) = match words.kind {
        "read" => (words.given.octets("octets")?, words.given.number("room", 320)?),
        "walk" => (words.given.octets("octets")?, words.given.number("room", 4000)?),
        "write" => (words.given.octets("samples")?, words.given.number("room", 321)?),
        other => return Err(format!("no kind {other}")),
    };
    let ask = Ask { given: given.ok_or("nothing is given")?, law, set, room: room as usize };
    let tool = wanted.number("tool", 0)?;
    let call = match words.kind {
        "write" => {
            let out = wanted.octets("octets")?.unwrap_or_default();
            let report = Write { ending: ended, tool, octets: out.len(), bits: wanted.number("bits", 0)? as usize };
            Call::Write(ask, report, out)
        }
        "read" => {
            let out = wanted.octets("samples")?.unwrap_or_default();
            let octets = wanted.number("used", 0)? as usize;
            let bits = wanted.number("bits", 0)? as usize;
            let bit = named_bit(ended, &mut wanted)?;
            Call::Read(ask, Read { ending: ended, tool, samples: out.len(), octets, bits, bit }, out)
        }
        _ => {
            let out = wanted.octets("samples")?.unwrap_or_default();
            let frames = wanted.number("frames", 0)? as usize;
            let octets = wanted.number("used", 0)? as usize;
            let place = wanted.number("place", 0)? as usize;
            let bit = named_bit(ended, &mut wanted)?;
            Call::Walk(ask, Walk { ending: ended, tool, frames, octets, samples: out.len(), place, bit }, out)
        }
    };
    wanted.end()?;
    Ok(Vector { name, call })
}

/// The bit that a refusal gives: it must stand beside those from 1 to 9, and beside no other ending, where it is 0.
fn named_bit(ended: u32, wanted: &mut Fields) -> Result<usize, String> {
    let gives = (1..=9).contains(&ended);
    match wanted.take("bit") {
        Some(bit) if gives => bit.parse().map_err(|_| format!("bit={bit} is no number")),
        None if !gives => Ok(0),
        Some(_) => Err("this ending gives no bit".into()),
        None => Err("this ending gives a bit".into()),
    }
}

fn first(words: &mut Words) -> Result<Vec<First>, String> {
    if words.kind != "first" {
        return Err(format!("no kind {}", words.kind));
    }
    let next = words.given.octets("next")?;
    let settled = if words.ending == "PREFIX" {
        Settled::Unassigned
    } else {
        let mut wanted = Fields::of([words.ending].into_iter().chain(words.wanted.split_whitespace()))?;
        let tool = wanted.take("tool").ok_or("no tool")?.parse().map_err(|_| "the tool is no number")?;
        let length = wanted.take("length");
        wanted.end()?;
        match length {
            None => Settled::Tool(tool),
            Some(n) => Settled::Carried { tool, length: n.parse().map_err(|_| "the length is no number")? },
        }
    };
    let (from, to) = words.name.split_once("..").unwrap_or((words.name, words.name));
    Ok((octet(from)?..=octet(to)?).map(|octet| First { octet, next: next.clone(), settled }).collect())
}

/// The `key=value` words of one side of a line. Each is taken once, and none may be left over.
struct Fields<'a>(Vec<(&'a str, &'a str)>);

impl<'a> Fields<'a> {
    fn of(words: impl Iterator<Item = &'a str>) -> Result<Self, String> {
        let mut fields: Vec<(&str, &str)> = Vec::new();
        for word in words {
            let (key, value) = word.split_once('=').ok_or(format!("'{word}' is no key=value"))?;
            if fields.iter().any(|(known, _)| *known == key) {
                return Err(format!("{key} stands twice"));
            }
            fields.push((key, value));
        }
        Ok(Fields(fields))
    }

    fn take(&mut self, key: &str) -> Option<&'a str> {
        let at = self.0.iter().position(|(known, _)| *known == key)?;
        Some(self.0.remove(at).1)
    }

    fn number(&mut self, key: &str, otherwise: u32) -> Result<u32, String> {
        match self.take(key) {
            None => Ok(otherwise),
            Some(value) => value.parse().map_err(|_| format!("{key}={value} is no number of 32 bits")),
        }
    }

    /// A list of octets; beside `octets`, `as` may give the same octets as bits.
    fn octets(&mut self, key: &str) -> Result<Option<Vec<u8>>, String> {
        let Some(value) = self.take(key) else { return Ok(None) };
        let list = octets(value)?;
        if key == "octets" {
            if let Some(same) = self.take("as") {
                if bits(same)? != list {
                    return Err("octets and as are not the same octets".into());
                }
            }
        }
        Ok(Some(list))
    }

    fn end(&self) -> Result<(), String> {
        match self.0.first() {
            None => Ok(()),
            Some((key, _)) => Err(format!("{key} is not known here")),
        }
    }
}

#[cfg(test)]
mod tests {
    use super::{firsts, vectors};

    #[test]
    fn faults_of_a_file() {
        assert_eq!(vectors("# nothing\n\n").unwrap().len(), 0);
        for wrong in [
            "read P1 octets=41",
            "read P1 octets=41 -> SHORT",
            "read P1 octets=41 -> LAW bit=0",
            "read P1 octets=41 -> PREFIX",
            "read P1 octets=41 -> SHORT bit=x",
            "read P1 octets=41 -> fine",
            "read P1 -> SHORT bit=8",
            "rede P1 octets=41 -> SHORT bit=8",
            "read P1 octets=41 rom=3 -> SHORT bit=8",
            "read P1 octets=41 room=3 room=4 -> SHORT bit=8",
            "read P1 octets=41 -> SHORT bit=8 use=1",
            "read P1 octets=41 law=4294967296 -> SHORT bit=8",
            "read P1 octets=41 as=01000000 -> SHORT bit=8",
            "read P1 octets=41 -> SHORT bit=8\nread P1 octets=42 -> SHORT bit=8",
            "list P1 octets=41 -> SHORT bit=8",
        ] {
            assert!(vectors(wrong).is_err(), "{wrong}");
        }
        for wrong in ["first 0 -> tool=1", "first 00 -> length=1", "first 00 -> tool=1 size=2", "read 00 -> PREFIX"] {
            assert!(firsts(wrong).is_err(), "{wrong}");
        }
    }
}
