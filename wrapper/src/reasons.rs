//! Why the writer takes the tool that it takes: document 02, R-10. The header has the lines and what they say.

use crate::{raw, Law, Refusal};
use std::fmt;

/// Octets that the lines are lent. They are at most 508 octets.
pub const WHY_TEXT: usize = 512;

/// The tools that the lines name, in their order.
pub const TOOLS: [u32; 8] = [1, 2, 3, 4, 5, 6, 7, 11];

/// What is said of one tool.
#[derive(Clone, Copy, Debug, PartialEq, Eq)]
pub enum State {
    /// The set lacks it.
    Out,
    /// It does not apply: the first of its conditions that fails.
    No(u32),
    /// It applies: the octets of its form.
    Fits(usize),
}

/// Why a frame takes its tool: the states of [`TOOLS`], the tool that the writer reports, and whether another one needs as few octets.
#[derive(Clone, Copy, Debug, PartialEq, Eq)]
pub struct Reasons {
    pub states: [State; 8],
    pub winner: u32,
    pub tie: bool,
}

/// The number behind a key, up to a space or the line's end.
fn number(line: &str, key: &str) -> Option<usize> {
    line.split(' ').find_map(|field| field.strip_prefix(key)?.parse().ok())
}

impl Reasons {
    /// The answer that the lines say.
    pub fn of(text: &str) -> Option<Reasons> {
        let mut lines = text.lines();
        let mut states = [State::Out; 8];
        for (state, tool) in states.iter_mut().zip(TOOLS) {
            let line = lines.next()?;
            if number(line, "tool=")? as u32 != tool {
                return None;
            }
            *state = match line.split(' ').find_map(|field| field.strip_prefix("state="))? {
                "out" => State::Out,
                "no" => State::No(number(line, "why=")? as u32),
                "fits" => State::Fits(number(line, "octets=")?),
                _ => return None,
            };
        }
        let last = lines.next()?;
        let tie = last.ends_with(" by=tie");
        Some(Reasons { states, winner: number(last, "winner=")? as u32, tie })
    }

    /// What is said of a tool, if the lines name it.
    pub fn state(&self, tool: u32) -> Option<State> {
        TOOLS.iter().position(|named| *named == tool).map(|at| self.states[at])
    }
}

impl fmt::Display for Reasons {
    /// The lines, as the call writes them.
    fn fmt(&self, f: &mut fmt::Formatter) -> fmt::Result {
        for (tool, state) in TOOLS.into_iter().zip(self.states) {
            let (word, why, octets) = match state {
                State::Out => ("out", 0, 0),
                State::No(why) => ("no", why, 0),
                State::Fits(octets) => ("fits", 0, octets),
            };
            writeln!(f, "tool={tool} state={word} why={why} octets={octets}")?;
        }
        writeln!(f, "winner={} by={}", self.winner, if self.tie { "tie" } else { "octets" })
    }
}

/// Why [`crate::write`] takes its tool for these samples.
pub fn why(samples: &[u8], law: Law, set: u32) -> Result<Reasons, Refusal> {
    let mut text = [0; WHY_TEXT];
    let mut report = [0];
    let ending = raw::why(samples, law.number(), set, &mut text, &mut report);
    if ending != 0 {
        return Err(Refusal::of(ending, 0));
    }
    let said = std::str::from_utf8(&text[..report[0] as usize]).ok().and_then(Reasons::of);
    Ok(said.expect("the lines have the form of the header"))
}
