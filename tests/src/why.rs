//! Why this tool (document 02, R-10): two back ends asked the same, and the lines read back and held against the writer.
//! [`script`] reads tests/vectors/why.txt.

use crate::settings::Told;
use crate::{ending, octets, set_of, Codec, Proved, Second, TOOLS};

/// Octets lent for the lines.
pub const LENT: usize = 512;

/// The call of include/g7110.h.
mod raw {
    #![allow(unsafe_code)]

    extern "C" {
        fn g7110_why(
            samples: *const u8,
            samples_len: usize,
            law: u32,
            set: u32,
            text: *mut [u8; 512],
            report: *mut [u64; 1],
        ) -> u32;
    }

    /// The ending; the report is the octets of text.
    pub fn why(samples: &[u8], law: u32, set: u32, text: &mut [u8; 512], report: &mut [u64; 1]) -> u32 {
        // SAFETY: the slice, the text and the report are live for the call, and the borrows keep them apart.
        unsafe { g7110_why(samples.as_ptr(), samples.len(), law, set, text, report) }
    }
}

/// A back end that says why.
pub trait Explains {
    fn why(&self, samples: &[u8], law: u32, set: u32, text: &mut [u8; LENT]) -> Told;
}

impl Explains for Second {
    fn why(&self, samples: &[u8], law: u32, set: u32, text: &mut [u8; LENT]) -> Told {
        let said = second::why::why(samples, law, set).map(|why| second::why::lines(&why));
        if let Ok(said) = &said {
            text[..said.len()].copy_from_slice(said);
        }
        Told::of(said.map(|said| said.len() as u64))
    }
}

impl Explains for Proved {
    fn why(&self, samples: &[u8], law: u32, set: u32, text: &mut [u8; LENT]) -> Told {
        let mut report = [u64::MAX];
        let ending = raw::why(samples, law, set, text, &mut report);
        Told { ending, told: report[0] }
    }
}

/// What is said of a tool.
#[derive(Clone, Copy, Debug, PartialEq, Eq)]
pub enum State {
    Out,
    /// The condition that fails.
    No(u32),
    /// The octets of its form.
    Fits(usize),
}

/// What the lines say.
#[derive(Clone, Debug, PartialEq, Eq)]
pub struct Said {
    pub states: Vec<State>,
    pub winner: usize,
    pub tie: bool,
}

impl Said {
    /// The lines, written out here once more.
    pub fn text(&self) -> String {
        let line = |(tool, state): (u32, &State)| {
            let (state, why, octets) = match state {
                State::Out => ("out", 0, 0),
                State::No(why) => ("no", *why, 0),
                State::Fits(octets) => ("fits", 0, *octets),
            };
            format!("tool={tool} state={state} why={why} octets={octets}\n")
        };
        let tools: String = TOOLS.into_iter().zip(&self.states).map(line).collect();
        format!("{tools}winner={} by={}\n", self.winner, if self.tie { "tie" } else { "octets" })
    }

    /// What is said of a tool.
    pub fn state(&self, tool: usize) -> Option<State> {
        let at = TOOLS.iter().position(|known| *known as usize == tool)?;
        self.states.get(at).copied()
    }

    /// The answer that lines say: read loosely, then written again and held against them.
    pub fn of(text: &[u8]) -> Option<Said> {
        let text = std::str::from_utf8(text).ok()?;
        let fields =
            |line: &str| line.split(' ').filter_map(|word| Some(word.split_once('=')?.1.to_string())).collect();
        let lines: Vec<Vec<String>> = text.lines().map(fields).collect();
        let (last, tools) = lines.split_last()?;
        let state = |line: &Vec<String>| match line.get(1)?.as_str() {
            "out" => Some(State::Out),
            "no" => Some(State::No(line.get(2)?.parse().ok()?)),
            _ => Some(State::Fits(line.get(3)?.parse().ok()?)),
        };
        let states: Option<Vec<State>> = tools.iter().map(state).collect();
        let said = Said { states: states?, winner: last.first()?.parse().ok()?, tie: last.get(1)? == "tie" };
        (said.states.len() == TOOLS.len() && said.text() == text).then_some(said)
    }
}

/// Octets before and after what is lent. They belong to the caller.
const MARGIN: usize = 16;
/// What lies there, and in the text that is lent, in turn.
const FILLS: [u8; 2] = [0xA7, 0x58];
/// Differences shown at most; they are all counted.
const SHOWN: usize = 20;

/// The two back ends, and what differed.
pub struct Reasons<'a> {
    one: &'a dyn Explains,
    other: &'a dyn Explains,
    /// The lines of the last call.
    pub text: Vec<u8>,
    pub calls: usize,
    pub differences: usize,
    shown: Vec<String>,
}

impl<'a> Reasons<'a> {
    pub fn new(one: &'a dyn Explains, other: &'a dyn Explains) -> Reasons<'a> {
        Reasons { one, other, text: Vec::new(), calls: 0, differences: 0, shown: Vec::new() }
    }

    /// Makes a call on both and gives the second one's answer.
    pub fn call(&mut self, samples: &[u8], law: u32, set: u32) -> Told {
        let fill = FILLS[self.calls % 2];
        self.calls += 1;
        let mut lent = [[fill; MARGIN + LENT + MARGIN]; 2];
        let [got, wanted] = [0, 1].map(|at| {
            let text: &mut [u8; LENT] = (&mut lent[at][MARGIN..MARGIN + LENT]).try_into().expect("512 octets");
            [self.one, self.other][at].why(samples, law, set, text)
        });
        let said = (wanted.told as usize).min(LENT);
        let outside = lent[1][..MARGIN].iter().chain(&lent[1][MARGIN + said..]);
        if got != wanted {
            self.differ(samples, law, set, &format!("{got:?}, wanted {wanted:?}"));
        } else if lent[0] != lent[1] {
            let [one, other] = lent.map(|octets| octets.escape_ascii().to_string());
            self.differ(samples, law, set, &format!("lent text is {one}, wanted {other}"));
        } else if (wanted.ending != 0 && wanted.told != 0) || outside.into_iter().any(|octet| *octet != fill) {
            self.differ(samples, law, set, "both wrote past their report, or reported something and refused");
        }
        self.text = lent[1][MARGIN..MARGIN + said].to_vec();
        wanted
    }

    /// Makes a call that must be refused with this number.
    pub fn refused(&mut self, samples: &[u8], law: u32, set: u32, ending: u32) {
        let got = self.call(samples, law, set);
        if got != Told::refused(ending) {
            self.differ(samples, law, set, &format!("{got:?}, and it should be refused with {ending}"));
        }
    }

    /// Makes a call that must be accepted, reads its lines, and holds them against what the writer writes.
    pub fn said(&mut self, samples: &[u8], law: u32, set: u32) -> Option<Said> {
        let told = self.call(samples, law, set);
        let Some(said) = Said::of(&self.text).filter(|_| told.ending == 0) else {
            self.differ(samples, law, set, &format!("{told:?}, and the lines don't read back"));
            return None;
        };
        if let Some(fault) = against_the_writer(&said, samples, law, set) {
            self.differ(samples, law, set, &fault);
        }
        Some(said)
    }

    pub fn differ(&mut self, samples: &[u8], law: u32, set: u32, fault: &str) {
        self.differences += 1;
        if self.shown.len() < SHOWN {
            let samples: String = samples.iter().map(|sample| format!("{sample:02X}")).collect();
            self.shown.push(format!("samples={samples} law={law} set={set}: {fault}"));
        }
    }

    pub fn shown(&self) -> &[String] {
        &self.shown
    }

    /// Fails if anything differed.
    pub fn close(&self) {
        assert!(self.differences == 0, "{} differences\n{}", self.differences, self.shown.join("\n"));
    }
}

fn wrote(samples: &[u8], law: u32, set: u32) -> (usize, usize) {
    let wrote = Proved.write(samples, law, set, &mut [0; 321]);
    (wrote.tool as usize, wrote.octets)
}

/// The promises: the winner and its octets are the writer's; a tool is out exactly when the set lacks it; a tool that fits
/// has the octets that a set of it and tool 1 writes, and one that does not never writes; a tie is one of the winner.
fn against_the_writer(said: &Said, samples: &[u8], law: u32, set: u32) -> Option<String> {
    if samples.is_empty() {
        let none = |tool: u32| if set & set_of(tool) > 0 { State::No(1) } else { State::Out };
        let wanted = Said { states: TOOLS.map(none).to_vec(), winner: 0, tie: false };
        return (*said != wanted).then(|| "no samples fail condition 1".to_string());
    }
    for (tool, state) in TOOLS.into_iter().zip(&said.states) {
        let held = set & set_of(tool) > 0;
        if held == (*state == State::Out) {
            return Some(format!("tool {tool}: {state:?}"));
        }
        let alone = wrote(samples, law, 1 | set_of(tool));
        let wins = alone.0 == tool as usize;
        match state {
            State::Fits(octets) if (tool as usize, *octets) != alone => {
                return Some(format!("tool {tool}: {state:?}, and {alone:?} is written"));
            }
            State::No(_) if wins => return Some(format!("tool {tool} doesn't fit, and is written")),
            _ => {}
        }
    }
    let (tool, octets) = wrote(samples, law, set);
    let as_few = said.states.iter().filter(|state| **state == State::Fits(octets)).count();
    if said.winner != tool || said.state(tool) != Some(State::Fits(octets)) || said.tie != (as_few > 1) {
        return Some(format!("{said:?}, and the writer writes tool {tool} in {octets} octets"));
    }
    None
}

/// A line of tests/vectors/why.txt: what is given, and the answer or the refusal.
#[derive(Clone, Debug)]
pub struct Line {
    pub name: String,
    pub samples: Vec<u8>,
    pub law: u32,
    pub set: u32,
    pub wanted: Result<Said, u32>,
}

/// The lines of a file of vectors: `why NAME samples=.. law=1 set=127 -> ok STATES winner=W by=B`, where each of the eight states
/// is `out`, `noC` or octets; or `-> REFUSAL`.
pub fn script(text: &str) -> Result<Vec<Line>, String> {
    let lines = text.lines().filter(|line| !line.is_empty() && !line.starts_with('#'));
    lines.map(|line| read_line(line).ok_or_else(|| format!("not understood: {line}"))).collect()
}

fn read_line(line: &str) -> Option<Line> {
    let (given, wanted) = line.split_once(" -> ")?;
    let mut given = given.split_whitespace();
    let ("why", name) = (given.next()?, given.next()?.to_string()) else { return None };
    let mut line = Line { name, samples: Vec::new(), law: 1, set: 127, wanted: Err(0) };
    for word in given {
        match word.split_once('=')? {
            ("samples", list) => line.samples = octets(list).ok()?,
            ("law", law) => line.law = law.parse().ok()?,
            ("set", set) => line.set = set.parse().ok()?,
            _ => return None,
        }
    }
    let words: Vec<&str> = wanted.split_whitespace().collect();
    line.wanted = match words[..] {
        [refusal] => Err(ending(refusal).filter(|number| *number != 0)?),
        ["ok", ref states @ .., winner, by] if states.len() == TOOLS.len() => {
            let state = |word: &&str| match (*word, word.strip_prefix("no")) {
                ("out", _) => Some(State::Out),
                (_, Some(why)) => why.parse().ok().map(State::No),
                (octets, _) => octets.parse().ok().map(State::Fits),
            };
            let tie = match by {
                "by=tie" => true,
                "by=octets" => false,
                _ => return None,
            };
            let states: Option<Vec<State>> = states.iter().map(state).collect();
            Ok(Said { states: states?, winner: winner.strip_prefix("winner=")?.parse().ok()?, tie })
        }
        _ => return None,
    };
    Some(line)
}
