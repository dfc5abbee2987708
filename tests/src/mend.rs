//! A damaged greeting mended (document 02, R-12): two back ends asked the same, and each promise held against the walk.
//! [`script`] reads tests/vectors/mend.txt.

use crate::{octets, Codec, Proved, Second, ALL_TOOLS};

/// The call of include/g7110.h.
mod raw {
    #![allow(unsafe_code)]

    extern "C" {
        fn g7110_mend(
            octets: *const u8,
            octets_len: usize,
            law: u32,
            total: u64,
            out: *mut u8,
            out_len: usize,
            report: *mut [u64; 4],
        ) -> u32;
    }

    /// The ending; the report is octets, frames kept, octets kept and samples filled.
    pub fn mend(octets: &[u8], law: u32, total: u64, out: &mut [u8], report: &mut [u64; 4]) -> u32 {
        // SAFETY: both slices and the report are live for the call, and the borrows keep them apart.
        unsafe { g7110_mend(octets.as_ptr(), octets.len(), law, total, out.as_mut_ptr(), out.len(), report) }
    }
}

pub const TOTAL: u32 = 22;
/// The refusals by name.
const REFUSALS: [(&str, u32); 4] = [("LAW", 12), ("LONG", 13), ("TOTAL", TOTAL), ("ROOM", 4)];

/// What a call answers.
#[derive(Clone, Copy, Debug, PartialEq, Eq)]
pub struct Mend {
    pub ending: u32,
    pub octets: usize,
    pub frames_kept: usize,
    pub octets_kept: usize,
    pub samples_filled: usize,
}

impl Mend {
    pub fn refused(ending: u32) -> Mend {
        Mend { ending, octets: 0, frames_kept: 0, octets_kept: 0, samples_filled: 0 }
    }
}

/// A back end that mends.
pub trait Mends {
    fn mend(&self, octets: &[u8], law: u32, total: u64, out: &mut [u8]) -> Mend;
}

impl Mends for Second {
    fn mend(&self, octets: &[u8], law: u32, total: u64, out: &mut [u8]) -> Mend {
        match second::mend::mend(octets, law, total, out) {
            Ok(done) => Mend {
                ending: 0,
                octets: done.octets,
                frames_kept: done.frames_kept,
                octets_kept: done.octets_kept,
                samples_filled: done.samples_filled,
            },
            Err(ending) => Mend::refused(ending),
        }
    }
}

impl Mends for Proved {
    fn mend(&self, octets: &[u8], law: u32, total: u64, out: &mut [u8]) -> Mend {
        let mut report = [u64::MAX; 4];
        let ending = raw::mend(octets, law, total, out, &mut report);
        let [octets, frames_kept, octets_kept, samples_filled] = report.map(|number| number as usize);
        Mend { ending, octets, frames_kept, octets_kept, samples_filled }
    }
}

/// Octets before and after the room. They belong to the caller.
const MARGIN: usize = 64;
/// What the lent output holds, in turn.
const FILLS: [u8; 2] = [0xA7, 0x58];
/// Differences shown at most; they are all counted.
const SHOWN: usize = 20;
/// Octets of a greeting shown at most.
const MOST_OCTETS: usize = 300;
/// Filling frames by their octet, the longest first.
const FILLING: [(u8, usize); 5] = [(0x31, 320), (0x21, 240), (0xC1, 160), (0x81, 80), (0x41, 40)];

/// The two back ends, and what differed.
pub struct Menders<'a> {
    one: &'a dyn Mends,
    other: &'a dyn Mends,
    lent: [Vec<u8>; 2],
    samples: Vec<u8>,
    /// The result of the last call.
    pub result: Vec<u8>,
    pub calls: usize,
    pub differences: usize,
    shown: Vec<String>,
}

impl<'a> Menders<'a> {
    pub fn new(one: &'a dyn Mends, other: &'a dyn Mends) -> Menders<'a> {
        Menders {
            one,
            other,
            lent: Default::default(),
            samples: vec![0; 1_000_320],
            result: Vec::new(),
            calls: 0,
            differences: 0,
            shown: Vec::new(),
        }
    }

    /// Makes a call on both and gives the second one's answer.
    pub fn call(&mut self, given: &[u8], law: u32, total: u64, room: usize) -> Mend {
        let fill = FILLS[self.calls % 2];
        self.calls += 1;
        let [got, wanted] = [0, 1].map(|at| {
            let lent = &mut self.lent[at];
            lent.clear();
            lent.resize(MARGIN + room + MARGIN, fill);
            [self.one, self.other][at].mend(given, law, total, &mut lent[MARGIN..MARGIN + room])
        });
        let written = wanted.octets.min(room);
        let lent = &self.lent[1];
        let outside = lent[..MARGIN].iter().chain(&lent[MARGIN + written..]).any(|octet| *octet != fill);
        self.result = lent[MARGIN..MARGIN + written].to_vec();
        if got != wanted {
            self.differ(given, law, total, room, &format!("{got:?}, wanted {wanted:?}"));
        } else if self.lent[0] != self.lent[1] {
            let at = (0..self.lent[0].len()).find(|at| self.lent[0][*at] != self.lent[1][*at]).unwrap_or(0);
            self.differ(given, law, total, room, &format!("lent octet {} differs", at as isize - MARGIN as isize));
        } else if outside || (wanted.ending != 0 && wanted != Mend::refused(wanted.ending)) {
            self.differ(given, law, total, room, "both wrote past their report, or reported something and refused");
        }
        wanted
    }

    /// Makes a call that must be refused with this number.
    pub fn refused(&mut self, given: &[u8], law: u32, total: u64, room: usize, ending: u32) {
        let got = self.call(given, law, total, room);
        if got != Mend::refused(ending) {
            self.differ(given, law, total, room, &format!("{got:?}, and it should be refused with {ending}"));
        }
    }

    /// Makes a call that must be accepted, and holds it against each promise.
    pub fn mended(&mut self, given: &[u8], law: u32, total: u64) -> Mend {
        let room = given.len() + total as usize / 320 + 4;
        let done = self.call(given, law, total, room);
        if done.ending != 0 {
            self.differ(given, law, total, room, &format!("{done:?}, and it should be accepted"));
            return done;
        }
        let result = std::mem::take(&mut self.result);
        if let Some(fault) = self.broken(given, law, total, done, &result) {
            self.differ(given, law, total, room, &fault);
        }
        // "mending twice changes nothing more"
        let again = self.call(&result, law, total, room);
        if again.samples_filled != 0 || again.octets_kept != result.len() || self.result != result {
            self.differ(given, law, total, room, &format!("mended again: {again:?}"));
        }
        self.result = result;
        done
    }

    /// The first promise that a result breaks.
    fn broken(&mut self, given: &[u8], law: u32, total: u64, done: Mend, result: &[u8]) -> Option<String> {
        let kept = done.octets_kept;
        if kept > given.len() || given[..kept] != result[..kept] || result.len() != done.octets {
            return Some("what is kept is not the start of what was given".into());
        }
        let walked = Proved.walk(result, law, ALL_TOOLS, &mut self.samples);
        if (walked.ending, walked.samples as u64) != (0, total) {
            return Some(format!("the result is walked as {walked:?}"));
        }
        let walked = Proved.walk(&given[..kept], law, ALL_TOOLS, &mut self.samples);
        let missing = total as usize - walked.samples.min(total as usize);
        if (walked.ending, walked.frames) != (0, done.frames_kept) || missing != done.samples_filled {
            return Some(format!("{done:?}, and what is kept is walked as {walked:?}"));
        }
        if kept < given.len() {
            let next = Proved.read(&given[kept..], law, ALL_TOOLS, &mut self.samples);
            if next.ending == 0 && next.samples <= missing {
                return Some("the next frame could be kept".into());
            }
        }
        (result[kept..] != filling(missing)).then(|| "other filling".to_string())
    }

    fn differ(&mut self, given: &[u8], law: u32, total: u64, room: usize, fault: &str) {
        self.differences += 1;
        if self.shown.len() < SHOWN {
            let octets: String = given.iter().take(MOST_OCTETS).map(|octet| format!("{octet:02X}")).collect();
            let given = format!("octets={octets} ({} of them) law={law} total={total} room={room}", given.len());
            self.shown.push(format!("{given}: {fault}"));
        }
    }

    pub fn shown(&self) -> &[String] {
        &self.shown
    }

    /// Fails if anything differed.
    pub fn close(&self) {
        assert!(self.differences == 0, "{} differences\n{}", self.differences, self.shown.join("\n"));
    }
}

/// The filling of so many samples, counted by division: each length at most as often as it goes in what is left.
pub fn filling(samples: usize) -> Vec<u8> {
    let mut left = samples;
    let parts = FILLING.map(|(octet, length)| {
        let times = left / length;
        left %= length;
        vec![octet; times]
    });
    parts.concat()
}

/// A line of tests/vectors/mend.txt.
#[derive(Clone, Debug)]
pub struct Line {
    pub name: String,
    pub given: Vec<u8>,
    pub law: u32,
    pub total: u64,
    pub room: usize,
    pub wanted: Mend,
    pub result: Vec<u8>,
}

/// The lines of a file of vectors; its head has their form.
pub fn script(text: &str) -> Result<Vec<Line>, String> {
    let lines = text.lines().filter(|line| !line.is_empty() && !line.starts_with('#'));
    lines.map(|line| read_line(line).ok_or_else(|| format!("not understood: {line}"))).collect()
}

fn read_line(line: &str) -> Option<Line> {
    let (given, wanted) = line.split_once(" -> ")?;
    let mut given = given.split_whitespace();
    let ("mend", name) = (given.next()?, given.next()?.to_string()) else { return None };
    let (wanted, result) = wanted.split_once(' ').unwrap_or((wanted, ""));
    let mut line = Line {
        name,
        given: Vec::new(),
        law: 1,
        total: u64::MAX,
        room: 70_000,
        wanted: Mend::refused(0),
        result: Vec::new(),
    };
    for word in given {
        match word.split_once('=')? {
            ("octets", list) => line.given = octets(list).ok()?,
            ("law", law) => line.law = law.parse().ok()?,
            ("total", total) => line.total = total.parse().ok()?,
            ("room", room) => line.room = room.parse().ok()?,
            _ => return None,
        }
    }
    if wanted != "ok" {
        let (_, number) = REFUSALS.iter().find(|(refusal, _)| *refusal == wanted)?;
        line.wanted = Mend::refused(*number);
        return result.is_empty().then_some(line);
    }
    for word in result.split_whitespace() {
        match word.split_once('=')? {
            ("octets", list) => line.result = octets(list).ok()?,
            ("frames", frames) => line.wanted.frames_kept = frames.parse().ok()?,
            ("kept", kept) => line.wanted.octets_kept = kept.parse().ok()?,
            ("filled", filled) => line.wanted.samples_filled = filled.parse().ok()?,
            _ => return None,
        }
    }
    line.wanted.octets = line.result.len();
    Some(line)
}
