//! Two back ends asked the same: the reports must be equal, and so must all octets lent to them, margins too.

use crate::vectors::Ask;
use crate::{Codec, Read, Walk, Write};
use std::fmt::Debug;

/// Octets before and after the room. They belong to the caller.
const MARGIN: usize = 64;
/// What the lent output holds, in turn: no sample is both.
const FILLS: [u8; 2] = [0xA7, 0x58];
/// Differences shown at most; they are all counted.
const SHOWN: usize = 20;
/// Octets of an input shown at most.
const MOST_OCTETS: usize = 450;
/// Differences put in words at most.
const WORDED: usize = 200;

/// What a call did with the octets lent to it.
trait Report: PartialEq + Debug + Copy {
    /// How many octets at the output's start are its own.
    fn written(&self) -> usize;
}

impl Report for Read {
    fn written(&self) -> usize {
        self.samples
    }
}

impl Report for Write {
    fn written(&self) -> usize {
        self.octets
    }
}

impl Report for Walk {
    fn written(&self) -> usize {
        self.samples
    }
}

/// The two back ends, the octets lent to them, and what differed.
pub struct Pair<'a> {
    one: &'a dyn Codec,
    other: &'a dyn Codec,
    lent: [Vec<u8>; 2],
    written: usize,
    pub calls: usize,
    pub differences: usize,
    shown: Vec<String>,
    last: String,
}

impl<'a> Pair<'a> {
    pub fn new(one: &'a dyn Codec, other: &'a dyn Codec) -> Pair<'a> {
        Pair {
            one,
            other,
            lent: Default::default(),
            written: 0,
            calls: 0,
            differences: 0,
            shown: Vec::new(),
            last: String::new(),
        }
    }

    pub fn read(&mut self, ask: &Ask) -> Read {
        let (one, other) = (self.one, self.other);
        self.call("read", ask, |codec, out| [one, other][codec].read(&ask.given, ask.law, ask.set, out))
    }

    pub fn write(&mut self, ask: &Ask) -> Write {
        let (one, other) = (self.one, self.other);
        self.call("write", ask, |codec, out| [one, other][codec].write(&ask.given, ask.law, ask.set, out))
    }

    pub fn walk(&mut self, ask: &Ask) -> Walk {
        let (one, other) = (self.one, self.other);
        self.call("walk", ask, |codec, out| [one, other][codec].walk(&ask.given, ask.law, ask.set, out))
    }

    /// What the last call left at the start of the output.
    pub fn output(&self) -> &[u8] {
        &self.lent[1][MARGIN..MARGIN + self.written]
    }

    /// Makes a call on both and gives the second one's report.
    fn call<T: Report>(&mut self, what: &str, ask: &Ask, call: impl Fn(usize, &mut [u8]) -> T) -> T {
        let fill = FILLS[self.calls % 2];
        self.calls += 1;
        let room = MARGIN..MARGIN + ask.room;
        let [got, wanted] = [0, 1].map(|codec| {
            let lent = &mut self.lent[codec];
            lent.clear();
            lent.resize(MARGIN + ask.room + MARGIN, fill);
            call(codec, &mut lent[room.clone()])
        });
        self.written = wanted.written().min(ask.room);
        if got != wanted {
            self.differ(what, ask, &format!("{got:?}, wanted {wanted:?}"));
        } else if self.lent[0] != self.lent[1] {
            let at = (0..self.lent[0].len()).find(|at| self.lent[0][*at] != self.lent[1][*at]).unwrap_or(0);
            let said = format!("lent octet {} is {:02X}", at as isize - MARGIN as isize, self.lent[0][at]);
            self.differ(what, ask, &format!("{said}, wanted {:02X}", self.lent[1][at]));
        } else if !self.as_lent(wanted.written(), fill) {
            self.differ(what, ask, &format!("both wrote past the {} octets of their report", wanted.written()));
        }
        wanted
    }

    /// Whether everything but the first octets of the room is as it was lent.
    fn as_lent(&self, written: usize, fill: u8) -> bool {
        let lent = &self.lent[1];
        let (before, after) = (&lent[..MARGIN], &lent[(MARGIN + written).min(lent.len())..]);
        after.len() >= MARGIN && before.iter().chain(after).all(|octet| *octet == fill)
    }

    /// Notes a difference that the caller saw, or one of a call.
    pub fn differ(&mut self, what: &str, ask: &Ask, fault: &str) {
        self.differences += 1;
        if self.differences > WORDED {
            return;
        }
        self.last = format!("{what} {}: {fault}", asked(ask, MOST_OCTETS));
        if self.shown.len() < SHOWN {
            self.shown.push(self.last.clone());
        }
    }

    /// The differences that are shown.
    pub fn shown(&self) -> &[String] {
        &self.shown
    }

    /// The last difference.
    pub fn last(&self) -> &str {
        &self.last
    }

    /// Fails if anything differed.
    pub fn close(&self) {
        assert!(self.differences == 0, "{} differences\n{}", self.differences, self.shown.join("\n"));
    }
}

/// A call in the words of a vector file, with so many of its octets at most.
pub fn asked(ask: &Ask, most: usize) -> String {
    let octets: String = ask.given.iter().take(most).map(|octet| format!("{octet:02X}")).collect();
    let more = if ask.given.len() > most { format!(".. ({} octets)", ask.given.len()) } else { String::new() };
    format!("octets={octets}{more} law={} set={} room={}", ask.law, ask.set, ask.room)
}
