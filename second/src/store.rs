//! A greeting store that fills its gaps (document 02, R-6), as a model: a
//! block of octets, and the list of greetings in it, in order of start, each
//! with what the walk gives of it. [`crate::saved`] is the list as lines,
//! [`crate::table`] as numbers.
//!
//! Nothing here is done in place. A call works out a new block and a new list
//! and takes them over at its end, so a refused call can't have changed
//! anything, and octets that move are read from the block as it was.

use crate::law::ALL_TOOLS;
use crate::marks::{jump, walk_greeting};

pub use crate::marks::{Jump, Mark};

pub(crate) const ROOM: u32 = 4;
const LAW: u32 = 12;
const NUMBER: u32 = 15;
pub(crate) const TAKEN: u32 = 16;
pub(crate) const ABSENT: u32 = 17;
pub(crate) const BAD: u32 = 18;
const FULL: u32 = 19;
const NOROOM: u32 = 20;
const BEYOND: u32 = 21;
pub(crate) const TABLE: u32 = 26;

/// A block has at most so many octets; what is lent past them isn't
/// used.
pub const MOST_BLOCK: usize = 1_048_576;
pub const MOST_GREETINGS: usize = 32;
pub(crate) const MOST_NUMBER: u32 = 65_535;

/// Where a greeting lies, and what the walk gives of it. The marks count from
/// its start, so moving it changes none of them.
#[derive(Clone, Debug, PartialEq, Eq)]
pub struct Greeting {
    pub number: u32,
    pub start: usize,
    pub octets: usize,
    pub law: u32,
    pub samples: usize,
    pub marks: Vec<Mark>,
}

impl Greeting {
    pub(crate) fn end(&self) -> usize {
        self.start + self.octets
    }
}

/// What a put reports.
#[derive(Clone, Copy, Debug, PartialEq, Eq)]
pub struct Put {
    pub start: usize,
    /// The summed lengths of the greetings whose start changed.
    pub moved: usize,
}

#[derive(Clone, Debug, PartialEq, Eq)]
pub struct Store {
    pub block: Vec<u8>,
    /// In order of start.
    pub greetings: Vec<Greeting>,
}

impl Store {
    /// A store of no greetings, on a block of any content.
    pub fn fresh(block: Vec<u8>) -> Store {
        Store { block, greetings: vec![] }
    }

    pub fn size(&self) -> usize {
        self.block.len().min(MOST_BLOCK)
    }

    /// Octets of all greetings.
    pub fn held(&self) -> usize {
        self.greetings.iter().map(|greeting| greeting.octets).sum()
    }

    pub fn put(&mut self, law: u32, number: u32, octets: &[u8]) -> Result<Put, u32> {
        if law > 1 {
            return Err(LAW);
        }
        check_number(number)?;
        if self.find(number).is_some() {
            return Err(TAKEN);
        }
        let walked = walk_greeting(octets, law, ALL_TOOLS).ok_or(BAD)?;
        if self.greetings.len() == MOST_GREETINGS {
            return Err(FULL);
        }
        if self.held() + octets.len() > self.size() {
            return Err(NOROOM);
        }
        let mut next = self.clone();
        let (start, moved) = match self.lowest_gap(octets.len()) {
            Some(start) => (start, 0),
            None => {
                let moved = next.close_up();
                (next.held(), moved)
            }
        };
        next.block[start..start + octets.len()].copy_from_slice(octets);
        let (samples, marks) = (walked.samples, walked.marks);
        next.greetings.push(Greeting { number, start, octets: octets.len(), law, samples, marks });
        next.greetings.sort_by_key(|greeting| greeting.start);
        *self = next;
        Ok(Put { start, moved })
    }

    /// Start and octets.
    pub fn get(&self, number: u32) -> Result<(usize, usize), u32> {
        check_number(number)?;
        let greeting = self.find(number).ok_or(ABSENT)?;
        Ok((greeting.start, greeting.octets))
    }

    pub fn delete(&mut self, number: u32) -> Result<(), u32> {
        check_number(number)?;
        self.find(number).ok_or(ABSENT)?;
        self.greetings.retain(|greeting| greeting.number != number);
        Ok(())
    }

    /// The frame of a greeting that holds a sample. BAD only where the marks
    /// or the block are not what calls left.
    pub fn jump(&self, number: u32, sample: u64) -> Result<Jump, u32> {
        check_number(number)?;
        let greeting = self.find(number).ok_or(ABSENT)?;
        if sample >= greeting.samples as u64 {
            return Err(BEYOND);
        }
        jump(self.octets_of(greeting), greeting.law, &greeting.marks, sample as usize).ok_or(BAD)
    }

    pub(crate) fn octets_of(&self, greeting: &Greeting) -> &[u8] {
        &self.block[greeting.start..greeting.end()]
    }

    fn find(&self, number: u32) -> Option<&Greeting> {
        self.greetings.iter().find(|greeting| greeting.number == number)
    }

    /// Where the lowest gap of so many octets or more starts. The room behind
    /// the last greeting is a gap like any other.
    fn lowest_gap(&self, octets: usize) -> Option<usize> {
        let ends = self.greetings.iter().map(Greeting::end);
        let starts = self.greetings.iter().map(|greeting| greeting.start);
        let gaps = [0].into_iter().chain(ends).zip(starts.chain([self.size()]));
        gaps.filter(|(from, to)| to - from >= octets).map(|(from, _)| from).next()
    }

    /// Moves all greetings together from 0 on, in their order; gives the
    /// summed lengths of those whose start changed. What lies behind them, or
    /// lay where they were, stays unless a greeting is moved onto it.
    fn close_up(&mut self) -> usize {
        let before = self.block.clone();
        let mut end = 0;
        let mut moved = 0;
        for greeting in &mut self.greetings {
            let octets = &before[greeting.start..greeting.end()];
            self.block[end..end + octets.len()].copy_from_slice(octets);
            if greeting.start != end {
                moved += greeting.octets;
            }
            greeting.start = end;
            end += greeting.octets;
        }
        moved
    }
}

pub(crate) fn check_number(number: u32) -> Result<(), u32> {
    if (1..=MOST_NUMBER).contains(&number) {
        Ok(())
    } else {
        Err(NUMBER)
    }
}
