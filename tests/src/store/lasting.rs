//! What lasts over a cut of power, as docs/STORE.md says it: the block, two pages for the table's text, a spare and a record.

use super::{Record, GREETINGS, MOST_BLOCK};

/// Octets of a page for a block of a size: no text is longer.
pub fn page_octets(size: usize) -> usize {
    7 + GREETINGS * 66 + 23 * (size.min(MOST_BLOCK) / 64 + GREETINGS)
}

#[derive(Clone, Debug, PartialEq, Eq)]
pub struct Lasting {
    pub block: Vec<u8>,
    pub pages: [Vec<u8>; 2],
    pub spare: Vec<u8>,
    pub record: Record,
}

/// A part of what lasts that a cut may leave half written.
#[derive(Clone, Copy, Debug, PartialEq, Eq)]
pub enum Part {
    Block,
    Page(usize),
    Spare,
}

/// One write: octets from a place of a part on, or the record, which changes in one.
#[derive(Clone, Debug, PartialEq, Eq)]
pub enum Write {
    Octets(Part, usize, Vec<u8>),
    Record(Record),
}

impl Write {
    /// How many octets it covers; a record's are not counted.
    pub fn len(&self) -> usize {
        match self {
            Write::Octets(_, _, octets) => octets.len(),
            Write::Record(_) => 0,
        }
    }

    pub fn is_empty(&self) -> bool {
        self.len() == 0
    }
}

impl Lasting {
    /// A fresh store: page 0 has the empty text, and the record is all 0. The other page, the spare and the block hold anything.
    pub fn fresh(block: Vec<u8>, mut pages: [Vec<u8>; 2], spare: Vec<u8>) -> Lasting {
        pages[0][0] = 0;
        Lasting { block, pages, spare, record: [0; 8] }
    }

    pub fn page_in_use(&self) -> usize {
        self.record[0] as usize
    }

    pub fn is_still(&self) -> bool {
        self.record[1] == 0
    }

    /// A page's text ends before its first octet 0, or at the page's end.
    pub fn text(&self, page: usize) -> &[u8] {
        let page = &self.pages[page];
        &page[..page.iter().position(|octet| *octet == 0).unwrap_or(page.len())]
    }

    /// The octets that a write covers.
    pub fn covered(&mut self, write: &Write) -> &mut [u8] {
        match write {
            Write::Octets(part, at, octets) => {
                let part = match part {
                    Part::Block => &mut self.block,
                    Part::Page(page) => &mut self.pages[*page],
                    Part::Spare => &mut self.spare,
                };
                &mut part[*at..*at + octets.len()]
            }
            Write::Record(_) => &mut [],
        }
    }

    /// A write that is not cut.
    pub fn write(&mut self, write: &Write) {
        match write {
            Write::Octets(_, _, octets) => self.covered(write).copy_from_slice(octets),
            Write::Record(record) => self.record = *record,
        }
    }
}
