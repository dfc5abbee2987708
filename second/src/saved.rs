//! A store's table as lines (document 02, R-6, R-8 and R-11), written and
//! read.
//!
//! Reading has three steps over the whole table, one after the other: the
//! lines and all that they alone can tell, with TABLE; the walk over each
//! greeting, with BAD; samples and marks beside what the walk gave, with TABLE.

use crate::law::ALL_TOOLS;
use crate::marks::{walk_greeting, Mark, Walked};
use crate::store::{Greeting, Store, BAD, MOST_GREETINGS, MOST_NUMBER, ROOM, TABLE};

/// The law of greetings in R-6's lines, which don't name it.
const EARLY_LAW: u32 = 1;
/// The first line of a table that an old box must not read.
const FORM_2: &str = "form=2\n";
/// The greatest start, octet count and block of a table without that line.
const MOST_WITHOUT: usize = 65_535;
/// The largest block of an old box, one from before R-11, and its tools.
const OLD_BLOCK: usize = 16_384;
const OLD_TOOLS: u32 = 127;

impl Store {
    /// Writes the table to the start of `out`; gives its octets.
    pub fn save(&self, out: &mut [u8]) -> Result<usize, u32> {
        let text = self.text();
        out.get_mut(..text.len()).ok_or(ROOM)?.copy_from_slice(&text);
        Ok(text.len())
    }

    /// The table's lines, always R-8's, behind R-11's first line where it is
    /// asked for.
    pub fn text(&self) -> Vec<u8> {
        let mut text = String::new();
        if self.asks_for_form_2() {
            text += FORM_2;
        }
        for Greeting { number, start, octets, law, samples, marks } in &self.greetings {
            text += &format!("prompt={number}\nstart={start}\noctets={octets}\nlaw={law}\nsamples={samples}\n");
            for mark in marks {
                text += &format!("mark={},{}\n", mark.octets, mark.samples);
            }
        }
        text.into_bytes()
    }

    /// Whether a start, an octet count or the block is more than a table
    /// without `form=2` says.
    fn asks_for_form_2(&self) -> bool {
        let large = |greeting: &Greeting| greeting.start.max(greeting.octets) > MOST_WITHOUT;
        self.size() > MOST_WITHOUT || self.greetings.iter().any(large)
    }

    /// The store that a table and its block give.
    pub fn load(text: &[u8], block: Vec<u8>) -> Result<Store, u32> {
        let store = Store::fresh(block);
        let rows = parse(text, store.size()).ok_or(TABLE)?;
        filled(store, rows, ALL_TOOLS)
    }
}

/// The store that an old box, one from before R-11, gives for a table and its
/// block. To it `form=2` is no line of a table, so it refuses one that begins
/// with it there.
pub fn old_reads(text: &[u8], block: Vec<u8>) -> Result<Store, u32> {
    let rows = parse_rows(text, block.len().min(OLD_BLOCK)).ok_or(TABLE)?;
    filled(Store::fresh(block), rows, OLD_TOOLS)
}

/// A store of these greetings, if the walk with a set gives what is said of
/// them.
fn filled(mut store: Store, rows: Vec<Row>, set: u32) -> Result<Store, u32> {
    let mut all_true = true;
    for row in rows {
        let octets = &store.block[row.start..row.start + row.octets];
        let law = row.said.as_ref().map_or(EARLY_LAW, |said| said.law);
        let walked = walk_greeting(octets, law, set).ok_or(BAD)?;
        all_true &= row.said.is_none_or(|said| said.is_what(&walked));
        let Walked { samples, marks } = walked;
        let Row { number, start, octets, .. } = row;
        store.greetings.push(Greeting { number, start, octets, law, samples, marks });
    }
    all_true.then_some(store).ok_or(TABLE)
}

/// A greeting's lines.
struct Row {
    number: u32,
    start: usize,
    octets: usize,
    /// R-8's lines, if there are any.
    said: Option<Said>,
}

/// What a greeting's lines say beside where it lies.
struct Said {
    law: u32,
    samples: u128,
    marks: Vec<(u128, u128)>,
}

impl Said {
    fn is_what(&self, walked: &Walked) -> bool {
        let given = |mark: &Mark| (mark.octets as u128, mark.samples as u128);
        self.samples == walked.samples as u128 && walked.marks.iter().map(given).eq(self.marks.iter().copied())
    }
}

/// The greetings of a table that is good but for what their octets are, and
/// for what the walk gives of them. Behind `form=2` all are in R-8's lines;
/// without it no start and no octet count is large.
fn parse(text: &[u8], size: usize) -> Option<Vec<Row>> {
    let (rows, good): (Vec<Row>, fn(&Row) -> bool) = match text.strip_prefix(FORM_2.as_bytes()) {
        Some(behind) => (parse_rows(behind, size)?, |row| row.said.is_some()),
        None => (parse_rows(text, size)?, |row| row.start.max(row.octets) <= MOST_WITHOUT),
    };
    rows.iter().all(good).then_some(rows)
}

/// The same without R-11's first line, and with no word on large numbers.
fn parse_rows(text: &[u8], size: usize) -> Option<Vec<Row>> {
    let mut rows: Vec<Row> = vec![];
    let mut rest = text;
    let mut end = 0;
    while !rest.is_empty() {
        let number = line(&mut rest, "prompt")?;
        let start = line(&mut rest, "start")?;
        let octets = line(&mut rest, "octets")?;
        // Only the next greeting's lines, or the end, may follow R-6's.
        let said = if rest.is_empty() || rest.starts_with(b"prompt=") { None } else { Some(say(&mut rest)?) };
        if !(1..=u128::from(MOST_NUMBER)).contains(&number) {
            return None;
        }
        if start < end || start.saturating_add(octets) > size as u128 {
            return None;
        }
        end = start + octets;
        let number = number as u32;
        let against = |row: &Row| row.number == number || row.said.is_some() != said.is_some();
        if rows.len() == MOST_GREETINGS || rows.iter().any(against) {
            return None;
        }
        rows.push(Row { number, start: start as usize, octets: octets as usize, said });
    }
    Some(rows)
}

/// R-8's lines of a greeting: the law, the samples, then marks, as many as
/// there are, none too.
fn say(text: &mut &[u8]) -> Option<Said> {
    let law = line(text, "law")?;
    let samples = line(text, "samples")?;
    let mut marks = vec![];
    while text.starts_with(b"mark=") {
        marks.push(mark(text)?);
    }
    (law <= 1).then_some(Said { law: law as u32, samples, marks })
}

/// Takes `key=decimal` and octet 0A off the text.
fn line(text: &mut &[u8], key: &str) -> Option<u128> {
    *text = text.strip_prefix(key.as_bytes())?.strip_prefix(b"=")?;
    let number = decimal(text)?;
    *text = text.strip_prefix(b"\n")?;
    Some(number)
}

/// Takes `mark=decimal,decimal` and octet 0A off the text.
fn mark(text: &mut &[u8]) -> Option<(u128, u128)> {
    *text = text.strip_prefix(b"mark=")?;
    let octets = decimal(text)?;
    *text = text.strip_prefix(b",")?;
    let samples = decimal(text)?;
    *text = text.strip_prefix(b"\n")?;
    Some((octets, samples))
}

/// Takes a decimal without leading zeros off the text. One of very many digits
/// is the greatest number that there is here: too large for anything, and not
/// what any walk gives.
fn decimal(text: &mut &[u8]) -> Option<u128> {
    let count = text.iter().take_while(|octet| octet.is_ascii_digit()).count();
    let (digits, rest) = text.split_at(count);
    *text = rest;
    if digits.is_empty() || (digits[0] == b'0' && count > 1) {
        return None;
    }
    let add = |number: u128, digit: &u8| {
        number.saturating_mul(10).saturating_add(u128::from(digit - b'0'))
    };
    Some(digits.iter().fold(0, add))
}
