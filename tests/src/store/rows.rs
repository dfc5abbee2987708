//! A table's rows, as a list and as lines.

use super::{FORM, GREETINGS, MOST_WITHOUT};
use second::store::{Greeting, Mark};
use std::collections::BTreeMap;

/// Whether calls can leave such a list: in order, apart, inside, numbers from 1 to 65,535 used once, no empty greeting.
pub fn sane(greetings: &[Greeting], size: usize) -> bool {
    let apart = greetings.windows(2).all(|two| two[0].start + two[0].octets <= two[1].start);
    let inside = greetings.iter().all(|greeting| greeting.octets > 0 && greeting.start + greeting.octets <= size);
    let numbers: BTreeMap<u32, ()> = greetings.iter().map(|greeting| (greeting.number, ())).collect();
    let ranges = numbers.keys().all(|number| (1..=65_535).contains(number));
    apart && inside && ranges && numbers.len() == greetings.len() && greetings.len() <= GREETINGS
}

/// The greetings that a saved table says, with R-11's first line or without it: read loosely, then written again and held
/// against it.
pub fn rows_of(text: &[u8]) -> Option<Vec<Greeting>> {
    let text = text.strip_prefix(FORM).unwrap_or(text);
    let mut rows: Vec<Greeting> = Vec::new();
    for line in std::str::from_utf8(text).ok()?.lines() {
        let (key, value) = line.split_once('=')?;
        if let (Some(row), Some((octets, samples))) = (rows.last_mut(), value.split_once(',')) {
            row.marks.push(Mark { octets: octets.parse().ok()?, samples: samples.parse().ok()? });
            continue;
        }
        let number: usize = value.parse().ok()?;
        match (key, rows.last_mut()) {
            ("prompt", _) => {
                let number = number.try_into().ok()?;
                rows.push(Greeting { number, start: 0, octets: 0, law: 0, samples: 0, marks: Vec::new() });
            }
            ("start", Some(row)) => row.start = number,
            ("octets", Some(row)) => row.octets = number,
            ("law", Some(row)) => row.law = number.try_into().ok()?,
            ("samples", Some(row)) => row.samples = number,
            _ => return None,
        }
    }
    (text_of(&rows) == text).then_some(rows)
}

/// Whether a greeting's start or octet count is more than a table without R-11's first line says.
pub fn is_large(row: &Greeting) -> bool {
    row.start > MOST_WITHOUT || row.octets > MOST_WITHOUT
}

/// Whether a table is saved with R-11's first line.
pub fn asks_for_form(rows: &[Greeting], size: usize) -> bool {
    size > MOST_WITHOUT || rows.iter().any(is_large)
}

/// What is saved of such a list.
pub fn whole_text_of(rows: &[Greeting], size: usize) -> Vec<u8> {
    let first = if asks_for_form(rows, size) { FORM } else { &[] };
    [first, &text_of(rows)].concat()
}

/// The lines of a list of greetings.
pub fn text_of(rows: &[Greeting]) -> Vec<u8> {
    let lines = rows.iter().map(|row| {
        let more = format!("law={}\nsamples={}\n", row.law, row.samples);
        let marks = row.marks.iter().map(|mark| format!("mark={},{}\n", mark.octets, mark.samples));
        early_line(row) + &more + &marks.collect::<String>()
    });
    lines.collect::<String>().into_bytes()
}

/// The lines that R-6 had: where each lies, and no more.
pub fn early_text_of(rows: &[Greeting]) -> Vec<u8> {
    rows.iter().map(early_line).collect::<String>().into_bytes()
}

fn early_line(row: &Greeting) -> String {
    format!("prompt={}\nstart={}\noctets={}\n", row.number, row.start, row.octets)
}

/// Where the lowest gap of so many octets starts, looked for place by place.
pub fn lowest_gap(rows: &[Greeting], size: usize, octets: usize) -> Option<usize> {
    let clear = |at: usize, row: &Greeting| at + octets <= row.start || row.start + row.octets <= at;
    let starts = [0].into_iter().chain(rows.iter().map(|row| row.start + row.octets));
    starts.filter(|at| at + octets <= size && rows.iter().all(|row| clear(*at, row))).min()
}
