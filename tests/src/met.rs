//! What written frames have met, in tables: every S, method, tie, last sample, and number of times that a value comes.

use crate::digits::row_of;
use crate::forms::{Row, LENGTHS, ROWS};
use crate::measure::{methods_of, numbers, s_of, values, zeros};
use crate::{set_of, share, Table, Write};

/// Written frames wanted in a cell.
const NEED: usize = share(1_000);
const METHODS: [usize; 7] = [0, 1, 2, 3, 4, 5, 7];

/// What the drawn frames have met.
pub struct Met {
    s: Table,
    methods: Table,
    ties: Table,
    ends: Table,
    times: Table,
}

const TIES: [&str; 9] = [
    "constant and Rice: octets",
    "binary and Rice: octets",
    "plus and minus: commoner",
    "Rice: S",
    "above and below: flag",
    "a value's runs: S",
    "L and D",
    "L and the list",
    "values and tool 11: octets",
];

fn row_name(row: Row, value: usize) -> String {
    format!("case {} flag {} value {}", row.case, row.flag, row.values[value])
}

impl Met {
    pub fn new() -> Met {
        let all_s: Vec<usize> = (1..=9).collect();
        let mut s = Table::new("frames written by tool 6, by S and length", &all_s, &LENGTHS, NEED);
        for (length, greatest) in LENGTHS.into_iter().zip([4, 5, 6, 7, 7]) {
            // The next S never needs fewer bits: a smaller one needs as many or fewer for every run there can be.
            (greatest + 1..=9).for_each(|never| s.never(never, length));
        }
        let names: Vec<String> =
            ROWS.iter().flat_map(|row| (0..row.values.len()).map(|value| row_name(*row, value))).collect();
        let mut methods = Table::new("values written by tool 7, by method", &names, &METHODS, NEED);
        for row in ROWS {
            for (at, value) in row.values.iter().enumerate() {
                // A row's least and greatest come in the frame, so only -1 between them may be none.
                if *value != -1 || row.case == 1 {
                    methods.never(row_name(row, at), 5);
                }
            }
        }
        Met {
            s,
            methods,
            ties: Table::new("frames written, by tie", &TIES, &["frames"], NEED),
            ends: Table::new("frames of both zeros, by tool and last sample", &[5, 6], &["plus", "minus"], NEED),
            times: Table::new(
                "values written by tool 7, by times they come",
                &[1, -1, -2],
                &["1", "2", "3", "4", "5", "more"],
                NEED,
            ),
        }
    }

    pub fn all(&self) -> [&Table; 5] {
        [&self.s, &self.methods, &self.ties, &self.ends, &self.times]
    }

    pub fn is_full(&self) -> bool {
        self.all().iter().all(|table| table.faults().is_empty())
    }

    /// Counts a written frame in every table it belongs to.
    pub fn note(&mut self, wrote: Write, form: &[u8], frame: &[u8], law: u32, set: u32) {
        let numbers = numbers(frame, law);
        match wrote.tool {
            6 => self.s.add(s_of(form, frame.len()), frame.len()),
            7 => {
                self.note_values(form, &numbers);
                let other = row_of(&numbers).filter(|_| set & set_of(11) > 0);
                if other.is_some_and(|row| row.octets(frame.len()) == wrote.octets) {
                    self.ties.add(TIES[8], "frames");
                }
            }
            _ => {}
        }
        if let Some(zeros) = zeros(&numbers) {
            if wrote.tool == 5 || wrote.tool == 6 {
                self.ends.add(wrote.tool, ["plus", "minus"][usize::from(*numbers.last().unwrap() == -1)]);
            }
            let has = |tool: u32| set & set_of(tool) > 0;
            let tie = |ties: &mut Table, name: usize, holds: bool| {
                if holds {
                    ties.add(TIES[name], "frames");
                }
            };
            tie(&mut self.ties, 0, wrote.tool == 4 && has(6) && zeros.octets == 2);
            tie(&mut self.ties, 1, wrote.tool == 5 && has(6) && zeros.octets == wrote.octets);
            tie(&mut self.ties, 2, wrote.tool == 6 && zeros.marks_tie);
            tie(&mut self.ties, 3, wrote.tool == 6 && zeros.s_ties);
        }
    }

    fn note_values(&mut self, form: &[u8], numbers: &[i32]) {
        let (row, methods) = methods_of(form, numbers);
        let above = numbers.iter().filter(|number| **number > 0).count();
        let below = numbers.iter().filter(|number| **number < 0).count();
        if above == below {
            self.ties.add(TIES[4], "frames");
        }
        for (at, value) in values(numbers, row).iter().enumerate() {
            self.methods.add(row_name(row, at), methods[at]);
            match value.count {
                0 => continue,
                count @ 1..=5 => self.times.add(row.values[at], count),
                _ => self.times.add(row.values[at], "more"),
            }
            if (1..=4).contains(&methods[at]) && value.s_ties {
                self.ties.add(TIES[5], "frames");
            }
            if value.least == value.places {
                self.ties.add(TIES[6], "frames");
            }
            if value.count <= 4 && value.least == value.list_bits() + 2 {
                self.ties.add(TIES[7], "frames");
            }
        }
    }
}
