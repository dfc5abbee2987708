//! Value-location frames in which a value fills every place, or every place but one (document 02, R-4): the proved code,
//! through the static library, against the second program and against the samples that each was made of.

use second::gen::Prng;
use tests::forms::{filled_form, rows, Fills, Form, Row, LENGTHS, ROWS};
use tests::{ending, say, share, Ask, Pair, Proved, Second, Table};

/// Frames wanted in a cell.
const WANTED: usize = share(3_000);
/// The same frames once more, by row and method: wanted in each cell.
const WANTED_BY_ROW: usize = share(1_000);
/// The methods that fill: D bits, runs, a list; and those that may follow.
const BY: [(&str, &[usize]); 3] = [("bits", &[0]), ("runs", &[1, 2, 3, 4]), ("a list", &[7])];
const NEXT: [(&str, &[usize]); 4] = [("000", &[0]), ("runs", &[1, 2, 3, 4]), ("101", &[5]), ("111", &[7])];

/// Reads a frame whole, with octets after it, and cut: it is accepted as what it was made of, and SHORT.
fn read_whole_and_cut(pair: &mut Pair, form: &Form, law: u32, rng: &mut Prng) {
    let octets = form.octets();
    let more = rng.below(4);
    let ask = Ask { given: [&octets[..], &rng.octets(more)].concat(), law, set: 64, room: form.length() };
    let got = pair.read(&ask);
    if (got.ending, got.bits, got.octets, got.bit) != (0, form.bits.len(), octets.len(), 0)
        || pair.output() != form.samples
    {
        pair.differ("made", &ask, &format!("{got:?}"));
    }
    let cut = Ask { given: octets[..rng.below(octets.len())].to_vec(), ..ask };
    let got = pair.read(&cut);
    if (got.ending, got.bit) != (ending("SHORT").unwrap(), 8 * cut.given.len()) {
        pair.differ("cut", &cut, &format!("{got:?}"));
    }
}

/// A cell's name, and what may be drawn for it.
fn cells() -> Vec<(String, usize, usize, &'static [usize], Option<&'static [usize]>)> {
    let mut all = Vec::new();
    for value in 0..3 {
        for (how, by) in BY {
            for left in 0..2 {
                let said = format!("value {} by {how}, {left} left", value + 1);
                all.push((format!("{said}, the last"), value, left, by, None));
                for (name, next) in NEXT {
                    all.push((format!("{said}, then {name}"), value, left, by, Some(next)));
                }
            }
        }
    }
    all
}

fn row_and_method(row: &Row, by: usize) -> String {
    format!("case {}, flag {}, method {by}", row.case, row.flag)
}

/// The cells of row, flag, method and length. A list fills no first value.
fn by_row() -> Table {
    let methods: Vec<usize> = BY.iter().flat_map(|(_, by)| by.iter().copied()).collect();
    let names: Vec<String> = ROWS.iter().flat_map(|row| methods.iter().map(|by| row_and_method(row, *by))).collect();
    let mut table = Table::new("no place left, or one, by row, method and length", &names, &LENGTHS, WANTED_BY_ROW);
    for length in LENGTHS {
        for row in &ROWS {
            let there = rows(length).iter().any(|other| (other.case, other.flag) == (row.case, row.flag));
            for by in methods.iter().filter(|by| !there || **by == 7 && row.values.len() == 1) {
                table.never(row_and_method(row, *by), length);
            }
        }
    }
    table
}

/// Every row, flag, method and length; by the first, second and third value; every method after it.
#[test]
fn frames_without_a_zero() {
    let (mut pair, mut rng) = (Pair::new(&Proved, &Second), Prng::new(61));
    let cells = cells();
    let names: Vec<&String> = cells.iter().map(|(name, ..)| name).collect();
    let mut table = Table::new("no place left, or one, by value and length", &names, &LENGTHS, WANTED);
    let mut by_row = by_row();
    for (name, value, left, by, next) in &cells {
        for length in LENGTHS {
            // The last value of a row is followed by none. A list fills no first value, and none is read where no place is.
            let fits = |last: usize| if next.is_some() { last > value + 1 } else { last == value + 1 };
            let able: Vec<_> = rows(length).iter().filter(|row| fits(row.values.len())).collect();
            let listed = *by == [7] && *value == 0 || *next == Some(&[7]) && *left == 0;
            if able.is_empty() || listed {
                table.never(name, length);
                continue;
            }
            for turn in 0..WANTED {
                let law = turn as u32 % 2;
                let next = next.map_or(5, |next| *rng.pick(next));
                let row = **rng.pick(&able);
                let fills = Fills { row, value: *value, by: *rng.pick(by), left: *left, next };
                let form = filled_form(length, law, fills, &mut rng).expect("a list has a value before it");
                read_whole_and_cut(&mut pair, &form, law, &mut rng);
                table.add(name, length);
                by_row.add(row_and_method(&row, fills.by), length);
            }
        }
    }
    table.close();
    by_row.close();
    say(&format!("compared: read, frames with no place left or one, whole and cut: {} calls\n", pair.calls));
    pair.close();
}
