//! Runs every line of `tests/vectors/told.txt` on this program. Its head says
//! what a line is.

use second::masters::{from_master, to_master};
use second::mend::mend_why;
use second::pieces::{file_head, file_next};
use second::recording::heading;
use second::settings::{get, kept, State, FRESH};
use second::table::cells;
use second::told::{store_at, store_info, store_totals};
use second::{check, head};
use std::collections::{BTreeMap, BTreeSet};

/// The refusals by their numbers; 0 is none.
const NAMES: [&str; 27] = [
    "ok", "SHORT", "PREFIX", "TOOL", "ROOM", "CASE", "METHOD", "RUN", "PLACE", "ALIGN", "LENGTH", "SET",
    "LAW", "LONG", "HEAD", "NUMBER", "TAKEN", "ABSENT", "BAD", "FULL", "NOROOM", "BEYOND", "TOTAL",
    "LINE", "GONE", "SPENT", "TABLE",
];

fn number_of(name: &str) -> u32 {
    NAMES.iter().position(|&known| known == name).expect(name) as u32
}

/// The words of one side of a line; each must be asked for.
struct Words<'a> {
    words: BTreeMap<&'a str, &'a str>,
}

impl<'a> Words<'a> {
    fn new(words: impl Iterator<Item = &'a str>) -> Words<'a> {
        let mut all = BTreeMap::new();
        for word in words {
            let (key, value) = word.split_once('=').expect(word);
            assert!(all.insert(key, value).is_none(), "twice: {word}");
        }
        Words { words: all }
    }

    fn text(&mut self, key: &str) -> &'a str {
        self.words.remove(key).unwrap_or("")
    }

    fn or(&mut self, key: &str, left_out: u64) -> u64 {
        self.words.remove(key).map_or(left_out, |value| value.parse().expect(value))
    }

    fn small(&mut self, key: &str, left_out: u32) -> u32 {
        u32::try_from(self.or(key, left_out.into())).unwrap()
    }

    fn numbers<const N: usize>(&mut self, keys: [&str; N]) -> [u64; N] {
        keys.map(|key| self.or(key, 0))
    }

    fn octets(&mut self, key: &str) -> Vec<u8> {
        let text = self.text(key);
        let (mut octets, list) = match (text.strip_prefix("A:"), text.strip_prefix("M:")) {
            (Some(list), _) => (heading(0), list),
            (_, Some(list)) => (heading(1), list),
            _ => (vec![], text),
        };
        let pairs = |group: &str| -> Vec<u8> {
            assert_eq!(group.len() % 2, 0, "{group}");
            let pair = |at: usize| u8::from_str_radix(&group[2 * at..2 * at + 2], 16).expect(group);
            (0..group.len() / 2).map(pair).collect()
        };
        octets.extend(list_of(list, &pairs));
        octets
    }

    fn masters(&mut self, key: &str) -> Vec<i16> {
        list_of(self.text(key), &|number: &str| vec![number.parse().expect(number)])
    }

    /// `AT:N/N/..`, with a comma between.
    fn lend(&mut self, key: &str, cells: &mut [u32]) {
        for part in self.text(key).split(',').filter(|part| !part.is_empty()) {
            let (at, numbers) = part.split_once(':').expect(part);
            let at: usize = at.parse().unwrap();
            for (cell, number) in cells[at..].iter_mut().zip(numbers.split('/')) {
                *cell = number.parse().expect(number);
            }
        }
    }

    fn done(self) {
        assert!(self.words.is_empty(), "not known: {:?}", self.words);
    }
}

/// Parts with a comma between, each with `*N` behind it or not; a part may be a
/// list in brackets.
fn list_of<T: Clone>(text: &str, group: &dyn Fn(&str) -> Vec<T>) -> Vec<T> {
    let mut all = vec![];
    let mut rest = text;
    while !rest.is_empty() {
        let bracket = rest.strip_prefix('(').map(|inner| inner.split_once(')').unwrap());
        let (made, behind) = match bracket {
            Some((inner, behind)) => (list_of(inner, group), behind),
            None => {
                let end = rest.find([',', '*']).unwrap_or(rest.len());
                (group(&rest[..end]), &rest[end..])
            }
        };
        let end = behind.find(',').unwrap_or(behind.len());
        let times = behind[..end].strip_prefix('*').map_or(1, |digits| digits.parse().unwrap());
        all.extend(vec![made; times].concat());
        rest = behind[end..].strip_prefix(',').unwrap_or("");
    }
    all
}

/// A table of the rows, for a block of that many octets.
fn table_of(given: &mut Words) -> (Vec<u8>, Vec<u32>) {
    let block = vec![0xEE; given.or("size", 20) as usize];
    let mut table = vec![0; cells(block.len() as u64) as usize];
    let rows = given.text("rows").split(',').filter(|row| !row.is_empty());
    for (at, row) in rows.enumerate() {
        let row: Vec<u32> = row.split('/').map(|number| number.parse().unwrap()).collect();
        table[1 + 3 * at..][..3].copy_from_slice(&row[..3]);
        table[98 + 3 * at..][..3].copy_from_slice(&row[3..]);
        (table[0], table[97]) = (at as u32 + 1, at as u32 + 1);
    }
    given.lend("lend", &mut table);
    table.truncate(table.len() - given.or("cut", 0) as usize);
    (block, table)
}

/// The answer must be the wanted one, zeros and all.
fn same<const N: usize>(told: (u32, [u64; N]), ending: u32, wanted: [u64; N]) {
    assert_eq!((NAMES[told.0 as usize], told.1), (NAMES[ending as usize], wanted));
}

/// A call on output of two kinds: what is wanted at its start, all else as
/// lent.
fn on_output<T: Copy + PartialEq + std::fmt::Debug>(
    room: u64,
    fills: [T; 2],
    wanted: &[T],
    call: impl Fn(&mut [T]),
) {
    for fill in fills {
        let mut out = vec![fill; room as usize];
        call(&mut out);
        assert_eq!(&out[..wanted.len()], wanted);
        assert!(out[wanted.len()..].iter().all(|&left| left == fill));
    }
}

fn run(kind: &str, given: &mut Words, ending: u32, wanted: &mut Words) {
    match kind {
        "check" => {
            let (octets, law, set) =
                (given.octets("octets"), given.small("law", 1), given.small("set", 127));
            let report = wanted.numbers(["frames", "used", "samples", "tool", "bit"]);
            same(check(&octets, law, set), ending, report);
        }
        "head" => {
            let (octets, set) = (given.octets("octets"), given.small("set", 127));
            same(head(&octets, set), ending, wanted.numbers(["tool", "samples"]));
        }
        "file-head" => {
            let octets = given.octets("octets");
            same(file_head(&octets), ending, wanted.numbers(["law", "octets"]));
        }
        "file-next" => {
            let (octets, at) = (given.octets("octets"), given.or("at", 0));
            let (law, set) = (given.small("law", 1), given.small("set", 127));
            let report = wanted.numbers(["kind", "samples", "used", "tool", "bit", "next"]);
            on_output(given.or("room", 320), [0xA7, 0x58], &wanted.octets("out"), |out| {
                same(file_next(&octets, at, law, set, out), ending, report);
            });
        }
        "store-info" => {
            let ((block, table), number) = (table_of(given), given.small("number", 0));
            let report = wanted.numbers(["start", "octets", "law", "samples", "marks"]);
            same(store_info(&block, &table, number), ending, report);
        }
        "store-at" => {
            let ((block, table), index) = (table_of(given), given.or("index", 0));
            let report = wanted.numbers(["number", "start", "octets", "law", "samples", "marks"]);
            same(store_at(&block, &table, index), ending, report);
        }
        "store-totals" => {
            let (block, table) = table_of(given);
            let report = wanted.numbers(["greetings", "held", "free", "gap"]);
            same(store_totals(&block, &table), ending, report);
        }
        "settings-get" | "settings-kept" => {
            let mut state: State = FRESH;
            given.lend("cells", &mut state);
            if kind == "settings-get" {
                let report = wanted.numbers(["law", "set", "block", "greeting"]);
                same(get(&state, given.small("revision", 0)), ending, report);
            } else {
                let mut numbers = list_of(wanted.text("kept"), &|number| vec![number.parse().unwrap()]);
                numbers.resize(8, 0u64);
                assert_eq!((0, kept(&state).to_vec()), (ending, numbers));
            }
        }
        "mend-why" => {
            let (octets, law) = (given.octets("octets"), given.small("law", 1));
            let stop = match wanted.text("stop") {
                "" => 0,
                name => number_of(name).into(),
            };
            let [result, frames, held, filled] = wanted.numbers(["octets", "frames", "kept", "filled"]);
            let [at, tool, bit] = wanted.numbers(["at", "tool", "bit"]);
            let report = [result, frames, held, filled, stop, at, tool, bit];
            same(mend_why(&octets, law, given.or("total", 0)), ending, report);
        }
        "to-master" => {
            let (samples, law) = (given.octets("samples"), given.small("law", 1));
            on_output(given.or("room", 320), [77, -1], &wanted.masters("master"), |out| {
                assert_eq!(to_master(&samples, law, out), ending);
            });
        }
        "from-master" => {
            let (masters, law) = (given.masters("master"), given.small("law", 1));
            on_output(given.or("room", 320), [0xA7, 0x58], &wanted.octets("samples"), |out| {
                assert_eq!(from_master(&masters, law, out), ending);
            });
        }
        _ => panic!("not known: {kind}"),
    }
}

#[test]
fn every_line() {
    let path = concat!(env!("CARGO_MANIFEST_DIR"), "/../tests/vectors/told.txt");
    let text = std::fs::read_to_string(path).unwrap();
    let (mut names, mut by_kind) = (BTreeSet::new(), BTreeMap::new());
    for line in text.lines().filter(|line| !line.is_empty() && !line.starts_with('#')) {
        println!("{line}");
        let (left, right) = line.split_once(" -> ").unwrap();
        let mut left = left.split_whitespace();
        let (kind, name) = (left.next().unwrap(), left.next().unwrap());
        assert!(names.insert((kind, name)), "twice");
        let mut right = right.split_whitespace();
        let ending = number_of(right.next().unwrap());
        let (mut given, mut wanted) = (Words::new(left), Words::new(right));
        run(kind, &mut given, ending, &mut wanted);
        given.done();
        wanted.done();
        *by_kind.entry(kind).or_insert(0) += 1;
    }
    assert_eq!(by_kind.len(), 12);
    println!("compared: {} lines, {by_kind:?}", names.len());
}
