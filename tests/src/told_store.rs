//! The calls that tell of a store, of settings and of a mending: two back ends asked the same. [`script`] reads their lines of
//! tests/vectors/told.txt.

use crate::settings::State;
use crate::{octets, Proved, Second};

/// A call with what it is given.
#[derive(Clone, Debug)]
pub enum Ask {
    Info(Vec<u8>, Vec<u32>, u32),
    At(Vec<u8>, Vec<u32>, u64),
    Totals(Vec<u8>, Vec<u32>),
    Get(State, u32),
    Kept(State),
    MendWhy(Vec<u8>, u32, u64),
}

/// The number, and the report.
#[derive(Clone, Debug, PartialEq, Eq)]
pub struct Told {
    pub ending: u32,
    pub report: Vec<u64>,
}

/// A back end that answers them.
pub trait Tells {
    fn tell(&self, ask: &Ask) -> Told;
}

impl Tells for Second {
    fn tell(&self, ask: &Ask) -> Told {
        fn told<const N: usize>((ending, report): (u32, [u64; N])) -> Told {
            Told { ending, report: report.to_vec() }
        }
        match ask {
            Ask::Info(block, table, number) => told(second::told::store_info(block, table, *number)),
            Ask::At(block, table, index) => told(second::told::store_at(block, table, *index)),
            Ask::Totals(block, table) => told(second::told::store_totals(block, table)),
            Ask::Get(state, revision) => told(second::settings::get(state, *revision)),
            Ask::Kept(state) => told((0, second::settings::kept(state))),
            Ask::MendWhy(octets, law, total) => told(second::mend::mend_why(octets, *law, *total)),
        }
    }
}

impl Tells for Proved {
    /// The report is lent with numbers of its own: all of it is written, refused or not.
    fn tell(&self, ask: &Ask) -> Told {
        fn told<const N: usize>(call: impl FnOnce(&mut [u64; N]) -> u32) -> Told {
            let mut report = [u64::MAX; N];
            let ending = call(&mut report);
            Told { ending, report: report.to_vec() }
        }
        use g7110::raw;
        match ask {
            Ask::Info(block, table, number) => told::<5>(|report| raw::store_info(block, table, *number, report)),
            Ask::At(block, table, index) => told::<6>(|report| raw::store_at(block, table, *index, report)),
            Ask::Totals(block, table) => told::<4>(|report| raw::store_totals(block, table, report)),
            Ask::Get(state, revision) => told::<4>(|report| raw::settings_get(state, *revision, report)),
            Ask::Kept(state) => told::<8>(|report| raw::settings_kept(state, report)),
            Ask::MendWhy(octets, law, total) => told::<8>(|report| raw::mend_why(octets, *law, *total, report)),
        }
    }
}

/// One line of the file.
#[derive(Clone, Debug)]
pub struct Line {
    pub name: String,
    pub ask: Ask,
    pub wanted: Told,
}

/// Refusals by name, those of these calls and of how a mending's walk stops.
const NAMES: [(&str, u32); 19] = [
    ("ok", 0),
    ("SHORT", 1),
    ("PREFIX", 2),
    ("TOOL", 3),
    ("CASE", 5),
    ("METHOD", 6),
    ("RUN", 7),
    ("PLACE", 8),
    ("ALIGN", 9),
    ("LAW", 12),
    ("LONG", 13),
    ("NUMBER", 15),
    ("ABSENT", 17),
    ("TOTAL", 22),
    ("GONE", 24),
    ("TABLE", 26),
    ("ROOM", 4),
    ("SET", 11),
    ("LENGTH", 10),
];

fn number_of(name: &str) -> Result<u32, String> {
    NAMES.iter().find(|(known, _)| *known == name).map(|(_, number)| *number).ok_or(format!("no ending {name}"))
}

/// The words of one side of a line, each asked for once.
struct Words<'a>(Vec<(&'a str, &'a str)>);

impl<'a> Words<'a> {
    fn of(side: &'a str) -> Result<Words<'a>, String> {
        let words = side.split_whitespace().map(|word| word.split_once('=').ok_or(format!("no '=' in {word}")));
        words.collect::<Result<_, _>>().map(Words)
    }

    fn take(&mut self, key: &str) -> Option<&'a str> {
        let at = self.0.iter().position(|(known, _)| *known == key)?;
        Some(self.0.remove(at).1)
    }

    fn number(&mut self, key: &str, left_out: u64) -> Result<u64, String> {
        self.take(key).map_or(Ok(left_out), |text| text.parse().map_err(|_| format!("{text} is no number")))
    }

    fn numbers(&mut self, keys: &[&str]) -> Result<Vec<u64>, String> {
        keys.iter().map(|key| self.number(key, 0)).collect()
    }

    /// `AT:N/N/..`, with a comma between.
    fn lend(&mut self, key: &str, cells: &mut [u32]) -> Result<(), String> {
        for part in self.take(key).unwrap_or("").split(',').filter(|part| !part.is_empty()) {
            let (at, numbers) = part.split_once(':').ok_or(format!("no ':' in {part}"))?;
            let at: usize = at.parse().map_err(|_| format!("{at} is no place"))?;
            for (more, number) in numbers.split('/').enumerate() {
                let cell = cells.get_mut(at + more).ok_or(format!("no number {} is there", at + more))?;
                *cell = number.parse().map_err(|_| format!("{number} is no number"))?;
            }
        }
        Ok(())
    }

    /// A block, and a table of the rows: `number/start/octets/law/samples/marks`.
    fn table(&mut self) -> Result<(Vec<u8>, Vec<u32>), String> {
        let block = vec![0xA5; self.number("size", 20)? as usize];
        let mut table = vec![0; g7110::store::cells(block.len())];
        let rows = self.take("rows").unwrap_or("").split(',').filter(|row| !row.is_empty());
        for (at, row) in rows.enumerate() {
            let row = row.split('/').map(|number| number.parse().map_err(|_| format!("{row} is no row")));
            let row = row.collect::<Result<Vec<u32>, _>>()?;
            table[1 + 3 * at..][..3].copy_from_slice(&row[..3]);
            table[98 + 3 * at..][..3].copy_from_slice(&row[3..]);
            (table[0], table[97]) = (at as u32 + 1, at as u32 + 1);
        }
        self.lend("lend", &mut table)?;
        table.truncate(table.len() - self.number("cut", 0)? as usize);
        Ok((block, table))
    }

    fn end(self) -> Result<(), String> {
        self.0.first().map_or(Ok(()), |(key, _)| Err(format!("{key} is not known")))
    }
}

/// The lines of these calls; those of the others are passed over.
pub fn script(text: &str) -> Result<Vec<Line>, String> {
    let lines = text.lines().enumerate().filter(|(_, line)| !line.trim().is_empty() && !line.starts_with('#'));
    let read = lines.map(|(at, line)| one(line).map_err(|fault| format!("line {}: {fault}", at + 1)));
    Ok(read.collect::<Result<Vec<_>, _>>()?.into_iter().flatten().collect())
}

fn one(line: &str) -> Result<Option<Line>, String> {
    let (asked, wanted) = line.split_once(" -> ").ok_or("no ' -> '")?;
    let (kind, asked) = asked.split_once(' ').ok_or("no kind")?;
    let (name, asked) = asked.trim_start().split_once(' ').unwrap_or((asked, ""));
    let (ending, wanted) = wanted.split_once(' ').unwrap_or((wanted, ""));
    if !["store-info", "store-at", "store-totals", "settings-get", "settings-kept", "mend-why"].contains(&kind) {
        return Ok(None);
    }
    let (mut given, mut want) = (Words::of(asked)?, Words::of(wanted)?);
    let mut state: State = [0; 41];
    let (ask, report) = match kind {
        "store-info" => {
            let (block, table) = given.table()?;
            let number = given.number("number", 0)? as u32;
            (Ask::Info(block, table, number), want.numbers(&["start", "octets", "law", "samples", "marks"])?)
        }
        "store-at" => {
            let (block, table) = given.table()?;
            let index = given.number("index", 0)?;
            (Ask::At(block, table, index), want.numbers(&["number", "start", "octets", "law", "samples", "marks"])?)
        }
        "store-totals" => {
            let (block, table) = given.table()?;
            (Ask::Totals(block, table), want.numbers(&["greetings", "held", "free", "gap"])?)
        }
        "settings-get" => {
            given.lend("cells", &mut state)?;
            let revision = given.number("revision", 0)? as u32;
            (Ask::Get(state, revision), want.numbers(&["law", "set", "block", "greeting"])?)
        }
        "settings-kept" => {
            given.lend("cells", &mut state)?;
            let told = want.take("kept").unwrap_or("").split(',').filter(|number| !number.is_empty());
            let told = told.map(|number| number.parse().map_err(|_| format!("{number} is no number")));
            let mut told = told.collect::<Result<Vec<u64>, _>>()?;
            told.resize(8, 0);
            (Ask::Kept(state), told)
        }
        _ => {
            let greeting = octets(given.take("octets").unwrap_or(""))?;
            let (law, total) = (given.number("law", 1)? as u32, given.number("total", 0)?);
            let mut told = want.numbers(&["octets", "frames", "kept", "filled"])?;
            told.push(number_of(want.take("stop").unwrap_or("ok"))?.into());
            told.extend(want.numbers(&["at", "tool", "bit"])?);
            (Ask::MendWhy(greeting, law, total), told)
        }
    };
    given.end()?;
    want.end()?;
    let wanted = Told { ending: number_of(ending)?, report };
    Ok(Some(Line { name: format!("{kind} {name}"), ask, wanted }))
}

/// Two back ends asked the same.
pub struct Tellers<'a> {
    back: &'a dyn Tells,
    other: &'a dyn Tells,
    pub calls: usize,
    pub differences: usize,
    shown: Vec<String>,
}

impl<'a> Tellers<'a> {
    pub fn new(back: &'a dyn Tells, other: &'a dyn Tells) -> Tellers<'a> {
        Tellers { back, other, calls: 0, differences: 0, shown: Vec::new() }
    }

    /// What the first answers; the other must answer the same.
    pub fn ask(&mut self, ask: &Ask) -> Told {
        let (told, wanted) = (self.back.tell(ask), self.other.tell(ask));
        self.calls += 1;
        if told != wanted {
            self.differences += 1;
            if self.shown.len() < 5 {
                let shown = format!("{ask:?}").chars().take(300).collect::<String>();
                self.shown.push(format!("{shown}\n  {told:?}\n  {wanted:?}"));
            }
        }
        told
    }

    /// Fails where two answers differed.
    pub fn close(&self) {
        assert!(self.differences == 0, "{} of {} differ:\n{}", self.differences, self.calls, self.shown.join("\n"));
    }
}
