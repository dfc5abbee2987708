//! The storage file of studios (document 02, R-1): two back ends asked the same, and each answer held against the frames
//! as the proved reader reads them one by one. [`script`] reads tests/vectors/file.txt.

use crate::digits::Digits;
use crate::forms::{Located, Row};
use crate::measure::numbers;
use crate::{octets, Codec, Proved, Second, ALL_TOOLS, ENDINGS, MOST};
use second::gen::{sample_of, Prng};

pub const ROOM: u32 = 4;
pub const LENGTH: u32 = 10;
pub const SET: u32 = 11;
pub const LAW: u32 = 12;
pub const LONG: u32 = 13;
pub const HEAD: u32 = 14;

/// What is added to a loss's length in a list of items.
pub const LOSS: u16 = 32_768;
/// The mark of a lost frame whose length is not known.
pub const LOST: u8 = 0x01;

/// The heading of a law's file.
pub fn heading(law: u32) -> [u8; 10] {
    *[b"#!G7110A\n\0", b"#!G7110M\n\0"][law as usize]
}

/// A file of a law.
pub fn file(law: u32, body: &[u8]) -> Vec<u8> {
    [&heading(law), body].concat()
}

/// Whether samples are those of an erasure frame.
pub fn erased(samples: &[u8], law: u32) -> bool {
    let numbers = numbers(samples, law);
    !numbers.is_empty() && [1, -2].iter().any(|second| numbers.iter().all(|number| number == second))
}

/// What a reading reports.
#[derive(Clone, Copy, Debug, Default, PartialEq, Eq)]
pub struct Read {
    pub ending: u32,
    pub law: u32,
    pub items: usize,
    pub octets: usize,
    pub samples: usize,
    pub tool: u32,
    pub bit: usize,
}

/// What a writing reports.
#[derive(Clone, Copy, Debug, PartialEq, Eq)]
pub struct Write {
    pub ending: u32,
    pub octets: usize,
}

/// A back end that reads and writes files.
pub trait Files {
    fn read_file(&self, octets: &[u8], set: u32, out: &mut [u8], items: &mut [u16]) -> Read;
    fn write_file(&self, samples: &[u8], items: &[u16], law: u32, set: u32, out: &mut [u8]) -> Write;
}

impl Files for Second {
    fn read_file(&self, octets: &[u8], set: u32, out: &mut [u8], items: &mut [u16]) -> Read {
        let got = second::recording::read_file(octets, set, out, items);
        Read {
            ending: got.ending,
            law: got.law,
            items: got.items,
            octets: got.octets,
            samples: got.samples,
            tool: got.tool,
            bit: got.bit,
        }
    }

    fn write_file(&self, samples: &[u8], items: &[u16], law: u32, set: u32, out: &mut [u8]) -> Write {
        match second::recording::write_file(samples, items, law, set, out) {
            Ok(octets) => Write { ending: 0, octets },
            Err(ending) => Write { ending, octets: 0 },
        }
    }
}

impl Files for Proved {
    fn read_file(&self, octets: &[u8], set: u32, out: &mut [u8], items: &mut [u16]) -> Read {
        let mut report = [u64::MAX; 6];
        let ending = g7110::raw::file_read(octets, set, out, items, &mut report);
        let [law, items, octets, samples, tool, bit] = report.map(|number| number as usize);
        Read { ending, law: law as u32, items, octets, samples, tool: tool as u32, bit }
    }

    fn write_file(&self, samples: &[u8], items: &[u16], law: u32, set: u32, out: &mut [u8]) -> Write {
        let mut report = [u64::MAX];
        let ending = g7110::raw::file_write(samples, items, law, set, out, &mut report);
        Write { ending, octets: report[0] as usize }
    }
}

/// Octets and items before and after what is lent. They belong to the caller.
const MARGIN: usize = 32;
/// What lies there, and in all that is lent, in turn.
const FILLS: [u8; 2] = [0xA7, 0x58];
/// Differences shown at most; they are all counted.
const SHOWN: usize = 20;
/// Octets of an input shown at most.
const MOST_SHOWN: usize = 300;

fn hex(octets: &[u8]) -> String {
    let shown: String = octets.iter().take(MOST_SHOWN).map(|octet| format!("{octet:02X}")).collect();
    format!("{shown} ({} octets)", octets.len())
}

/// The two back ends, what the last call left, and what differed.
pub struct Filed<'a> {
    one: &'a dyn Files,
    other: &'a dyn Files,
    outs: [Vec<u8>; 2],
    lists: [Vec<u16>; 2],
    /// Samples or octets that the last call left.
    pub out: Vec<u8>,
    pub items: Vec<u16>,
    pub calls: usize,
    pub differences: usize,
    shown: Vec<String>,
}

impl<'a> Filed<'a> {
    pub fn new(one: &'a dyn Files, other: &'a dyn Files) -> Filed<'a> {
        Filed {
            one,
            other,
            outs: Default::default(),
            lists: Default::default(),
            out: Vec::new(),
            items: Vec::new(),
            calls: 0,
            differences: 0,
            shown: Vec::new(),
        }
    }

    /// Reads with both, in room for so many samples and items, and gives the second one's report.
    pub fn read(&mut self, octets: &[u8], set: u32, room: usize, places: usize) -> Read {
        let fill = FILLS[self.calls % 2];
        let mark = u16::from(fill) * 0x0101;
        self.calls += 1;
        let [got, wanted] = [0, 1].map(|at| {
            self.outs[at].clear();
            self.outs[at].resize(MARGIN + room + MARGIN, fill);
            self.lists[at].clear();
            self.lists[at].resize(MARGIN + places + MARGIN, mark);
            let (out, list) = (&mut self.outs[at][MARGIN..MARGIN + room], &mut self.lists[at][MARGIN..MARGIN + places]);
            [self.one, self.other][at].read_file(octets, set, out, list)
        });
        let (samples, items) = (wanted.samples.min(room), wanted.items.min(places));
        let (out, list) = (&self.outs[1], &self.lists[1]);
        let outside = out[..MARGIN].iter().chain(&out[MARGIN + samples..]).any(|octet| *octet != fill)
            || list[..MARGIN].iter().chain(&list[MARGIN + items..]).any(|item| *item != mark);
        self.out = out[MARGIN..MARGIN + samples].to_vec();
        self.items = list[MARGIN..MARGIN + items].to_vec();
        let words = || format!("read {} set={set} room={room} places={places}", hex(octets));
        if got != wanted {
            self.differ(&words(), &format!("{got:?}, wanted {wanted:?}"));
        } else if self.outs[0] != self.outs[1] || self.lists[0] != self.lists[1] {
            self.differ(&words(), "the lent samples or items differ");
        } else if outside {
            self.differ(&words(), "both wrote past their report");
        }
        wanted
    }

    /// Writes with both, and gives the second one's report.
    pub fn write(&mut self, samples: &[u8], items: &[u16], law: u32, set: u32, room: usize) -> Write {
        let fill = FILLS[self.calls % 2];
        self.calls += 1;
        let [got, wanted] = [0, 1].map(|at| {
            self.outs[at].clear();
            self.outs[at].resize(MARGIN + room + MARGIN, fill);
            [self.one, self.other][at].write_file(samples, items, law, set, &mut self.outs[at][MARGIN..MARGIN + room])
        });
        let written = wanted.octets.min(room);
        let out = &self.outs[1];
        let outside = out[..MARGIN].iter().chain(&out[MARGIN + written..]).any(|octet| *octet != fill);
        self.out = out[MARGIN..MARGIN + written].to_vec();
        let words = || format!("write {} items={items:?} law={law} set={set} room={room}", hex(samples));
        if got != wanted {
            self.differ(&words(), &format!("{got:?}, wanted {wanted:?}"));
        } else if self.outs[0] != self.outs[1] {
            self.differ(&words(), "the lent octets differ");
        } else if outside || (wanted.ending != 0 && wanted.octets != 0) {
            self.differ(&words(), "both wrote past their report, or reported something and refused");
        }
        wanted
    }

    /// Reads, and holds the answer against the frames read one by one.
    pub fn held(&mut self, octets: &[u8], set: u32, room: usize, places: usize) -> Read {
        let got = self.read(octets, set, room, places);
        let (wanted, items, samples) = expected(octets, set, room, places);
        if (got, &self.items, &self.out) != (wanted, &items, &samples) {
            let words = format!("read {} set={set} room={room} places={places}", hex(octets));
            self.differ(&words, &format!("{got:?}, and frame by frame it is {wanted:?}, {items:?}"));
        }
        got
    }

    /// Writes a list, and reads it back: the same list, with frames of 0++ or 0-- as losses. Gives the file.
    pub fn round(&mut self, samples: &[u8], items: &[u16], law: u32, set: u32) -> Vec<u8> {
        let room = 10 + samples.len() + 321 * items.len();
        let words = format!("write {} items={items:?} law={law} set={set}", hex(samples));
        let wrote = self.write(samples, items, law, set, room);
        let file = std::mem::take(&mut self.out);
        let written = written_by_frames(samples, items, law, set);
        if wrote.ending != 0 || file != written {
            self.differ(&words, &format!("{wrote:?}, and frame by frame it is {}", hex(&written)));
            return file;
        }
        let (wanted, sound) = as_read(samples, items, law);
        let read = self.held(&file, set, samples.len() + 320, items.len());
        if read.ending != 0 || read.law != law || self.items != wanted || self.out != sound {
            self.differ(&words, &format!("read back as {read:?}, {:?}", self.items));
        }
        file
    }

    pub fn differ(&mut self, words: &str, fault: &str) {
        self.differences += 1;
        if self.shown.len() < SHOWN {
            self.shown.push(format!("{words}: {fault}"));
        }
    }

    pub fn shown(&self) -> &[String] {
        &self.shown
    }

    /// Fails if anything differed.
    pub fn close(&self) {
        assert!(self.differences == 0, "{} differences\n{}", self.differences, self.shown.join("\n"));
    }
}

/// What a file is, by the proved reader's single frames: report, items and samples.
pub fn expected(octets: &[u8], set: u32, room: usize, places: usize) -> (Read, Vec<u16>, Vec<u8>) {
    let (mut items, mut sound, mut at) = (Vec::new(), Vec::new(), 0);
    let none = |ending: u32, law: u32| (Read { ending, law, ..Read::default() }, Vec::new(), Vec::new());
    if set > ALL_TOOLS {
        return none(SET, 0);
    }
    let Some(law) = (0..2).find(|law| octets.starts_with(&heading(*law))) else { return none(HEAD, 0) };
    let body = &octets[10..];
    if body.len() > MOST {
        return none(LONG, law);
    }
    let (mut ending, mut tool, mut bit) = (0, 0, 0);
    while at < body.len() {
        if items.len() == places {
            ending = ROOM;
            break;
        }
        if body[at] == LOST {
            items.push(LOSS);
            at += 1;
            continue;
        }
        let mut frame = [0; 320];
        let read = Proved.read(&body[at..], law, set, &mut frame[..(room - sound.len()).min(320)]);
        if read.ending != 0 {
            (ending, tool, bit) = (read.ending, read.tool, read.bit);
            break;
        }
        let frame = &frame[..read.samples];
        if erased(frame, law) {
            items.push(LOSS + frame.len() as u16);
        } else {
            items.push(frame.len() as u16);
            sound.extend(frame);
        }
        at += read.octets;
    }
    (Read { ending, law, items: items.len(), octets: at, samples: sound.len(), tool, bit }, items, sound)
}

/// A file by the proved writer's single frames.
fn written_by_frames(samples: &[u8], items: &[u16], law: u32, set: u32) -> Vec<u8> {
    let mut file = heading(law).to_vec();
    let mut at = 0;
    for item in items {
        let length = usize::from(item % LOSS);
        let frame = match item {
            &LOSS => {
                file.push(LOST);
                continue;
            }
            item if *item > LOSS => vec![sample_of(1, law); length],
            _ => {
                at += length;
                samples[at - length..at].to_vec()
            }
        };
        let mut form = [0; 321];
        let wrote = Proved.write(&frame, law, set, &mut form);
        file.extend(&form[..wrote.octets]);
    }
    file
}

/// The list as it is read back, and the samples of its frames: frames of 0++ or 0-- alone are losses.
pub fn as_read(samples: &[u8], items: &[u16], law: u32) -> (Vec<u16>, Vec<u8>) {
    let (mut list, mut sound, mut at) = (Vec::new(), Vec::new(), 0);
    for item in items {
        if *item >= LOSS {
            list.push(*item);
            continue;
        }
        let frame = &samples[at..at + usize::from(*item)];
        at += frame.len();
        if erased(frame, law) {
            list.push(LOSS + item);
        } else {
            list.push(*item);
            sound.extend(frame);
        }
    }
    (list, sound)
}

/// The first octet of tool 1, by length.
fn plain(length: usize) -> u8 {
    match length {
        40 => 0x40,
        80 => 0x80,
        160 => 0xC0,
        240 => 0x20,
        _ => 0x30,
    }
}

/// The forms that can hold an erasure frame: tools 1 and 4, the rows of tool 7, and those of tool 11.
#[derive(Clone, Copy, Debug)]
pub enum Holds {
    Plain,
    Constant,
    Row(Row),
    Digits(&'static Digits),
}

impl Holds {
    pub fn name(self, number: i32) -> String {
        let what = if number == 1 { "0++" } else { "0--" };
        match self {
            Holds::Plain => format!("{what} by tool 1"),
            Holds::Constant => format!("{what} by tool 4"),
            Holds::Row(row) => format!("{what} by tool 7, case {} flag {}", row.case, row.flag),
            Holds::Digits(row) => format!("{what} by tool 11, {}", row.name()),
        }
    }

    /// A form of so many samples of this number, but for those that another number takes; methods are drawn.
    pub fn form(self, number: i32, length: usize, law: u32, other: Option<(usize, i32)>, rng: &mut Prng) -> Vec<u8> {
        let mut numbers = vec![number; length];
        if let Some((at, other)) = other {
            numbers[at] = other;
        }
        match self {
            Holds::Plain => {
                let samples = numbers.iter().map(|number| sample_of(*number, law));
                [plain(length)].into_iter().chain(samples).collect()
            }
            Holds::Constant => vec![plain(length) + 3, sample_of(number, law)],
            Holds::Digits(row) => row.form(&numbers, law).expect("the length has the row").octets(),
            Holds::Row(row) => {
                let mut located = Located::start(length, row.case, row.flag);
                for (at, value) in row.values.iter().enumerate() {
                    let flags: Vec<bool> = located.empty.iter().map(|place| numbers[*place] == *value).collect();
                    let count = flags.iter().filter(|flag| **flag).count();
                    let method = match count {
                        0 => rng.below(6),
                        1..=4 if rng.flip() => 7,
                        _ => rng.below(5),
                    };
                    located.put(at, *value, method, &flags);
                }
                located.bits.octets()
            }
        }
    }
}

/// A line of tests/vectors/file.txt.
#[derive(Clone, Debug)]
pub enum Line {
    Read {
        name: String,
        octets: Vec<u8>,
        set: u32,
        room: usize,
        places: usize,
        wanted: Read,
        items: Vec<u16>,
        out: Vec<u8>,
    },
    Write {
        name: String,
        samples: Vec<u8>,
        items: Vec<u16>,
        law: u32,
        set: u32,
        room: usize,
        wanted: Write,
        out: Vec<u8>,
    },
}

/// The lines of a file of vectors; its head has their form.
pub fn script(text: &str) -> Result<Vec<Line>, String> {
    let lines = text.lines().filter(|line| !line.is_empty() && !line.starts_with('#'));
    lines.map(|line| read_line(line).ok_or_else(|| format!("not understood: {line}"))).collect()
}

/// The words of one side of a line, each taken once.
struct Words<'a>(Vec<(&'a str, &'a str)>);

impl<'a> Words<'a> {
    fn of(text: &'a [&'a str]) -> Option<Words<'a>> {
        text.iter().map(|word| word.split_once('=')).collect::<Option<Vec<_>>>().map(Words)
    }

    fn take(&mut self, key: &str) -> Option<&'a str> {
        let at = self.0.iter().position(|(known, _)| *known == key)?;
        Some(self.0.remove(at).1)
    }

    fn number(&mut self, key: &str, otherwise: usize) -> Option<usize> {
        self.take(key).map_or(Some(otherwise), |value| value.parse().ok())
    }

    /// Octets; `A:` and `M:` before them are the headings.
    fn octets(&mut self, key: &str) -> Option<Vec<u8>> {
        match self.take(key).unwrap_or("") {
            word if word.starts_with("A:") => Some(file(0, &octets(&word[2..]).ok()?)),
            word if word.starts_with("M:") => Some(file(1, &octets(&word[2..]).ok()?)),
            word => octets(word).ok(),
        }
    }

    /// Items: lengths, `L` and a length, `L` alone; `*` and a count behind one repeat it.
    fn items(&mut self) -> Option<Vec<u16>> {
        let item = |word: &str| match word.strip_prefix('L') {
            Some("") => Some(LOSS),
            Some(length) => length.parse::<u16>().ok()?.checked_add(LOSS),
            None => word.parse().ok(),
        };
        let items = |word: &str| match word.split_once('*') {
            Some((one, times)) => Some(vec![item(one)?; times.parse().ok()?]),
            None => Some(vec![item(word)?]),
        };
        match self.take("items") {
            None | Some("") => Some(Vec::new()),
            Some(list) => list.split(',').map(items).collect::<Option<Vec<_>>>().map(|parts| parts.concat()),
        }
    }
}

fn read_line(line: &str) -> Option<Line> {
    let (given, wanted) = line.split_once(" -> ")?;
    let (given, wanted): (Vec<&str>, Vec<&str>) =
        (given.split_whitespace().collect(), wanted.split_whitespace().collect());
    let (kind, name) = (*given.first()?, given.get(1)?.to_string());
    let known = ENDINGS.iter().chain(&["HEAD"]).position(|known| known == wanted.first().unwrap_or(&""));
    let ending = known? as u32;
    let (mut given, mut wanted) = (Words::of(&given[2..])?, Words::of(&wanted[1..])?);
    let made = match kind {
        "read" => {
            let (items, out) = (wanted.items()?, wanted.octets("samples")?);
            let read = Read {
                ending,
                law: wanted.number("law", 0)? as u32,
                items: items.len(),
                octets: wanted.number("used", 0)?,
                samples: out.len(),
                tool: wanted.number("tool", 0)? as u32,
                bit: wanted.number("bit", 0)?,
            };
            let (set, room, places) =
                (given.number("set", 127)?, given.number("room", 4_000)?, given.number("places", 70_000)?);
            Line::Read {
                name,
                octets: given.octets("octets")?,
                set: set as u32,
                room,
                places,
                wanted: read,
                items,
                out,
            }
        }
        "write" => {
            let (samples, items, out) = (given.octets("samples")?, given.items()?, wanted.octets("octets")?);
            let (law, set, room) = (given.number("law", 1)?, given.number("set", 127)?, given.number("room", 70_000)?);
            let wrote = Write { ending, octets: out.len() };
            Line::Write { name, samples, items, law: law as u32, set: set as u32, room, wanted: wrote, out }
        }
        _ => return None,
    };
    (given.0.is_empty() && wanted.0.is_empty()).then_some(made)
}
