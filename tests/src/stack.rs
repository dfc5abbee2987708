//! The stack that a call may use, as a bound: read from the archive's own instructions, as objdump prints them. Of each function the
//! depth below its return address is followed over every path; with what it calls that gives a number, since no function comes back
//! to itself and none is called by a pointer. Each of that is looked for here, and whatever is not understood is a fault.

use std::collections::{BTreeMap, BTreeSet};

/// What the C library's own functions are taken to use, their return address left out. They are memcpy and memset; in glibc they keep
/// no more than a few registers. Not in it: what a lazy linker uses once, at the first call of a name.
pub const LIBRARY: u64 = 256;
const LIBRARY_CALLS: [&str; 2] = ["memcpy", "memset"];

/// An instruction: its place in its function, its words, and what a relocation puts into it: a name, and what is added.
struct Line {
    at: u64,
    words: String,
    named: Option<(String, i64)>,
}

/// A function's own greatest depth, and what it calls at which depth. A jump to another function is a call whose return address is
/// the function's own.
pub struct Frame {
    pub depth: u64,
    pub calls: Vec<(u64, String)>,
}

/// The functions of an archive by name, from `objdump -dr --no-show-raw-insn` and, for the tables that a jump goes by, from the
/// relocations of its data, `objdump -r`.
pub fn frames(code: &str, relocations: &str) -> BTreeMap<String, Frame> {
    let tables = tables(relocations);
    let of = |(name, lines): (String, Vec<Line>)| {
        let aims = aims(&name, &lines, tables.get(&name).map_or(&[], Vec::as_slice));
        let frame = Path { name: &name, lines: &lines, depths: BTreeMap::new(), jumped: BTreeSet::new() }.follow(&aims);
        (name, frame)
    };
    functions(code).into_iter().map(of).collect()
}

/// The octets below the caller's stack that a call reaches at most, its return address too.
pub fn bound(frames: &BTreeMap<String, Frame>, name: &str) -> u64 {
    fn below(frames: &BTreeMap<String, Frame>, name: &str, above: &mut Vec<String>) -> u64 {
        if LIBRARY_CALLS.contains(&name) {
            return LIBRARY;
        }
        assert!(!above.iter().any(|one| one == name), "{name} comes back to itself, by {above:?}");
        let frame = frames.get(name).unwrap_or_else(|| panic!("{name} is called, and is not in the archive"));
        above.push(name.to_string());
        let deepest = frame.calls.iter().map(|(at, called)| at + below(frames, called, above)).max();
        above.pop();
        frame.depth.max(deepest.unwrap_or(0))
    }
    8 + below(frames, name, &mut Vec::new())
}

/// `0000000000000000 <name>:`, then lines `  1a:	sub    $0x68,%rsp`, and below one `	41: R_X86_64_PLT32	memset-0x4`.
fn functions(code: &str) -> BTreeMap<String, Vec<Line>> {
    let mut functions: BTreeMap<String, Vec<Line>> = BTreeMap::new();
    let mut name = String::new();
    for line in code.lines() {
        if let Some((_, named)) = line.strip_suffix(">:").and_then(|line| line.split_once(" <")) {
            name = named.to_string();
            assert!(functions.insert(name.clone(), Vec::new()).is_none(), "{name} is there twice");
            continue;
        }
        let Some((at, words)) = line.trim_start().split_once(':') else { continue };
        let (Ok(at), words) = (u64::from_str_radix(at, 16), words.trim()) else { continue };
        let lines = functions.get_mut(&name).expect("an instruction stands in a function");
        let Some((kind, value)) = words.strip_prefix("R_X86_64_").and_then(|words| words.split_once('\t')) else {
            lines.push(Line { at, words: words.split_whitespace().collect::<Vec<_>>().join(" "), named: None });
            continue;
        };
        let (target, added) = value_of(value);
        // PLT32 is a call or a jump. Anything else may name data alone, or the address of a function would be taken.
        let data = [".LCPI", ".rodata", ".Lswitch.table.", ".Lstatic."].iter().any(|start| target.starts_with(start));
        assert!(if kind == "PLT32" { !data } else { kind == "PC32" && data }, "{name}: {words}");
        lines.last_mut().expect("it belongs to an instruction").named = Some((target, added));
    }
    functions
}

/// `memset-0x4`, `.text.NAME+0x1f`: a name, without what stands before a section's function, and what is added.
fn value_of(value: &str) -> (String, i64) {
    let cut = value.rfind("+0x").or(value.rfind("-0x")).unwrap_or(value.len());
    let (name, added) = value.split_at(cut);
    let number = added.get(3..).map_or(0, |digits| i64::from_str_radix(digits, 16).expect("a number"));
    (name.strip_prefix(".text.").unwrap_or(name).to_string(), if added.starts_with('-') { -number } else { number })
}

/// Where the entries of a function's tables stand in its data, and what each adds. Nothing else in the data may name code.
fn tables(relocations: &str) -> BTreeMap<String, Vec<(i64, i64)>> {
    let mut tables: BTreeMap<String, Vec<(i64, i64)>> = BTreeMap::new();
    let mut section = "";
    for line in relocations.lines() {
        if let Some(named) = line.strip_prefix("RELOCATION RECORDS FOR [") {
            section = named.trim_end_matches("]:");
        }
        let words: Vec<&str> = line.split_whitespace().collect();
        let [at, kind, value] = words[..] else { continue };
        if !kind.starts_with("R_X86_64_") || section.starts_with(".text") || section == ".eh_frame" {
            continue;
        }
        let (target, added) = value_of(value);
        let own = section.strip_prefix(".rodata.").filter(|own| *own == target && kind == "R_X86_64_PC32");
        let own = own.unwrap_or_else(|| panic!("{section} names {value}"));
        let at = i64::from_str_radix(at, 16).expect("a place");
        tables.entry(own.to_string()).or_default().push((at, added));
    }
    tables
}

/// The places of a function that its tables name. An entry counts from the start of its table, which is the last that the code names
/// (4 less, since that counts from the instruction's end) at or before the entry.
fn aims(name: &str, lines: &[Line], entries: &[(i64, i64)]) -> BTreeSet<u64> {
    let own = format!(".rodata.{name}");
    let named = lines.iter().filter_map(|line| line.named.as_ref()).filter(|(target, _)| *target == own);
    let starts: BTreeSet<i64> = named.map(|(_, added)| added + 4).collect();
    let aim = |(at, added): &(i64, i64)| {
        let start = starts.range(..=at).next_back().unwrap_or_else(|| panic!("{name}: no table has its entry {at}"));
        u64::try_from(added - (at - start)).expect("a place")
    };
    entries.iter().map(aim).collect()
}

/// A function that is followed from its first instruction: the depth at each one that was met, and the depths of jumps by a table.
struct Path<'a> {
    name: &'a str,
    lines: &'a [Line],
    depths: BTreeMap<usize, u64>,
    jumped: BTreeSet<u64>,
}

impl Path<'_> {
    fn follow(mut self, aims: &BTreeSet<u64>) -> Frame {
        let mut calls = Vec::new();
        let mut work = vec![(0, 0)];
        while !work.is_empty() {
            while let Some((index, depth)) = work.pop() {
                match self.depths.insert(index, depth) {
                    Some(other) => assert_eq!(other, depth, "{}: two depths at instruction {index}", self.name),
                    None => work.extend(self.step(index, depth, &mut calls)),
                }
            }
            // A jump by a register goes where the function's own tables say; all such jumps are at one depth.
            assert!(
                self.jumped.len() <= 1 && self.jumped.is_empty() == aims.is_empty(),
                "{}: {:?}",
                self.name,
                self.jumped
            );
            let aimed = self.jumped.iter().flat_map(|depth| aims.iter().map(|at| (self.index(*at), *depth)));
            work = aimed.filter(|(index, depth)| self.depths.get(index) != Some(depth)).collect();
        }
        for (index, line) in self.lines.iter().enumerate().filter(|(index, _)| !self.depths.contains_key(index)) {
            let filling = line.words.contains("nop") || line.words.starts_with("xchg %ax,%ax") || line.words == "int3";
            assert!(filling, "{}: no path leads to instruction {index}, {}", self.name, line.words);
        }
        Frame { depth: self.depths.values().copied().max().unwrap_or(0), calls }
    }

    /// The instruction at a place.
    fn index(&self, at: u64) -> usize {
        self.lines
            .binary_search_by_key(&at, |line| line.at)
            .unwrap_or_else(|_| panic!("{}: nothing stands at {at:x}", self.name))
    }

    /// What follows an instruction, with the depth there.
    fn step(&mut self, index: usize, depth: u64, calls: &mut Vec<(u64, String)>) -> Vec<(usize, u64)> {
        let line = self.lines.get(index).unwrap_or_else(|| panic!("{} runs past its end", self.name));
        let (what, rest) = line.words.split_once(' ').unwrap_or((&line.words, ""));
        let after = self.moved(&line.words, what, rest, depth);
        let on = (index + 1, after);
        let named = line.named.as_ref().map(|(name, _)| name.clone());
        match (what, named) {
            ("ret", _) => {
                assert_eq!(depth, 0, "{} returns at another depth", self.name);
                vec![]
            }
            ("ud2", _) => vec![],
            ("call", Some(called)) => {
                calls.push((depth + 8, called));
                vec![on]
            }
            ("call", None) => panic!("{}: a call by a pointer: {}", self.name, line.words),
            ("jmp", None) if rest.starts_with("*%") => {
                self.jumped.insert(depth);
                vec![]
            }
            ("jmp", Some(called)) => {
                calls.push((depth, called));
                vec![]
            }
            ("jmp", None) => vec![(self.index(place(rest)), after)],
            (jump, Some(called)) if jump.starts_with('j') => {
                calls.push((depth, called));
                vec![on]
            }
            (jump, None) if jump.starts_with('j') => vec![on, (self.index(place(rest)), after)],
            _ => vec![on],
        }
    }

    /// The depth behind an instruction: pushes, pops, and what is taken off the stack's pointer or added to it. Nothing else changes it.
    fn moved(&self, words: &str, what: &str, rest: &str, depth: u64) -> u64 {
        let number = rest.strip_prefix("$0x").and_then(|rest| rest.strip_suffix(",%rsp"));
        let number = number.and_then(|digits| u64::from_str_radix(digits, 16).ok()).map(|number| number as i64);
        let grown = match (what, number) {
            ("push", _) => 8,
            ("pop", _) => -8,
            ("sub", Some(number)) => number,
            ("add", Some(number)) => -number,
            _ if (rest.ends_with(",%rsp") && !["cmp", "test"].contains(&what))
                || ["leave", "enter"].contains(&what) =>
            {
                panic!("{}: the stack's pointer in another way: {words}", self.name)
            }
            _ => 0,
        };
        depth.checked_add_signed(grown).unwrap_or_else(|| panic!("{}: above its own frame: {words}", self.name))
    }
}

/// `4a <name+0x4a>`: the place that a jump goes to.
fn place(rest: &str) -> u64 {
    let digits = rest.split(' ').next().unwrap_or("");
    u64::from_str_radix(digits, 16).unwrap_or_else(|_| panic!("a jump to {rest}"))
}
