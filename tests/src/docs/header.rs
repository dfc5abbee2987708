//! include/g7110.h: its numbers are those of the definitions, of the code and of wrapper/. That the stack's figure is
//! enough is measured by tests/tests/header.rs.

use super::{Files, Held};
use std::collections::BTreeMap;

const HEADER: &str = "include/g7110.h";
/// The files of the wrapper, which has each refusal's number and each limit once.
const WRAPPER: &str = "wrapper/src/";

/// The names of the header with their numbers: the limits, which are defined, and the endings, which are listed.
fn numbers(files: &Files, start: &str, between: &str) -> BTreeMap<String, u64> {
    let lines = files.text(HEADER).lines().filter_map(|line| line.trim_start().strip_prefix(start));
    let pairs = lines.filter_map(|line| line.split_once(between));
    pairs.filter_map(|(name, rest)| Some((name.to_string(), first_number(rest)?))).collect()
}

fn first_number(text: &str) -> Option<u64> {
    text.chars().take_while(|c| c.is_ascii_digit() || *c == '_').filter(|c| *c != '_').collect::<String>().parse().ok()
}

/// The refusals have the numbers that a definition gives them, in the header and in the wrapper.
pub fn refusals(files: &Files) -> Held {
    let mut held = Held::new("refusals of the header, by the definitions and the wrapper");
    let mut defined = BTreeMap::from([("OK".to_string(), 0)]);
    let specs = files.under("crates/", ".antt").filter(|(path, _)| path.contains("/specs/"));
    for line in specs.flat_map(|(_, text)| text.lines()) {
        if let Some((name, number)) = numbered(line) {
            defined.insert(name.to_uppercase(), number);
            let told = [format!("::{name} => {number},"), format!("::{name}(_) => {number},")];
            let mut wrapper = files.under(WRAPPER, ".rs");
            let there = wrapper.any(|(_, text)| told.iter().any(|told| text.contains(told)));
            held.hold(there, || format!("wrapper: {name} is not {number}"));
        }
    }
    let listed = numbers(files, "G7110_", " = ");
    held.also(listed == defined, || format!("header: {listed:?}\ndefinitions: {defined:?}"));
    held
}

/// A clause of a definition of numbers: `refusal_number Short = 1`, `refusal_number (Tool t) = 3`; or a refusal's number alone, as
/// `move_number = 27`, where `most_number` is a limit. A clause that gives 0 is of a call that is accepted.
fn numbered(line: &str) -> Option<(String, u64)> {
    let (left, right) = line.split_once(" = ")?;
    let number = right.parse().ok().filter(|number| *number > 0)?;
    let Some((definition, name)) = left.split_once(' ') else {
        let (first, rest) = left.strip_suffix("_number").filter(|name| *name != "most")?.split_at_checked(1)?;
        return Some((first.to_uppercase() + rest, number));
    };
    let name = name.trim_start_matches('(').split(' ').next()?;
    (definition.ends_with("_number") && name.starts_with(char::is_uppercase)).then(|| (name.to_string(), number))
}

/// Each number that the header defines is a constant of the wrapper; the limits are those of definitions and proofs.
pub fn limits(files: &Files) -> Held {
    let mut held = Held::new("limits of the header, by the definitions and the wrapper");
    let defined = numbers(files, "#define G7110_", " ");
    let lines = files.under(WRAPPER, ".rs").flat_map(|(_, text)| text.lines());
    let constants = lines.filter_map(|line| line.strip_prefix("pub const "));
    let constants =
        constants.filter_map(|line| Some((line.split(':').next()?, first_number(line.split(" = ").nth(1)?)?)));
    let constants: BTreeMap<&str, u64> = constants.collect();
    for (name, number) in &defined {
        held.hold(constants.get(name.as_str()) == Some(number), || format!("wrapper: {name} is not {number}"));
    }
    for (name, path, before, after) in LIMITS {
        let number = defined.get(name).map_or("missing".to_string(), u64::to_string);
        let wanted = format!("{before}{number}{after}");
        held.also(files.text(path).contains(&wanted), || format!("{name}: {path} does not have: {wanted}"));
    }
    let most = |name| defined.get(name).copied().unwrap_or(0);
    let one_more = most("MAX_WRITTEN") == most("MAX_SAMPLES") + 1;
    held.also(one_more, || "header: a written frame has one octet more than samples".to_string());
    let with_heading = most("MAX_FILE") == most("MAX_STREAM") + most("HEADING");
    held.also(with_heading, || "header: a file has a heading and a stream".to_string());
    let block = most("MAX_BLOCK");
    let marks = block / 64 + most("MAX_GREETINGS");
    held.also(most("MAX_CELLS") == 194 + 2 * marks, || {
        format!("header: a table has 194 cells and two for each of {marks} marks")
    });
    let text = longest_table(most("MAX_GREETINGS"), marks, block, most("MAX_NUMBER"), most("MAX_SAMPLES"));
    held.also(most("MAX_TABLE") == text, || format!("header: the text of a table has at most {text} octets"));
    held
}

/// Octets of the text of a table that calls left, at most: R-11's first line, lines with the greatest numbers for each greeting, and
/// one for each mark. The greatest mark stands 64 frames, and so 64 octets, before the block's end.
fn longest_table(greetings: u64, marks: u64, block: u64, number: u64, samples: u64) -> u64 {
    let line = |text: String| text.len() as u64 + 1;
    let lies = format!("prompt={number}\nstart={}\noctets={block}", block.saturating_sub(1));
    let greeting = line(lies) + line(format!("law=1\nsamples={}", samples * block));
    let last = block.saturating_sub(64);
    line("form=2".into()) + greetings * greeting + marks * line(format!("mark={last},{}", samples * last))
}

/// A limit, and the words around it in the definition, the proof or the code that has it.
const LIMITS: [(&str, &str, &str, &str); 7] = [
    ("MAX_SAMPLES", "crates/rules/src/lib.rt", "samples: [u8; ", "]"),
    ("MAX_FRAME", "crates/promises/proofs/Bounded.antt", "octets_used f ≤ ", ")"),
    ("MAX_STREAM", "crates/rules/specs/Walk.antt", "\nlongest = ", "\n"),
    ("MAX_BLOCK", "crates/store_rows/specs/Limits.antt", "\nlargest_block = ", "\n"),
    ("ALL_TOOLS", "crates/rules/specs/Tools.antt", "\nall_tools = ", "\n"),
    ("HEADING", "crates/recording/specs/Remembered.antt", "\nheading_length = ", "\n"),
    ("LOSS", "crates/recording/specs/Items.antt", "\nloss_from = ", "\n"),
];

/// The calls of the header are those of crate g7110 and of the wrapper, with as many entries in their reports.
pub fn reports(files: &Files) -> Held {
    let mut held = Held::new("calls and reports of the header, by the crate and the wrapper");
    let header = calls(files.text(HEADER), "_t ");
    held.count = header.len();
    for path in ["crates/g7110/src/lib.rt", "wrapper/src/raw.rs"] {
        let found = calls(files.text(path), "fn ");
        held.also(found == header, || format!("{path}: {found:?}\nheader: {header:?}"));
    }
    held
}

/// The functions of C with the entries of their reports, 0 where there is none: `report[4]`, `report: &mut [u64; 4]`.
fn calls(text: &str, before: &str) -> BTreeMap<String, u64> {
    let start = format!("{before}g7110_");
    let declared = text.split(&start).skip(1);
    let entries = |words: &str| {
        let report = words.split("report").nth(1)?;
        report.split(|c: char| !c.is_ascii_digit()).filter_map(|digits| digits.parse().ok()).next_back()
    };
    declared
        .filter_map(|rest| rest.split_once('('))
        .map(|(name, rest)| (name.to_string(), entries(rest.split(')').next().unwrap_or("")).unwrap_or(0)))
        .collect()
}
