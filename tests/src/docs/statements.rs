//! docs/PROMISES.md: what it prints of the proofs is what they say.

use super::{folded, Files, Held};
use std::collections::BTreeSet;

/// Clauses of a definition that a statement may have, its own line with them.
const MOST_LINES: usize = 20;

/// Every statement in a block of text is a declaration of some crate, word for word, or a definition with its clauses.
pub fn statements(files: &Files) -> Held {
    let mut held = Held::new("statements of PROMISES, word for word in the proofs");
    let declared: BTreeSet<String> = files.under("crates/", ".antt").flat_map(|(_, text)| declarations(text)).collect();
    for block in blocks(files.text("docs/PROMISES.md")) {
        for statement in block.split("\n\n").map(folded) {
            held.hold(declared.contains(&statement), || format!("PROMISES: no proof declares: {statement}"));
        }
    }
    held
}

/// The blocks of text on a page.
fn blocks(page: &str) -> Vec<&str> {
    page.split("```text\n").skip(1).filter_map(|rest| rest.split("\n```").next()).collect()
}

/// What a file of antt may declare: each line, with those after it that stand further in, and as many of the next ones as a
/// definition has clauses. Comments are left out.
fn declarations(text: &str) -> Vec<String> {
    let lines = text.lines().filter(|line| !line.trim().is_empty() && !line.trim_start().starts_with("--"));
    let lines: Vec<&str> = lines.collect();
    let inset = |line: &str| line.len() - line.trim_start().len();
    let end = |at: usize| at + 1 + lines[at + 1..].iter().take_while(|line| inset(line) > inset(lines[at])).count();
    let from = |at: usize| {
        let next = |last: &usize| Some(*last).filter(|last| *last < lines.len()).map(end);
        let defines = ["abbrev ", "unfoldable "].iter().any(|word| lines[at].trim_start().starts_with(word));
        let ends = std::iter::successors(Some(end(at)), next).take(if defines { MOST_LINES } else { 1 });
        ends.map(|end| folded(&lines[at..end].join(" "))).collect::<Vec<_>>()
    };
    (0..lines.len()).flat_map(from).collect()
}
