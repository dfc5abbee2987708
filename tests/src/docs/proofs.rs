//! What a proof file may not have: a name imported or an alias that nothing reads, a `let` that nothing reads, a position
//! of the code in a comment, and a long way back through the places of a function that has no name.

use super::{Files, Held};
use std::collections::BTreeSet;

/// So many `.before` in a row are a way that wants a name.
const LONG_WAY: usize = 6;

/// Tactics that read every variable in scope, and so a `let` that nobody names.
const READ_THE_SCOPE: [&str; 6] = ["omega", "cc", "search", "rw", "simp", "grind"];

pub fn proofs(files: &Files) -> Held {
    let mut held = Held::new("proofs that show only what is read");
    for (path, text) in files.under("crates/", ".antt") {
        if !path.contains("/proofs/") {
            continue;
        }
        for fault in faults(text) {
            held.also(false, || format!("{path}: {fault}"));
        }
        held.count += 1;
    }
    held
}

fn faults(text: &str) -> Vec<String> {
    let mut found = imports(text);
    found.extend(
        text.lines().filter(|line| tells_a_position(line)).map(|line| format!("a position in a comment: {line}")),
    );
    found.extend(long_ways(text));
    found.extend(declarations(text).into_iter().flat_map(unread_lets));
    found
}

/// The names of a text: what stands between white space, brackets, commas and semicolons. A qualified name counts for its
/// alias too; a projection, `.field`, for nothing.
fn names(text: &str) -> BTreeSet<&str> {
    let mut all = BTreeSet::new();
    for word in words(text) {
        all.insert(word);
        if let Some((alias, _)) = word.split_once('.') {
            all.insert(alias);
        }
    }
    all
}

fn words(text: &str) -> impl Iterator<Item = &str> {
    let ends = |c: char| c.is_whitespace() || "(){},;".contains(c);
    text.split(ends).filter(|word| !word.is_empty() && !word.starts_with('.')).map(|word| word.trim_end_matches('.'))
}

/// Imports and aliases that nothing below them reads.
fn imports(text: &str) -> Vec<String> {
    let body: Vec<&str> =
        text.lines().filter(|line| !line.starts_with("use ") && !line.trim_start().starts_with("--")).collect();
    let body = body.join("\n");
    let read = names(&body);
    let mut unread = Vec::new();
    for line in text.lines().filter_map(|line| line.strip_prefix("use ")) {
        let brought: Vec<&str> = match line.split_once(".{") {
            Some((_, list)) => list.trim_end_matches('}').split(", ").collect(),
            None => line.split_once(" as ").map(|(_, alias)| alias).into_iter().collect(),
        };
        for name in brought {
            let name = name.rsplit(" as ").next().unwrap_or(name).trim();
            if !is_read(name, &read) {
                unread.push(format!("nothing reads `{name}`"));
            }
        }
    }
    unread
}

/// An operator is read where each of its parts is, and the one of `do` where there is a `do`.
fn is_read(name: &str, read: &BTreeSet<&str>) -> bool {
    let mut parts = name.split('◌').filter(|part| !part.is_empty()).peekable();
    let operator = name.contains('◌') && parts.peek().is_some();
    read.contains(name) || operator && parts.all(|part| read.contains(part)) || name == "◌>>=◌" && read.contains("do")
}

/// `-- src/lib.rt:477:5`
fn tells_a_position(line: &str) -> bool {
    let Some((_, comment)) = line.split_once("-- ") else { return false };
    let Some((_, place)) = comment.split_once(".rt:") else { return false };
    comment.starts_with("src/") && place.split(':').all(|part| part.trim().parse::<u32>().is_ok())
}

/// What begins at a line's start, with all that is indented below it.
fn declarations(text: &str) -> Vec<&str> {
    let mut starts: Vec<usize> = vec![0];
    for (at, _) in text.match_indices('\n') {
        if text[at + 1..].starts_with(|c: char| !c.is_whitespace()) {
            starts.push(at + 1);
        }
    }
    let ends = starts.iter().skip(1).copied().chain([text.len()]);
    starts.iter().copied().zip(ends).map(|(start, end)| &text[start..end]).collect()
}

/// Long ways outside a section, or a law, that is typed by a place.
fn long_ways(text: &str) -> Vec<String> {
    let mut found = Vec::new();
    let mut typed = false;
    for declaration in declarations(text) {
        let first = declaration.lines().next().unwrap_or("");
        typed = is_typed(first) || typed && !first.contains(" : ") && !first.starts_with("module");
        if declaration.contains(&".before".repeat(LONG_WAY)) && !typed {
            found.push(format!("a way of {LONG_WAY} places or more without a name: {first}"));
        }
    }
    found
}

/// `module _ (c : tie.After-read) where`, `held : (c : tie.Else1) → ..`
fn is_typed(first: &str) -> bool {
    let (before, after) = first.split_once(" : tie.").unwrap_or((first, "Need-"));
    before.contains('(') && !after.starts_with("Need-")
}

/// A `let` whose name stands nowhere behind it, and behind which no tactic reads the scope.
fn unread_lets(declaration: &str) -> Vec<String> {
    let mut found = Vec::new();
    for (at, _) in declaration.match_indices("let ") {
        let behind = &declaration[at + 4..];
        let Some(name) = words(behind).next() else { continue };
        let rest = names(behind.split_once(" in").map_or("", |(_, rest)| rest));
        if !rest.contains(name) && !READ_THE_SCOPE.iter().any(|tactic| rest.contains(tactic)) {
            found.push(format!("nothing reads the let `{name}`"));
        }
    }
    found
}
