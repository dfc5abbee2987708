//! What the docs say of the files beside them, held against those files. A check takes the files as text, so that a test
//! can plant a difference.

mod edits;
mod figures;
mod header;
mod names;
mod pages;
mod proofs;
mod rooms;
mod shapes;
mod statements;

pub use edits::{edit_heads, edits, facts, LOGS, MOST};
pub use figures::figures;
pub use header::{limits, refusals, reports};
pub use names::names;
pub use pages::{landings, pages};
pub use proofs::proofs;
pub use rooms::rooms;
pub use shapes::{shapes, shapes_listed};
pub use statements::statements;

use std::collections::BTreeMap;
use std::fs;
use std::path::Path;

/// Text files, by their path in the repository.
#[derive(Clone)]
pub struct Files(BTreeMap<String, String>);

impl Files {
    /// The repository's, and what rt has said of the edits.
    pub fn read(root: &Path) -> Files {
        let mut files = Files(BTreeMap::new());
        files.add(root, root, &|path| {
            let kept = path.starts_with("crates") && path.iter().nth(2).is_some_and(|part| part == "out");
            !path.starts_with("target") && !path.starts_with(".git") && !kept
        });
        for said in LOGS {
            if let Ok(text) = fs::read_to_string(root.join(said)) {
                files.put(said, text);
            }
        }
        files
    }

    pub fn of(files: &[(&str, &str)]) -> Files {
        Files(files.iter().map(|(path, text)| (path.to_string(), text.to_string())).collect())
    }

    fn add(&mut self, root: &Path, folder: &Path, wanted: &dyn Fn(&Path) -> bool) {
        for entry in fs::read_dir(folder).into_iter().flatten().flatten() {
            let path = entry.path();
            let name = path.strip_prefix(root).expect("it stands below");
            if !wanted(name) {
                continue;
            }
            if path.is_dir() {
                self.add(root, &path, wanted);
            } else if let Ok(text) = fs::read_to_string(&path) {
                self.0.insert(name.display().to_string(), text);
            }
        }
    }

    pub fn put(&mut self, path: &str, text: String) {
        self.0.insert(path.to_string(), text);
    }

    /// The text of a file; none is as good as an empty one.
    pub fn text(&self, path: &str) -> &str {
        self.0.get(path).map_or("", String::as_str)
    }

    pub fn has(&self, path: &str) -> bool {
        self.0.contains_key(path)
    }

    /// The files whose path starts and ends so.
    fn under<'a>(&'a self, start: &'a str, end: &'a str) -> impl Iterator<Item = (&'a str, &'a str)> {
        let all = self.0.iter().map(|(path, text)| (path.as_str(), text.as_str()));
        all.filter(move |(path, _)| path.starts_with(start) && path.ends_with(end))
    }

    /// The crates of crates.txt, each with those that it stands on.
    fn crates(&self) -> BTreeMap<&str, Vec<&str>> {
        let lines = self.text("crates.txt").lines().filter_map(|line| line.split_once(':'));
        // A static library has that word after its name.
        lines
            .filter_map(|(name, below)| Some((name.split_whitespace().next()?, below.split_whitespace().collect())))
            .collect()
    }
}

/// What a check has held, and every difference that it has found.
pub struct Held {
    pub what: &'static str,
    pub count: usize,
    pub faults: Vec<String>,
    /// What could not be held, since there was nothing to hold it against.
    pub left_out: usize,
    /// What need not be there to be held against: logs of edits that the gate does not try.
    pub not_tried: usize,
}

impl Held {
    fn new(what: &'static str) -> Held {
        Held { what, count: 0, faults: Vec::new(), left_out: 0, not_tried: 0 }
    }

    /// One thing more that is held.
    fn hold(&mut self, holds: bool, fault: impl FnOnce() -> String) {
        self.count += 1;
        self.also(holds, fault);
    }

    /// Something more about a thing that is counted already.
    fn also(&mut self, holds: bool, fault: impl FnOnce() -> String) {
        if !holds {
            self.faults.push(fault());
        }
    }
}

/// Every check, in the order of this page.
pub fn all(files: &Files) -> Vec<Held> {
    let checks = [
        statements, names, edits, edit_heads, facts, rooms, refusals, limits, reports, figures, landings, pages,
        proofs, shapes,
    ];
    checks.iter().map(|check| check(files)).collect()
}

/// A text with every white space as one space.
fn folded(text: &str) -> String {
    text.split_whitespace().collect::<Vec<_>>().join(" ")
}

/// The pieces of a line that stand in backquotes, each with what stands between it and the one before.
fn quoted(line: &str) -> Vec<(&str, &str)> {
    let pieces: Vec<&str> = line.split('`').collect();
    pieces.chunks_exact(2).map(|pair| (pair[0], pair[1])).collect()
}

/// The cells of a table's row; of a line that is none, nothing.
fn cells(line: &str) -> Vec<&str> {
    match line.strip_prefix("| ").and_then(|line| line.strip_suffix(" |")) {
        Some(row) => row.split(" | ").collect(),
        None => Vec::new(),
    }
}

/// Whether it is a name: of a crate, a function, a definition.
fn is_name(text: &str) -> bool {
    text.starts_with(char::is_alphabetic) && text.chars().all(|c| c.is_alphanumeric() || "_-'".contains(c))
}
