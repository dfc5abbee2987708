//! What holds of every page: no word of a machine, no line that nobody reads; and the notes of the landings.

use super::{Files, Held};

/// Columns of the longest line; rows of tables are long.
const WIDEST: usize = 600;
/// What a path of a machine starts with, and what names a machine.
const MACHINES: [&str; 11] =
    ["/home/", "/root/", "/work/", "/opt/", "/usr/", "/tmp/", "/etc/", "/Users/", "C:\\", "localhost", "://"];

/// README, the pages of docs/ and the header.
pub fn pages(files: &Files) -> Held {
    let mut held = Held::new("lines of README, docs/ and the header: no machine, none too long");
    let host = std::fs::read_to_string("/etc/hostname").unwrap_or_default();
    let host = Some(host.trim()).filter(|host| host.len() > 4);
    let pages = files.under("docs/", ".md").chain(files.under("README.md", "")).chain(files.under("include/", ".h"));
    for (path, text) in pages {
        for (at, line) in (1..).zip(text.lines()) {
            let named = MACHINES.into_iter().chain(host).find(|word| line.contains(word));
            held.hold(named.is_none(), || format!("{path}, line {at}: {}", named.unwrap_or("")));
            let wide = line.chars().count();
            held.also(wide <= WIDEST, || format!("{path}, line {at}: {wide} columns"));
        }
    }
    held
}

/// docs/LANDINGS.md has a line for each note of docs/landings, with the check's time before and after; so has the note. The
/// page comes with the first landing.
pub fn landings(files: &Files) -> Held {
    let mut held = Held::new("landings");
    let list = files.text("docs/LANDINGS.md");
    for (path, note) in files.under("docs/landings/", ".md") {
        let link = path.trim_start_matches("docs/");
        let line = list.lines().find(|line| line.contains(link)).unwrap_or("");
        held.hold(times(line).len() == 2, || format!("LANDINGS: {link} is not there with two times"));
        held.also(note.lines().any(|line| times(line).len() == 2), || format!("{path}: no line has two times"));
    }
    for link in list.split("](").skip(1).filter_map(|rest| rest.split(')').next()) {
        held.also(files.has(&format!("docs/{link}")), || format!("LANDINGS: there is no {link}"));
    }
    held
}

/// The times of the form `812 s` that a line tells.
pub fn times(line: &str) -> Vec<u32> {
    let words: Vec<&str> = line.split(|c: char| !c.is_ascii_alphanumeric() && c != ',').collect();
    let seconds = words.windows(2).filter(|pair| pair[1] == "s");
    seconds.filter_map(|pair| pair[0].replace(',', "").parse().ok()).collect()
}
