//! The wrong programs: docs/CONTRACTS.md names each edit that is kept, in must-fail/ or in faults/ of its crate, and no
//! other. An edit says itself what is wrong and which fact fails, and that is the error that rt tells of it.

use super::{folded, is_name, quoted, Files, Held};
use std::collections::BTreeMap;

/// The folders of a crate: what the gate tries, and what `make faults` tries too.
const FOLDERS: [&str; 2] = ["must-fail", "faults"];
/// Edits that the gate tries, at most.
pub const MOST: usize = 80;
/// What rt has said of the edits, a line of each: of the gate's, and of those of `make faults`.
pub const LOGS: [&str; 2] = ["target/must-fail.txt", "target/faults.txt"];
/// How rt begins what it says of a refused edit, and what it puts there where it was not the meaning that was refused.
const REFUSED: &str = "refused, as it must be";
const SHAPE: &str = " (only because a proof file names what the edit took away";
/// How a line begins that rt reads.
const READ: [&str; 3] = ["file: ", "old: ", "new:"];
/// How the line begins that tells the fact.
const FAILS: &str = "fails: ";

/// An edit that is kept.
struct Edit<'a> {
    of: &'a str,
    folder: &'a str,
    label: &'a str,
    text: &'a str,
}

impl std::fmt::Display for Edit<'_> {
    fn fmt(&self, f: &mut std::fmt::Formatter<'_>) -> std::fmt::Result {
        write!(f, "crates/{}/{}/{}.edit", self.of, self.folder, self.label)
    }
}

impl<'a> Edit<'a> {
    fn all(files: &'a Files) -> Vec<Edit<'a>> {
        let kept = files.under("crates/", ".edit").filter_map(|(path, text)| {
            let parts: Vec<&str> = path.split('/').collect();
            let [_, of, folder, file] = parts[..] else { return None };
            Some(Edit { of, folder, label: file.strip_suffix(".edit")?, text })
        });
        kept.collect()
    }

    /// The lines before those that rt reads.
    fn head(&self) -> Vec<&'a str> {
        self.text.lines().take_while(|line| !READ.iter().any(|start| line.starts_with(start))).collect()
    }

    /// The fact that fails.
    fn fails(&self) -> Option<(String, String)> {
        let told: Vec<&str> = self.text.lines().filter_map(|line| line.strip_prefix(FAILS)).collect();
        let [told] = told[..] else { return None };
        self.head().get(1)?.starts_with(FAILS).then(|| fact(told))?
    }
}

/// The edits that the page names, each with its folder. An item of its list is "WHAT: the gate's. Others: the others.",
/// over as many lines as it takes. What can't be read has no crate.
fn named(page: &str) -> Vec<(&'static str, String, String)> {
    let wrong = page.split("\n## ").find(|part| part.starts_with("Wrong programs")).unwrap_or("");
    let mut all = Vec::new();
    for item in wrong.split("\n- ").skip(1) {
        let item = folded(item.split("\n\n").next().unwrap_or(""));
        let (first, others) = item.split_once("Others: ").unwrap_or((&item, ""));
        let gate = first.split_once(": ").map_or("", |(_, gate)| gate);
        for (folder, list) in FOLDERS.into_iter().zip([gate, others]) {
            all.extend(listed(list).into_iter().map(|(of, label)| (folder, of, label)));
        }
    }
    all
}

/// A list of edits: "crate, `label`, `label`; crate, `label`".
fn listed(list: &str) -> Vec<(String, String)> {
    let mut of = "";
    let pairs = quoted(list).into_iter().map(|(before, label)| {
        if before != ", " {
            of = before.trim_start_matches("; ").strip_suffix(", ").filter(|of| is_name(of)).unwrap_or("");
        }
        (of.to_string(), label.to_string())
    });
    pairs.collect()
}

/// Every edit that CONTRACTS names is kept in that folder, and every kept one is named, once; those that PAPER names are
/// kept too. The gate has not too many.
pub fn edits(files: &Files) -> Held {
    let mut held = Held::new("edits as CONTRACTS and PAPER name them");
    let kept = Edit::all(files);
    let is_kept =
        |of: &str, label: &str| kept.iter().any(|edit| (of.is_empty() || edit.of == of) && edit.label == label);
    let mut times = BTreeMap::new();
    for (folder, of, label) in named(files.text("docs/CONTRACTS.md")) {
        let path = format!("crates/{of}/{folder}/{label}.edit");
        held.hold(files.has(&path), || format!("CONTRACTS: there is no {path}"));
        *times.entry(path).or_insert(0) += 1;
    }
    for edit in &kept {
        let path = edit.to_string();
        let named = times.get(&path).copied().unwrap_or(0);
        held.also(named == 1, || format!("CONTRACTS names {path} {named} times"));
        let twins = kept.iter().filter(|other| (other.of, other.label) == (edit.of, edit.label)).count();
        held.also(twins == 1, || format!("{path}: another edit has that name"));
    }
    for line in files.text("docs/PAPER.md").lines() {
        let Some((_, told)) = line.split_once("Must-fail: ") else { continue };
        for (of, label) in listed(told.split(" |").next().unwrap_or("")) {
            held.hold(is_kept(&of, &label), || format!("PAPER: there is no edit {of}, {label}"));
        }
    }
    let gate = kept.iter().filter(|edit| edit.folder == FOLDERS[0]).count();
    held.also(gate <= MOST, || format!("the gate has {gate} edits, and {MOST} are the most"));
    held
}

/// An edit says in its first line what is wrong, and in the second which fact fails.
pub fn edit_heads(files: &Files) -> Held {
    let mut held = Held::new("heads of the edits: what is wrong, and the fact that fails");
    for edit in Edit::all(files) {
        let first = edit.head().first().copied().unwrap_or("");
        let says = first.ends_with('.') && !first.starts_with(FAILS);
        held.hold(says, || format!("{edit}: its first line does not say what is wrong: {first}"));
        held.also(edit.fails().is_some(), || format!("{edit}: its second line does not tell the fact"));
        held.also(FOLDERS.contains(&edit.folder), || format!("{edit}: rt and make faults do not look there"));
    }
    held
}

/// The fact that an edit tells is that of the error that rt tells of it, its first one. It must not be one of shape. Of an edit
/// that was not tried nothing is said.
pub fn facts(files: &Files) -> Held {
    let mut held = Held::new("facts that fail, by what rt says of the edits");
    for edit in Edit::all(files) {
        let logs: Vec<&str> = LOGS.iter().filter_map(|place| said_of(&edit, files.text(place))).collect();
        match (logs.is_empty(), edit.folder == FOLDERS[0]) {
            (false, _) => held.count += 1,
            (true, true) => held.left_out += 1,
            (true, false) => held.not_tried += 1,
        }
        for log in logs {
            let Some(error) = log.strip_prefix(REFUSED) else {
                held.also(false, || format!("{edit}: {log}"));
                continue;
            };
            held.also(!error.starts_with(SHAPE), || format!("{edit}: refused for its shape"));
            let (told, found) = (edit.fails(), found(error));
            let there = told.as_ref().zip(found.as_ref()).is_some_and(|(told, found)| found.is(told));
            held.also(there, || format!("{edit}: told {told:?}, and rt says {found:?}"));
        }
    }
    held
}

/// What rt says of an edit, if it was tried.
fn said_of<'a>(edit: &Edit, log: &'a str) -> Option<&'a str> {
    let start = format!("rt: must-fail {}/{}.edit: ", edit.of, edit.label);
    log.lines().find_map(|line| line.strip_prefix(&start)).filter(|said| !said.starts_with("NOT TRIED"))
}

/// A fact: "`function`, `goal`", or "File, `law`".
fn fact(told: &str) -> Option<(String, String)> {
    match quoted(told)[..] {
        [(file, law)] if file.strip_suffix(", ").is_some_and(is_name) => Some((file.trim_end_matches(", "), law)),
        [("", function), (", ", goal)] => Some((function, goal)),
        _ => None,
    }
    .filter(|_| told.ends_with('`'))
    .map(|(place, name)| (place.to_string(), name.to_string()))
}

/// What an error names: where it is, or nothing where it does not tell that, and the goal or law, or as much of it as rt tells.
#[derive(Debug)]
struct Found {
    place: String,
    name: String,
    cut: bool,
}

impl Found {
    fn is(&self, (place, name): &(String, String)) -> bool {
        let here = self.place.is_empty() || self.place == *place;
        here && if self.cut { name.starts_with(&self.name) } else { *name == self.name }
    }
}

/// What the error that rt tells names. Where no answer of ours is refused, what Rattle could not prove stands in a note, which
/// does not name the function.
fn found(error: &str) -> Option<Found> {
    failing(error).or_else(|| not_proved(error))
}

/// A function's proof is proofs/FUNCTION/Answers.antt, Invariants.antt or Proof.antt; a law stands in proofs/FILE.antt.
fn failing(error: &str) -> Option<Found> {
    let (path, said) = error.split_once(": error: `")?;
    let mut parts = path.rsplit_once(".antt:")?.0.rsplit('/');
    let (file, folder) = (parts.next()?, parts.next()?);
    let of_function = folder != "proofs" && ["Answers", "Invariants", "Proof"].contains(&file);
    let place = if of_function { folder } else { file };
    Some(Found { place: place.to_string(), ..name(said, "`") })
}

/// "it is not proved that .. (`goal`); ..", at a line of the code.
fn not_proved(error: &str) -> Option<Found> {
    let (_, said) = error.split_once(": it is not proved that ")?.1.rsplit_once("(`")?;
    Some(name(said, "`)"))
}

/// A name up to its end, or up to where rt has cut it.
fn name(said: &str, end: &str) -> Found {
    let whole = said.split_once(end);
    let name = whole.map_or(said, |(name, _)| name);
    Found { place: String::new(), name: name.to_string(), cut: whole.is_none() }
}

#[cfg(test)]
mod tests {
    use super::*;

    /// rt cuts the error that it tells to so many characters.
    const CUT: usize = 160;

    /// As rt writes them, the second one cut within the goal's name.
    #[test]
    fn errors() {
        let holds = |error: &str, place: &str, name: &str| {
            found(error).is_some_and(|found| found.is(&(place.to_string(), name.to_string())))
        };
        let note = ": note: src/lib.rt:4:5: it is not proved that the sum fits its type (at a range `..=n`, `n + 1`) (`overflow_add-result`); the facts";
        assert!(holds(note, "more", "overflow_add-result") && !holds(note, "more", "returns"));
        let cut = &note[..note.find("-result").unwrap()];
        assert!(
            cut.chars().count() < CUT && holds(cut, "more", "overflow_add-result") && !holds(cut, "more", "overflow")
        );
        let error =
            " (only by a limit): ./proofs/placing/lay_row/Invariants.antt:8:13: error: `returns`: expected type `a";
        assert!(holds(error, "lay_row", "returns") && !holds(error, "placing", "returns"));
        assert!(!holds(": ./proofs/Back.antt:8:13: error: `back`: no", "Answers", "back"));
        // A file of lemmas may have the name of a function's.
        assert!(holds(": ./proofs/Answers.antt:77:12: error: `inside`: no", "Answers", "inside"));
        assert!(!holds("", "Back", "back"));
    }
}
