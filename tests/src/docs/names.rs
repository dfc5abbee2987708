//! The names that PROMISES, PAPER and CONTRACTS cite: `File.name` and `crate.File.name` are definitions and proofs,
//! `crate::name` and `crate::module::name` are code, and so is what follows the words "crates/NAME, " or, in a cell,
//! "NAME: ". Names that follow a name after a comma or "and" are of the same file or crate.

use super::{is_name, quoted, Files, Held};

const PAGES: [&str; 3] = ["docs/PROMISES.md", "docs/PAPER.md", "docs/CONTRACTS.md"];
/// A type of the language, whose functions may be named as those of a crate are.
const TYPE: &str = "u32";

/// Where a name should be.
#[derive(Clone, PartialEq)]
enum Home {
    /// specs/ or proofs/ of a crate, or of any where it is not said, in a file of this name.
    File(Option<String>, String),
    /// src/ of a crate, or a module there: what the paths of its files start with.
    Code(String),
}

/// Every cited name is where it is said to be.
pub fn names(files: &Files) -> Held {
    let mut held = Held::new("names cited by PROMISES, PAPER and CONTRACTS");
    for page in PAGES {
        let mut printed = false;
        for line in files.text(page).lines() {
            printed ^= line.starts_with("```");
            let cited = if printed { Vec::new() } else { cited(files, line) };
            for (home, name) in cited {
                held.hold(stands(files, &home, name), || format!("{page}: {name} is not there: {line}"));
            }
        }
    }
    held
}

/// The names that a line cites.
fn cited<'a>(files: &Files, line: &'a str) -> Vec<(Home, &'a str)> {
    let crates = files.crates();
    let mut all = Vec::new();
    let mut home = None;
    for (before, inside) in quoted(line) {
        let (own, name) = home_of(inside);
        home = match own {
            Some(own) => Some(own).filter(|own| *own != code(TYPE, "")),
            None if !is_name(inside) => None,
            None if before == ", " || before == " and " => home,
            None => crate_before(before).filter(|of| crates.contains_key(of)).map(|of| code(of, "")),
        };
        all.extend(home.clone().map(|home| (home, name)));
    }
    all
}

/// Where a name says itself that it is.
fn home_of(inside: &str) -> (Option<Home>, &str) {
    // A call may be cited with its arguments.
    let called: Vec<&str> = inside.split('(').next().unwrap_or("").split("::").collect();
    match called[..] {
        [of, name] if is_name(of) && is_name(name) => return (Some(code(of, "")), name),
        [of, module, name] if is_name(of) && is_name(module) && is_name(name) => {
            return (Some(code(of, &format!("{module}.rt"))), name);
        }
        _ => {}
    }
    let parts: Vec<&str> = inside.split('.').collect();
    match parts[..] {
        [file, name] if is_file(file) && is_name(name) => (Some(Home::File(None, file.to_string())), name),
        [of, file, name] if is_name(of) && is_file(file) && is_name(name) => {
            (Some(Home::File(Some(of.to_string()), file.to_string())), name)
        }
        _ => (None, inside),
    }
}

fn code(of: &str, module: &str) -> Home {
    Home::Code(format!("crates/{of}/src/{module}"))
}

fn is_file(text: &str) -> bool {
    is_name(text) && text.starts_with(char::is_uppercase)
}

/// The crate that stands just before a name: "crates/read_bits, " or "read_bits: ".
fn crate_before(before: &str) -> Option<&str> {
    let last = |text: &'static str| before.strip_suffix(text).and_then(|before| before.split_whitespace().last());
    last(", ").and_then(|word| word.strip_prefix("crates/")).or(last(": "))
}

fn stands(files: &Files, home: &Home, name: &str) -> bool {
    match home {
        Home::File(of, file) => {
            let ends = ["specs", "proofs"].map(|folder| format!("/{folder}/{file}.antt"));
            let below = of.as_ref().map_or("crates/".to_string(), |of| format!("crates/{of}/"));
            let mut texts = ends.iter().flat_map(|end| files.under(&below, end));
            texts.any(|(_, text)| text.lines().any(|line| defines(line, name)))
        }
        Home::Code(start) => files.under(start, ".rt").any(|(_, text)| has_item(text, name)),
    }
}

/// Whether a line of antt defines this: a declaration, a field or a constructor.
fn defines(line: &str, name: &str) -> bool {
    let words = line.split_whitespace().skip_while(|word| ["abbrev", "unfoldable", "pub"].contains(word));
    let words: Vec<&str> = words.collect();
    let listed = words.iter().take_while(|word| is_name(word)).count();
    match words[..] {
        ["record" | "data", defined, ..] => defined == name,
        _ => words.get(listed) == Some(&":") && words[..listed].contains(&name),
    }
}

/// Whether a text of Rattle has an item of this name.
fn has_item(text: &str, name: &str) -> bool {
    ["fn ", "struct ", "enum ", "const "].iter().any(|kind| {
        let start = format!("{kind}{name}");
        let mut rests = text.split(&start).skip(1);
        rests.any(|rest| !rest.starts_with(|c: char| c.is_alphanumeric() || c == '_'))
    })
}
