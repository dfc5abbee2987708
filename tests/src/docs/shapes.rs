//! The shape of the house: each crate is of a family, and no line, function or contract of the code is larger than a
//! reader takes in. What is still larger is listed with its size in tests/data/shapes.txt. A new one fails, one that
//! grows, and one that the list has and that is no longer there: so the list only shrinks.

use super::{Files, Held};
use std::collections::BTreeMap;

/// The families: a crate's name up to its first underscore.
const FAMILIES: &str = "rules promises linear law value first s text read reader walk write writer round recording \
    reasons settings reasoning mending tool mend why unpack pack store listing g7110";

/// Columns of a line, parameters of a function, characters of a clause of its contract, lines between its body's braces.
const COLUMNS: usize = 140;
const PARAMETERS: usize = 7;
const CLAUSE: usize = 240;
const BODY: usize = 40;

/// What is larger than it may be: the rule, and where. Lines and clauses are counted, parameters and a body measured.
type Sizes = BTreeMap<(String, String), usize>;

pub const LIST: &str = "tests/data/shapes.txt";

pub fn shapes(files: &Files) -> Held {
    let mut held = Held::new("shapes of the code");
    for name in files.crates().keys() {
        let family = name.split('_').next().unwrap_or(name);
        held.hold(FAMILIES.split(' ').any(|known| known == family), || format!("the crate {name} is of no family"));
    }
    let (larger, looked_at) = larger(files);
    held.count += looked_at;
    let listed = listed(files, &mut held);
    for (place, size) in &larger {
        let known = listed.get(place).copied().unwrap_or(0);
        let (rule, name) = place;
        held.also(*size <= known, || format!("{rule}: {name} has {size}, and {LIST} allows {known}"));
    }
    for (place, known) in &listed {
        let size = larger.get(place).copied().unwrap_or(0);
        let (rule, name) = place;
        held.also(size >= *known, || format!("{rule}: {name} has {size} now: {LIST} still says {known}"));
    }
    held
}

/// The list as it should stand.
pub fn shapes_listed(files: &Files) -> String {
    larger(files).0.iter().map(|((rule, name), size)| format!("{rule} {name} {size}\n")).collect()
}

/// The list: `RULE NAME SIZE`, a line each.
fn listed(files: &Files, held: &mut Held) -> Sizes {
    let mut sizes = Sizes::new();
    for line in files.text(LIST).lines().filter(|line| !line.is_empty() && !line.starts_with('#')) {
        let words: Vec<&str> = line.split(' ').collect();
        let size = words.get(2).and_then(|size| size.parse().ok()).filter(|size| *size > 0);
        match (&words[..], size) {
            ([rule, name, _], Some(size)) => {
                let before = sizes.insert((rule.to_string(), name.to_string()), size);
                held.also(before.is_none(), || format!("{LIST} has {rule} {name} twice"));
            }
            _ => held.also(false, || format!("{LIST}: {line}")),
        }
    }
    sizes
}

/// All that is larger than it may be, and how many functions were looked at.
fn larger(files: &Files) -> (Sizes, usize) {
    let (mut sizes, mut looked_at) = (Sizes::new(), 0);
    for (path, text) in files.under("crates/", ".rt") {
        let Some(place) = place_of(path) else { continue };
        let functions = functions(text);
        looked_at += functions.len();
        let name_of = |function: &Function| format!("{place}::{}", function.name);
        let mut add =
            |rule: &str, name: String, size: usize| *sizes.entry((rule.to_string(), name)).or_default() += size;
        for (at, line) in text.lines().enumerate() {
            if line.chars().count() > COLUMNS {
                let inside = functions.iter().find(|function| function.first <= at && at <= function.last);
                add("columns", inside.map_or(place.clone(), name_of), 1);
            }
        }
        for function in &functions {
            let (parameters, clauses) = function.sizes();
            let clauses = clauses.iter().filter(|clause| **clause > CLAUSE).count();
            for (rule, size, most) in [
                ("parameters", parameters, PARAMETERS),
                ("contract", clauses, 0),
                ("body", function.body(), BODY),
                ("layout", usize::from(function.head.is_none()), 0),
            ] {
                if size > most {
                    add(rule, name_of(function), size);
                }
            }
        }
    }
    (sizes, looked_at)
}

/// `crates/a/src/b/c.rt` is `a::b::c`, and a crate's first file the crate; a file of anything else has no such place.
fn place_of(path: &str) -> Option<String> {
    let (name, file) = path.strip_prefix("crates/")?.strip_suffix(".rt")?.split_once("/src/")?;
    Some(match file {
        "lib" | "main" => name.to_string(),
        _ => format!("{name}::{}", file.replace('/', "::")),
    })
}

/// A function: its lines from its name to its last brace, and what stands before its body, if it is laid out as `rt fmt` does.
struct Function {
    name: String,
    first: usize,
    last: usize,
    head: Option<Head>,
}

impl Function {
    /// Lines between the braces of its body.
    fn body(&self) -> usize {
        self.head.as_ref().map_or(0, |head| (self.last - self.first - head.lines).saturating_sub(1))
    }

    fn sizes(&self) -> (usize, &[usize]) {
        self.head.as_ref().map_or((0, &[]), |head| (head.parameters, &head.clauses))
    }
}

/// The functions of a file: a body ends at the first brace that stands as far in as the function does.
fn functions(text: &str) -> Vec<Function> {
    let lines: Vec<&str> = text.lines().collect();
    let mut found = Vec::new();
    for (first, line) in lines.iter().enumerate() {
        let Some(name) = named(line) else { continue };
        let end = format!("{}}}", &line[..line.len() - line.trim_start().len()]);
        let whole = Head::of(&lines[first..]).and_then(|head| {
            let opens = first + head.lines;
            let empty = lines[opens].ends_with("{}");
            let last = if empty { Some(opens) } else { (opens..lines.len()).find(|at| lines[*at] == end) };
            Some((last?, head))
        });
        let (last, head) = whole.map_or((first, None), |(last, head)| (last, Some(head)));
        found.push(Function { name, first, last, head });
    }
    found
}

/// The name of the function that a line begins.
fn named(line: &str) -> Option<String> {
    let (before, after) = line.split_once("fn ")?;
    let words = before.split_whitespace().all(|word| ["pub", "extern", "\"C\"", "const", "unsafe"].contains(&word));
    let name: String = after.chars().take_while(|c| c.is_alphanumeric() || *c == '_').collect();
    (words && !name.is_empty()).then_some(name)
}

/// What stands before a function's body: how many parameters, the characters of each clause, with every white space as one
/// space, and the lines before the one that has the body's first brace.
struct Head {
    parameters: usize,
    clauses: Vec<usize>,
    lines: usize,
}

impl Head {
    /// Reads from the function's first line on.
    fn of(lines: &[&str]) -> Option<Head> {
        let code: Vec<&str> = lines.iter().map(|line| line.split("//").next().unwrap_or(line)).collect();
        let code = code.join("\n");
        let list = bracketed(&code[code.find('(')?..])?;
        let mut head = Head { parameters: entries(list), clauses: Vec::new(), lines: 0 };
        let mut at = code.find('(')? + list.len();
        loop {
            let brace = at + code[at..].find('{')?;
            let word = ["requires", "ensures"].iter().filter_map(|word| code[at..brace].find(word)).next();
            let Some(word) = word else {
                head.lines = code[..brace].matches('\n').count();
                return Some(head);
            };
            let end = brace + bracketed(&code[brace..])?.len();
            head.clauses.push(super::folded(&code[at + word..end]).chars().count());
            at = end;
        }
    }
}

/// A text up to the bracket that closes its first one.
fn bracketed(text: &str) -> Option<&str> {
    let mut depth = 0;
    for (at, c) in text.char_indices() {
        match c {
            '(' | '[' | '{' => depth += 1,
            ')' | ']' | '}' => depth -= 1,
            _ => {}
        }
        if depth == 0 {
            return Some(&text[..at + c.len_utf8()]);
        }
    }
    None
}

/// How many entries a list in brackets has; a comma may follow the last one.
fn entries(list: &str) -> usize {
    let inner = list[1..list.len() - 1].trim().trim_end_matches(',');
    let mut depth = 0;
    let mut commas = 0;
    for c in inner.chars() {
        match c {
            '(' | '[' | '<' => depth += 1,
            ')' | ']' | '>' => depth -= 1,
            ',' if depth == 0 => commas += 1,
            _ => {}
        }
    }
    if inner.is_empty() {
        0
    } else {
        1 + commas
    }
}

#[cfg(test)]
mod tests {
    use super::*;

    fn sizes_of(code: &str) -> String {
        shapes_listed(&Files::of(&[("crates/a/src/b.rt", code)]))
    }

    /// At a limit, and one more.
    #[test]
    fn limits() {
        let function = |parameters: usize, clause: usize, body: usize| {
            let parameters = (0..parameters).map(|at| format!("p{at}: [u8; 2], // one\n")).collect::<String>();
            // `requires { ⌜ ⌝ }` has 16 characters besides.
            let clause = "a".repeat(clause - 16);
            let body = "\n".repeat(body);
            format!(
                "pub fn f(\n{parameters}) -> u8\n    requires {{ ⌜{clause} ⌝ }}\n    ensures x {{ a }}\n{{\n{body}}}\n"
            )
        };
        let line = |columns: usize| format!("// {}\n", "ü".repeat(columns - 3));
        assert_eq!(sizes_of(&(line(140) + &function(7, 100, 40) + &line(140))), "");
        assert_eq!(sizes_of(&(line(141) + &function(7, 100, 40) + &line(140))), "columns a::b 1\n");
        assert_eq!(sizes_of(&(line(141) + &function(7, 100, 40) + &line(200))), "columns a::b 2\n");
        assert_eq!(sizes_of(&function(8, 100, 40)), "parameters a::b::f 8\n");
        assert_eq!(sizes_of(&function(0, 100, 41)), "body a::b::f 41\n");
        assert_eq!(sizes_of(&function(1, 240, 0)), "columns a::b::f 1\n");
        assert_eq!(sizes_of(&function(1, 241, 0)), "columns a::b::f 1\ncontract a::b::f 1\n");
    }

    #[test]
    fn functions_of_every_layout() {
        let code = r#"
fn one() {}

// fn not(
const FN: u8 = 1;

fn two(a: u8) -> (u8, u8) {
    (a, a)
}

#[no_mangle]
pub extern "C" fn three(
    a: &[u8],
    b: Pair<u8, u8>, // { no brace
) -> u32
    requires {
        ⌜ {a} ⌝
    }
{
    if a {
    }
    0
}
"#;
        let found = functions(code);
        let found: Vec<_> = found.iter().map(|found| (found.name.as_str(), found.sizes(), found.body())).collect();
        assert_eq!(found, [("one", (0, &[][..]), 0), ("two", (1, &[]), 1), ("three", (2, &[20]), 3)]);
        assert_eq!(sizes_of("fn open() {\n    }\n"), "layout a::b::open 1\n");
    }
}
