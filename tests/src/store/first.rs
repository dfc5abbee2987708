//! R-11's first line, `form=2`, damaged, misplaced, before lines that it does not go with, or missing where it is needed. None
//! of these is taken: TABLE, told by the lines alone, and so before BAD.

use super::{early_text_of, is_large, text_of, FORM};
use second::gen::Prng;
use second::store::Greeting;

pub const FIRST_LINES: [&str; 20] = [
    "another number",
    "come round",
    "40 digits",
    "a leading zero",
    "twice",
    "no 0A",
    "CR LF",
    "a space",
    "a sign",
    "no digits",
    "a letter",
    "an octet 0",
    "another key",
    "no =",
    "a second number",
    "an empty line",
    "behind the greetings",
    "among the lines",
    "R-6's lines",
    "missing",
];

/// A table of these greetings whose first line is wrong in such a way; none where it can't be.
pub fn first_line(how: &str, rows: &[Greeting], rng: &mut Prng) -> Option<Vec<u8>> {
    let lines = text_of(rows);
    let pick = |list: &[&str], rng: &mut Prng| list[rng.below(list.len())].as_bytes().to_vec();
    let first = match how {
        "another number" => {
            pick(&["form=0\n", "form=1\n", "form=3\n", "form=4\n", "form=12\n", "form=20\n", "form=22\n"], rng)
        }
        // 2 more than 2^8, 2^16, 2^32, 2^64.
        "come round" => pick(&["form=258\n", "form=65538\n", "form=4294967298\n", "form=18446744073709551618\n"], rng),
        "40 digits" => format!("form={}{:039}\n", 1 + rng.below(9), 2).into_bytes(),
        "a leading zero" => pick(&["form=02\n", "form=002\n", "form=00\n"], rng),
        "twice" => pick(&["form=2\nform=2\n", "form=2\nform=3\n", "form=2\nform=2\nform=2\n"], rng),
        "no 0A" => b"form=2".to_vec(),
        "CR LF" => b"form=2\r\n".to_vec(),
        "a space" => pick(&[" form=2\n", "form =2\n", "form= 2\n", "form=2 \n"], rng),
        "a sign" => pick(&["form=+2\n", "form=-2\n"], rng),
        "no digits" => b"form=\n".to_vec(),
        "a letter" => pick(&["form=2a\n", "form=x2\n", "form=2.\n", "form=two\n"], rng),
        "an octet 0" => pick(&["form=2\0\n", "form\0=2\n", "form=2\n\0", "\0form=2\n"], rng),
        "another key" => pick(&["Form=2\n", "FORM=2\n", "forms=2\n", "orm=2\n", "=2\n", "prompt=2\n", "law=1\n"], rng),
        "no =" => pick(&["form2\n", "form\n", "form 2\n"], rng),
        "a second number" => pick(&["form=2,0\n", "form=2,2\n", "form=0,2\n"], rng),
        "an empty line" => pick(&["form=2\n\n", "\nform=2\n"], rng),
        "behind the greetings" if !rows.is_empty() => return Some([&lines[..], FORM].concat()),
        "among the lines" if !rows.is_empty() => return Some(among(&lines, rng)),
        "R-6's lines" if !rows.is_empty() => return Some(with_early_lines(rows, rng)),
        "missing" if rows.iter().any(is_large) => return Some(if rng.flip() { lines } else { early_text_of(rows) }),
        _ => return None,
    };
    Some([first, lines].concat())
}

/// The line put behind some other line; the text may have the right one before it.
fn among(lines: &[u8], rng: &mut Prng) -> Vec<u8> {
    let ends: Vec<usize> = (1..lines.len()).filter(|at| lines[at - 1] == b'\n').collect();
    let at = *rng.pick(&ends);
    let first: &[u8] = if rng.flip() { FORM } else { &[] };
    [first, &lines[..at], FORM, &lines[at..]].concat()
}

/// `form=2`, and R-6's lines of all greetings or of some.
fn with_early_lines(rows: &[Greeting], rng: &mut Prng) -> Vec<u8> {
    let early = rng.below(rows.len());
    let text = |(at, row): (usize, &Greeting)| {
        let row = std::slice::from_ref(row);
        if at == early || rng.flip() {
            early_text_of(row)
        } else {
            text_of(row)
        }
    };
    let lines: Vec<u8> = rows.iter().enumerate().flat_map(text).collect();
    [FORM, &lines].concat()
}
