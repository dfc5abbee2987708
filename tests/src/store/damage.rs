//! Saved tables, damaged. None of these is taken: TABLE, for what the lines alone tell before BAD, for what only the walk
//! tells after it.

use super::{asks_for_form, text_of, FORM};
use second::gen::Prng;
use second::store::{Greeting, Mark};

pub const DAMAGES: [&str; 36] = [
    "another order of lines",
    "another order of greetings",
    "a line left out",
    "a line twice",
    "no 0A",
    "an empty line",
    "CR LF",
    "a space",
    "a plus sign",
    "a minus sign",
    "a leading zero",
    "no digits",
    "a letter among the digits",
    "an octet 0",
    "another key",
    "no =",
    "40 digits",
    "come round at 32 bits",
    "come round at 64 bits",
    "a number used twice",
    "a number out of range",
    "overlap",
    "past the block's end",
    "a 33rd greeting",
    "a law of 2",
    "mixed lines",
    "a mark without its comma",
    "a third number in a mark",
    "no samples line",
    "a mark too many",
    "a mark too few",
    "no marks",
    "a wrong mark",
    "marks in another order",
    "a mark of 40 digits",
    "wrong samples",
];

/// A damaged text, and whether the lines alone tell it.
pub struct Damaged {
    pub text: Vec<u8>,
    pub by_lines: bool,
}

/// A table damaged in such a way behind R-11's first line, if it has one; none where it can't be.
pub fn damaged(how: &str, rows: &[Greeting], size: usize, rng: &mut Prng) -> Option<Damaged> {
    let first = if asks_for_form(rows, size) { FORM } else { &[] };
    let at = rng.below(rows.len().max(1));
    if let Some(rows) = damaged_rows(how, rows, at, size, rng)? {
        let by_walk = ["a mark too many", "a mark too few", "no marks", "a wrong mark", "marks in another order"];
        let text = [first, &text_of(&rows)].concat();
        return Some(Damaged { text, by_lines: !by_walk.contains(&how) && how != "wrong samples" });
    }
    // The lines of one greeting, and those before and after them.
    let [before, own, after] = [&rows[..at], &rows[at..=at], &rows[at + 1..]].map(text_of);
    let own = String::from_utf8(own).ok()?;
    let mut lines: Vec<String> = own.split_inclusive('\n').map(String::from).collect();
    let by_lines = damage_lines(how, &mut lines, rng)?;
    let mut text = [first.to_vec(), before, lines.concat().into_bytes(), after].concat();
    if how == "mixed lines" {
        // It is mixed only if another greeting has R-8's lines.
        text = (rows.len() > 1).then_some(text)?;
    }
    Some(Damaged { text, by_lines })
}

/// A list of greetings damaged in such a way: none where it can't be, and no list where it is the text that is damaged.
fn damaged_rows(how: &str, rows: &[Greeting], at: usize, size: usize, rng: &mut Prng) -> Option<Option<Vec<Greeting>>> {
    let mut rows = rows.to_vec();
    let last = rows.last()?.clone();
    match how {
        "another order of greetings" => {
            let other = rng.below(rows.len());
            (at != other).then(|| rows.swap(at, other))?;
        }
        "a number used twice" => rows[at].number = rows[rng.below(at.checked_sub(1)? + 1)].number,
        "a number out of range" => rows[at].number = *rng.pick(&[0, 65_536, 65_537, u32::MAX]),
        "overlap" => {
            let before = &rows[at.checked_sub(1)?];
            let end = before.start + before.octets;
            rows[at].start = end - 1 - rng.below(3).min(end - 1);
        }
        "past the block's end" => rows.last_mut()?.octets = size - last.start + 1 + rng.below(5),
        "a 33rd greeting" => {
            let free = (1..100).filter(|number| rows.iter().all(|row| row.number != *number));
            let numbers: Vec<u32> = free.take(33usize.checked_sub(rows.len())?).collect();
            // Empty greetings, which would be BAD, behind the last one: the 33rd is told first.
            let empty = Greeting { start: last.start + last.octets, octets: 0, samples: 0, marks: Vec::new(), ..last };
            rows.extend(numbers.into_iter().map(|number| Greeting { number, ..empty.clone() }));
        }
        "a law of 2" => rows[at].law = *rng.pick(&[2, 3, 10, 11, 256, u32::MAX]),
        _ => return damaged_marks(how, &mut rows[at], rng).map(|damaged| damaged.then_some(rows)),
    }
    Some(Some(rows))
}

/// A greeting whose samples or marks are not what the walk gives; false where it is the text that is damaged.
fn damaged_marks(how: &str, row: &mut Greeting, rng: &mut Prng) -> Option<bool> {
    let end = Mark { octets: row.octets, samples: row.samples };
    let which = rng.below(row.marks.len());
    match how {
        "a mark too many" => match rng.below(3) {
            0 => row.marks.push(end),
            1 => row.marks.push(Mark { octets: row.marks.len() * 64, samples: 0 }),
            _ => row.marks.insert(which, row.marks[which]),
        },
        "a mark too few" => {
            row.marks.remove(which);
        }
        "no marks" => row.marks.clear(),
        "a wrong mark" => {
            let mark = &mut row.marks[which];
            let number = if rng.flip() { &mut mark.octets } else { &mut mark.samples };
            *number = match rng.below(4) {
                0 => number.checked_sub(1)?,
                1 => *number + 40 + 40 * rng.below(8),
                2 => *number + (1 << 16),
                _ => *number + 1,
            };
        }
        "marks in another order" => {
            let other = rng.below(row.marks.len());
            (which != other).then(|| row.marks.swap(which, other))?;
        }
        "wrong samples" => {
            row.samples = match rng.below(3) {
                0 => row.samples.checked_sub(1)?,
                1 => row.samples + 40,
                _ => row.samples + 1,
            }
        }
        _ => return Some(false),
    }
    Some(true)
}

/// The lines of one greeting damaged in such a way; gives whether the lines alone tell it.
fn damage_lines(how: &str, lines: &mut Vec<String>, rng: &mut Prng) -> Option<bool> {
    let which = rng.below(lines.len());
    // Lines from the fifth on, `samples` and the marks, may be told by the walk alone.
    match how {
        "another order of lines" => {
            let other = rng.below(lines.len());
            (which != other).then(|| lines.swap(which, other))?;
            return Some(which.min(other) < 5);
        }
        "mixed lines" => {
            lines.truncate(3);
            return Some(true);
        }
        "no samples line" => {
            lines.remove(4);
            return Some(true);
        }
        "a mark without its comma" | "a third number in a mark" | "a mark of 40 digits" => {
            let mark = 5 + rng.below(lines.len() - 5);
            let (octets, samples) = lines[mark].trim_end().strip_prefix("mark=")?.split_once(',')?;
            let (octets, samples) = (octets.to_string(), samples.to_string());
            lines[mark] = match how {
                "a mark without its comma" => {
                    let other = ["", " ", ";", ".", ", ", ",,", "\t"][rng.below(7)];
                    format!("mark={octets}{other}{samples}\n")
                }
                "a third number in a mark" => format!("mark={octets},{samples},{}\n", rng.below(9)),
                _ if rng.flip() => format!("mark={octets},{}\n", many_digits(rng)),
                _ => format!("mark={},{samples}\n", many_digits(rng)),
            };
            return Some(how != "a mark of 40 digits");
        }
        _ => {}
    }
    lines[which] = damaged_line(how, &lines[which], rng)?;
    let numbers = ["40 digits", "come round at 32 bits", "come round at 64 bits"];
    Some(match how {
        "a line left out" | "a line twice" => which < 5,
        _ if numbers.contains(&how) => which < 4,
        _ => true,
    })
}

fn many_digits(rng: &mut Prng) -> String {
    let more: String = (0..39).map(|_| char::from(b'0' + rng.below(10) as u8)).collect();
    format!("{}{more}", 1 + rng.below(9))
}

/// A line damaged in such a way. Of a mark one of its two numbers is.
fn damaged_line(how: &str, line: &str, rng: &mut Prng) -> Option<String> {
    let (key, values) = line.trim_end().split_once('=')?;
    let place = rng.below(line.len() + 1);
    let (first, value, last) = match values.split_once(',') {
        Some((octets, samples)) if rng.flip() => (String::new(), octets, format!(",{samples}")),
        Some((octets, samples)) => (format!("{octets},"), samples, String::new()),
        None => (String::new(), values, String::new()),
    };
    let with = |value: &str| format!("{key}={first}{value}{last}\n");
    let number: u128 = value.parse().ok()?;
    Some(match how {
        "a line left out" => String::new(),
        "a line twice" => line.repeat(2),
        "no 0A" => line.trim_end().to_string(),
        "an empty line" => format!("{line}\n"),
        "CR LF" => format!("{}\r\n", line.trim_end()),
        "a space" => [&line[..place], " ", &line[place..]].concat(),
        "a plus sign" => with(&format!("+{value}")),
        "a minus sign" => with(&format!("-{value}")),
        "a leading zero" => with(&format!("0{value}")),
        "no digits" => with(""),
        "a letter among the digits" => with(&format!("{value}{}", ['a', 'O', 'x', 'e', '.'][rng.below(5)])),
        "an octet 0" => [&line[..place], "\0", &line[place..]].concat(),
        "another key" => {
            let other = ["Prompt", "prompts", "law", "form", "", "octet", "Mark", "sample"][rng.below(8)];
            (other != key).then(|| format!("{other}={values}\n"))?
        }
        "no =" => format!("{key}{values}\n"),
        "40 digits" => with(&many_digits(rng)),
        "come round at 32 bits" => with(&(number + (1 << 32)).to_string()),
        "come round at 64 bits" => with(&(number + (1 << 64)).to_string()),
        _ => panic!("no damage is called {how}"),
    })
}
