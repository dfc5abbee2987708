//! Figures that are told in two places or more: all of them tell the same one. The times of a landing too, which
//! docs/LANDINGS.md and its note tell.

use super::pages::times;
use super::{folded, Files, Held};

/// What a figure is, and where it is told: a page, and the words around it, with `#` for the figure.
type Told = (&'static str, &'static [(&'static str, &'static str)]);

const BENCHMARKS: &str = "docs/BENCHMARKS.md";
const CONTRACTS: &str = "docs/CONTRACTS.md";
const DECISIONS: &str = "docs/DECISIONS.md";
const HEADER: &str = "include/g7110.h";
const PAPER: &str = "docs/PAPER.md";
const PROMISES: &str = "docs/PROMISES.md";
const README: &str = "README.md";
const STORE: &str = "docs/STORE.md";
const TESTING: &str = "docs/TESTING.md";

const TOLD: [Told; 20] = [
    (
        "cuts while closing up in place",
        &[
            (TESTING, "closing up in place: of # writes"),
            (TESTING, "each of the # leaves the old store"),
            (STORE, "of # cuts while closing up in place"),
        ],
    ),
    (
        "cuts of closing up by moves",
        &[
            (TESTING, "none of # cuts loads anything but the store"),
            (TESTING, "Together # cuts, of which"),
            (STORE, "of # cuts of closing up by moves none loads"),
        ],
    ),
    ("cuts that leave the old store", &[(TESTING, "writes, # leave the old store"), (STORE, "and # as the old store")]),
    (
        "cuts that load as what was never put",
        &[
            (TESTING, "and # load as greetings that were never put"),
            (STORE, "in place # load as greetings that were never put"),
        ],
    ),
    (
        "octets of the longest frame",
        &[
            (HEADER, "#define G7110_MAX_FRAME #"),
            (README, "a frame has at most # octets"),
            (PAPER, "An accepted one has at most #"),
            (PROMISES, "bits and # octets. That is reached"),
        ],
    ),
    (
        "bits of the longest frame",
        &[
            (PROMISES, "An accepted frame has at most # bits"),
            (PAPER, "with S = 9: # bits"),
            (CONTRACTS, "a form has at most # bits"),
        ],
    ),
    (
        "octets that are SHORT",
        &[(DECISIONS, "| # octets at most: 319 empty runs"), (PROMISES, "refuse Short at → length octets ≤ #")],
    ),
    (
        "octets of why's text",
        &[(HEADER, "The text has at most # octets. It stands"), (DECISIONS, "nine lines since R-14, at most # octets")],
    ),
    (
        "numbers of a usual block's table",
        &[
            (HEADER, "* table, G7110_CELLS(size) # "),
            (DECISIONS, "64: 260; 16,384: #;"),
            (STORE, "numbers its table needs: # for 16,384 octets"),
        ],
    ),
    (
        "numbers of the largest table",
        &[
            (HEADER, "#define G7110_MAX_CELLS #"),
            (HEADER, "G7110_CELLS(size) 770 # cells"),
            (DECISIONS, "1,048,576 and more: #."),
            (STORE, "for 16,384 octets, # for the largest"),
            (BENCHMARKS, "copies its # cells back"),
        ],
    ),
    (
        "octets of a usual block's text",
        &[
            (HEADER, "* text of the table, at most # "),
            (DECISIONS, "for a block of up to 16,384 octets, at most # octets"),
            (STORE, "of a block of up to 16,384 octets has at most # octets"),
        ],
    ),
    (
        "octets of the longest text",
        &[
            (HEADER, "#define G7110_MAX_TABLE #"),
            (HEADER, "text of the table, at most 7,392 #"),
            (DECISIONS, "Its text has at most # octets: `form=2`"),
            (STORE, "That of the largest block has at most #"),
        ],
    ),
    (
        "frames that a put walks once",
        &[
            (DECISIONS, "257 marks, # frames"),
            (STORE, "once where that has at most # frames"),
            (CONTRACTS, "514 cells, enough for # frames"),
            (BENCHMARKS, "A greeting of more than # frames"),
        ],
    ),
    (
        "octets of a stream",
        &[
            (HEADER, "#define G7110_MAX_STREAM #"),
            (README, "A stream has at most # octets"),
            (PROMISES, "since document 02, R-11, at most #"),
        ],
    ),
    (
        "octets that are listed",
        &[(README, "the listing takes #"), (PAPER, "A or M, then a stream of at most # octets; set 127")],
    ),
    (
        "samples of a mended greeting",
        &[
            (HEADER, "#define G7110_MOST_TOTAL #"),
            (HEADER, "not a multiple of 40, or above # "),
            (README, "a multiple of 40, at most #"),
            (PAPER, "isn't a multiple of 40 or is above #"),
        ],
    ),
    (
        "version",
        &[
            (HEADER, "#define G7110_VERSION #"),
            (HEADER, "or its report changes. * # "),
            (HEADER, "This is version #, major"),
        ],
    ),
    (
        "major version",
        &[(HEADER, "#define G7110_VERSION_MAJOR #"), (HEADER, ", major #, minor"), (HEADER, "VERSION_MAJOR != # ")],
    ),
    (
        "minor version",
        &[(HEADER, "#define G7110_VERSION_MINOR #"), (HEADER, ", minor #."), (HEADER, "VERSION_MINOR < #`")],
    ),
    (
        "samples of a part that is packed",
        &[
            (CONTRACTS, "goes on only after parts of # that took room"),
            (DECISIONS, "`pack` reads parts of # samples"),
            (TESTING, "more than one part (# samples;"),
        ],
    ),
];

/// Every figure that is told at all is told wherever it was, and is the same there.
pub fn figures(files: &Files) -> Held {
    let mut held = Held::new("figures that two pages tell");
    for (what, places) in TOLD {
        let told: Vec<Vec<String>> = places.iter().map(|(page, words)| figure(files.text(page), words)).collect();
        let Some(first) = told.iter().flatten().next() else { continue };
        for ((page, words), told) in places.iter().zip(&told) {
            let same = !told.is_empty() && told.iter().all(|other| other == first);
            held.hold(same, || format!("{what}: {page} tells {told:?}, and not {first}: {words}"));
        }
    }
    for (path, note) in files.under("docs/landings/", ".md") {
        let link = path.trim_start_matches("docs/");
        // Before and after; a note may go on with the times of crates.
        let two = |text: &str, words: &str| {
            let line = text.lines().find(|line| line.contains(words)).unwrap_or("");
            times(line).into_iter().take(2).collect::<Vec<_>>()
        };
        let (listed, noted) = (two(files.text("docs/LANDINGS.md"), link), two(note, "`rt ci`"));
        held.hold(listed == noted, || format!("{path}: {noted:?}, in LANDINGS {listed:?}"));
    }
    held
}

/// What a page tells between these words, without commas; nothing where it does not have them.
fn figure(page: &str, words: &str) -> Vec<String> {
    let (before, after) = words.rsplit_once('#').expect("a figure");
    let page = folded(page);
    let told = page.match_indices(before).filter_map(|(at, _)| {
        let rest = &page[at + before.len()..];
        let length = rest.find(|c: char| !c.is_ascii_digit() && c != ',').unwrap_or(rest.len());
        let number = rest[..length].trim_end_matches(',');
        let here = !number.is_empty() && rest[number.len()..].starts_with(after);
        here.then(|| number.replace(',', ""))
    });
    told.collect()
}
