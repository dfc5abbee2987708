//! The docs against the files that they speak of: statements, names, edits and their errors, rooms, the header's
//! numbers, figures that two pages tell, the landings; and what proofs and code may not have. Then the checks themselves,
//! on a small repository with one thing wrong at a time.

use tests::docs::{all, shapes_listed, Files, Held, LOGS, MOST};
use tests::program::repository;
use tests::say;

/// The gate sets this: it has tried every edit of must-fail, so what rt says of each must be there.
const TRIED: &str = "EDITS_TRIED";

#[test]
fn the_docs_are_true() {
    let files = Files::read(&repository());
    let held = all(&files);
    for Held { what, count, left_out, not_tried, .. } in &held {
        say(&format!("compared: docs, {what}: {count} held\n"));
        for (missing, by) in [(left_out, "rt must-fail"), (not_tried, "make faults")] {
            if *missing > 0 {
                say(&format!("compared: docs, {what}: {missing} left out: {by} has said nothing of them\n"));
            }
        }
    }
    // For whoever has made something smaller: tests/data/shapes.txt as it should stand.
    std::fs::write(repository().join("target/shapes.txt"), shapes_listed(&files)).expect("target/ is there");
    let faults = faults(&held);
    assert!(faults.is_empty(), "{} differences\n{}", faults.len(), faults.join("\n"));
    for Held { what, count, left_out, not_tried, .. } in held {
        // The landings come with the first request.
        let none_yet = what == "landings" && !files.has("docs/LANDINGS.md");
        assert!(count + left_out + not_tried > 0 || none_yet, "{what}: nothing was held");
        assert!(left_out == 0 || std::env::var_os(TRIED).is_none(), "{what}: {left_out} were not tried");
    }
}

fn faults(held: &[Held]) -> Vec<String> {
    held.iter().flat_map(|held| held.faults.iter().map(|fault| format!("{}: {fault}", held.what))).collect()
}

/// A repository with nothing wrong.
fn small() -> Files {
    let parts = include_str!("../data/small-docs.txt").split("==== ").skip(1);
    Files::of(&parts.filter_map(|part| part.split_once('\n')).collect::<Vec<_>>())
}

/// What is planted: the start of the name of the check that must see it, a file, a text in it, and another for that.
const PLANTED: [(&str, &str, &str, &str); 86] = [
    // Another statement, one that is only the start of what is proved, a field too many.
    ("statements", "docs/PROMISES.md", "n ≡ n", "n ≡ 0"),
    ("statements", "crates/promises/proofs/Back.antt", "→ n ≡ n", "→ n ≡ n → n ≡ n"),
    ("statements", "crates/promises/proofs/Back.antt", "    pub one : ℕ\n", "    pub one : ℕ\n    pub two : ℕ\n"),
    // Names of definitions, of proofs, of code, and those that only follow one.
    ("names", "docs/PROMISES.md", "`Back.back`", "`Back.forth`"),
    ("names", "docs/PROMISES.md", "`back-too`", "`back-two`"),
    ("names", "docs/PROMISES.md", "`rules::read`", "`rules::reads`"),
    ("names", "docs/PROMISES.md", "`rules::read`", "`rule::read(law)`"),
    ("names", "docs/PROMISES.md", "`rules::frames::next`", "`rules::lists::next`"),
    ("names", "docs/PAPER.md", "`Walk.short`", "`Walk.wide`"),
    ("names", "docs/PAPER.md", "and `Frame`", "and `Frames`"),
    ("names", "docs/CONTRACTS.md", "rules: `read`", "rules: `write`"),
    ("names", "crates/rules/specs/Walk.antt", "longest :", "longer :"),
    ("names", "crates/rules/src/lib.rt", "fn read", "fn reads"),
    // Edits: not kept, not named, named twice, in the other folder, of another crate, of none, twins; not kept and named
    // in PAPER, the first and a later one.
    ("edits as", "docs/CONTRACTS.md", "`too_long`", "`too_wide`"),
    ("edits as", "docs/CONTRACTS.md", "; g7110, `too_short`.", "."),
    ("edits as", "docs/CONTRACTS.md", "`too_short`.", "`too_short`, `too_short`."),
    ("edits as", "docs/CONTRACTS.md", "`too_short`. Others: ", "`too_short`, "),
    ("edits as", "docs/CONTRACTS.md", "; g7110, `too_short`", ", `too_short`"),
    ("edits as", "docs/CONTRACTS.md", "; g7110, `too_short`", "; `too_short`"),
    ("edits as", "crates/rules/faults/too_long.edit", "", "One octet more."),
    ("edits as", "docs/PAPER.md", "`too_long`", "`too_wide`"),
    ("edits as", "docs/PAPER.md", "g7110, `too_narrow`", "g7110, `too_wide`"),
    ("edits as", "docs/PAPER.md", "g7110, `too_narrow`", "rules, `too_narrow`"),
    // Their heads: nothing wrong, no fact, two, a fact that is none, one that has more after it, another folder.
    ("heads", "crates/rules/must-fail/too_long.edit", "One octet more.\n", ""),
    ("heads", "crates/rules/must-fail/too_long.edit", "fails: Back, `back`\n", ""),
    ("heads", "crates/rules/must-fail/too_long.edit", "file: ", "fails: Back, `back`\nfile: "),
    ("heads", "crates/g7110/must-fail/too_short.edit", "`g7110_read`, ", ""),
    ("heads", "crates/g7110/must-fail/too_short.edit", "`returns-2`", "`returns-2`: 0 against 1"),
    ("heads", "crates/rules/edits/too_wide.edit", "", "One column more.\nfails: Back, `back`\n"),
    // The facts: of another law, another file, another goal, another function, of its invariants, of a note; for the shape
    // alone; by what the other of the two files says.
    ("facts", "crates/rules/must-fail/too_long.edit", "Back, `back`", "Back, `other`"),
    ("facts", "crates/rules/must-fail/too_long.edit", "Back, `back`", "Other, `back`"),
    ("facts", "crates/g7110/must-fail/too_short.edit", "`returns-2`", "`returns`"),
    ("facts", "crates/g7110/must-fail/too_short.edit", "`g7110_read`", "`g7110_walk`"),
    ("facts", "crates/g7110/faults/too_narrow.edit", "`invariant-loop`", "`returns`"),
    ("facts", "crates/g7110/faults/too_flat.edit", "`returns-3`", "`returns-4`"),
    (
        "facts",
        "target/must-fail.txt",
        "must be: ./proofs/Back",
        "must be (only because a proof file names what the edit took away): ./proofs/Back",
    ),
    ("facts", "target/faults.txt", "g7110_read", "g7110_walk"),
    // Rooms: a crate that is not listed, one that is not there, one above what it stands on, another room.
    ("rooms", "README.md", "crates/rules, crates/promises", "crates/rules"),
    ("rooms", "README.md", "crates/g7110", "crates/g7110, crates/read_bits"),
    ("rooms", "crates.txt", "promises: rules", "promises: rules g7110"),
    ("rooms", "README.md", "| tools/ |", "| tool/ |"),
    // Numbers: a refusal in the header, in the definition, in the wrapper; limits; a report.
    ("refusals", "include/g7110.h", "G7110_TOOL = 3", "G7110_TOOL = 4"),
    ("refusals", "crates/rules/specs/Refusals.antt", "Short = 1", "Short = 2"),
    ("refusals", "wrapper/src/lib.rs", "Tool(_) => 3", "Tool(_) => 2"),
    ("refusals", "crates/rules/specs/Refusals.antt", "move_number = 27", "move_number = 28"),
    ("limits", "include/g7110.h", "VERSION 1", "VERSION 2"),
    ("limits", "crates/rules/specs/Walk.antt", "= 1048576", "= 65535"),
    ("limits", "crates/store_rows/specs/Limits.antt", "= 1048576", "= 16384"),
    ("limits", "crates/promises/proofs/Bounded.antt", "402", "403"),
    ("limits", "crates/recording/specs/Items.antt", "= 32768", "= 32769"),
    ("limits", "include/g7110.h", "MAX_FILE 1048586", "MAX_FILE 1048576"),
    ("limits", "include/g7110.h", "MAX_CELLS 33026", "MAX_CELLS 770"),
    ("limits", "include/g7110.h", "MAX_TABLE 379687", "MAX_TABLE 7392"),
    ("calls", "wrapper/src/raw.rs", "[u64; 4]", "[u64; 5]"),
    // Figures: another one on a page, on the other, twice on one page, with other words; in the header; another version;
    // another time.
    ("figures", "docs/TESTING.md", "of 12,331\nwrites", "of 12,413\nwrites"),
    ("figures", "docs/STORE.md", "1,908 as", "2,338 as"),
    ("figures", "docs/STORE.md", "of 3,501,684", "of 1,842,911"),
    ("figures", "docs/BENCHMARKS.md", "copies its", "moves its"),
    ("figures", "include/g7110.h", "MAX_FRAME 402", "MAX_FRAME 403"),
    ("figures", "include/g7110.h", "* 1  the first", "* 2  the second"),
    ("figures", "include/g7110.h", "major 3", "major 4"),
    ("figures", "include/g7110.h", "MINOR < 2", "MINOR < 1"),
    ("figures", "include/g7110.h", "  770 ", "  258 "),
    ("figures", "include/g7110.h", "   379,687", "   379,680"),
    ("figures", "docs/LANDINGS.md", "812 s", "821 s"),
    // Landings without a time, and a page that names a machine.
    ("landings", "docs/LANDINGS.md", "812 s", "BEFORE s"),
    ("landings", "docs/landings/R-01.md", "1,020 s", "more"),
    ("lines", "docs/PAPER.md", "Reading.", "Reading /home/someone."),
    // Proofs: an alias, a name and an operator that nothing reads, a let, a position, a long way without a name.
    (
        "proofs",
        "crates/promises/proofs/read/Answers.antt",
        "Tie as tie",
        "Tie as tie\nuse Rattle.rules.proofs.Reads as reads",
    ),
    ("proofs", "crates/promises/proofs/read/Answers.antt", "{ℕ, ", "{ℕ, suc, "),
    ("proofs", "crates/promises/proofs/read/Answers.antt", "1 + 1", "1"),
    ("proofs", "crates/promises/proofs/read/Answers.antt", "s.known n", "s.known 2"),
    ("proofs", "crates/promises/proofs/read/Answers.antt", "returns : ", "-- src/lib.rt:47:5\nreturns : "),
    (
        "proofs",
        "crates/promises/proofs/read/Answers.antt",
        "start c in",
        "c.before.before.before.before.before.before in",
    ),
    // Shapes: a crate of no family; a line, parameters, a clause and a body that are too large, a body without its end; one
    // that is listed and has grown, is smaller now, or is gone, is listed with another size or twice; a line of the list
    // that is none.
    ("shapes", "crates.txt", "promises: rules", "promises: rules\nframe_rules: rules"),
    ("shapes", "crates/rules/src/lib.rt", "pub fn read", LONG_LINE),
    ("shapes", "crates/rules/src/lib.rt", "read()", "read(a: u8, b: u8, c: u8, d: u8, e: u8, f: u8, g: u8, h: u8)"),
    ("shapes", "crates/rules/src/frames.rt", "result ≡ a", LONG_CLAUSE),
    ("shapes", "crates/rules/src/frames.rt", "    a\n", LONG_BODY),
    ("shapes", "crates/rules/src/frames.rt", "    a\n}", "    a }"),
    ("shapes", "crates/rules/src/frames.rt", "h: u8)", "h: u8, i: u8)"),
    ("shapes", "crates/rules/src/frames.rt", ", h: u8)", ")"),
    ("shapes", "crates/rules/src/frames.rt", "fn all(", "fn every("),
    ("shapes", "tests/data/shapes.txt", "all 8", "all 9"),
    ("shapes", "tests/data/shapes.txt", "all 8\n", "all 8\nparameters rules::frames::all 8\n"),
    ("shapes", "tests/data/shapes.txt", "all 8\n", "all 8\ncolumns rules::frames\n"),
];

/// A line of 141 columns; what makes a clause one of 241 characters, on lines that are short; a body of 41 lines.
const LONG_LINE: &str = concat!(
    "// Every octet that is read here is read in the order of the paper, and this line is longer by one column than a line ",
    "of the code ever may be\npub fn read",
);
const LONG_CLAUSE: &str = concat!(
    "result ≡ a\n        × a + 0 ≡ a × b + 0 ≡ b × f + 0 ≡ f × g + 0 ≡ g × h + 0 ≡ h × 0 + a ≡ a × 0 + b ≡ b × 0 + f ≡ f",
    "\n        × a + 0 ≡ a × b + 0 ≡ b × f + 0 ≡ f × g + 0 ≡ g × h + 0 ≡ h × 0 + a ≡ a × 0 + b ≡ b × 0 + f ≡ f",
    "\n        × 1000 + 20 ≡ 1020 + 0 + 0",
);
const LONG_BODY: &str = "    a\n\n\n\n\n\n\n\n\n\n\n\n\n\n\n\n\n\n\n\n\n\n\n\n\n\n\n\n\n\n\n\n\n\n\n\n\n\n\n\n\n";

#[test]
fn each_difference_is_found() {
    let none = faults(&all(&small()));
    assert!(none.is_empty(), "{}", none.join("\n"));
    for (check, path, old, new) in PLANTED {
        let mut files = small();
        let text = files.text(path).replacen(old, new, 1);
        assert_ne!(text, files.text(path), "{path} has no {old}");
        files.put(path, text);
        let found = all(&files).into_iter().find(|held| held.what.starts_with(check)).expect("a check");
        assert!(!found.faults.is_empty(), "{check}: {path}: {new} was not seen");
    }
    let told = format!("with {} differences planted one at a time", PLANTED.len());
    assert!(Files::read(&repository()).text("docs/TESTING.md").contains(&told), "TESTING does not say: {told}");
    say(&format!("compared: docs, planted differences: {}, each found\n", PLANTED.len()));
}

/// The gate's are left out; those that it does not try were not tried.
#[test]
fn an_edit_of_which_nothing_is_said_is_told() {
    for (path, wanted) in [("rules/too_long", (1, 0)), ("g7110/too_narrow", (0, 1))] {
        let mut files = small();
        for place in LOGS {
            let others = files.text(place).lines().filter(|line| !line.contains(path));
            let others = others.map(|line| format!("{line}\n")).collect();
            files.put(place, others);
        }
        let held = all(&files);
        assert!(faults(&held).is_empty());
        let missing: (usize, usize) = held.iter().fold((0, 0), |(l, n), held| (l + held.left_out, n + held.not_tried));
        assert_eq!(missing, wanted, "{path}");
    }
}

/// As many edits as the gate may have, and one more.
#[test]
fn too_many_edits_are_told() {
    let mut files = small();
    for number in 2..=MOST {
        let none = faults(&all(&files));
        assert!(none.is_empty(), "{number} edits\n{}", none.join("\n"));
        let one_more = "One more.\nfails: Back, `back`\n".to_string();
        files.put(&format!("crates/rules/must-fail/more_{number}.edit"), one_more);
        let named = format!("`too_long`,\n  `more_{number}`");
        files.put("docs/CONTRACTS.md", files.text("docs/CONTRACTS.md").replacen("`too_long`", &named, 1));
    }
    assert_eq!(faults(&all(&files)).len(), 1);
}
