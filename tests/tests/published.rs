//! The runner for published test signals, on a folder made up of the recordings: the published ones are not at hand.

#![cfg(feature = "writer")]

use second::gen::Prng;
use std::fs;
use std::path::{Path, PathBuf};
use tests::digits::{rows, some_numbers, WAYS};
use tests::forms::LENGTHS;
use tests::program::{beside, run};
use tests::published::{compare, End};
use tests::recordings::{folder, packed};
use tests::{say, Codec, Proved, Read, Second, Walk, Write, ALL_TOOLS};

/// What the runner said, and how it ended.
struct Ran {
    status: Option<i32>,
    said: String,
}

fn vectors_of(folder: &Path) -> Ran {
    let mut command = beside(env!("CARGO_BIN_EXE_vectors_of"));
    command.arg(folder);
    let ended = run(command, &[]);
    Ran { status: ended.status.code(), said: String::from_utf8(ended.stdout).unwrap() }
}

impl Ran {
    /// The line of a stream.
    fn line(&self, name: &str) -> &str {
        let start = format!("{name}: ");
        self.said.lines().find(|line| line.starts_with(&start)).unwrap_or_else(|| panic!("{name}\n{}", self.said))
    }

    fn has(&self, name: &str, text: &str) {
        assert!(self.line(name).contains(text), "wanted {text}: {}", self.line(name));
    }
}

fn sound(name: &str) -> Vec<u8> {
    fs::read(folder().join(name)).expect("a shipped recording")
}

/// A stream as a writer with these tools makes it.
fn stream(sound: &[u8], law: u32, set: u32, length: usize) -> Vec<u8> {
    packed(&Second, sound, law, set, length, usize::MAX).octets
}

/// Every row of tool 11 at every length (document 02, R-14), as our writer makes it and as none does: raw and stream.
fn few_values() -> (Vec<u8>, Vec<u8>) {
    let (mut raw, mut stream, mut rng) = (Vec::new(), Vec::new(), Prng::new(149));
    for length in LENGTHS {
        for row in rows(length) {
            for way in [WAYS[0], WAYS[1]] {
                let numbers = some_numbers(row, way, length, &mut rng).expect("every row has such frames");
                let form = row.form(&numbers, 1).expect("the length has the row");
                stream.extend(form.octets());
                raw.extend(form.samples);
            }
        }
    }
    (raw, stream)
}

/// A folder of six pairs and two files alone. One stream is of another writer, one has a frame of tool 9, one all rows of tool 11.
fn made_up(name: &str) -> PathBuf {
    let root = Path::new(env!("CARGO_TARGET_TMPDIR")).join("published").join(name);
    let _ = fs::remove_dir_all(&root);
    fs::create_dir_all(root.join("more/still")).unwrap();
    let put = |file: &str, octets: &[u8]| fs::write(root.join(file), octets).unwrap();
    let greeting = sound("greeting.ul8");
    put("greeting.ul8", &greeting);
    put("greeting.lcm", &stream(&greeting, 1, ALL_TOOLS, 160));
    // Longer than a walk takes.
    let long = sound("music.al8").repeat(3);
    put("LONG.AL", &long);
    put("LONG.LCA", &stream(&long, 0, ALL_TOOLS, 240));
    let hum = sound("hum.ul8");
    put("more/hum.mu8", &hum);
    put("more/hum.lcm", &stream(&hum, 1, 31, 320));
    let message = sound("message.al8");
    put("more/still/message.al8", &message);
    put("more/still/message.lca", &stream(&message, 0, ALL_TOOLS, 80));
    let noise = sound("noise.ul8");
    let before = stream(&noise[..1600], 1, ALL_TOOLS, 160);
    put("noise.mu", &noise);
    put("noise.lcm", &[&before[..], &[0xE1, 0x55, 0x12], &stream(&noise[1760..], 1, ALL_TOOLS, 160)].concat());
    let (few, packed) = few_values();
    put("few.ul8", &few);
    put("few.lcm", &packed);
    put("alone.ul8", &greeting);
    put("more/greeting.lcm", &stream(&greeting, 1, ALL_TOOLS, 160));
    put("readme.txt", b"no signal");
    root
}

#[test]
fn a_made_up_folder() {
    let ran = vectors_of(&made_up("whole"));
    assert_eq!(ran.status, Some(0), "{}", ran.said);
    ran.has("greeting.lcm", "equal; read 250 frames, 40000 samples, ");
    ran.has("greeting.lcm", "written again 250 frames the same, 0 other, ");
    ran.has("LONG.LCA", "equal; read 400 frames, 96000 samples, ");
    ran.has("more/hum.lcm", "equal; read 100 frames, 32000 samples, ");
    ran.has("more/still/message.lca", "equal; read 300 frames, 24000 samples, ");
    ran.has("noise.lcm", "TOOL, tool 9; read 10 frames, 1600 samples, ");
    // 24 frames of 40 samples, 12 of 80, 8 of each other length.
    ran.has("few.lcm", "equal; read 60 frames, 7680 samples, ");
    ran.has("alone.ul8", "alone");
    ran.has("more/greeting.lcm", "alone");
    let sums = "vectors: 6 pairs, 5 equal, 1 with a tool that is not carried, 0 mismatches, 2 files alone\n";
    assert!(ran.said.contains(sums), "{}", ran.said);
    let line = ran.line("more/hum.lcm");
    assert!(!line.contains(" 0 other"), "a writer without tools 6 and 7 writes other octets: {line}");
}

/// The place of the frame that is not carried is that of its octets.
#[test]
fn the_place_of_a_tool_that_is_not_carried() {
    let ran = vectors_of(&made_up("tool"));
    let before = stream(&sound("noise.ul8")[..1600], 1, ALL_TOOLS, 160).len();
    ran.has("noise.lcm", &format!("equal up to octet {before}: TOOL, tool 9;"));
}

/// One octet of one raw file is another: it is found, and named with its place.
#[test]
fn a_planted_mismatch() {
    let root = made_up("planted");
    let path = root.join("more/still/message.al8");
    let mut raw = fs::read(&path).unwrap();
    raw[12_345] ^= 0x01;
    fs::write(&path, &raw).unwrap();
    let ran = vectors_of(&root);
    assert_eq!(ran.status, Some(1), "{}", ran.said);
    let (is, wanted) = (raw[12_345] ^ 0x01, raw[12_345]);
    ran.has(
        "more/still/message.lca",
        &format!("MISMATCH: sample 12345 is {is:02X}, wanted {wanted:02X}, in the frame at "),
    );
    ran.has("more/still/message.lca", "read 154 frames, 12320 samples, ");
    assert!(
        ran.said.contains("vectors: 6 pairs, 4 equal, 1 with a tool that is not carried, 1 mismatches, "),
        "{}",
        ran.said
    );
    assert_eq!(ran.said.matches("MISMATCH").count(), 1, "{}", ran.said);
}

#[test]
fn nothing_to_compare() {
    let root = Path::new(env!("CARGO_TARGET_TMPDIR")).join("published/empty");
    fs::create_dir_all(&root).unwrap();
    assert_eq!(vectors_of(&root).status, Some(2));
    assert_eq!(vectors_of(&root.join("missing")).status, Some(2));
}

fn mismatch(raw: &[u8], stream: &[u8], wanted: &str) {
    let found = compare(&Proved, &Second, "x", raw, stream, 1);
    match &found.end {
        End::Mismatch(why) if why.contains(wanted) => {}
        end => panic!("{end:?}, wanted {wanted}"),
    }
}

/// A stream that ends too soon, one that goes on, one that is cut, one that is refused; and a changed octet anywhere.
#[test]
fn every_sort_of_mismatch() {
    let raw = sound("hum.ul8");
    let whole = stream(&raw, 1, ALL_TOOLS, 160);
    assert_eq!(compare(&Proved, &Second, "x", &raw, &whole, 1).end, End::Equal);
    assert_eq!(compare(&Proved, &Second, "x", &[], &[], 1).end, End::Equal);
    mismatch(
        &raw,
        &stream(&raw[..31_840], 1, ALL_TOOLS, 160),
        "the stream ends after 31840 samples, the raw file has 32000",
    );
    mismatch(&raw[..31_999], &whole, "the raw file ends after 31999 samples");
    mismatch(&raw, &whole[..whole.len() - 1], "SHORT at octet ");
    mismatch(&raw, &[&whole[..], &[0x46]].concat(), "PREFIX at octet ");
    let mut places = 0;
    for place in (0..whole.len()).step_by(7) {
        let mut other = whole.clone();
        other[place] ^= 0x10;
        let end = compare(&Proved, &Second, "x", &raw, &other, 1).end;
        assert_ne!(end, End::Equal, "octet {place} was changed");
        places += 1;
    }
    say(&format!(
        "compared: published signals, made up: one octet changed at {places} places of a stream, all found\n"
    ));
}

/// The second program, but wrong on constant frames.
struct Wrong;

impl Codec for Wrong {
    fn name(&self) -> &str {
        "wrong"
    }

    fn read(&self, octets: &[u8], law: u32, set: u32, out: &mut [u8]) -> Read {
        let got = Second.read(octets, law, set, out);
        if got.tool == 4 {
            out[7] ^= 1;
        }
        got
    }

    fn write(&self, samples: &[u8], law: u32, set: u32, out: &mut [u8]) -> Write {
        Second.write(samples, law, set, out)
    }

    fn walk(&self, octets: &[u8], law: u32, set: u32, out: &mut [u8]) -> Walk {
        Second.walk(octets, law, set, out)
    }
}

#[test]
fn programs_that_differ() {
    let raw = sound("hum.ul8");
    let end = compare(&Wrong, &Second, "x", &raw, &stream(&raw, 1, ALL_TOOLS, 160), 1).end;
    assert!(matches!(&end, End::Mismatch(why) if why.contains("the programs differ")), "{end:?}");
}
