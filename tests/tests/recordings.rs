//! The shipped recordings, written and read by the proved code, through the static library, and by the second program.

#![cfg(feature = "writer")]

use std::process::Command;
use tests::forms::LENGTHS;
use tests::recordings::{cuts, folder, packed, recordings, two_minutes, Recording, TWO_MINUTES};
use tests::{say, tenths, Ask, Codec, Pair, Proved, Second, Table, ALL_TOOLS, MOST, TOOLS};

/// A writer's sets: all tools, none but uncompressed, and each tool left out once or more.
const SETS: [u32; 12] = [1, 3, 5, 9, 17, 31, 63, 65, 95, 127, 129, ALL_TOOLS];

/// The files are those that were made.
#[test]
fn as_shipped() {
    let words = ["--check", "--strict", "--quiet", "SHA256SUMS"];
    let ended = Command::new("sha256sum").args(words).current_dir(folder()).output();
    let ended = ended.expect("sha256sum is in Debian's coreutils");
    assert!(ended.status.success(), "{}", String::from_utf8_lossy(&ended.stdout));
    let mut names: Vec<String> = recordings().into_iter().map(|recording| recording.name).collect();
    assert_eq!(names.len(), 12, "six sounds in two laws");
    names.push(TWO_MINUTES.to_string());
    names.sort();
    let listed = std::fs::read_to_string(folder().join("SHA256SUMS")).unwrap();
    let mut listed: Vec<&str> = listed.lines().filter_map(|line| line.split_whitespace().nth(1)).collect();
    listed.sort();
    assert_eq!(names, listed);
}

/// Every recording in frames of every length, with several sets: both write the same octets, and both read the sound.
#[test]
fn written_and_read_by_both() {
    let mut pair = Pair::new(&Proved, &Second);
    let (mut frames, mut streams) = (0, 0);
    let recordings = recordings();
    let lengths = recordings.iter().flat_map(|recording| LENGTHS.map(|length| (recording, length)));
    let all = lengths.flat_map(|(recording, length)| SETS.map(|set| (recording, length, set)));
    for (recording, length, set) in tenths(all) {
        frames += write_and_read(&mut pair, recording, length, set);
        streams += 1;
    }
    say(&format!(
        "compared: recordings, {frames} frames in {streams} streams, written, read and walked: {} calls\n",
        pair.calls
    ));
    pair.close();
}

/// The two minutes too (document 02, R-11), in both laws.
#[test]
fn two_minutes_written_and_read_by_both() {
    let mut pair = Pair::new(&Proved, &Second);
    let frames: usize =
        two_minutes().iter().map(|recording| write_and_read(&mut pair, recording, 160, ALL_TOOLS)).sum();
    say(&format!("compared: recordings, two minutes in two laws: {frames} frames, {} calls\n", pair.calls));
    pair.close();
}

/// Gives the number of frames.
fn write_and_read(pair: &mut Pair, recording: &Recording, length: usize, set: u32) -> usize {
    let Recording { name, law, sound } = recording;
    let ask = |given: &[u8], room| Ask { given: given.to_vec(), law: *law, set, room };
    let (lengths, left) = cuts(sound.len(), length);
    assert_eq!(left, 0, "{name} has samples that no frame takes");
    let (mut stream, mut at) = (Vec::new(), 0);
    for cut in &lengths {
        let frame = &sound[at..at + cut];
        let asked = ask(frame, 321);
        let wrote = pair.write(&asked);
        let form = pair.output().to_vec();
        let read = pair.read(&ask(&form, 320));
        if (wrote.ending, read.ending, read.tool, read.octets) != (0, 0, wrote.tool, form.len())
            || pair.output() != frame
        {
            pair.differ(&format!("{name}, sample {at}"), &asked, &format!("{wrote:?}, read back {read:?}"));
        }
        stream.extend(form);
        at += cut;
    }
    assert!(stream.len() <= MOST, "{name} in frames of {length}, set {set}, has {} octets", stream.len());
    let asked = ask(&stream, sound.len());
    let walked = pair.walk(&asked);
    if (walked.ending, walked.frames) != (0, lengths.len()) || pair.output() != &sound[..] {
        pair.differ(name, &asked, &format!("{walked:?}, or another sound"));
    }
    lengths.len()
}

/// What the tools are good for: frames of 160 samples, all tools allowed.
#[test]
fn what_the_tools_save() {
    let recordings = recordings();
    let names: Vec<&str> = recordings.iter().map(|recording| recording.name.as_str()).collect();
    let mut table = Table::new("recordings, frames of 160 samples by tool, all tools", &names, &TOOLS, 0);
    for (name, tools) in USED {
        for tool in TOOLS {
            match tools.contains(&tool) {
                true => table.needs(name, tool, 1),
                false => table.never(name, tool),
            }
        }
    }
    let mut sizes = String::from("table: recordings, octets in frames of 160 samples, all tools\n");
    sizes += &format!("  {:<12}  {:>8}  {:>8}  {:>8}\n", "", "in", "out", "saved");
    let mut line = |name: &str, given: usize, kept: usize| {
        let saved = 100.0 * (1.0 - kept as f64 / given as f64);
        sizes += &format!("  {name:<12}  {given:>8}  {kept:>8}  {saved:>7.1}%\n");
    };
    let (mut given, mut kept) = (0, 0);
    for recording in &recordings {
        let Recording { name, law, sound } = recording;
        let stream = packed(&Proved, sound, *law, ALL_TOOLS, 160, MOST).octets;
        tools_of(&stream, *law).iter().for_each(|tool| table.add(name, tool));
        line(name, sound.len(), stream.len());
        (given, kept) = (given + sound.len(), kept + stream.len());
    }
    line("all", given, kept);
    say(&sizes);
    table.close();
    for tool in TOOLS {
        assert!(names.iter().any(|name| table.count(name, tool) > 0), "no frame of a recording is of tool {tool}");
    }
}

/// The tools that each recording uses, and no others.
const USED: [(&str, &[u32]); 12] = [
    ("greeting.al8", &[1, 2, 6, 7]),
    ("greeting.ul8", &[1, 2, 11]),
    ("hum.al8", &[2, 4, 5, 6, 7, 11]),
    ("hum.ul8", &[2, 4, 5, 6, 7, 11]),
    ("message.al8", &[1, 6]),
    ("message.ul8", &[1, 7, 11]),
    ("music.al8", &[1, 2]),
    ("music.ul8", &[1, 2]),
    ("noise.al8", &[1, 2, 6, 7, 11]),
    ("noise.ul8", &[1, 2, 7, 11]),
    ("silence.al8", &[2, 3, 5, 6]),
    ("silence.ul8", &[2, 3, 5, 6]),
];

/// The tool of each frame of a stream.
fn tools_of(stream: &[u8], law: u32) -> Vec<u32> {
    let (mut at, mut tools, mut out) = (0, Vec::new(), [0; 320]);
    while at < stream.len() {
        let got = Proved.read(&stream[at..], law, ALL_TOOLS, &mut out);
        assert_eq!(got.ending, 0);
        tools.push(got.tool);
        at += got.octets;
    }
    tools
}
