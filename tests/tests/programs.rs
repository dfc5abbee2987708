//! The programs target/bin/why (document 02, R-10) and target/bin/mend, run through tools/status. What they should
//! print, write and say is worked out with the second program.

use second::gen::{all_kinds, damage_somehow, make_frame, Prng};
use std::fs;
use tests::forms::LENGTHS;
use tests::mend::TOTAL;
use tests::recordings::{packed, recordings, Recording};
use tests::tools::{
    law_words, mend_wanted, plus_zero, same, why_wanted, Room, Stop, FILES, PACKED_WITH, READ_WITH, USAGE,
};
use tests::{odd_set, say, Second, MOST, MOST_LISTED, TOOLS};

fn room(name: &str) -> Room {
    Room::new(env!("CARGO_TARGET_TMPDIR"), &format!("programs-{name}"))
}

fn tell(what: &str, room: &Room) {
    say(&format!("compared: programs, {what}: {} runs\n", room.runs));
}

/// All recordings of a law, one behind the other, the first so many samples of each.
fn joined(law: u32, most: usize) -> Vec<u8> {
    let parts = recordings().into_iter().filter(|one| one.law == law);
    parts.flat_map(|one| one.sound.into_iter().take(most)).collect()
}

// ---- why

/// What the lines said, so that nothing is left out: the tools that won, and those that won by the tie order.
#[derive(Default)]
struct Winners {
    frames: usize,
    won: [usize; 12],
    tied: usize,
}

impl Winners {
    fn count(&mut self, frames: &[String]) {
        self.frames += frames.len();
        for lines in frames {
            let last = lines.lines().last().unwrap_or("");
            let winner = last.strip_prefix("winner=").and_then(|rest| rest.split(' ').next()?.parse::<usize>().ok());
            self.won[winner.expect("a winner is named")] += 1;
            self.tied += usize::from(last.ends_with("by=tie"));
        }
    }
}

/// One sound, through standard input: every line of every frame, in order.
fn explained(room: &mut Room, sound: &[u8], law: u32, set: u32, length: usize) -> Vec<String> {
    let wanted = why_wanted(sound, law, set, length);
    let ran = room.run("why", &format!("{} -s{set} -n{length}", law_words(law).0), sound);
    ran.ends(wanted.stop).writes(wanted.frames.concat().as_bytes());
    wanted.frames
}

/// Every recording, named by its file, which says the law.
#[test]
fn every_recording_explained() {
    let (mut room, mut winners) = (room("recordings"), Winners::default());
    for (turn, Recording { name, law, sound }) in recordings().into_iter().enumerate() {
        let length = [160, 80, 240, 40, 320][turn / 2 % 5];
        room.put(&name, &sound);
        let wanted = why_wanted(&sound, law, PACKED_WITH, length);
        let words = if length == 160 { name } else { format!("-n{length} {name}") };
        room.run("why", &words, &[]).ends(wanted.stop).writes(wanted.frames.concat().as_bytes());
        winners.count(&wanted.frames);
    }
    tell(&format!("every recording explained, {} frames", winners.frames), &room);
}

/// The recordings' first frames, then frames of every kind, in frames of every length, with all tools and with a drawn set.
#[test]
fn mixed_sounds_explained() {
    let (mut room, mut rng, mut winners) = (room("mixed"), Prng::new(71), Winners::default());
    for law in 0..2 {
        for length in LENGTHS {
            let kinds = all_kinds();
            let drawn = kinds.into_iter().flat_map(|kind| make_frame(kind, length, law, &mut rng));
            let mut sound: Vec<u8> = drawn.chain(joined(law, 1_200)).collect();
            sound.truncate(sound.len() / 40 * 40);
            let some = odd_set(&mut rng);
            for set in [255, 127, some] {
                winners.count(&explained(&mut room, &sound, law, set, length));
            }
        }
    }
    let won = TOOLS.map(|tool| winners.won[tool as usize]);
    assert!(won.iter().all(|won| *won >= 20) && winners.tied >= 20, "{won:?}");
    let told = format!("{} frames, won by tools 1 to 7 and 11 {won:?}, {} by a tie", winners.frames, winners.tied);
    tell(&format!("mixed sounds explained, {told}"), &room);
}

/// Silence of either zero with sets that lack the tool for it, and no sound at all.
#[test]
fn silence_explained() {
    let mut room = room("silence");
    for law in 0..2 {
        let plus = plus_zero(law);
        let silence = [vec![plus; 200], vec![plus ^ 0x80; 120]].concat();
        for (set, length) in [(255, 40), (17, 40), (1, 320), (121, 160), (129, 40)] {
            explained(&mut room, &silence, law, set, length);
        }
    }
    // "a bench hand asks why a silent frame took six octets"
    let ran = room.run("why", "-u -n40 -s17", &[0xFF; 40]);
    let tools = |at: usize| match at {
        1 => "tool=1 state=fits why=0 octets=41\n".into(),
        5 => "tool=5 state=fits why=0 octets=6\n".into(),
        other => format!("tool={other} state=out why=0 octets=0\n"),
    };
    let text = format!("frame=0 at=0\n{}winner=5 by=octets\n", [1, 2, 3, 4, 5, 6, 7, 11].map(tools).concat());
    ran.ends(Stop::new(0, 40, 0)).writes(text.as_bytes());
    room.run("why", "-a", &[]).ends(Stop::new(0, 0, 0)).writes(&[]);
    tell("silence explained, and no sound", &room);
}

/// No limit but the file's: sounds above 65,535 and above 1,048,576 octets, and around 65,535.
#[test]
fn long_sounds_explained() {
    let mut room = room("long");
    for (law, length, less) in [(0, 320, 0), (1, 240, 0), (0, 160, 40), (1, 40, 0)] {
        let mut sound = joined(law, usize::MAX);
        sound.truncate(sound.len() - less);
        assert!(sound.len() > 2 * MOST_LISTED);
        explained(&mut room, &sound, law, PACKED_WITH, length);
    }
    for samples in [MOST_LISTED - 15, MOST_LISTED + 25, MOST_LISTED + 26] {
        explained(&mut room, &joined(1, usize::MAX)[..samples], 1, 95, 240);
    }
    let sound = joined(0, usize::MAX).repeat(6);
    let most = MOST.next_multiple_of(40);
    assert!(sound.len() > most);
    explained(&mut room, &sound[..most], 0, PACKED_WITH, 320);
    tell("sounds longer than 65,535 octets explained, one of more than 1,048,576", &room);
}

/// `-k#`: one frame alone; all of the sound is read and judged all the same.
#[test]
fn one_frame_explained() {
    let mut room = room("one");
    let sound = joined(1, usize::MAX);
    let whole = why_wanted(&sound, 1, PACKED_WITH, 240);
    let last = whole.frames.len() - 1;
    room.put("long.ul8", &sound);
    for at in [0, 1, 273, 274, 500, last] {
        let ran = room.run("why", &format!("-n240 -k{at} long.ul8"), &[]);
        ran.ends(whole.stop).writes(whole.frames[at].as_bytes());
    }
    // A frame that the sound does not have: the call was wrong, and no line is printed.
    let none = Stop::new(USAGE, sound.len(), 0);
    for at in [last + 1, 65_536, 999_999_999] {
        room.run("why", &format!("-k{at} -n240 long.ul8"), &[]).ends(none).writes(&[]);
    }
    room.run("why", "-u -n40 -k1", &sound[..40]).ends(Stop::new(USAGE, 40, 0)).writes(&[]);
    room.run("why", "-u -k0", &[]).ends(Stop::new(USAGE, 0, 0)).writes(&[]);
    // A sound that no length fits: the frame's lines, if it is there, and LENGTH.
    let unfit = why_wanted(&sound[..90], 1, PACKED_WITH, 40);
    for (at, lines) in [(0, &unfit.frames[0][..]), (1, &unfit.frames[1][..]), (2, "")] {
        let ran = room.run("why", &format!("-u -n40 -k{at}"), &sound[..90]);
        ran.ends(Stop::new(10, 80, 0)).writes(lines.as_bytes());
    }
    tell("one frame explained", &room);
}

/// Octets at the end that no length fits: the lines of the frames before them, then LENGTH with their place.
#[test]
fn sounds_that_no_length_fits() {
    let mut room = room("unfit");
    let sound = joined(0, usize::MAX);
    for (samples, length, kept) in [(50, 40, 40), (39, 160, 0), (1, 40, 0), (441, 160, 440), (639, 320, 600)] {
        let frames = explained(&mut room, &sound[..samples], 0, PACKED_WITH, length);
        assert_eq!(frames.is_empty(), kept == 0);
        assert_eq!(why_wanted(&sound[..samples], 0, PACKED_WITH, length).stop, Stop::new(10, kept, 0));
    }
    explained(&mut room, &sound[..100_001], 0, 63, 320);
    tell("sounds that no length fits", &room);
}

/// Runs that end so, print nothing, and leave the folder as it was.
fn refused(room: &mut Room, tool: &str, number: u32, lines: &[&str]) {
    let before = room.names();
    for words in lines {
        let ran = room.run(tool, words, &[0x41; 40]);
        ran.ends(Stop::new(number, 0, 0)).writes(&[]);
        assert_eq!(room.names(), before, "{}: a file was made", ran.line);
        assert_eq!(room.take("kept"), b"what stands here", "{}: a file was changed", ran.line);
    }
}

fn set_up(name: &str) -> Room {
    let room = room(name);
    room.put("kept", b"what stands here");
    room.put("a.ul8", &[0xFF; 80]);
    room.put("a.xyz", &[0xFF; 80]);
    room.put("a.lcm", &[0x41, 0x00, 0xC1]);
    fs::create_dir(room.folder.join("folder.ul8")).unwrap();
    fs::create_dir(room.folder.join("folder.lcm")).unwrap();
    room
}

#[test]
fn why_called_wrongly() {
    let mut room = set_up("why-wrongly");
    // Raw sound alone, to standard output: `-l`, `-w`, `-f` are not known, and a second file is one too many.
    let unknown = ["-x -u", "-l -u", "-w -u a.ul8", "-f a.ul8", "a.ul8 kept", "-u - -"];
    refused(&mut room, "why", USAGE, &unknown);
    refused(&mut room, "why", USAGE, &["", "-", "a.xyz", "-k -u", "-kx -u", "-k-1 a.ul8", "-n16o -u", "-s1x -u"]);
    refused(&mut room, "why", 11, &["-u -s2", "-s128 a.ul8", "-s257 a.ul8", "-s0 missing.ul8", "-n41 -s254 a.ul8"]);
    refused(&mut room, "why", 10, &["-u -n41", "-n0 a.ul8", "-n400 missing.ul8", "-n39 -k0 a.ul8"]);
    refused(&mut room, "why", FILES, &["missing.ul8", "folder.ul8", "-u missing/a"]);
    tell("why called wrongly, sets and lengths, trouble with files", &room);
}

// ---- mend

/// A stream mended, by its file or through standard input: the file, which takes the place of a longer one, all that is
/// said, and the refusal of its walk.
fn mended(room: &mut Room, stream: &[u8], law: u32, total: usize) -> (u32, Vec<u8>) {
    let wanted = mend_wanted(stream, law, total);
    let (option, _, lc) = law_words(law);
    let given = format!("given.{lc}");
    room.put(&given, stream);
    room.put("mended", &vec![0xA7; MOST + 1]);
    let ran = match room.runs % 3 {
        0 => room.run("mend", &format!("{option} -t {total} - mended"), stream),
        _ => room.run("mend", &format!("-t {total} {given} mended"), &[]),
    };
    ran.ends(wanted.stop).writes(&[]);
    assert_eq!(ran.err, wanted.said, "{}", ran.line);
    same(&ran.line, &room.take("mended"), &wanted.result);
    (wanted.walk, wanted.result)
}

/// A stream of a part of a recording, with its samples.
fn greeting(recording: &Recording, length: usize, rng: &mut Prng) -> (Vec<u8>, usize) {
    let samples = 40 * (50 + rng.below(250));
    let at = rng.below(recording.sound.len() - samples);
    let stream = packed(&Second, &recording.sound[at..at + samples], recording.law, READ_WITH, length, MOST);
    (stream.octets, stream.samples)
}

/// Every recording cut, changed and joined with another; the total below what it had, at it and above.
#[test]
fn damaged_greetings() {
    let (mut room, mut rng, mut walks) = (room("damaged"), Prng::new(72), [0; 10]);
    for (turn, recording) in recordings().iter().enumerate() {
        for kind in 0..3 {
            let length = LENGTHS[(turn + kind) % 5];
            let (stream, samples) = greeting(recording, length, &mut rng);
            let damaged = match kind {
                0 => stream[..rng.below(stream.len())].to_vec(),
                1 if turn % 2 == 0 => damage_somehow(&stream, &mut rng),
                1 => {
                    let at = rng.below(stream.len());
                    let other = stream[at] ^ (1 + rng.below(255) as u8);
                    [&stream[..at], &[other], &stream[at + 1..]].concat()
                }
                _ => [&stream[..], &[0], &greeting(recording, length, &mut rng).0].concat(),
            };
            let total = match (turn / 2 + kind) % 3 {
                0 => samples - 40 * (1 + rng.below(samples / 80)),
                1 => samples,
                _ => samples + 40 * (1 + rng.below(100)),
            };
            let (walk, result) = mended(&mut room, &damaged, recording.law, total);
            walks[walk as usize] += 1;
            if kind == turn % 3 {
                // "mending twice changes nothing more"
                let (walk, again) = mended(&mut room, &result, recording.law, total);
                assert_eq!(walk, 0, "what was mended is whole");
                same("mended twice", &again, &result);
            }
        }
    }
    assert!([0, 1, 4].iter().all(|walk| walks[*walk] >= 3), "{walks:?}");
    tell(&format!("damaged greetings mended, walks by refusal {walks:?}"), &room);
}

/// An undamaged greeting of the right total comes back unchanged, pads at its end too, and another total is filled or cut.
#[test]
fn undamaged_greetings() {
    let (mut room, mut rng) = (room("undamaged"), Prng::new(73));
    for recording in recordings().iter().filter(|one| one.name.starts_with("silence") || one.name.starts_with("hum")) {
        let whole = packed(&Second, &recording.sound, recording.law, READ_WITH, 160, MOST);
        let stream = [&whole.octets[..], &vec![0; rng.below(3)]].concat();
        let (walk, result) = mended(&mut room, &stream, recording.law, whole.samples);
        assert_eq!(walk, 0);
        same("an undamaged greeting", &result, &stream);
    }
    let (walk, result) = mended(&mut room, &[], 1, 1_000);
    assert_eq!((walk, &result[..]), (0, &[0x31, 0x31, 0x31, 0x41][..]));
    assert!(mended(&mut room, &[], 0, 0).1.is_empty());
    assert_eq!(mended(&mut room, &[0x41, 0x00, 0x41, 0x00], 1, 40), (4, vec![0x41, 0x00]));
    assert_eq!(mended(&mut room, &[0x41, 0x00, 0xC1], 0, 1_000_000).1.len(), 3 + 999_800 / 320 + 2);
    tell("undamaged greetings mended", &room);
}

/// Each refusal of a frame ends the keeping, with the bit of docs/RETURNS.md.
#[test]
fn every_refusal_of_the_walk() {
    let mut room = room("walks");
    let faults: [(&[u8], &str); 8] = [
        (&[0x86], "walk=1 at=3 tool=0 bit=8"),
        (&[0x46], "walk=2 at=3 tool=0 bit=0"),
        (&[0x28, 0x00], "walk=3 at=3 tool=8 bit=0"),
        (&[0x86, 0xDC], "walk=5 at=3 tool=0 bit=8"),
        (&[0x86, 0xF8], "walk=6 at=3 tool=0 bit=11"),
        (&[0x57, 0x19], "walk=7 at=3 tool=0 bit=9"),
        (&[0x86, 0xFC, 0xFE], "walk=8 at=3 tool=0 bit=16"),
        (&[0x86, 0xFC, 0x01], "walk=9 at=3 tool=0 bit=23"),
    ];
    for (fault, walk) in faults {
        let given = [&[0x41, 0x00, 0xC1], fault].concat();
        let wanted = mend_wanted(&given, 1, 320);
        assert_eq!(wanted.result, [0x41, 0x00, 0xC1, 0x81, 0x41]);
        let ran = room.run("mend", "-u -t 320 - -", &given);
        ran.ends(wanted.stop).says(&format!("\nframes=3 kept=3 filled=120\n{walk}\n")).writes(&wanted.result);
        assert_eq!(ran.err, wanted.said);
    }
    let ran = room.run("mend", "-t 160 -u - -", &[0x41, 0x00, 0x56, 0x0F, 0x86]);
    ran.ends(Stop::new(0, 5, 0)).says("\nwalk=1 at=4 tool=0 bit=8\n").writes(&[0x41, 0x00, 0x56, 0x0F, 0x81]);
    tell("each refusal of a frame ends the keeping", &room);
}

/// TOTAL, and LONG before and after it: no file is made, and none is changed.
#[test]
fn totals_and_long_greetings() {
    let mut room = set_up("totals");
    room.put("long.lcm", &vec![0; MOST + 1]);
    room.put("pads.lcm", &vec![0; MOST]);
    for total in ["39", "1000040", "1", "41", "1000001", "999999999"] {
        refused(&mut room, "mend", TOTAL, &[&format!("-t {total} a.lcm out")]);
    }
    refused(&mut room, "mend", TOTAL, &["-t 39 a.lcm kept", "-u -t 1000040 - kept", "-a -t 39 pads.lcm -"]);
    let ran = room.run("mend", "-t 39 a.lcm out", &[]);
    ran.says("TOTAL");
    // "LAW, LONG for the greeting, TOTAL .., LONG for the result"
    refused(&mut room, "mend", 13, &["-t 39 long.lcm out", "-t 40 long.lcm kept", "-t 40 pads.lcm kept"]);
    room.run("mend", "-t 0 pads.lcm out", &[]).ends(Stop::new(0, MOST, 0));
    same("pads", &room.take("out"), &vec![0; MOST]);
    // The longest that are mended, and those just above what the listing program takes.
    let mut damaged = [&vec![0x81; 12_000][..], &vec![0; MOST - 12_000]].concat();
    damaged[MOST - 1] = 0x46;
    assert_eq!(mended(&mut room, &damaged, 1, 960_320).1.len(), MOST);
    for octets in [MOST_LISTED, MOST_LISTED + 1] {
        assert_eq!(mended(&mut room, &vec![0x41; octets - 1], 0, 40 * octets.min(25_000)).1.len(), octets.min(25_000));
        assert_eq!(mended(&mut room, &[&vec![0; octets - 1][..], &[0x46]].concat(), 0, 40).1.len(), octets);
    }
    tell("totals and long greetings refused", &room);
}

#[test]
fn mend_called_wrongly() {
    let mut room = set_up("mend-wrongly");
    let lines = [
        "",
        "a.lcm out",
        "-u -t 40",
        "-t 40 a.lcm",
        "-t 40 a.lcm kept more",
        "-t 40 a.xyz out",
        "-t 40 - -",
        "-t x a.lcm out",
        "-t -40 a.lcm out",
        "-x -t 40 a.lcm out",
        "-s127 -t 40 a.lcm out",
        "-t",
    ];
    refused(&mut room, "mend", USAGE, &lines);
    let files =
        ["-t 40 missing.lcm kept", "-t 40 folder.lcm kept", "-t 40 a.lcm missing/out", "-t 40 a.lcm folder.ul8"];
    refused(&mut room, "mend", FILES, &files);
    // The law by an option, in any order; and in its own place, since the result is whole before the file is opened.
    room.put("a.xyz", &[0x41, 0x01, 0x41]);
    room.run("mend", "a.xyz -t 120 -a a.xyz", &[]).ends(Stop::new(0, 2, 0)).says("frames=1 kept=1 filled=80\n");
    assert_eq!(room.take("a.xyz"), [0x41, 0x81]);
    tell("mend called wrongly, trouble with files", &room);
}
