//! The bench tools: target/bin/pack, target/bin/unpack, target/bin/listing, and tools/status, which turns their last
//! line into an exit status. What they should write is worked out with the second program.

use second::gen::{damage_somehow, Prng};
use std::fs;
use std::process::Command;
use tests::forms::{some_form, LENGTHS};
use tests::program::{listing, repository, run};
use tests::recordings::{recordings, Recording};
use tests::streams::Stream;
use tests::tools::{
    law_words, pack_wanted, plus_zero, same, unpack_wanted, verify_wanted, Room, Stop, DIFFERS, FILES, PACKED_WITH,
    READ_WITH, USAGE,
};
use tests::{faults, say, Codec, Second, LISTED_TOOLS, MOST, MOST_LISTED};

fn room(name: &str) -> Room {
    Room::new(env!("CARGO_TARGET_TMPDIR"), name)
}

fn tell(what: &str, room: &Room) {
    say(&format!("compared: tools, {what}: {} runs\n", room.runs));
}

/// Sound of every kind: a part of some recording of the law.
fn some_sound(recordings: &[Recording], law: u32, samples: usize, rng: &mut Prng) -> Vec<u8> {
    let able: Vec<_> = recordings.iter().filter(|one| one.law == law && one.sound.len() > samples).collect();
    let sound = &rng.pick(&able).sound;
    let at = rng.below(sound.len() - samples);
    sound[at..at + samples].to_vec()
}

// ---- what is packed comes back

/// Every recording in frames of every length: the stream is the second program's, the listing adds up, and the sound
/// comes back.
#[test]
fn every_recording() {
    let mut room = room("recordings");
    for recording in recordings() {
        room.put(&recording.name, &recording.sound);
        for length in LENGTHS {
            let sets: &[u32] = if length == 160 { &[1, 31, 63, 95, 127, 129, 255] } else { &[1, 127, 255] };
            sets.iter().for_each(|set| packed_and_back(&mut room, &recording, length, *set));
        }
    }
    tell("every recording packed, listed and unpacked", &room);
}

fn packed_and_back(room: &mut Room, recording: &Recording, length: usize, set: u32) {
    let Recording { name, law, sound } = recording;
    let wanted = pack_wanted(sound, *law, set, length, false);
    let octets = &wanted.stream.octets;
    let ran = room.run("pack", &format!("-n{length} -s{set} {name} stream"), &[]);
    ran.ends(Stop::new(0, sound.len(), 0)).sums(wanted.stream.frames, sound.len(), octets.len()).writes(&[]);
    same(&ran.line, &room.take("stream"), octets);
    lists(*law, octets, wanted.stream.frames, sound.len());
    let ran = room.run("unpack", &format!("{} -s{set} stream sound", law_words(*law).0), &[]);
    ran.ends(Stop::new(0, octets.len(), 0)).sums(wanted.stream.frames, sound.len(), octets.len()).writes(&[]);
    same(&ran.line, &room.take("sound"), sound);
}

/// The listing of a packed stream: the second program's text, with the right sums. It keeps the older tools (document 02, R-14), and
/// so it stops at the first frame of tool 11.
fn lists(law: u32, stream: &[u8], frames: usize, samples: usize) {
    let walked = Second.walk(stream, law, LISTED_TOOLS, &mut vec![0; samples]);
    let (frames, samples, stop) = match walked.tool {
        11 => (walked.frames, walked.samples, 3),
        _ => (frames, samples, 0),
    };
    let input = [&[b"AM"[law as usize]], stream].concat();
    let text = listing(&input);
    same("listing", &text, &Second.listing(&input).unwrap());
    let text = String::from_utf8(text).unwrap();
    assert_eq!(text.lines().filter(|line| line.starts_with("frame=")).count(), frames);
    let (at, tool) = (if stop == 0 { stream.len() } else { walked.place }, walked.tool);
    assert!(text.ends_with(&format!("\nstop={stop} at={at} tool={tool} bit=0\nsamples={samples}\n")), "{text}");
}

/// Tool 11 is written only where a set is said that has it, so that boxes that lack it read what is packed; it is read unless the set
/// that is said lacks it (docs/DECISIONS.md, 14.11).
#[test]
fn few_values_where_they_are_asked_for() {
    let mut room = room("few-values");
    let sound: Vec<u8> = (0..40).map(|at| 0xFF - at % 2).collect();
    let plain = [&[0x40], &sound[..]].concat();
    let few = [0x02, 0x55, 0x55, 0x55, 0x55, 0x55];
    let whole = Stop::new(0, 40, 0);
    room.run("pack", "-u -n40", &sound).ends(whole).writes(&plain);
    room.run("pack", "-u -n40 -s127", &sound).ends(whole).writes(&plain);
    room.run("pack", "-u -n40 -s255", &sound).ends(whole).writes(&few);
    room.run("pack", "-u -n40 -s129", &sound).ends(whole).writes(&few);
    room.run("unpack", "-u", &plain).ends(Stop::new(0, 41, 0)).writes(&sound);
    room.run("unpack", "-u", &few).ends(Stop::new(0, 6, 0)).writes(&sound);
    room.run("unpack", "-u -s128", &few).ends(Stop::new(0, 6, 0)).writes(&sound);
    room.run("unpack", "-u -s127", &few).ends(Stop::new(3, 0, 11)).writes(&[]);
    let said = |out: &[u8], line: &str| assert!(String::from_utf8_lossy(out).contains(line), "{line}");
    said(&room.run("why", "-u -n40", &sound).out, "tool=11 state=out why=0 octets=0\nwinner=1 by=octets\n");
    said(&room.run("why", "-u -n40 -s255", &sound).out, "tool=11 state=fits why=0 octets=6\nwinner=11 by=octets\n");
    tell("few values, packed and read with and without tool 11", &room);
}

/// Sounds of every multiple of 40 to 1,000 samples, so that the end is split in every way, through the standard streams.
#[test]
fn every_end() {
    let (mut room, mut rng, all) = (room("ends"), Prng::new(51), recordings());
    for samples in (0..=1_000).step_by(40) {
        for (turn, length) in LENGTHS.into_iter().enumerate() {
            let law = (samples / 40 + turn) as u32 % 2;
            let sound = some_sound(&all, law, samples, &mut rng);
            let wanted = pack_wanted(&sound, law, PACKED_WITH, length, false);
            let (frames, octets) = (wanted.stream.frames, &wanted.stream.octets);
            let (option, _, _) = law_words(law);
            let ran = room.run("pack", &format!("{option} -n{length}"), &sound);
            ran.ends(wanted.stop).sums(frames, samples, octets.len()).writes(octets);
            let ran = room.run("unpack", option, octets);
            ran.ends(Stop::new(0, octets.len(), 0)).sums(frames, samples, octets.len()).writes(&sound);
        }
    }
    assert!(room.names().is_empty(), "{:?}", room.names());
    tell("sounds of 0 to 1,000 samples packed and unpacked", &room);
}

/// With -f every sound is taken: what was added is said, and is all that is added.
#[test]
fn every_sound_filled() {
    let (mut room, mut rng, all) = (room("filled"), Prng::new(52), recordings());
    for samples in 0..=400 {
        let (law, length) = (samples as u32 % 2, LENGTHS[samples / 2 % 5]);
        let sound = some_sound(&all, law, samples, &mut rng);
        let wanted = pack_wanted(&sound, law, PACKED_WITH, length, true);
        let (option, _, _) = law_words(law);
        let ran = room.run("pack", &format!("-f -n{length} {option}"), &sound);
        ran.ends(wanted.stop).writes(&wanted.stream.octets);
        assert_eq!(ran.said("filled"), Some(wanted.filled), "{}\n{}", ran.line, ran.err);
        if samples % 3 != 0 {
            continue;
        }
        let ran = room.run("unpack", option, &wanted.stream.octets);
        let mut whole = sound;
        whole.resize(samples.next_multiple_of(40), plus_zero(law));
        ran.ends(Stop::new(0, wanted.stream.octets.len(), 0)).writes(&whole);
    }
    tell("sounds of 0 to 400 samples filled up", &room);
}

/// Without -f a sound that no lengths fit is refused before anything is written.
#[test]
fn every_sound_that_no_length_fits() {
    let (mut room, mut rng, all) = (room("unfit"), Prng::new(53), recordings());
    for samples in (1..=400).filter(|samples| samples % 40 != 0 && (samples % 3 == 0 || samples % 40 == 39)) {
        let (law, length) = (samples as u32 % 2, LENGTHS[samples % 5]);
        let sound = some_sound(&all, law, samples, &mut rng);
        let ran = match samples % 4 {
            0 | 1 => {
                room.put("sound", &sound);
                room.run("pack", &format!("{} -n{length} sound stream", law_words(law).0), &[])
            }
            _ => room.run("pack", &format!("{} -n{length}", law_words(law).0), &sound),
        };
        ran.ends(Stop::new(10, samples / 40 * 40, 0)).writes(&[]);
        assert!(!room.has("stream"), "{}: a file was made", ran.line);
    }
    tell("sounds that no length fits refused", &room);
}

// ---- the longest streams

/// Frames that are as long as a sound of their length gets, then plus zeros, one octet each: exactly as many octets.
fn sound_of_a_stream_of(octets: usize, length: usize, law: u32, rng: &mut Prng) -> Vec<u8> {
    let mut sound = rng.octets(octets / (length + 1) * length);
    sound.resize(sound.len() + octets % (length + 1) * length, plus_zero(law));
    sound
}

/// A sound whose stream has just so many octets, packed into a file and unpacked again. Gives the sound.
fn just_as_many_octets(room: &mut Room, octets: usize, length: usize, law: u32, rng: &mut Prng) -> Vec<u8> {
    let (_, raw, lc) = law_words(law);
    let sound = sound_of_a_stream_of(octets, length, law, rng);
    let whole = pack_wanted(&sound, law, PACKED_WITH, length, false);
    assert_eq!((whole.stop.number, whole.stream.octets.len()), (0, octets));
    room.put(&format!("whole.{raw}"), &sound);
    let ran = room.run("pack", &format!("-n{length} whole.{raw}"), &[]);
    ran.ends(whole.stop).sums(whole.stream.frames, sound.len(), octets);
    same(&ran.line, &room.take(&format!("whole.{lc}")), &whole.stream.octets);
    let ran = room.run("unpack", &format!("whole.{lc} back"), &[]);
    ran.ends(Stop::new(0, octets, 0)).sums(whole.stream.frames, sound.len(), octets);
    same(&ran.line, &room.take("back"), &sound);
    sound
}

/// Streams of 65,535 octets, which are listed, and of 65,536, which are not.
#[test]
fn streams_that_are_just_listed() {
    let (mut room, mut rng) = (room("listed"), Prng::new(58));
    for (turn, length) in LENGTHS.into_iter().enumerate() {
        let law = turn as u32 % 2;
        for octets in [MOST_LISTED, MOST_LISTED + 1] {
            let sound = just_as_many_octets(&mut room, octets, length, law, &mut rng);
            let stream = room.take(&format!("whole.{}", law_words(law).2));
            if octets > MOST_LISTED {
                let input = [&[b"AM"[law as usize]], &stream[..]].concat();
                assert_eq!(listing(&input), b"stop=13 at=0 tool=0 bit=0\n");
            } else {
                lists(law, &stream, pack_wanted(&sound, law, PACKED_WITH, length, false).stream.frames, sound.len());
            }
        }
    }
    tell("streams of 65,535 and 65,536 octets, and 10 listings", &room);
}

#[test]
fn the_longest_streams() {
    let (mut room, mut rng) = (room("longest"), Prng::new(54));
    for (turn, length) in [320, 40].into_iter().enumerate() {
        let law = turn as u32 % 2;
        let (option, raw, lc) = law_words(law);
        let sound = just_as_many_octets(&mut room, MOST, length, law, &mut rng);
        // One frame more, which would be one octet, or many, or a part of a frame that would be filled up.
        for (more, options) in [(length, ""), (40, ""), (1_000_000, ""), (7, "-f")] {
            let longer = [&sound[..], &vec![plus_zero(law); more]].concat();
            let wanted = pack_wanted(&longer, law, PACKED_WITH, length, options == "-f");
            assert_eq!(wanted.stop, Stop::new(13, sound.len(), 0));
            room.put(&format!("longer.{raw}"), &longer);
            let ran = room.run("pack", &format!("{options} -n{length} longer.{raw}"), &[]);
            ran.ends(wanted.stop).writes(&[]);
            assert!(!room.has(&format!("longer.{lc}")), "{}: a file was made", ran.line);
            room.run("pack", &format!("{options} -n{length} {option}"), &longer).ends(wanted.stop).writes(&[]);
        }
        // A longest frame that ends too late by one octet.
        let late = [&sound[..sound.len() - length], &rng.octets(length)].concat();
        let wanted = pack_wanted(&late, law, PACKED_WITH, length, false);
        assert_eq!(wanted.stop, Stop::new(13, sound.len() - length, 0));
        room.run("pack", &format!("-n{length} {option}"), &late).ends(wanted.stop).writes(&[]);
    }
    let zeros = vec![0xFF; 40 * MOST];
    let ran = room.run("pack", "-u -n40", &zeros);
    ran.ends(Stop::new(0, zeros.len(), 0)).sums(MOST, zeros.len(), MOST).writes(&vec![0x41; MOST]);
    room.run("pack", "-u -n40", &[&zeros[..], &zeros[..40]].concat()).ends(Stop::new(13, zeros.len(), 0)).writes(&[]);
    tell("streams of 1,048,576 octets and one frame more", &room);
}

/// Unpack takes 1,048,576 octets and not one more; all that they hold is written. What the longest frames make of so many octets is
/// tried with fewer.
#[test]
fn the_longest_streams_unpacked() {
    let mut room = room("longest-unpacked");
    let all = [(0x00, 0, MOST), (0x41, 40, MOST), (0x31, 320, MOST_LISTED), (0x31, 320, MOST_LISTED + 1)];
    for (first, samples, octets) in all {
        let ran = room.run("unpack", "-u", &vec![first; octets]);
        ran.ends(Stop::new(0, octets, 0)).sums(octets, octets * samples, octets).writes(&vec![0xFF; octets * samples]);
    }
    for (first, more) in [(0x00, 1), (0x41, 2), (0x31, 1), (0x31, 100_000)] {
        room.run("unpack", "-u", &vec![first; MOST + more]).ends(Stop::new(13, 0, 0)).writes(&[]);
    }
    room.put("long.lca", &vec![0x41; MOST + 1]);
    room.run("unpack", "long.lca", &[]).ends(Stop::new(13, 0, 0));
    assert!(!room.has("long.alo") || room.take("long.alo").is_empty());
    tell("streams of 1,048,576 octets and more unpacked", &room);
}

// ---- streams that are refused

/// One stream, through unpack: the frames before the refusal are written, and all is said.
fn unpacked(room: &mut Room, stream: &[u8], law: u32, set: u32) -> u32 {
    let wanted = unpack_wanted(stream, law, set);
    let ran = room.run("unpack", &format!("{} -s{set}", law_words(law).0), stream);
    ran.ends(wanted.stop).writes(&wanted.sound);
    ran.sums(wanted.frames, wanted.sound.len(), wanted.stop.at);
    if wanted.stop.number > 0 {
        ran.says(&format!("at octet {}", wanted.stop.at));
    }
    if wanted.stop.number == 3 {
        ran.says(&format!("tool {}", wanted.stop.tool));
    }
    wanted.stop.number
}

#[test]
fn faulty_streams() {
    let (mut room, mut rng) = (room("faulty"), Prng::new(55));
    let mut numbers = [0; 14];
    // Every fault of a body at every length, after some good frames and at a stream's start.
    for (turn, fault) in faults::all().into_iter().enumerate() {
        for length in LENGTHS {
            let law = (turn as u32 + length as u32 / 40) % 2;
            let Some(made) = fault.possible(length).then(|| fault.make(length, &mut rng)).flatten() else { continue };
            let most = *rng.pick(&[0, 300, 1_500]);
            let before = Stream::mixed(most, law, &mut rng).octets;
            numbers[unpacked(&mut room, &[before, made.octets].concat(), law, READ_WITH) as usize] += 1;
        }
    }
    // First octets that are not assigned or not carried, and frames that are cut; 02 and 1F begin tool 11.
    for first in [0x01, 0x46, 0x85, 0xC7, 0x02, 0x1F, 0x26, 0x45, 0x48, 0x60, 0xC8, 0xFF, 0x50, 0x91, 0x28] {
        let before = Stream::mixed(400, 1, &mut rng).octets;
        numbers[unpacked(&mut room, &[&before[..], &[first, 0x00, 0x41]].concat(), 1, READ_WITH) as usize] += 1;
        numbers[unpacked(&mut room, &[&before[..], &[first]].concat(), 0, READ_WITH) as usize] += 1;
    }
    // Cut anywhere, damaged in any way, and tools left out of the set.
    for turn in 0..60 {
        let (law, most) = (turn % 2, 100 + rng.below(2_000));
        let whole = Stream::mixed(most, law, &mut rng).octets;
        numbers[unpacked(&mut room, &whole[..rng.below(whole.len())], law, READ_WITH) as usize] += 1;
        numbers[unpacked(&mut room, &damage_somehow(&whole, &mut rng), law, READ_WITH) as usize] += 1;
        numbers[unpacked(&mut room, &whole, law, rng.below(256) as u32) as usize] += 1;
        let frame = some_form(law, &mut rng).octets();
        numbers[unpacked(&mut room, &frame[..frame.len() - 1], law, READ_WITH) as usize] += 1;
    }
    for number in [1, 2, 3, 5, 6, 7, 8, 9] {
        assert!(numbers[number] >= 4, "refusal {number} came {} times", numbers[number]);
    }
    say(&format!(
        "compared: tools, faulty streams unpacked: {} runs, refusals by number {:?}\n",
        room.runs,
        &numbers[..10]
    ));
}

/// Into a file too, the frames before a refusal are written.
#[test]
fn faulty_streams_into_files() {
    let (mut room, mut rng) = (room("faulty-files"), Prng::new(56));
    for turn in 0..10 {
        let law = turn % 2;
        let before = Stream::mixed(900, law, &mut rng).octets;
        let stream = [&before[..], &[0x46]].concat();
        let wanted = unpack_wanted(&stream, law, READ_WITH);
        room.put("in", &stream);
        room.put("out", b"what stood here before");
        let ran = room.run("unpack", &format!("{} in out", law_words(law).0), &[]);
        ran.ends(Stop::new(2, before.len(), 0)).writes(&[]);
        same(&ran.line, &room.take("out"), &wanted.sound);
    }
    tell("faulty streams unpacked into files", &room);
}

// ---- a greeting held against its master

fn verified(room: &mut Room, stream: &[u8], law: u32, master: &[u8]) -> Stop {
    let wanted = verify_wanted(stream, law, READ_WITH, master);
    let (option, _, lc) = law_words(law);
    room.put(&format!("greeting.{lc}"), stream);
    room.put("master", master);
    match room.runs % 2 {
        0 => room.run("unpack", &format!("-c master greeting.{lc}"), &[]).ends(wanted).writes(&[]),
        _ => room.run("unpack", &format!("{option} -c master"), stream).ends(wanted).writes(&[]),
    };
    assert_eq!(room.names().len(), 2, "{:?}: a file was made", room.names());
    wanted
}

#[test]
fn a_master() {
    for recording in recordings().iter().filter(|one| one.name.starts_with("greeting") || one.name.starts_with("hum")) {
        let Recording { name, law, sound } = recording;
        let mut room = room(&format!("master-{name}"));
        let stream = pack_wanted(sound, *law, PACKED_WITH, 160, false).stream.octets;
        let last = sound.len() - 1;
        assert_eq!(verified(&mut room, &stream, *law, sound), Stop::new(0, stream.len(), 0));
        for place in [0, 1, 39, 159, 160, 161, 12_345, 16_383, 16_384, 20_000, last - 160, last - 1, last] {
            let mut other = sound.clone();
            other[place] ^= 0x80;
            assert_eq!(verified(&mut room, &stream, *law, &other), Stop::new(DIFFERS, place, 0));
            other[last] ^= 0x01;
            assert_eq!(verified(&mut room, &stream, *law, &other), Stop::new(DIFFERS, place, 0));
        }
        for shorter in [0, 1, 160, 12_345, last - 160, last] {
            let wanted = Stop::new(DIFFERS, shorter, 0);
            assert_eq!(verified(&mut room, &stream, *law, &sound[..shorter]), wanted);
        }
        for more in [1, 40, 70_000] {
            let longer = [&sound[..], &vec![plus_zero(*law); more]].concat();
            assert_eq!(verified(&mut room, &stream, *law, &longer), Stop::new(DIFFERS, sound.len(), 0));
        }
        // A stream that is refused: before the refusal the sound may differ; else the refusal is said.
        let faulty = [&stream[..], &[0x46]].concat();
        assert_eq!(verified(&mut room, &faulty, *law, sound), Stop::new(2, stream.len(), 0));
        assert_eq!(verified(&mut room, &faulty, *law, &sound[..500]), Stop::new(DIFFERS, 500, 0));
        tell(&format!("{name} held against a master"), &room);
    }
    let mut room = room("master-of-nothing");
    assert_eq!(verified(&mut room, &[], 1, &[]), Stop::new(0, 0, 0));
    assert_eq!(verified(&mut room, &[], 1, &[0xFF]), Stop::new(DIFFERS, 0, 0));
    assert_eq!(verified(&mut room, &[0x00], 1, &[]), Stop::new(0, 1, 0));
}

// ---- names, standard input and output

#[test]
fn names_of_files() {
    let mut room = room("names");
    let sound = |law: u32| vec![plus_zero(law); 200];
    // The law by the ending, which is replaced; another ending stays, and the new one follows it.
    let packs = [
        ("a.ul8", "a.ul8", 1, "a.lcm"),
        ("b.mu8", "b.mu8", 1, "b.lcm"),
        ("c.mu", "c.mu", 1, "c.lcm"),
        ("d.al8", "d.al8", 0, "d.lca"),
        ("e.al", "e.al", 0, "e.lca"),
        ("f.raw", "-u f.raw", 1, "f.raw.lcm"),
        ("g", "-a g", 0, "g.lca"),
        ("h.ul8", "-a h.ul8", 0, "h.lca"),
        ("i.j.al8", "i.j.al8", 0, "i.j.lca"),
        ("k.al8", "k.al8 other.name", 0, "other.name"),
        ("l.al8", "-n40 -s255 l.al8", 0, "l.lca"),
    ];
    for (file, words, law, made) in packs {
        room.put(file, &sound(law));
        let length = if words.contains("-n40") { 40 } else { 160 };
        let ran = room.run("pack", words, &[]);
        ran.ends(Stop::new(0, 200, 0)).writes(&[]);
        same(&ran.line, &room.take(made), &pack_wanted(&sound(law), law, PACKED_WITH, length, false).stream.octets);
    }
    let unpacks = [
        ("m.lcm", "m.lcm", 1, "m.muo"),
        ("n.lca", "n.lca", 0, "n.alo"),
        ("o.bin", "-u o.bin", 1, "o.bin.muo"),
        ("p", "-a p", 0, "p.alo"),
        ("q.lcm", "-a q.lcm", 0, "q.alo"),
        ("r.lcm", "-s255 r.lcm other.sound", 1, "other.sound"),
    ];
    for (file, words, law, made) in unpacks {
        room.put(file, &[0x41, 0x00, 0xC1]);
        let ran = room.run("unpack", words, &[]);
        ran.ends(Stop::new(0, 3, 0)).sums(3, 200, 3).writes(&[]);
        same(&ran.line, &room.take(made), &sound(law));
    }
    let made = room.names().len();
    assert_eq!(made, 2 * (packs.len() + unpacks.len()), "{:?}", room.names());
    // The standard streams, by a dash or by saying nothing.
    for words in ["-u", "-u -", "-u - -", "-u a.ul8 -", "a.ul8 -"] {
        room.run("pack", words, &sound(1)).ends(Stop::new(0, 200, 0)).writes(&[0xC1, 0x41]);
    }
    for words in ["-u", "-u -", "-u - -", "-u m.lcm -", "m.lcm -"] {
        room.run("unpack", words, &[0x41, 0x00, 0xC1]).ends(Stop::new(0, 3, 0)).writes(&sound(1));
    }
    assert_eq!(room.names().len(), made, "{:?}", room.names());
    room.run("pack", "-u - z.lcm", &sound(1)).ends(Stop::new(0, 200, 0)).writes(&[]);
    assert_eq!(room.take("z.lcm"), [0xC1, 0x41]);
    room.run("unpack", "-u - z.out", &[0x41]).ends(Stop::new(0, 1, 0)).writes(&[]);
    assert_eq!(room.take("z.out").len(), 40);
    tell("names of files", &room);
}

/// The options in any order, each once.
#[test]
fn options_in_any_order() {
    let (mut room, mut rng, all) = (room("order"), Prng::new(57), recordings());
    let mut words = ["-u", "-n240", "-s63", "-f"];
    for _ in 0..12 {
        rng.shuffle(&mut words);
        let sound = some_sound(&all, 1, 1_000 + rng.below(200), &mut rng);
        let wanted = pack_wanted(&sound, 1, 63, 240, true);
        let ran = room.run_words("pack", &words, &sound);
        ran.ends(wanted.stop).writes(&wanted.stream.octets);
        assert_eq!(ran.said("filled"), Some(wanted.filled), "{}\n{}", ran.line, ran.err);
    }
    room.put("master", &[0xD5; 40]);
    for words in ["-a -s255 -c master", "-c master -a -s127", "-s2 -c master -a", "-s130 -a -c master -"] {
        room.run("unpack", words, &[0x41]).ends(Stop::new(0, 1, 0)).writes(&[]);
    }
    tell("options in any order", &room);
}

// ---- what is refused before a sound or a stream is looked at

/// Runs that end with this number at place 0, make no file, and change none.
fn refused(room: &mut Room, tool: &str, number: u32, lines: &[&str]) {
    for words in lines {
        let before = room.names();
        let ran = room.run(tool, words, &[0xFF; 40]);
        ran.ends(Stop::new(number, 0, 0)).writes(&[]);
        assert_eq!(room.names(), before, "{}: a file was made", ran.line);
        assert_eq!(room.take("kept"), b"what stands here", "{}: a file was changed", ran.line);
    }
}

fn set_up(name: &str) -> Room {
    let room = room(name);
    room.put("kept", b"what stands here");
    room.put("a.ul8", &[0xFF; 80]);
    room.put("a.xyz", &[0xFF; 80]);
    room.put("a.lcm", &[0x41]);
    fs::create_dir(room.folder.join("folder.ul8")).unwrap();
    fs::create_dir(room.folder.join("folder.lcm")).unwrap();
    room
}

#[test]
fn called_wrongly() {
    let mut room = set_up("usage");
    let long = "x".repeat(100_000);
    let both = [
        "-x",
        "-x -u",
        "-u -x",
        "--help",
        "-uu",
        "-s -u",
        "-sx -u",
        "-s1x -u",
        "-s-1 -u",
        "a.xyz",
        "a.xyz kept",
        "-u a.ul8 kept more",
        "-u - - -",
        "",
        "-",
    ];
    for tool in ["pack", "unpack"] {
        refused(&mut room, tool, USAGE, &both);
        refused(&mut room, tool, USAGE, &[&format!("-u {long}"), &format!("-u a.ul8 {long}")]);
        let ran = room.run(tool, "a.xyz kept", &[]);
        ran.says("the law is not known: say -u or -a");
    }
    refused(
        &mut room,
        "pack",
        USAGE,
        &["-n -u", "-nx -u", "-n16o -u", "-c kept -u", "-u -n160x a.ul8 kept", "a.lcm kept"],
    );
    refused(
        &mut room,
        "unpack",
        USAGE,
        &["-c", "-u -c", "-n160 -u", "-f -u", "-u -c kept a.lcm kept more", "a.ul8 kept"],
    );
    tell("called wrongly", &room);
}

#[test]
fn sets_and_lengths() {
    let mut room = set_up("sets");
    for number in ["0", "2", "64", "126", "128", "254", "256", "257", "1000", "65535"] {
        refused(&mut room, "pack", 11, &[&format!("-u -s{number}"), &format!("-s{number} a.ul8 kept")]);
    }
    for number in ["256", "257", "511", "1000", "65535"] {
        refused(&mut room, "unpack", 11, &[&format!("-u -s{number}"), &format!("-s{number} a.lcm kept")]);
    }
    for number in
        ["0", "1", "39", "41", "79", "81", "120", "161", "200", "241", "280", "321", "400", "640", "1000", "65576"]
    {
        refused(&mut room, "pack", 10, &[&format!("-u -n{number}"), &format!("-n{number} a.ul8 kept")]);
    }
    // The order: usage, SET, LENGTH, then files.
    refused(&mut room, "pack", USAGE, &["-s2 -x -u", "-n41 -s2 a.xyz", "-s2 a.ul8 kept more"]);
    refused(&mut room, "pack", 11, &["-n41 -s2 -u", "-s2 -n41 missing.ul8", "-s128 missing.ul8", "-s257 missing.ul8"]);
    refused(&mut room, "pack", 10, &["-n41 missing.ul8", "-n41 -s1 a.ul8 missing/kept"]);
    refused(&mut room, "unpack", 11, &["-s256 missing.lcm", "-s256 -c missing a.lcm", "-s256 a.lcm missing/kept"]);
    tell("sets and lengths refused", &room);
}

#[test]
fn trouble_with_files() {
    let mut room = set_up("files");
    refused(
        &mut room,
        "pack",
        FILES,
        &["missing.ul8", "missing/a.ul8 kept", "folder.ul8 kept", "a.ul8 missing/out", "a.ul8 folder.lcm"],
    );
    refused(
        &mut room,
        "unpack",
        FILES,
        &["missing.lcm", "missing/a.lcm kept", "folder.lcm kept", "a.lcm missing/out", "a.lcm folder.ul8"],
    );
    refused(&mut room, "unpack", FILES, &["-c missing a.lcm", "-c folder.ul8 a.lcm", "-c kept missing.lcm"]);
    tell("trouble with files", &room);
}

// ---- the status

/// The number of the last stop line is the status; what the program reads and prints is passed through.
#[test]
fn a_status_for_scripts() {
    let status = |script: &str, input: &[u8]| {
        let mut command = Command::new(repository().join("tools/status"));
        command.args(["sh", "-c", script, "a name", "$1 *", "two  blanks"]);
        run(command, input)
    };
    let ends = |script: &str, wanted: i32| assert_eq!(status(script, &[]).status.code(), Some(wanted), "{script}");
    for number in [0, 1, 3, 9, 10, 13, 64, 65, 74] {
        ends(&format!("echo stop={number} at=12 tool=0 >&2"), number);
        ends(&format!("echo one line >&2; echo stop={number} at=65535 tool=9 >&2"), number);
    }
    ends("true", 74);
    ends("false", 74);
    ends("echo stop=0 at=0 tool=0", 74);
    ends("echo unpack: refused >&2", 74);
    ends("echo stop=3 at=1 tool=9 >&2; echo stop=0 at=1 tool=0 >&2", 0);
    ends("echo stop=0 at=1 tool=0 >&2; echo stop=5 at=1 tool=0 >&2", 5);
    ends("echo stop=0 at=1 tool=0 >&2; exit 3", 0);
    let ended =
        status("cat; printf '%s|' \"$@\" >&2; echo >&2; echo stop=7 at=0 tool=0 >&2", b"\x00\xFF\n\x00 any octets");
    assert_eq!(ended.status.code(), Some(7));
    assert_eq!(ended.stdout, b"\x00\xFF\n\x00 any octets");
    assert_eq!(String::from_utf8_lossy(&ended.stderr), "$1 *|two  blanks|\nstop=7 at=0 tool=0\n");
}
