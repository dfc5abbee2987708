//! Recordings through the programs (document 02, R-1): `pack -r`, and `unpack`, which knows a recording by its heading. What they
//! should write and say is worked out with the second program.

use second::gen::{damage_somehow, Prng};
use second::recording::{heading, is_erased, read_file, write_file, LOSS};
use tests::forms::LENGTHS;
use tests::program::listing;
use tests::recordings::{packed, recordings};
use tests::streams::plain_frames;
use tests::tools::{law_words, same, windows, Room, Stop, DIFFERS, LOST, PACKED_WITH, READ_WITH, USAGE, WINDOW};
use tests::{say, Codec, Second, MOST, MOST_LISTED};

/// Octets of a heading.
const HEAD: usize = 10;

fn room(name: &str) -> Room {
    Room::new(env!("CARGO_TARGET_TMPDIR"), &format!("recording-{name}"))
}

fn tell(what: &str, room: &Room) {
    say(&format!("compared: recordings through the programs, {what}: {} runs\n", room.runs));
}

/// What `unpack` should do with a recording.
struct Wanted {
    stop: Stop,
    sound: Vec<u8>,
    /// The lines of the losses, of all items, and of the totals.
    losses: String,
    items: String,
    totals: String,
    lost: usize,
}

/// The items by the second program; places and frames by its single reads. With `on` losses do not count.
fn wanted(file: &[u8], set: u32, on: bool) -> Wanted {
    let (mut out, mut cells) = (vec![0; 320 * file.len()], vec![0; file.len()]);
    let read = read_file(file, set, &mut out, &mut cells);
    out.truncate(read.samples);
    let (mut at, mut heard, mut lost) = (0, 0, 0);
    let (mut losses, mut items) = (String::new(), String::new());
    for (number, &cell) in cells[..read.items].iter().enumerate() {
        let rest = &file[HEAD + at..];
        let frame = Second.read(rest, read.law, set, &mut [0; 320]);
        if cell >= LOSS {
            let line = format!("loss={number} at={at} samples={} before={heard}\n", cell - LOSS);
            losses += &line;
            items += &line;
            lost += 1;
        } else {
            let (tool, octets, bits) = (frame.tool, frame.octets, frame.bits);
            items += &format!("frame={number} at={at} samples={cell} tool={tool} octets={octets} bits={bits}\n");
            heard += usize::from(cell);
        }
        at += if cell == LOSS { 1 } else { frame.octets };
    }
    assert_eq!((at, heard), (read.octets, read.samples), "items, places and samples agree");
    let number = match read.ending {
        0 if lost > 0 && !on => LOST,
        other => other,
    };
    let totals =
        format!("frames={} samples={} octets={} lost={lost}\n", read.items - lost, read.samples, HEAD + read.octets);
    let stop = Stop { number, at: read.octets, tool: read.tool, bit: read.bit };
    Wanted { stop, sound: out, losses, items, totals, lost }
}

/// A file of these items, by the second program.
fn file_of(samples: &[u8], items: &[u16], law: u32, set: u32) -> Vec<u8> {
    let mut out = vec![0; 330 * (items.len() + 1)];
    let octets = write_file(samples, items, law, set, &mut out).expect("the items are right");
    out.truncate(octets);
    out
}

/// One recording through `unpack`: its sound, and the lines of its losses, or of all items.
fn played(room: &mut Room, file: &[u8], set: u32, options: &str) -> Stop {
    let on = options.contains("-g");
    let all = options.contains("-v");
    let wanted = wanted(file, set, on);
    let ran = if room.runs % 2 == 0 {
        room.run("unpack", &format!("{options} -s{set}"), file)
    } else {
        room.put("file", file);
        room.put("sound", &[0xA7; 400]);
        let mut ran = room.run("unpack", &format!("-s{set} {options} file sound"), &[]);
        ran.writes(&[]);
        ran.out = room.take("sound");
        ran
    };
    ran.ends(wanted.stop).writes(&wanted.sound);
    let lines = if all { &wanted.items } else { &wanted.losses };
    let said = format!("{lines}{}", wanted.totals);
    assert!(ran.err.starts_with(&said), "{}: wanted\n{said}\n{}", ran.line, ran.err);
    wanted.stop
}

/// Items drawn: frames of recordings, losses of every length and of unknown length, pads.
fn drawn(law: u32, many: usize, rng: &mut Prng) -> (Vec<u8>, Vec<u16>) {
    let sounds: Vec<Vec<u8>> = recordings().into_iter().filter(|one| one.law == law).map(|one| one.sound).collect();
    let (mut samples, mut items) = (Vec::new(), Vec::new());
    while items.len() < many {
        let length = [0, 40, 80, 160, 240, 320][rng.below(6)];
        if rng.below(3) == 0 {
            for _ in 0..=rng.below(3) {
                items.push(LOSS + length as u16);
            }
        } else {
            let sound = &sounds[rng.below(sounds.len())];
            let at = rng.below(sound.len() - 320);
            let frame = &sound[at..at + length];
            if !is_erased(frame, law) {
                samples.extend(frame);
                items.push(length as u16);
            }
        }
    }
    (samples, items)
}

/// Every recording packed as one, octet for octet by the second program, and back: from and to files, and through standard input.
#[test]
fn packed_and_played() {
    let mut room = room("packed");
    for (turn, recording) in recordings().into_iter().enumerate() {
        let (length, law) = (LENGTHS[turn / 2 % 5], recording.law);
        let (option, ..) = law_words(law);
        let sound = &recording.sound[..recording.sound.len().min(40_000) / 320 * 320];
        let stream = packed(&Second, sound, law, PACKED_WITH, length, MOST);
        let file = [&heading(law)[..], &stream.octets].concat();
        room.put(&recording.name, sound);
        let ran = match turn % 2 {
            0 => room.run("pack", &format!("-r -n{length} {option}"), sound),
            _ => room.run("pack", &format!("-n{length} -r {} file", recording.name), &[]),
        };
        let octets = if turn % 2 == 0 { ran.out.clone() } else { room.take("file") };
        same(&ran.line, &octets, &file);
        ran.ends(Stop::new(0, sound.len(), 0)).sums(stream.frames, sound.len(), file.len());
        let back = wanted(&file, READ_WITH, false);
        match back.lost {
            0 => assert!(!ran.err.contains("take them for lost"), "{}", ran.err),
            lost => drop(ran.says(&format!("take them for lost: {lost}\n"))),
        }
        played(&mut room, &file, READ_WITH, ["", "-v", "-g", "-g -v"][turn % 4]);
    }
    tell("every recording packed with -r, and played", &room);
}

/// Losses at the start, in the middle, at the end, in rows, of every length and of unknown length; sets that lack tools; damage.
#[test]
fn losses_told() {
    let (mut room, mut rng) = (room("losses"), Prng::new(81));
    let mut stops = [0; 70];
    let mut count = |stop: Stop| stops[stop.number as usize] += 1;
    for law in 0..2 {
        for length in [0, 40, 80, 160, 240, 320] {
            let loss = LOSS + length;
            let (samples, frames) = drawn(law, 3, &mut rng);
            let rows: [Vec<u16>; 5] = [
                vec![loss],
                [&[loss, loss], &frames[..]].concat(),
                [&frames[..], &[loss]].concat(),
                [&frames[..1], &[loss; 3], &frames[1..]].concat(),
                [&[loss], &frames[..], &[loss, LOSS]].concat(),
            ];
            for (turn, row) in rows.iter().enumerate() {
                let whole: &[u8] = if turn == 0 { &[] } else { &samples };
                let options = ["", "-v", "-g", "-v -g"][(turn + usize::from(length) / 40) % 4];
                count(played(&mut room, &file_of(whole, row, law, READ_WITH), READ_WITH, options));
            }
        }
        for turn in 0..20 {
            let (samples, items) = drawn(law, 1 + rng.below(600), &mut rng);
            let file = file_of(&samples, &items, law, READ_WITH);
            count(played(&mut room, &file, READ_WITH, ["", "-v", "-g"][turn % 3]));
            let body = damage_somehow(&file[HEAD..], &mut rng);
            let body = &body[..body.len().min(MOST)];
            count(played(&mut room, &[&heading(law)[..], body].concat(), READ_WITH, ["-v", "", "-g"][turn % 3]));
            count(played(&mut room, &file, rng.below(256) as u32, ""));
            count(played(&mut room, &file[..HEAD + rng.below(file.len() - HEAD)], READ_WITH, ["", "-v"][turn % 2]));
            count(played(&mut room, &[&file[..], &[0x46]].concat(), READ_WITH, "-g"));
        }
    }
    assert!([0, 1, 2, 3, LOST as usize].iter().all(|stop| stops[*stop] >= 20), "{stops:?}");
    let told: Vec<String> =
        stops.iter().enumerate().filter(|(_, n)| **n > 0).map(|(at, n)| format!("{at}: {n}")).collect();
    tell(&format!("losses told, runs by stop {{{}}}", told.join(", ")), &room);
}

/// The numbers of a line of a loss, or of a frame.
fn numbers(line: &str) -> Vec<usize> {
    line.split(' ')
        .map(|field| field.split_once('=').and_then(|(_, number)| number.parse().ok()).expect("a number"))
        .collect()
}

/// Losses at a window's end, across it and behind it: item, place and samples before it count from the recording's start (document 02, R-11).
#[test]
fn losses_behind_the_first_window() {
    let (mut room, mut rng) = (room("windows"), Prng::new(83));
    let (mut behind, mut across, mut stops) = (0, 0, [0; 70]);
    for law in 0..2 {
        let loss = |length: u16| file_of(&[], &[LOSS + length], law, READ_WITH)[HEAD..].to_vec();
        for (turn, octets) in
            [WINDOW + 2, WINDOW + 700, 2 * WINDOW + 1_000, 400_000, MOST - 1, MOST].into_iter().enumerate()
        {
            // Frames as they are, then pads, then losses: one of two octets begins with the window's last octet, or just before or behind.
            let mut body = plain_frames(WINDOW / 321, &mut rng);
            body.resize(WINDOW - 2 + turn % 3, 0x00);
            body.extend(loss(160));
            while body.len() + 321 <= octets {
                body.extend(match rng.below(8) {
                    0 => loss([0, 40, 80, 160, 240, 320][rng.below(6)]),
                    1 => vec![0x00],
                    _ => plain_frames(1, &mut rng),
                });
            }
            body.resize(octets.max(body.len()), 0x00);
            let file = [&heading(law)[..], &body].concat();
            let all = wanted(&file, READ_WITH, false);
            behind += all.losses.lines().filter(|line| numbers(line)[1] >= WINDOW).count();
            let starts: Vec<usize> = all.items.lines().map(|line| numbers(line)[1]).collect();
            across += windows(&starts, body.len()).windows(2).filter(|two| two[1] < two[0] + WINDOW).count();
            for options in ["", "-g"] {
                stops[played(&mut room, &file, READ_WITH, options).number as usize] += 1;
            }
            stops[played(&mut room, &file[..file.len() - 1], READ_WITH, ["-v", ""][turn % 2]).number as usize] += 1;
            if octets < MOST - 1 {
                for last in [&[0x46][..], &[0x30; 20]] {
                    let stop = played(&mut room, &[&file[..], last].concat(), READ_WITH, "-g");
                    assert_eq!(stop.at, body.len());
                    stops[stop.number as usize] += 1;
                }
            }
        }
    }
    assert!(
        behind >= 500 && across >= 30,
        "{behind} losses behind the first window, {across} items across a window's end"
    );
    assert_eq!((stops[0], stops[2]), (12, 8), "{stops:?}");
    assert_eq!(stops.iter().sum::<usize>(), room.runs);
    tell(&format!("losses behind the first window, {behind} of them, {across} items across a window's end"), &room);
}

/// `-c` holds the frames' sound against a master, and `-w` counts it: losses are no samples.
#[test]
fn compared_and_as_masters() {
    let (mut room, mut rng) = (room("masters"), Prng::new(82));
    for law in 0..2 {
        for (turn, on) in [false, true, false].into_iter().enumerate() {
            let (samples, items) = drawn(law, 30 + 300 * turn, &mut rng);
            let file = file_of(&samples, &items, law, READ_WITH);
            let stop = wanted(&file, READ_WITH, on).stop;
            let g = if on { "-g" } else { "" };
            room.put("file", &file);
            room.put("master", &samples);
            room.run("unpack", &format!("{g} -c master file"), &[]).ends(stop).writes(&[]);
            room.run("unpack", &format!("-c master {g}"), &file).ends(stop).writes(&[]);
            let mut other = samples.clone();
            let at = rng.below(other.len());
            other[at] ^= 0x04;
            room.put("master", &other);
            room.run("unpack", &format!("{g} -c master file"), &[]).ends(Stop::new(DIFFERS, at, 0));
            room.put("master", &samples[..samples.len() - 1]);
            room.run("unpack", "-c master file", &[]).ends(Stop::new(DIFFERS, samples.len() - 1, 0));
            room.put("master", &[&samples[..], &[0]].concat());
            room.run("unpack", "-c master file", &[]).ends(Stop::new(DIFFERS, samples.len(), 0));
            // A WAV file and a linear master are those of the sound alone.
            room.put("sound", &packed(&Second, &samples, law, READ_WITH, 160, MOST).octets);
            let (option, ..) = law_words(law);
            for form in ["-w", "-l"] {
                room.run("unpack", &format!("{form} {g} file of-file"), &[]).ends(stop);
                room.run("unpack", &format!("{form} {option} sound of-sound"), &[]).ends(Stop::new(
                    0,
                    room.take("sound").len(),
                    0,
                ));
                same(form, &room.take("of-file"), &room.take("of-sound"));
            }
        }
    }
    tell("compared with a master, and as masters", &room);
}

/// The heading tells the law: an option may not say another, a file's ending does not count. Cut headings, other letters and versions.
#[test]
fn headings() {
    let mut room = room("headings");
    for law in 0..2 {
        let file = [&heading(law)[..], &[0x41, 0x00, 0xC1]].concat();
        let sound = vec![[0xD5, 0xFF][law as usize]; 200];
        let done = Stop::new(0, 3, 0);
        let (own, _, lc) = law_words(law);
        let (other, _, other_lc) = law_words(1 - law);
        room.put(&format!("a.{lc}"), &file);
        room.put(&format!("a.{other_lc}"), &file);
        room.put("a.xyz", &file);
        for words in [own.to_string(), String::new(), format!("a.{lc} -"), format!("a.{other_lc} -"), "a.xyz -".into()]
        {
            room.run("unpack", &words, &file).ends(done).writes(&sound).says("frames=3 samples=200 octets=13 lost=0\n");
        }
        // Without OUTFILE the ending is that of the heading's law.
        room.run("unpack", &format!("a.{other_lc}"), &[]).ends(done);
        same("a name by the heading", &room.take(["a.alo", "a.muo"][law as usize]), &sound);
        for words in [other.to_string(), format!("{other} a.{lc} -"), format!("{other} -v -g a.{other_lc} kept")] {
            room.run("unpack", &words, &file)
                .ends(Stop::new(USAGE, 0, 0))
                .says("heading says the other law")
                .writes(&[]);
        }
        assert!(!room.has("kept"));
        let head = Stop::new(14, 0, 0);
        for cut in 7..HEAD {
            room.run("unpack", own, &file[..cut]).ends(head).says("HEAD").writes(&[]);
            room.run("unpack", other, &file[..cut]).ends(head);
            room.run("unpack", "", &file[..cut]).ends(head);
        }
        for (at, octet) in [(7, b'm'), (7, b'a'), (7, b'B'), (8, 0x0D), (9, 0x01), (9, 0xFF)] {
            let mut wrong = file.clone();
            wrong[at] = octet;
            room.run("unpack", own, &wrong).ends(head).says("HEAD").writes(&[]);
        }
        // What does not begin as a heading is a stream, and its law must be told.
        for cut in 0..7 {
            let stream = Second.walk(&file[..cut], law, READ_WITH, &mut [0; 4_000]);
            let stop = Stop { number: stream.ending, at: stream.place, tool: stream.tool, bit: stream.bit };
            room.run("unpack", own, &file[..cut]).ends(stop);
            room.run("unpack", "", &file[..cut]).ends(Stop::new(USAGE, 0, 0)).says("the law is not known");
        }
        // The order: usage, SET, files, then the file's own.
        room.run("unpack", &format!("{other} -s256"), &file).ends(Stop::new(11, 0, 0));
        room.run("unpack", "-s256", &file[..9]).ends(Stop::new(11, 0, 0));
        room.run("unpack", "-x -s256", &file).ends(Stop::new(USAGE, 0, 0));
        // A second heading is no frame; the listing takes no heading.
        played(&mut room, &[&heading(law)[..], &file].concat(), READ_WITH, "");
        assert_eq!(listing(&file), b"stop=12 at=0 tool=0 bit=0\n");
        room.run("unpack", &format!("{own} -v"), &file[HEAD..])
            .ends(Stop::new(USAGE, 0, 0))
            .says("-v lists a recording");
        room.run("unpack", &format!("{own} -g"), &file[HEAD..]).ends(done).writes(&sound);
    }
    tell("headings, laws and the order of refusals", &room);
}

/// LONG counts from the heading's end, for both programs.
#[test]
fn the_longest_recordings() {
    let mut room = room("longest");
    for law in 0..2 {
        for (octets, octet) in [
            (MOST_LISTED, 0x01),
            (MOST_LISTED + 1, 0x41),
            (MOST, [0x00, 0x41][law as usize]),
            (MOST + 1, 0x01),
            (MOST + 10, 0x00),
            (MOST + 400, 0x41),
        ] {
            let file = [&heading(law)[..], &vec![octet; octets]].concat();
            if octets > MOST {
                room.run("unpack", "", &file).ends(Stop::new(13, 0, 0)).writes(&[]);
            } else {
                played(&mut room, &file, READ_WITH, ["", "-g"][law as usize]);
            }
        }
        let (option, ..) = law_words(law);
        let sound: Vec<u8> = (0..320 * 3_266).map(|at| (at * 7 % 251) as u8).collect();
        let stream = packed(&Second, &sound, law, 1, 320, MOST);
        let ran = room.run("pack", &format!("{option} -r -s1 -n320"), &sound);
        ran.ends(Stop::new(0, sound.len(), 0)).writes(&[&heading(law)[..], &stream.octets].concat());
        let long: Vec<u8> = sound.iter().chain(&sound[..640]).copied().collect();
        let most = packed(&Second, &long, law, 1, 320, MOST).samples;
        room.run("pack", &format!("{option} -r -s1 -n320"), &long).ends(Stop::new(13, most, 0)).writes(&[]);
        // Without OUTFILE a recording goes nowhere but to standard output.
        room.put("a.ul8", &sound);
        room.run("pack", &format!("{option} -r a.ul8"), &[])
            .ends(Stop::new(USAGE, 0, 0))
            .says("with -r OUTFILE must be said");
    }
    room.run("pack", "-u -r -v", &[]).ends(Stop::new(USAGE, 0, 0));
    room.run("unpack", "-u -r", &[]).ends(Stop::new(USAGE, 0, 0));
    room.run("why", "-u -g", &[]).ends(Stop::new(USAGE, 0, 0));
    tell("the longest recordings", &room);
}
