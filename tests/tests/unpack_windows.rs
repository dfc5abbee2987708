//! Streams that `unpack` reads window by window (document 02, R-11), from a file and from a pipe: frames across a
//! window's end, refusals behind the first window, masters. What it should write and say is worked out with the second
//! program.

use second::gen::Prng;
use tests::faults::Fault;
use tests::streams::{plain_frames, Stream};
use tests::tools::{
    law_words, plus_zero, same, unpack_wanted, verify_wanted, windows, Room, Stop, DIFFERS, READ_WITH, WINDOW,
};
use tests::{say, Codec, Second, MOST};

fn room(name: &str) -> Room {
    Room::new(env!("CARGO_TARGET_TMPDIR"), &format!("windows-{name}"))
}

fn tell(what: &str, room: &Room) {
    say(&format!("compared: unpack by windows, {what}: {} runs\n", room.runs));
}

/// Frames of 320 samples as they are, then pads: just so many octets.
fn filled(octets: usize, rng: &mut Prng) -> Vec<u8> {
    let mut stream = plain_frames(octets / 321, rng);
    stream.resize(octets, 0x00);
    stream
}

/// Where the frames of a stream begin, by the second program's single reads, and where it is refused if it is.
fn starts(stream: &[u8], law: u32) -> Vec<usize> {
    let (mut at, mut starts) = (0, Vec::new());
    while at < stream.len() {
        starts.push(at);
        let read = Second.read(&stream[at..stream.len().min(at + 1_000)], law, READ_WITH, &mut [0; 320]);
        if read.ending > 0 {
            break;
        }
        at += read.octets;
    }
    starts
}

/// One stream from a file and from a pipe: its sound, its totals, and how it ends.
fn unpacked(room: &mut Room, stream: &[u8], law: u32) -> Stop {
    let wanted = unpack_wanted(stream, law, READ_WITH);
    let (option, _, lc) = law_words(law);
    room.put(&format!("in.{lc}"), stream);
    room.put("out", &[0xA7; 400]);
    let mut file = room.run("unpack", &format!("in.{lc} out"), &[]);
    file.writes(&[]);
    file.out = room.take("out");
    for ran in [file, room.run("unpack", option, stream)] {
        ran.ends(wanted.stop).writes(&wanted.sound).sums(wanted.frames, wanted.sound.len(), wanted.stop.at);
        if wanted.stop.number > 0 {
            ran.says(&format!("at octet {}", wanted.stop.at));
        }
    }
    wanted.stop
}

/// A frame that begins so many octets before the first window's end, and one at the second's.
#[test]
fn frames_across_a_window() {
    let (mut room, mut rng, mut across) = (room("across"), Prng::new(91), 0);
    for before in [0, 1, 2, 40, 159, 160, 161, 319, 320, 321] {
        for (law, next) in [(0, 1 + before % 320), (1, 321 - before)] {
            // The second window begins with the frame, unless that ends with the first.
            let first = WINDOW - before;
            let second = if before == 321 { WINDOW } else { first };
            let head = [filled(first, &mut rng), plain_frames(1, &mut rng)].concat();
            let middle = filled(second + WINDOW - next - head.len(), &mut rng);
            let tail = [plain_frames(1, &mut rng), Stream::mixed(3_000, law, &mut rng).octets].concat();
            let stream = [head, middle, tail].concat();
            let begins = windows(&starts(&stream, law), stream.len());
            let last = if next == 321 { second + WINDOW } else { second + WINDOW - next };
            assert_eq!(begins, [0, second, last], "{before} and {next} octets before the windows' ends");
            across += usize::from(second < WINDOW) + usize::from(last < second + WINDOW);
            assert_eq!(unpacked(&mut room, &stream, law), Stop::new(0, stream.len(), 0));
        }
    }
    assert_eq!((across, room.runs), (34, 40));
    tell(&format!("frames across a window, {across} of them"), &room);
}

/// Streams of every tool and length: of 131,072 octets and one more or less, of several windows, and of 1,048,576 octets.
#[test]
fn streams_of_several_windows() {
    let (mut room, mut rng, mut seen, mut across) = (room("several"), Prng::new(92), 0, 0);
    let sizes = [WINDOW - 1, WINDOW, WINDOW + 1, 2 * WINDOW, 300_000, MOST - 1, MOST];
    for (turn, octets) in sizes.into_iter().enumerate() {
        let law = turn as u32 % 2;
        let mut stream = Stream::plain(octets, law, &mut rng).octets;
        stream.resize(octets, 0x00);
        let begins = windows(&starts(&stream, law), octets);
        seen += begins.len();
        across += begins.windows(2).filter(|two| two[1] < two[0] + WINDOW).count();
        assert_eq!(unpacked(&mut room, &stream, law), Stop::new(0, octets, 0));
        // One octet more than all that are taken, whatever they are.
        if octets == MOST {
            let (option, _, lc) = law_words(law);
            stream.push(0x00);
            room.put(&format!("long.{lc}"), &stream);
            room.run("unpack", option, &stream).ends(Stop::new(13, 0, 0)).writes(&[]);
            room.run("unpack", &format!("long.{lc} none"), &[]).ends(Stop::new(13, 0, 0)).writes(&[]);
            assert!(!room.has("none"), "a file was made");
        }
    }
    assert!(seen >= 28 && across >= 10, "{seen} windows, {across} frames across their ends");
    assert_eq!(room.runs, 16);
    tell(&format!("streams of several windows, {seen} windows, {across} frames across their ends"), &room);
}

/// A stream whose last frame is refused: where it begins, and its bit.
fn refused(
    room: &mut Room,
    numbers: &mut [usize; 10],
    before: Vec<u8>,
    frame: &[u8],
    law: u32,
    number: u32,
    bit: usize,
) {
    let place = before.len();
    let stop = unpacked(room, &[&before[..], frame].concat(), law);
    assert_eq!((stop.number, stop.at, stop.bit), (number, place, bit));
    numbers[number as usize] += 1;
}

/// Refusals at the first window's end, across it and behind it, in the second window and at its end, and in the last:
/// the place from the stream's start, the bit from the frame's.
#[test]
fn refusals_behind_the_first_window() {
    let (mut room, mut rng, mut numbers) = (room("refused"), Prng::new(93), [0; 10]);
    for (turn, place) in
        [WINDOW - 20, WINDOW - 1, WINDOW, WINDOW + 1, 200_000, 2 * WINDOW - 1, MOST - 400].into_iter().enumerate()
    {
        let law = turn as u32 % 2;
        let before = |rng: &mut Prng| filled(place, rng);
        let cut = 1 + rng.below(320);
        let frame = &plain_frames(1, &mut rng)[..cut];
        refused(&mut room, &mut numbers, before(&mut rng), frame, law, 1, 8 * cut);
        // What follows a refusal is not read, in this window or in another.
        let after = [0x41; 60].repeat(usize::from(place < 2 * WINDOW) * 3_000);
        refused(&mut room, &mut numbers, before(&mut rng), &[&[0x46][..], &after].concat(), law, 2, 0);
        refused(&mut room, &mut numbers, before(&mut rng), &[&[0x28, 0x00][..], &after].concat(), law, 3, 0);
        for fault in [
            Fault::RiceZeros,
            Fault::RiceLong,
            Fault::Case,
            Fault::Method(1),
            Fault::PlaceBeyond(1),
            Fault::ValueFilling,
        ] {
            let made = (0..1_000).find_map(|_| fault.make(240, &mut rng)).expect("it can be made");
            let (number, bit) = (made.ending(), made.bit);
            let frame = &made.octets[..made.octets.len().min(400)];
            refused(&mut room, &mut numbers, before(&mut rng), frame, law, number, bit);
        }
    }
    assert_eq!(numbers, [0, 7, 7, 7, 0, 7, 7, 14, 7, 7]);
    tell(&format!("refusals behind the first window, by number {numbers:?}"), &room);
}

/// `-c`: the first sample that differs, in each window; a master that is shorter or longer.
#[test]
fn a_master_of_several_windows() {
    let (mut room, mut rng, mut differ) = (room("master"), Prng::new(94), 0);
    for law in 0..2 {
        let (option, _, lc) = law_words(law);
        let stream = [Stream::plain(2 * WINDOW, law, &mut rng).octets, vec![0x41; 30_000]].concat();
        let sound = unpack_wanted(&stream, law, READ_WITH).sound;
        room.put(&format!("greeting.{lc}"), &stream);
        let mut held = |room: &mut Room, master: &[u8], wanted: Stop| {
            assert_eq!(verify_wanted(&stream, law, READ_WITH, master), wanted);
            room.put("master", master);
            room.run("unpack", &format!("-c master greeting.{lc}"), &[]).ends(wanted).writes(&[]);
            room.run("unpack", &format!("{option} -c master"), &stream).ends(wanted).writes(&[]);
            differ += usize::from(wanted.number == DIFFERS);
        };
        held(&mut room, &sound, Stop::new(0, stream.len(), 0));
        for place in [0, WINDOW - 600, WINDOW, WINDOW + 600, 2 * WINDOW, sound.len() - 1] {
            let mut other = sound.clone();
            other[place] ^= 0x20;
            held(&mut room, &other, Stop::new(DIFFERS, place, 0));
        }
        held(&mut room, &sound[..sound.len() - 1], Stop::new(DIFFERS, sound.len() - 1, 0));
        held(&mut room, &sound[..2 * WINDOW], Stop::new(DIFFERS, 2 * WINDOW, 0));
        held(&mut room, &[&sound[..], &[plus_zero(law)]].concat(), Stop::new(DIFFERS, sound.len(), 0));
    }
    assert_eq!((differ, room.runs), (18, 40));
    tell("a master of several windows", &room);
}

/// `-w` and `-l`: the values are those of the sound, and the heading counts them all.
#[test]
fn linear_masters_of_several_windows() {
    let (mut room, mut rng, mut values) = (room("linear"), Prng::new(95), 0);
    for law in 0..2 {
        let stream = Stream::plain(300_000, law, &mut rng).octets;
        let sound = unpack_wanted(&stream, law, READ_WITH).sound;
        let shift = [3, 2][law as usize];
        let master: Vec<u8> = sound
            .iter()
            .flat_map(|octet| (second::linear::linear_of(*octet, law).unwrap() << shift).to_le_bytes())
            .collect();
        let (option, _, lc) = law_words(law);
        room.put(&format!("in.{lc}"), &stream);
        for words in [format!("-l in.{lc} -"), format!("-l {option}")] {
            room.run("unpack", &words, &stream).ends(Stop::new(0, stream.len(), 0)).writes(&master);
        }
        for words in [format!("-w in.{lc} -"), format!("-w {option}")] {
            let ran = room.run("unpack", &words, &stream);
            ran.ends(Stop::new(0, stream.len(), 0));
            same(&ran.line, &ran.out[44..], &master);
            assert_eq!(ran.out[40..44], (master.len() as u32).to_le_bytes());
        }
        values += 4 * sound.len();
    }
    assert_eq!(room.runs, 8);
    assert!(values > 1_500_000, "{values} values");
    tell(&format!("linear masters of several windows, {values} values"), &room);
}

/// A stream may be unpacked into its own file: all of it is read before that is opened.
#[test]
fn in_its_own_place() {
    let (mut room, mut rng, mut octets) = (room("in-place"), Prng::new(96), 0);
    for (law, size) in [(0, 900), (1, WINDOW + 5), (0, 400_000), (1, MOST)] {
        let stream = filled(size, &mut rng);
        let wanted = unpack_wanted(&stream, law, READ_WITH);
        room.put("own", &stream);
        let ran = room.run("unpack", &format!("{} own own", law_words(law).0), &[]);
        ran.ends(Stop::new(0, size, 0)).sums(wanted.frames, wanted.sound.len(), size).writes(&[]);
        same(&ran.line, &room.take("own"), &wanted.sound);
        octets += wanted.sound.len();
    }
    assert!(octets > 1_500_000, "{octets} octets of sound");
    tell(&format!("streams unpacked into their own files, {octets} octets of sound"), &room);
}

/// "less than 1 MiB of stack": 1,000 KiB are enough for the longest streams and recordings, and 200 are not, so the limit
/// is one.
#[test]
fn a_small_stack() {
    let (mut room, mut rng) = (room("stack"), Prng::new(97));
    let last = Some(format!("stop=0 at={MOST} tool=0 bit=0"));
    let stream = filled(MOST, &mut rng);
    let sound = unpack_wanted(&stream, 1, READ_WITH).sound;
    room.put("a.lcm", &stream);
    room.put("a.g7110", &[&second::recording::heading(1)[..], &stream].concat());
    room.put("master", &sound);
    for name in ["a.lcm", "a.g7110"] {
        for args in [&[name, "out"][..], &["-w", name, "out"], &["-c", "master", name]] {
            assert_eq!(room.with_a_stack_of(1_000, "unpack", args), last, "{args:?}");
            assert_eq!(room.with_a_stack_of(200, "unpack", args), None, "{args:?}: the limit is none");
        }
        assert_eq!(room.with_a_stack_of(1_000, "unpack", &[name, "out"]), last);
        same(name, &room.take("out"), &sound);
    }
    assert_eq!(room.runs, 14);
    tell("a stack of 1,000 KiB is enough, 200 is not", &room);
}
