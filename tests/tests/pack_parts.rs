//! Sounds that `pack` packs part by part (61,440 samples; document 02, R-11), from a file and from a pipe: ends around a
//! part's, the limit of 1,048,576 octets at a part's end, two minutes, full disks, and the stack of `pack` and `mend`.
//! What they should write and say is worked out with the second program.

use second::gen::Prng;
use second::recording::{heading, is_erased};
use tests::forms::LENGTHS;
use tests::recordings::two_minutes;
use tests::tools::{law_words, pack_wanted, plus_zero, same, Room, Stop, FILES, PACKED_WITH, WINDOW};
use tests::{say, MOST};

/// The samples of a part.
const PART: usize = 61_440;

fn room(name: &str) -> Room {
    Room::new(env!("CARGO_TARGET_TMPDIR"), &format!("parts-{name}"))
}

fn tell(what: &str, room: &Room) {
    say(&format!("compared: pack by parts, {what}: {} runs\n", room.runs));
}

/// One sound from a file and from a pipe, octet for octet as the second program packs it, and back. What is refused leaves
/// OUTFILE as it was. Gives how it ended and the octets of its stream.
fn packed_and_back(room: &mut Room, sound: &[u8], law: u32, length: usize) -> (Stop, usize) {
    let wanted = pack_wanted(sound, law, PACKED_WITH, length, false);
    let (option, raw, _) = law_words(law);
    let octets = wanted.stream.octets.len();
    room.put(&format!("in.{raw}"), sound);
    room.put("out", b"as it was");
    let mut file = room.run("pack", &format!("-n{length} in.{raw} out"), &[]);
    file.writes(&[]);
    file.out = room.take("out");
    let pipe = room.run("pack", &format!("{option} -n{length}"), sound);
    if wanted.stop.number > 0 {
        file.ends(wanted.stop).writes(b"as it was");
        pipe.ends(wanted.stop).writes(&[]);
        return (wanted.stop, 0);
    }
    for ran in [file, pipe] {
        ran.ends(wanted.stop).sums(wanted.stream.frames, sound.len(), octets).writes(&wanted.stream.octets);
    }
    let ran = room.run("unpack", &format!("{option} out back"), &[]);
    ran.ends(Stop::new(0, octets, 0));
    same(&ran.line, &room.take("back"), sound);
    (wanted.stop, octets)
}

/// Sounds that end just before, at and just behind a part's end, in frames of every length.
#[test]
fn around_a_part_s_end() {
    let (mut room, mut rng, mut octets) = (room("ends"), Prng::new(101), 0);
    for (turn, length) in LENGTHS.into_iter().enumerate() {
        for parts in 1..4 {
            let law = (turn + parts) as u32 % 2;
            for samples in [parts * PART - 320, parts * PART - 40, parts * PART, parts * PART + 40, parts * PART + 320]
            {
                let mut sound = rng.octets(samples);
                sound[samples / 3..samples / 2].fill(plus_zero(law));
                let (stop, made) = packed_and_back(&mut room, &sound, law, length);
                assert_eq!(stop, Stop::new(0, samples, 0));
                octets += made;
            }
        }
        // LENGTH, behind whole parts
        let (stop, _) = packed_and_back(&mut room, &rng.octets(2 * PART + 47), 1, length);
        assert_eq!(stop, Stop::new(10, 2 * PART + 40, 0));
    }
    assert_eq!(room.runs, 5 * (3 * 5 * 3 + 2));
    assert!(octets > 7_000_000, "{octets} octets");
    tell(&format!("sounds that end around a part's end, {octets} octets of streams"), &room);
}

/// Frames of 40 samples, 41 octets or one octet each: those of 21 parts have just 1,048,576.
fn just_21_parts(law: u32, rng: &mut Prng) -> Vec<u8> {
    let (frames, long) = (21 * PART / 40, 25_408);
    let mut sound = vec![plus_zero(law); 21 * PART];
    for (at, frame) in sound.chunks_exact_mut(40).enumerate() {
        if (at + 1) * long / frames > at * long / frames {
            frame.copy_from_slice(&rng.octets(40));
        }
    }
    sound
}

/// The limit at a part's end, at the first frame of the next part, and at the last frame of the part.
#[test]
fn the_limit_at_a_part_s_end() {
    let (mut room, mut rng) = (room("limit"), Prng::new(102));
    for law in 0..2 {
        let sound = just_21_parts(law, &mut rng);
        assert_eq!(packed_and_back(&mut room, &sound, law, 40), (Stop::new(0, sound.len(), 0), MOST));
        for more in [40, 320, PART] {
            let longer = [&sound[..], &vec![plus_zero(law); more]].concat();
            assert_eq!(packed_and_back(&mut room, &longer, law, 40).0, Stop::new(13, sound.len(), 0));
        }
        // One plus zero less in front, and one of 41 octets at the end, which then ends 40 octets too late.
        let first = sound.chunks_exact(40).position(|frame| frame.iter().all(|one| *one == plus_zero(law))).unwrap();
        let late = [&sound[..40 * first], &sound[40 * (first + 1)..], &rng.octets(40)[..]].concat();
        assert_eq!(packed_and_back(&mut room, &late, law, 40).0, Stop::new(13, sound.len() - 40, 0));
        // The same with pages that are nearly full: 16 of 62,976 octets.
        let full = rng.octets(40 * (MOST / 41));
        assert_eq!(packed_and_back(&mut room, &full, law, 40), (Stop::new(0, full.len(), 0), MOST - 1));
        let over = [&full[..], &rng.octets(40)].concat();
        assert_eq!(packed_and_back(&mut room, &over, law, 40).0, Stop::new(13, full.len(), 0));
    }
    assert_eq!(room.runs, 2 * (2 * 3 + 5 * 2));
    tell("the limit at a part's end and inside a part", &room);
}

/// Two minutes, as a stream and as a recording, whose frames that readers take for lost are counted behind the first
/// window too; and a file packed in its own place.
#[test]
fn two_minutes_packed() {
    let (mut room, mut octets, mut lost) = (room("minutes"), 0, 0);
    for recording in two_minutes() {
        let (law, option) = (recording.law, law_words(recording.law).0);
        for length in LENGTHS {
            let (stop, made) = packed_and_back(&mut room, &recording.sound, law, length);
            assert_eq!(stop, Stop::new(0, recording.sound.len(), 0));
            octets += made;
        }
        let erased = (0..=255).find(|octet| is_erased(&[*octet; 40], law)).expect("one is all 0++");
        let mut sound = recording.sound.clone();
        for at in [0, 320_000, 960_000 - 160] {
            sound[at..at + 160].fill(erased);
        }
        let stream = pack_wanted(&sound, law, PACKED_WITH, 160, false).stream;
        assert!(stream.octets.len() > 4 * WINDOW);
        lost += sound.chunks(160).filter(|frame| is_erased(frame, law)).count();
        let said = format!("take them for lost: {}\n", sound.chunks(160).filter(|frame| is_erased(frame, law)).count());
        let file = [&heading(law)[..], &stream.octets].concat();
        room.put("own", &sound);
        let ran = room.run("pack", &format!("-r {option} own own"), &[]);
        ran.ends(Stop::new(0, sound.len(), 0)).sums(stream.frames, sound.len(), file.len()).says(&said).writes(&[]);
        same(&ran.line, &room.take("own"), &file);
        let ran = room.run("pack", &format!("-r {option}"), &sound);
        ran.ends(Stop::new(0, sound.len(), 0)).says(&said).writes(&file);
    }
    assert_eq!(room.runs, 2 * (5 * 3 + 2));
    assert!(lost >= 6 && octets > 7_000_000, "{lost} lost, {octets} octets");
    tell(&format!("two minutes, {octets} octets of streams, {lost} frames taken for lost"), &room);
}

/// A disk that is full: trouble with a file, whether it takes the heading or not.
#[test]
fn full_disks() {
    let (mut room, mut rng) = (room("full"), Prng::new(103));
    let sound = rng.octets(3 * PART);
    room.put("a.ul8", &sound);
    for words in ["a.ul8 /dev/full", "-r a.ul8 /dev/full", "-u - /dev/full", "-u -r - /dev/full"] {
        room.run("pack", words, &sound).ends(Stop::new(FILES, 0, 0)).says("/dev/full: ").writes(&[]);
    }
    assert_eq!((room.runs, room.names()), (4, vec!["a.ul8".to_string()]));
    tell("full disks", &room);
}

/// "less than 1 MiB of stack": 1,000 KiB are enough for `pack`, and 200 are not, so the limit is one. `mend` holds greeting
/// and result whole: 2,200 KiB are enough, and 2,000 are not.
#[test]
fn a_small_stack() {
    let (mut room, mut rng) = (room("stack"), Prng::new(104));
    let sound = just_21_parts(1, &mut rng);
    let last = Some(format!("stop=0 at={} tool=0", sound.len()));
    let stream = pack_wanted(&sound, 1, PACKED_WITH, 40, false).stream.octets;
    room.put("a.ul8", &sound);
    for args in [&["-n40", "a.ul8", "out"][..], &["-r", "-n40", "a.ul8", "out"]] {
        assert_eq!(room.with_a_stack_of(1_000, "pack", args), last, "{args:?}");
        let wanted = if args[0] == "-r" { [&heading(1)[..], &stream].concat() } else { stream.clone() };
        same(&format!("{args:?}"), &room.take("out"), &wanted);
        assert_eq!(room.with_a_stack_of(200, "pack", args), None, "{args:?}: the limit is none");
    }
    room.put("a.lcm", &[&vec![0x81; 12_000][..], &vec![0; MOST - 12_000]].concat());
    let args = ["-t", "960000", "a.lcm", "out"];
    assert_eq!(room.with_a_stack_of(2_200, "mend", &args), Some(format!("stop=0 at={MOST} tool=0 bit=0")));
    assert_eq!(room.with_a_stack_of(2_000, "mend", &args), None, "the limit is none");
    assert_eq!(room.runs, 6);
    tell("a stack of 1,000 KiB is enough, of `mend` 2,200", &room);
}
