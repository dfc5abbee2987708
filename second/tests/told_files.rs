//! A file of studios, piece by piece: its heading, and one item at a place.

mod slow;
use second::gen::{self, sample_of, Prng, LENGTHS};
use second::pieces::{file_head, file_next};
use second::recording::{heading, read_file, LOSS};

const SHORT: u32 = 1;
const PREFIX: u32 = 2;
const TOOL: u32 = 3;
const ROOM: u32 = 4;
const METHOD: u32 = 6;
const SET: u32 = 11;
const LAW: u32 = 12;
const LONG: u32 = 13;
const HEAD: u32 = 14;

const MOST: usize = 1_048_576;

/// The answer and what was written; all else of the room must be as lent.
fn next(octets: &[u8], at: u64, law: u32, set: u32, room: usize) -> ((u32, [u64; 6]), Vec<u8>) {
    let mut written = vec![];
    for fill in [0xA7, 0x58] {
        let mut out = vec![fill; room];
        let told = file_next(octets, at, law, set, &mut out);
        let frame = told.0 == 0 && told.1[0] == 0;
        let samples = if frame { told.1[1] as usize } else { 0 };
        assert!(out[samples..].iter().all(|&octet| octet == fill));
        out.truncate(samples);
        if fill == 0x58 {
            assert_eq!(out, written);
            return (told, out);
        }
        written = out;
    }
    unreachable!()
}

#[test]
fn headings() {
    assert_eq!(file_head(b"#!G7110A\n\0"), (0, [0, 10]));
    assert_eq!(file_head(b"#!G7110M\n\0"), (0, [1, 10]));
    // Any octets may follow, and no LONG.
    for law in [0u32, 1] {
        let mut file = heading(law);
        file.push(0x46);
        assert_eq!(file_head(&file), (0, [law.into(), 10]));
        file.resize(2 * MOST, 0x01);
        assert_eq!(file_head(&file), (0, [law.into(), 10]));
        for cut in 0..10 {
            assert_eq!(file_head(&file[..cut]), (HEAD, [0, 0]), "{cut}");
        }
    }
    let mut compared = 0;
    for at in 0..10 {
        for octet in 0..=255u8 {
            let mut file = heading(1);
            file[at] = octet;
            let expected = match (at, octet) {
                (7, b'A') => (0, [0, 10]),
                _ if file == heading(1) => (0, [1, 10]),
                _ => (HEAD, [0, 0]),
            };
            assert_eq!(file_head(&file), expected, "{at} {octet:02X}");
            compared += 1;
        }
    }
    assert_eq!(file_head(b"\n#!G7110M\n\0"), (HEAD, [0, 0]));
    println!("compared: {compared} headings with one octet changed");
}

/// A frame, a pad, both marks of a loss, a constant frame, an octet that is
/// not assigned: at every place, be it an item's or not.
#[test]
fn items_at_every_place() {
    let file = [0x41, 0x00, 0x01, 0x43, 0xFE, 0xC3, 0x7E, 0x43, 0xFF, 0x46];
    let at = |place: u64| next(&file, place, 1, 127, 320);
    let plus = vec![0xFF; 40];
    assert_eq!(at(0), ((0, [0, 40, 1, 2, 0, 1]), plus.clone()));
    assert_eq!(at(1), ((0, [0, 0, 1, 0, 0, 2]), vec![]));
    assert_eq!(at(2), ((0, [1, 0, 1, 0, 0, 3]), vec![]));
    assert_eq!(at(3), ((0, [1, 40, 2, 4, 0, 5]), vec![]));
    assert_eq!(at(5), ((0, [1, 160, 2, 4, 0, 7]), vec![]));
    assert_eq!(at(7), ((0, [0, 40, 2, 4, 0, 9]), plus));
    assert_eq!(at(9), ((PREFIX, [0, 0, 0, 0, 0, 9]), vec![]));
    // Inside items: FE, 7E and FF begin frames of tool 9.
    assert_eq!(at(4), ((TOOL, [0, 0, 0, 9, 0, 4]), vec![]));
    assert_eq!(at(6), ((TOOL, [0, 0, 0, 9, 0, 6]), vec![]));
    assert_eq!(at(8), ((TOOL, [0, 0, 0, 9, 0, 8]), vec![]));
    // At the end and past it, never wrapped.
    for past in [10, 11, 1 << 16, 1 << 32, (1 << 32) + 1, 1 << 63, u64::MAX - 9, u64::MAX] {
        assert_eq!(at(past), ((SHORT, [0, 0, 0, 0, 0, past]), vec![]));
    }
}

#[test]
fn refusals_in_order_tell_the_place() {
    let pads = vec![0; MOST + 1];
    // LONG counts all octets, not those from the place on.
    for at in [0, 7, MOST as u64, MOST as u64 + 1, u64::MAX] {
        let refused = |number: u32| ((number, [0, 0, 0, 0, 0, at]), vec![]);
        assert_eq!(next(&pads, at, 2, 256, 0), refused(LAW));
        assert_eq!(next(&pads, at, u32::MAX, 0, 0), refused(LAW));
        assert_eq!(next(&pads, at, 1, 256, 0), refused(SET));
        assert_eq!(next(&pads, at, 0, 0, 0), refused(LONG));
        assert_eq!(next(&[], at, 2, 256, 0), refused(LAW));
        assert_eq!(next(&[], at, 0, 256, 0), refused(SET));
        assert_eq!(next(&[], at, 0, 0, 0), refused(SHORT));
    }
    let last = MOST as u64 - 1;
    assert_eq!(next(&pads[1..], last, 0, 0, 0), ((0, [0, 0, 1, 0, 0, last + 1]), vec![]));
    assert_eq!(next(&pads[1..], last + 1, 0, 0, 0), ((SHORT, [0, 0, 0, 0, 0, last + 1]), vec![]));
    // The bit counts from the item's start, the place from the heading's end.
    assert_eq!(next(&[0, 0x86, 0xF8], 1, 1, 127, 80).0, (METHOD, [0, 0, 0, 0, 11, 1]));
    assert_eq!(next(&[0x41, 0x43], 1, 1, 127, 40).0, (SHORT, [0, 0, 0, 0, 8, 1]));
    assert_eq!(next(&[0x41, 0x28], 1, 1, 127, 0).0, (SHORT, [0, 0, 0, 0, 8, 1]));
    assert_eq!(next(&[0x41, 0x28, 0x00], 1, 1, 127, 0).0, (TOOL, [0, 0, 0, 8, 0, 1]));
}

#[test]
fn rooms_and_sets() {
    // ROOM as of a read: a frame's samples, an erasure frame's too.
    assert_eq!(next(&[0x41], 0, 1, 127, 39).0, (ROOM, [0, 0, 0, 0, 0, 0]));
    assert_eq!(next(&[0x41], 0, 1, 127, 40).0, (0, [0, 40, 1, 2, 0, 1]));
    assert_eq!(next(&[0x00, 0x43, 0xFE], 1, 1, 127, 39).0, (ROOM, [0, 0, 0, 0, 0, 1]));
    assert_eq!(next(&[0x00, 0x43, 0xFE], 1, 1, 127, 40).0, (0, [1, 40, 2, 4, 0, 3]));
    assert_eq!(next(&[0x43, 0xFE], 0, 1, 119, 40).0, (TOOL, [0, 0, 0, 4, 0, 0]));
    // Before the body is judged.
    assert_eq!(next(&[0x86, 0xF8], 0, 1, 127, 79).0, (ROOM, [0; 6]));
    assert_eq!(next(&[0x86, 0xF8], 0, 1, 127, 80).0, (METHOD, [0, 0, 0, 0, 11, 0]));
    // 01 and a pad take any set and no room.
    for set in [0, 1, 128, 255] {
        assert_eq!(next(&[0x01], 0, 1, set, 0).0, (0, [1, 0, 1, 0, 0, 1]));
        assert_eq!(next(&[0x41, 0x00], 1, 0, set, 0).0, (0, [0, 0, 1, 0, 0, 2]));
    }
    // The tool is the erasure frame's own: constant, uncompressed, 11.
    let raw: Vec<u8> = [vec![0x40], vec![0x7E; 40]].concat();
    assert_eq!(next(&raw, 0, 1, 1, 320), ((0, [1, 40, 41, 1, 0, 41]), vec![]));
    assert_eq!(next(&raw, 0, 0, 1, 320), ((0, [0, 40, 41, 1, 0, 41]), vec![0x7E; 40]));
    let eleven = [0x02, 0xFF, 0xFF, 0xFF, 0xFF, 0xFF];
    assert_eq!(next(&eleven, 0, 1, 255, 320), ((0, [1, 40, 6, 11, 0, 6]), vec![]));
    assert_eq!(next(&eleven, 0, 1, 127, 320).0, (TOOL, [0, 0, 0, 11, 0, 0]));
    // By law: D4 and 54 are A's, FE and 7E are mu's; mixed is a frame.
    for (octet, law) in [(0xD4, 0), (0x54, 0), (0xFE, 1), (0x7E, 1)] {
        assert_eq!(next(&[0xC3, octet], 0, law, 127, 320).0 .1[0], 1);
        let other = next(&[0xC3, octet], 0, 1 - law, 127, 320);
        assert_eq!(other, ((0, [0, 160, 2, 4, 0, 2]), vec![octet; 160]));
    }
    let mixed: Vec<u8> = [vec![0x40, 0x7E], vec![0xFE; 39]].concat();
    assert_eq!(next(&mixed, 0, 1, 1, 40).0, (0, [0, 40, 41, 1, 0, 41]));
}

/// What stands behind a heading: forms, pads, losses of both kinds; damaged or
/// not.
fn any_body(law: u32, rng: &mut Prng) -> Vec<u8> {
    let mut body = vec![];
    for _ in 0..rng.below(9) {
        match rng.below(5) {
            0 => body.push(0x01),
            1 => {
                let level = *rng.pick(&[1, -2, 2]);
                let erased = vec![sample_of(level, law); *rng.pick(&LENGTHS)];
                let mut form = [0; 321];
                let set = *rng.pick(&[1, 9, 129, 255]);
                let wrote = second::write_frame(&erased, law, set, &mut form);
                body.extend(&form[..wrote.octets]);
            }
            _ => body.extend(gen::make_any_form(law, rng).octets),
        }
    }
    if rng.chance(1, 3) && !body.is_empty() {
        body = gen::damage_somehow(&body, rng);
    }
    body
}

/// Item by item with 320 octets of room, and the whole file at once.
#[test]
fn item_by_item_is_the_file_read() {
    let mut rng = Prng::new(3903);
    let (mut by_ending, mut kinds) = ([0u64; 14], [0u64; 4]);
    for _ in 0..25_000 {
        let law = rng.below(2) as u32;
        let set = if rng.chance(4, 5) { 255 } else { rng.below(256) as u32 };
        let body = any_body(law, &mut rng);
        let file = [heading(law), body.clone()].concat();
        assert_eq!(file_head(&file), (0, [law.into(), 10]));
        let (mut out, mut items) = (vec![0; 320 * body.len()], vec![0; body.len()]);
        let read = read_file(&file, set, &mut out, &mut items);

        let (mut at, mut listed, mut samples) = (0u64, vec![], vec![]);
        let end = loop {
            let ((ending, report), written) = next(&body, at, law, set, 320);
            if ending != 0 {
                assert_eq!((&report[..3], report[5]), (&[0; 3][..], at));
                break (ending, report[3], report[4]);
            }
            let [kind, length, used, _, bit, then] = report;
            assert_eq!((bit, then), (0, at + used));
            listed.push(length as u16 + kind as u16 * LOSS);
            kinds[(2 * kind + u64::from(length > 0)) as usize] += 1;
            samples.extend(written);
            at = then;
        };
        // The file's end is SHORT of no octets, with tool and bit 0.
        let whole = at == body.len() as u64;
        let ending = if whole { 0 } else { end.0 };
        assert!(!whole || end == (SHORT, 0, 0));
        assert_eq!((read.ending, read.octets as u64), (ending, at));
        assert_eq!((u64::from(read.tool), read.bit as u64), (end.1, end.2));
        assert_eq!((&items[..read.items], &out[..read.samples]), (&listed[..], &samples[..]));
        by_ending[ending as usize] += 1;
    }
    assert!(kinds.iter().all(|&count| count > 1_000), "{kinds:?}");
    for ending in [0, 1, 2, 3, 5, 6, 7, 8, 9] {
        assert!(by_ending[ending] > 0, "{ending}: {by_ending:?}");
    }
    println!("compared: 25,000 files item by item, by ending {by_ending:?}");
    println!("pads, frames, losses of unknown and of known length: {kinds:?}");
}

/// At every place of a file, with any room, by a reader that shares nothing
/// with the library.
#[test]
fn every_place_by_the_text() {
    let mut rng = Prng::new(3904);
    let (mut places, mut by_ending) = (0u64, [0u64; 14]);
    for _ in 0..1_200 {
        let law = rng.below(2) as u32;
        let set = if rng.flip() { 255 } else { rng.below(256) as u32 };
        let body = any_body(law, &mut rng);
        for at in 0..body.len() + 2 {
            let room = *rng.pick(&[0, 39, 40, 160, 239, 240, 320, 400]);
            let place = at as u64;
            let (told, written) = next(&body, place, law, set, room);
            places += 1;
            by_ending[told.0 as usize] += 1;
            if at >= body.len() {
                assert_eq!(told, (SHORT, [0, 0, 0, 0, 0, place]));
            } else if body[at] == 0x01 {
                assert_eq!(told, (0, [1, 0, 1, 0, 0, place + 1]));
            } else {
                let (frame, samples) = slow::read(&body[at..], law, set, &vec![0; room]);
                let samples = &samples[..frame.samples];
                let (tool, bit) = (u64::from(frame.tool), frame.bit as u64);
                let levels = [1, -2].map(|level| slow::sample(level, law));
                let lost = frame.samples > 0
                    && levels.iter().any(|level| samples.iter().all(|sample| sample == level));
                let (length, used) = (frame.samples as u64, frame.octets as u64);
                let report = [u64::from(lost), length, used, tool, bit, place + used];
                assert_eq!(told, (frame.ending, report));
                assert_eq!(written, if lost { &[] } else { samples });
            }
        }
    }
    println!("compared: {places} places of files, by ending {by_ending:?}");
}
