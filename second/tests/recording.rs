//! Files of studios: worked out by hand, the readings F1 to F10, and lists
//! that read back.

use second::gen::{damage_somehow, make_any_form, sample_of, Prng, LENGTHS};
use second::recording::{heading, is_erased, read_file, write_file, FileReport, LOSS};
use second::{read_frame, walk};

const ROOM: u32 = 4;
const LENGTH: u32 = 10;
const SET: u32 = 11;
const LAW: u32 = 12;
const LONG: u32 = 13;
const HEAD: u32 = 14;

const H: [u8; 10] = [0x23, 0x21, 0x47, 0x37, 0x31, 0x31, 0x30, 0x4D, 0x0A, 0x00];

/// A file's report, items and samples, in room enough.
fn read(octets: &[u8], set: u32) -> (FileReport, Vec<u16>, Vec<u8>) {
    let (mut out, mut items) = (vec![0xA7; 30_000], vec![0xA7A7; octets.len()]);
    let report = read_file(octets, set, &mut out, &mut items);
    assert!(out[report.samples..].iter().all(|&octet| octet == 0xA7));
    assert!(items[report.items..].iter().all(|&item| item == 0xA7A7));
    out.truncate(report.samples);
    items.truncate(report.items);
    (report, items, out)
}

/// What H and these octets hold.
fn items(body: &[u8]) -> Vec<u16> {
    let (report, items, _) = read(&[&H, body].concat(), 127);
    assert_eq!((report.ending, report.law, report.octets), (0, 1, body.len()));
    items
}

fn written(samples: &[u8], items: &[u16], law: u32, set: u32) -> Result<Vec<u8>, u32> {
    let mut out = vec![0xA7; 70_000];
    let octets = write_file(samples, items, law, set, &mut out)?;
    assert!(out[octets..].iter().all(|&octet| octet == 0xA7));
    out.truncate(octets);
    Ok(out)
}

#[test]
fn headings() {
    assert_eq!(heading(1), H);
    assert_eq!(heading(0), b"#!G7110A\n\0");
    assert_eq!(read(&H, 127).0, FileReport { law: 1, ..FileReport::default() });
    assert_eq!(read(b"#!G7110A\n\0\x41", 127).1, [40]);
    let refused = |octets: &[u8]| read(octets, 127).0 == FileReport { ending: HEAD, ..FileReport::default() };
    for cut in 0..10 {
        assert!(refused(&H[..cut]), "{cut}");
    }
    for at in 0..10 {
        for octet in 0..=255 {
            let mut other = [&H[..], &[0x41]].concat();
            other[at] = octet;
            assert_eq!(refused(&other), octet != H[at] && (at, octet) != (7, b'A'), "{at} {octet}");
        }
    }
    assert!(refused(b"#!g7110m\n\0") && refused(b"#!G7110M\r\n\0") && refused(b"\n#!G7110M\n\0"));
}

#[test]
fn items_of_a_file() {
    assert_eq!(items(&[0x41, 0x00, 0x43, 0xFE, 0x01, 0x43, 0x7E, 0x43, 0xFF]), [40, 0, LOSS + 40, LOSS, LOSS + 40, 40]);
    let (_, _, samples) = read(&[&H[..], &[0x41, 0x43, 0xFE, 0x42]].concat(), 127);
    assert_eq!(samples, [[0xFF; 40], [0x7F; 40]].concat());
    // FE and 7E mixed, and one sample off: frames.
    for (at, octet) in [(0, 0x7E), (39, 0xFF), (20, 0x7F)] {
        let mut body = [&[0x40][..], &[0xFE; 40]].concat();
        assert_eq!(items(&body), [LOSS + 40]);
        body[1 + at] = octet;
        assert_eq!(items(&body), [40]);
    }
    // A-law.
    let a = |body: &[u8]| read(&[&heading(0)[..], body].concat(), 127).1;
    assert_eq!(a(&[0x43, 0xD4, 0x43, 0x54, 0x43, 0xFE, 0x33, 0xD4]), [LOSS + 40, LOSS + 40, 40, LOSS + 320]);
    // Value-location that takes every place: 80 times 1, then -1 nowhere.
    let full = [&[0x86, 0x63][..], &[0xFF; 9], &[0xFE, 0x80]].concat();
    assert_eq!(items(&full), [LOSS + 80]);
    // No tool is needed for the octet 01, nor for pads.
    assert_eq!(read(&[&H[..], &[1, 0, 1]].concat(), 0).1, [LOSS, 0, LOSS]);
    assert_eq!(walk(&[0x41, 0x01], 1, 127, &mut [0; 80]).ending, 2);
}

#[test]
fn refusals_of_reading() {
    let tell = |octets: &[u8], set: u32| {
        let report = read(octets, set).0;
        (report.ending, report.law, report.items, report.octets, report.samples, report.tool, report.bit)
    };
    let long = [&H[..], &vec![0; 1_048_577]].concat();
    assert_eq!(tell(&long, 256), (SET, 0, 0, 0, 0, 0, 0));
    assert_eq!(tell(&long[1..], 127), (HEAD, 0, 0, 0, 0, 0, 0));
    assert_eq!(tell(&long, 127), (LONG, 1, 0, 0, 0, 0, 0));
    assert_eq!(tell(&long[..1_048_586], 127), (0, 1, 1_048_576, 1_048_576, 0, 0, 0));
    // H twice: 23 21 is a frame.
    assert_eq!(tell(&[H, H].concat(), 127), (2, 1, 1, 2, 240, 0, 0));
    // As a walk: TOOL, SHORT, ALIGN with its bit.
    assert_eq!(tell(&[&H[..], &[0x41, 0x43, 0xFE]].concat(), 119), (3, 1, 1, 1, 40, 4, 0));
    assert_eq!(tell(&[&H[..], &[0x41, 0x43]].concat(), 127), (1, 1, 1, 1, 40, 0, 8));
    assert_eq!(tell(&[&H[..], &[0x01, 0x86, 0xF5]].concat(), 127), (9, 1, 1, 1, 0, 0, 15));

    let rooms = |body: &[u8], samples: usize, places: usize| {
        let (mut out, mut items) = (vec![0xA7; samples], vec![0xA7A7; places]);
        let report = read_file(&[&H[..], body].concat(), 127, &mut out, &mut items);
        (report.ending, report.items, report.octets, report.samples)
    };
    assert_eq!(rooms(&[0x41, 0x46], 80, 1), (ROOM, 1, 1, 40));
    assert_eq!(rooms(&[0x41, 0x46], 80, 2), (2, 1, 1, 40));
    assert_eq!(rooms(&[0x41, 0x41], 79, 2), (ROOM, 1, 1, 40));
    assert_eq!(rooms(&[0x43, 0xFE], 39, 1), (ROOM, 0, 0, 0));
    assert_eq!(rooms(&[0x43, 0xFE, 0x43, 0xFE, 0x41], 40, 3), (0, 3, 5, 40));
    assert_eq!(rooms(&[0x01, 0x00], 0, 2), (0, 2, 2, 0));
    assert_eq!(rooms(&[], 0, 0), (0, 0, 0, 0));
}

#[test]
fn writing() {
    let list = [40, LOSS + 80, 0, LOSS];
    assert_eq!(written(&[0xFF; 40], &list, 1, 127).unwrap(), [&H[..], &[0x41, 0x83, 0xFE, 0x00, 0x01]].concat());
    assert_eq!(written(&[], &[LOSS + 40], 1, 1).unwrap(), [&H[..], &[0x40], &[0xFE; 40]].concat());
    assert_eq!(written(&[], &[LOSS + 320], 0, 127).unwrap(), [&heading(0)[..], &[0x33, 0xD4]].concat());
    assert_eq!(written(&[], &[], 1, 127).unwrap(), H);
    // A frame of 0++ is written as it stands, and is a loss when it is read.
    let file = written(&[0xFE; 40], &[40], 1, 127).unwrap();
    assert_eq!(file, [&H[..], &[0x43, 0xFE]].concat());
    assert_eq!(read(&file, 127).1, [LOSS + 40]);
}

#[test]
fn refusals_of_writing() {
    let long = vec![LOSS; 1_048_577];
    assert_eq!(write_file(&[0], &[41], 2, 0, &mut []), Err(LAW));
    assert_eq!(write_file(&[0], &[41], 1, 0, &mut []), Err(SET));
    assert_eq!(write_file(&[0], &[41], 1, 128, &mut []), Err(SET));
    assert_eq!(write_file(&[0], &[41], 1, 257, &mut []), Err(SET));
    for items in [&[41][..], &[1], &[321], &[LOSS + 41], &[LOSS + 1], &[u16::MAX], &[LOSS + 321], &[40, 41]] {
        assert_eq!(write_file(&[0; 40], items, 1, 127, &mut []), Err(LENGTH), "{items:?}");
    }
    for (samples, items) in [(39, &[40][..]), (41, &[40]), (40, &[]), (40, &[LOSS + 40]), (0, &[40]), (80, &[40, LOSS + 40])] {
        assert_eq!(write_file(&vec![0; samples], items, 1, 127, &mut [0; 500]), Err(LENGTH));
    }
    assert_eq!(write_file(&[], &long, 1, 127, &mut []), Err(LONG));
    assert_eq!(write_file(&[], &long[1..], 1, 127, &mut []), Err(ROOM));
    let mut out = [0xA7; 12];
    assert_eq!(write_file(&[0xFF; 40], &[40, 0], 1, 127, &mut out[..11]), Err(ROOM));
    assert_eq!(out, [0xA7; 12]);
    assert_eq!(write_file(&[0xFF; 40], &[40, 0], 1, 127, &mut out), Ok(12));
}

/// Lists that are written read back, frames of 0++ or 0-- as losses.
#[test]
fn written_reads_back() {
    let mut rng = Prng::new(1);
    for _ in 0..3_000 {
        let law = rng.below(2) as u32;
        let set = 2 * rng.below(128) as u32 + 1;
        let (mut list, mut wanted, mut given, mut kept) = (vec![], vec![], vec![], vec![]);
        for _ in 0..rng.below(12) {
            let length = *rng.pick(&LENGTHS) as u16;
            match rng.below(5) {
                0 => list.push(LOSS),
                1 => list.push(LOSS + length),
                2 => list.push(0),
                _ => {
                    let mut samples = make_any_form(law, &mut rng).samples;
                    if rng.chance(1, 4) {
                        let number = *rng.pick(&[1, -2]);
                        samples.fill(sample_of(number, law));
                        if rng.flip() && !samples.is_empty() {
                            let at = rng.below(samples.len());
                            samples[at] = sample_of(*rng.pick(&[0, -1, 1, -2]), law);
                        }
                    }
                    list.push(samples.len() as u16);
                    given.extend(&samples);
                    if is_erased(&samples, law) {
                        wanted.push(LOSS + samples.len() as u16);
                    } else {
                        wanted.push(samples.len() as u16);
                        kept.extend(samples);
                    }
                    continue;
                }
            }
            wanted.extend(list.last());
        }
        let file = written(&given, &list, law, set).unwrap();
        let (report, items, samples) = read(&file, set);
        assert_eq!((report.ending, report.law), (0, law));
        assert_eq!((items, samples), (wanted, kept));
        // Without the octet 01 the rest is document 01's stream.
        let body = &file[10..];
        if !list.contains(&LOSS) {
            let walked = walk(body, law, 255, &mut vec![0; 10_000]);
            assert_eq!((walked.ending, walked.frames), (0, list.len()));
        }
        // Damaged: the items before the refused one are those of its start.
        let bad = damage_somehow(&file, &mut rng);
        let (report, items, _) = read(&bad, 255);
        if report.ending != 0 && report.ending != HEAD {
            let kept = read(&bad[..10 + report.octets], 255);
            assert_eq!((kept.0.ending, kept.1), (0, items));
            let next = read_frame(&bad[10 + report.octets..], report.law, 255, &mut [0; 320]);
            assert_eq!((next.ending, next.tool, next.bit), (report.ending, report.tool, report.bit));
        }
    }
}
