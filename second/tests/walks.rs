//! Walks against reading frame by frame.

mod slow;
use second::gen::{self, Prng};
use second::{read_frame, walk, write_frame, WalkReport};

/// A walk by single reads.
fn walk_by_frames(octets: &[u8], law: u32, set: u32, out: &mut [u8]) -> WalkReport {
    let (mut at, mut frames, mut samples) = (0, 0, 0);
    let (mut ending, mut tool, mut bit) = (0, 0, 0);
    while at < octets.len() {
        let (report, after) = slow::read(&octets[at..], law, set, &out[samples..]);
        if report.ending != 0 {
            (ending, tool, bit) = (report.ending, report.tool, report.bit);
            break;
        }
        out[samples..].copy_from_slice(&after);
        at += report.octets;
        samples += report.samples;
        frames += 1;
    }
    WalkReport { ending, frames, octets: at, samples, place: at, tool, bit }
}

fn stream(frames: usize, law: u32, rng: &mut Prng) -> (Vec<u8>, Vec<u8>) {
    let (mut octets, mut samples) = (vec![], vec![]);
    for _ in 0..frames {
        let form = gen::make_any_form(law, rng);
        octets.extend(form.octets);
        samples.extend(form.samples);
    }
    (octets, samples)
}

#[test]
fn good_streams() {
    let mut rng = Prng::new(501);
    let mut total = 0;
    for _ in 0..3_000 {
        let law = rng.below(2) as u32;
        let frames = rng.below(40);
        let (octets, samples) = stream(frames, law, &mut rng);
        let more = rng.below(3);
        let mut out = vec![0x42; samples.len() + more];
        let report = walk(&octets, law, 255, &mut out);
        let expected = WalkReport {
            ending: 0,
            frames,
            octets: octets.len(),
            samples: samples.len(),
            place: octets.len(),
            tool: 0,
            bit: 0,
        };
        assert_eq!(report, expected);
        assert_eq!(&out[..samples.len()], samples);
        assert!(out[samples.len()..].iter().all(|&o| o == 0x42));
        total += frames;
    }
    println!("frames in good streams: {total}");
}

#[test]
fn damaged_streams_and_short_rooms() {
    let mut rng = Prng::new(502);
    let (mut walks, mut by_ending) = (0u64, [0u64; 14]);
    for _ in 0..6_000 {
        let law = rng.below(2) as u32;
        let frames = 1 + rng.below(12);
        let (mut octets, samples) = stream(frames, law, &mut rng);
        if rng.chance(2, 3) {
            octets = gen::damage_somehow(&octets, &mut rng);
        }
        let room = if rng.flip() { samples.len() + 700 } else { rng.below(samples.len() + 1) };
        let set = if rng.chance(3, 4) { 255 } else { rng.below(256) as u32 };
        let lent: Vec<u8> = (0..room).map(|i| (i * 91 + 5) as u8).collect();
        let (mut ours, mut theirs) = (lent.clone(), lent);
        let report = walk(&octets, law, set, &mut ours);
        let expected = walk_by_frames(&octets, law, set, &mut theirs);
        assert_eq!(report, expected);
        assert_eq!(ours, theirs);
        by_ending[report.ending as usize] += 1;
        walks += 1;
    }
    println!("walks compared: {walks}, endings 0 to 13: {by_ending:?}");
}

#[test]
fn written_streams_come_back() {
    let mut rng = Prng::new(503);
    let kinds = gen::all_kinds();
    let mut frames_written = 0;
    for _ in 0..300 {
        let law = rng.below(2) as u32;
        let set = 1 + 2 * rng.below(128) as u32;
        let (mut octets, mut samples) = (vec![], vec![]);
        let frames = rng.below(60);
        for _ in 0..frames {
            let length = *rng.pick(&[0, 40, 80, 160, 240, 320]);
            let frame = if length == 0 {
                vec![]
            } else {
                gen::make_frame(*rng.pick(&kinds), length, law, &mut rng)
            };
            let mut form = [0; 321];
            let report = write_frame(&frame, law, set, &mut form);
            octets.extend_from_slice(&form[..report.octets]);
            samples.extend(frame);
        }
        let mut out = vec![0; samples.len()];
        let report = walk(&octets, law, set, &mut out);
        assert_eq!((report.ending, report.frames), (0, frames));
        assert_eq!(out, samples);
        frames_written += frames;
    }
    println!("frames written and walked: {frames_written}");
}

#[test]
fn an_empty_walk_is_accepted() {
    let nothing =
        WalkReport { ending: 0, frames: 0, octets: 0, samples: 0, place: 0, tool: 0, bit: 0 };
    assert_eq!(walk(&[], 0, 0, &mut []), nothing);
    assert_eq!(walk(&[], 1, 127, &mut [1, 2, 3]), nothing);
}

#[test]
fn room_is_what_is_left_of_it() {
    let mut out = [0x55; 100];
    let report = walk(&[0x41, 0x00, 0x42, 0x41, 0x00], 1, 127, &mut out);
    let expected =
        WalkReport { ending: 4, frames: 3, octets: 3, samples: 80, place: 3, tool: 0, bit: 0 };
    assert_eq!(report, expected);
    assert_eq!(out[..40], [0xFF; 40]);
    assert_eq!(out[40..80], [0x7F; 40]);
    assert_eq!(out[80..], [0x55; 20]);
    // TOOL gives its tool, and the place is the refused frame's.
    let report = walk(&[0x00, 0x00, 0x50], 1, 127, &mut out);
    assert_eq!((report.ending, report.tool, report.place, report.frames), (3, 8, 2, 2));
    // The single reader says the same of the part from there on.
    assert_eq!(read_frame(&[0x50], 1, 127, &mut out).tool, 8);
}
