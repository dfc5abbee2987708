//! Frames written and read back.

use second::gen::{self, Kind, Prng};
use second::{read_frame, write_frame};

/// Writes a frame, checks the report against itself and the bound, and reads
/// the form back with other octets behind it. Gives the tool.
fn round_trip(samples: &[u8], law: u32, set: u32, rng: &mut Prng) -> u32 {
    let length = samples.len();
    let mut form = [0xEE; 340];
    let written = write_frame(samples, law, set, &mut form);
    assert_eq!(written.ending, 0);
    assert_eq!(written.octets, written.bits.div_ceil(8));
    assert!((1..=length + 1).contains(&written.octets));
    assert!(form[written.octets..].iter().all(|&o| o == 0xEE));
    let bit = if written.tool == 11 { 8 } else { written.tool };
    assert!(bit == 0 || set >> (bit - 1) & 1 == 1);

    let behind = rng.below(form.len() - written.octets + 1);
    for octet in &mut form[written.octets..written.octets + behind] {
        *octet = rng.octet();
    }
    let mut out = [0x11; 330];
    let read = read_frame(&form[..written.octets + behind], law, set, &mut out[..length]);
    assert_eq!(read.ending, 0);
    assert_eq!((read.samples, read.octets), (length, written.octets));
    assert_eq!((read.bits, read.tool), (written.bits, written.tool));
    assert_eq!(&out[..length], samples);
    assert!(out[length..].iter().all(|&o| o == 0x11));
    written.tool
}

#[test]
fn every_kind_length_law_and_odd_set() {
    let mut rng = Prng::new(201);
    let kinds = gen::all_kinds();
    let mut by_tool = [0u64; 12];
    for &kind in &kinds {
        for length in gen::LENGTHS {
            for law in 0..2 {
                let samples = gen::make_frame(kind, length, law, &mut rng);
                for set in (1..256).step_by(2) {
                    by_tool[round_trip(&samples, law, set, &mut rng) as usize] += 1;
                }
            }
        }
    }
    let total: u64 = by_tool.iter().sum();
    println!("kinds: {}, round trips: {total}, by tool 0 to 11: {by_tool:?}", kinds.len());
    assert!([1, 2, 3, 4, 5, 6, 7, 11].iter().all(|&tool| by_tool[tool] > 300));
}

#[test]
fn many_frames_of_every_kind() {
    let mut rng = Prng::new(202);
    let kinds = gen::all_kinds();
    let mut by_tool = [0u64; 12];
    for _ in 0..600_000 {
        let kind = if rng.flip() {
            *rng.pick(&kinds)
        } else {
            Kind::TwoZeros(*rng.pick(gen::Pattern::ALL))
        };
        let length = *rng.pick(&gen::LENGTHS);
        let law = rng.below(2) as u32;
        let samples = gen::make_frame(kind, length, law, &mut rng);
        let set = if rng.flip() { *rng.pick(&[127, 255]) } else { 1 + 2 * rng.below(128) as u32 };
        by_tool[round_trip(&samples, law, set, &mut rng) as usize] += 1;
    }
    println!("round trips by tool 0 to 11: {by_tool:?}");
}

#[test]
fn every_constant_frame() {
    let mut rng = Prng::new(203);
    let mut count = 0u64;
    for length in gen::LENGTHS {
        for law in 0..2 {
            for octet in 0..=255u8 {
                for set in [127, 255, 1, 129, 9, 33, 49, 17, 65, 3, 5, 121] {
                    round_trip(&vec![octet; length], law, set, &mut rng);
                    count += 1;
                }
            }
        }
    }
    println!("constant frames: {count}");
}

#[test]
fn one_odd_sample_at_every_place() {
    let mut rng = Prng::new(204);
    let mut count = 0u64;
    for length in gen::LENGTHS {
        for law in 0..2 {
            for place in 0..length {
                for (common, odd) in [(0, -1), (-1, 0), (0, 1), (0, -2), (5, 6), (0, 2)] {
                    let mut samples = vec![gen::sample_of(common, law); length];
                    samples[place] = gen::sample_of(odd, law);
                    let tool = round_trip(&samples, law, 127, &mut rng);
                    let expected = match (common, odd) {
                        (0 | -1, 0 | -1) => 6,
                        (0, 1 | -2) if length >= 80 => 7,
                        _ => 1,
                    };
                    assert_eq!(tool, expected);
                    count += 1;
                }
            }
        }
    }
    println!("frames with one odd sample: {count}");
}

#[test]
fn no_samples_are_one_octet() {
    let mut rng = Prng::new(205);
    for set in (1..256).step_by(2) {
        for law in 0..2 {
            assert_eq!(round_trip(&[], law, set, &mut rng), 0);
        }
    }
}

#[test]
fn the_longest_frame_a_reader_takes() {
    // 320 empty runs with S = 9: nobody would write it, but it reads.
    let form = gen::rice_form(&[true; 320], true, 9, 1);
    assert_eq!((form.bits, form.octets.len()), (3213, 402));
    let mut out = [0; 320];
    let report = read_frame(&form.octets, 1, 127, &mut out);
    assert_eq!((report.ending, report.bits, report.octets), (0, 3213, 402));
    assert_eq!(out, [0xFF; 320]);
}
