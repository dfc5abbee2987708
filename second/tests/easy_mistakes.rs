//! The five easy ways to get it wrong, each as a test.

mod slow;
use second::gen::{self, Pattern, Prng};
use second::{listing, read_frame, walk, write_frame, WalkReport};
use slow::*;

const MU: u32 = 1;
const PLUS: u8 = 0xFF;
const MINUS: u8 = 0x7F;

/// The mark of a tool 6 form.
fn marked_minus(first: u8, length: usize) -> bool {
    first & if length >= 240 { 0x02 } else { 0x08 } != 0
}

#[test]
fn counting_and_marking_agree_on_a_tie() {
    let mut rng = Prng::new(301);
    let (mut ties, mut others) = (0u64, 0u64);
    // Tools 1 and 6 only, so that Rice is what gets written.
    let set = 1 + 32;
    for length in gen::LENGTHS {
        for law in 0..2 {
            let (plus, minus) = (gen::sample_of(0, law), gen::sample_of(-1, law));
            for round in 0..300 {
                let count = length / 2 + round % 3 - 1;
                let row = Pattern::Exactly(count).row(length, &mut rng);
                let samples: Vec<u8> = row.iter().map(|&m| if m { minus } else { plus }).collect();
                let mut form = [0; 321];
                let report = write_frame(&samples, law, set, &mut form);
                assert_eq!((report.ending, report.tool), (0, 6));
                let more_minus = count > length - count;
                assert_eq!(marked_minus(form[0], length), more_minus);
                if 2 * count == length {
                    ties += 1;
                } else {
                    others += 1;
                }
                let mut out = vec![0; length];
                let back = read_frame(&form[..report.octets], law, 127, &mut out);
                assert_eq!((back.ending, back.bits), (0, report.bits));
                assert_eq!(out, samples);
            }
        }
    }
    println!("ties: {ties}, one off a tie: {others}");
}

#[test]
fn no_empty_run_after_the_rarer_zero_at_the_end() {
    let mut samples = [PLUS; 40];
    samples[39] = MINUS;
    let mut form = [0; 41];
    let report = write_frame(&samples, MU, 127, &mut form);
    assert_eq!((report.octets, report.bits), (2, 16));
    assert_eq!(form[..2], [0x56, 0x0F]);

    // What follows is the next frame, not an empty run.
    let mut out = [0; 80];
    let walked = walk(&[0x56, 0x0F, 0x41], MU, 127, &mut out);
    assert_eq!((walked.ending, walked.frames, walked.octets), (0, 2, 3));

    let mut rng = Prng::new(302);
    let mut count = 0;
    for length in gen::LENGTHS {
        for _ in 0..200 {
            let row = Pattern::EndsOnOne(9).row(length, &mut rng);
            for s in 1..=gen::s_code_texts(length).len() as u32 {
                let form = gen::rice_form(&row, rng.flip(), s, MU);
                let mut out = vec![0; length];
                // Not a bit more is asked for than the last run has.
                let report = read_frame(&form.octets, MU, 127, &mut out);
                assert_eq!((report.ending, report.bits), (0, form.bits));
                assert_eq!(out, form.samples);
                count += 1;
            }
        }
    }
    println!("frames ending on the rarer zero: {count}");
}

#[test]
fn the_second_octet_decides_28_2a_38_3a() {
    let mut out = [0; 320];
    for first in [0x28u8, 0x2A, 0x38, 0x3A] {
        assert_eq!(read_frame(&[first], MU, 127, &mut out), refused_read((SHORT, 0, 8)));
        // Even where neither tool could be used.
        assert_eq!(read_frame(&[first], MU, 0, &mut out), refused_read((SHORT, 0, 8)));
        for second in 0..=255u8 {
            let report = read_frame(&[first, second], MU, 95, &mut out);
            let tool = if second < 0x80 { 8 } else { 6 };
            assert_eq!(report, refused_read((TOOL, tool, 0)));
        }
    }
    for first in [0x29u8, 0x2B, 0x39, 0x3B] {
        // No second octet is needed to know the tool, nor to miss room for it.
        assert_eq!(read_frame(&[first], MU, 95, &mut out), refused_read((TOOL, 6, 0)));
        assert_eq!(read_frame(&[first], MU, 127, &mut out[..239]), refused_read((ROOM, 0, 0)));
        assert_eq!(read_frame(&[first], MU, 127, &mut out), refused_read((SHORT, 0, 8)));
        // 1 then 0 is S = 2, never tool 8.
        let second = if first < 0x30 { 0x00 } else { 0x7F };
        assert_ne!(read_frame(&[first, second], MU, 127, &mut out).ending, TOOL);
    }
}

#[test]
fn places_are_counted_among_those_still_empty() {
    // 80 samples, case 1, flag 1: 1 at places 0 and 1, then -1 listed at
    // place 0 of the 78 left, which is place 2 of the frame.
    let text = ["10000110", "01", "1", "111", "01", "0000000", "0000001", "111", "00", "0000000"];
    let bits: Vec<u8> = text.concat().bytes().map(|b| b - b'0').collect();
    let octets: Vec<u8> = bits
        .chunks(8)
        .map(|c| (0..8).fold(0, |o, i| o << 1 | c.get(i).copied().unwrap_or(0)))
        .collect();
    let mut expected = [PLUS; 80];
    expected[..3].copy_from_slice(&[0xFE, 0xFE, MINUS]);
    let mut out = [0; 80];
    let report = read_frame(&octets, MU, 127, &mut out);
    assert_eq!((report.ending, report.bits), (0, bits.len()));
    assert_eq!(out, expected);

    // With 64 or fewer places left a place has 6 bits, not 7; and the highest
    // place listed is below the places left.
    for (taken, last) in [(16usize, 63usize), (17, 62), (40, 39)] {
        let mut text = "10000110".to_string() + "01" + "1" + "000";
        text += &"1".repeat(taken);
        text += &"0".repeat(80 - taken);
        for (place, ending) in [(last, 0), (last + 1, PLACE)] {
            if place >= 64 {
                continue;
            }
            let width = if taken >= 48 { 5 } else { 6 };
            let text = text.clone() + "111" + "00" + &format!("{place:0width$b}");
            let bits: Vec<u8> = text.bytes().map(|b| b - b'0').collect();
            let octets: Vec<u8> = bits
                .chunks(8)
                .map(|c| (0..8).fold(0, |o, i| o << 1 | c.get(i).copied().unwrap_or(0)))
                .collect();
            let mut out = [0; 80];
            let report = read_frame(&octets, MU, 127, &mut out);
            assert_eq!(report.ending, ending, "{taken} {place}");
            if ending == 0 {
                assert_eq!(report.bits, text.len());
                assert_eq!(out[taken + place], MINUS);
            }
        }
    }
}

#[test]
fn an_unknown_first_octet_is_not_a_pad() {
    let mut out = [0x77; 400];
    let mut unknown = vec![0x01u8, 0x46, 0x47, 0x85, 0x87, 0xC5, 0xC7];
    unknown.extend(0x88..=0x8F);
    for first in unknown {
        assert_eq!(read_frame(&[first], MU, 127, &mut out), refused_read((PREFIX, 0, 0)));
        assert_eq!(read_frame(&[first], MU, 0, &mut out[..0]), refused_read((PREFIX, 0, 0)));
        let report = walk(&[0x00, first, 0x41], MU, 127, &mut out);
        let expected =
            WalkReport { ending: PREFIX, frames: 1, octets: 1, samples: 0, place: 1, tool: 0, bit: 0 };
        assert_eq!(report, expected);
        let text = String::from_utf8(listing(&[b'A', 0x00, first])).unwrap();
        assert!(text.ends_with("stop=2 at=1 tool=0 bit=0\nsamples=0\n"));
    }
    assert!(out.iter().all(|&o| o == 0x77));
}
