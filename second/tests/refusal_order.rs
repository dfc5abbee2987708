//! Which refusal comes first where several could.

mod slow;
use second::gen::{self, BitString, Prng};
use second::{read_frame, walk, write_frame, WalkReport};
use slow::*;

const LENT: u8 = 0x99;

/// A refusal whose bit is 0, or SHORT.
fn reads(octets: &[u8], law: u32, set: u32, room: usize, ending: u32, tool: u32) {
    let bit = if ending == SHORT { 8 * octets.len() } else { 0 };
    refuses(octets, law, set, room, (ending, tool, bit));
}

/// A refusal inside the body, by mu-law and all tools.
fn body(octets: &[u8], room: usize, ending: u32, bit: usize) {
    refuses(octets, 1, 127, room, (ending, 0, bit));
}

fn refuses(octets: &[u8], law: u32, set: u32, room: usize, wanted: Refused) {
    let mut out = vec![LENT; room];
    let report = read_frame(octets, law, set, &mut out);
    assert_eq!(report, refused_read(wanted), "{octets:02X?}");
    assert!(out.iter().all(|&o| o == LENT));
}

fn writes(length: usize, law: u32, set: u32, room: usize, ending: u32) {
    let samples: Vec<u8> = (0..length).map(|i| i as u8).collect();
    let mut out = vec![LENT; room];
    assert_eq!(write_frame(&samples, law, set, &mut out), refused_write(ending));
    assert!(out.iter().all(|&o| o == LENT));
}

#[test]
fn reader_law_set_then_the_frame() {
    for octets in [&[][..], &[0x46], &[0x28], &[0x28, 0], &[0x41], &[0x00], &[0x40]] {
        for law in [2, 3, 127, 128, u32::MAX] {
            for set in [0, 127, 255, 256, u32::MAX] {
                reads(octets, law, set, 0, LAW, 0);
            }
        }
        for set in [256, 257, 511, 512, u32::MAX] {
            reads(octets, 0, set, 0, SET, 0);
            reads(octets, 1, set, 320, SET, 0);
        }
    }
    reads(&[], 0, 0, 0, SHORT, 0);
    // PREFIX before anything of the frame.
    reads(&[0x46], 1, 0, 0, PREFIX, 0);
    // The second octet before TOOL and ROOM.
    reads(&[0x28], 1, 0, 0, SHORT, 0);
    reads(&[0x28, 0x80], 1, 0, 0, TOOL, 6);
    reads(&[0x28, 0x00], 1, 127, 0, TOOL, 8);
    // TOOL before ROOM and SHORT.
    for (first, tool) in [
        (0x40u8, 1u32), (0x41, 2), (0x42, 3), (0x43, 4), (0x44, 5), (0x52, 6), (0x86, 7),
        (0x50, 8), (0x60, 9), (0xC8, 10), (0x02, 11), (0x45, 12), (0x48, 13),
    ] {
        reads(&[first], 1, 0, 0, TOOL, tool);
        reads(&[first], 0, 0, 320, TOOL, tool);
        if tool <= 7 {
            let without = 127 - (1 << (tool - 1));
            reads(&[first], 1, without, 320, TOOL, tool);
        } else {
            reads(&[first], 1, 127, 320, TOOL, tool);
        }
    }
    // ROOM before SHORT and before every fault of the body.
    for octets in [&[0x40][..], &[0x43], &[0x44], &[0x52], &[0x57, 0x19], &[0x41]] {
        reads(octets, 1, 127, 39, ROOM, 0);
    }
    for octets in [&[0x86][..], &[0x86, 0xDC], &[0x86, 0xF8], &[0x86, 0xFC, 0xFE], &[0x86, 0xFC, 1]] {
        reads(octets, 1, 127, 79, ROOM, 0);
    }
    // A pad needs no tool and no room.
    let report = read_frame(&[0x00], 0, 0, &mut []);
    assert_eq!((report.ending, report.octets, report.bits, report.tool), (0, 1, 8, 0));
}

#[test]
fn writer_law_set_length_room() {
    for length in [0, 1, 39, 40, 41, 320, 400] {
        for set in [0, 1, 255, 256] {
            writes(length, 2, set, 0, LAW);
            writes(length, u32::MAX, set, 400, LAW);
        }
        for set in [0, 2, 64, 126, 128, 254, 256, 257, 511, u32::MAX] {
            writes(length, 0, set, 0, SET);
            writes(length, 1, set, 400, SET);
        }
    }
    for length in (1..700).filter(|l| ![40, 80, 160, 240, 320].contains(l)) {
        writes(length, 0, 1, 0, LENGTH);
        writes(length, 1, 127, 800, LENGTH);
    }
    for length in [0, 40, 80, 160, 240, 320] {
        // Rising octets have no shorter form than the plain one.
        writes(length, 1, 127, length, ROOM);
    }
}

#[test]
fn body_faults_come_as_the_bits_come() {
    // 40 zeros and no more octets: not yet RUN. The 41st makes it one.
    let rice = |zeros: usize, more: &str| {
        let mut bits = BitString::default();
        bits.text("01");
        bits.text("010");
        bits.text("01");
        bits.text(&"0".repeat(zeros));
        bits.text(more);
        bits
    };
    for zeros in 0..=41usize {
        let bits = rice(zeros, "");
        if bits.len() % 8 == 0 {
            let (ending, bit) = if zeros > 40 { (RUN, 7) } else { (SHORT, bits.len()) };
            body(&bits.octets(), 40, ending, bit);
        }
    }
    assert_eq!(rice(41, "").len() % 8, 0);
    assert_eq!(rice(33, "").len() % 8, 0);
    // The 41st zero is RUN even where the octets end with it.
    body(&rice(41, "").octets(), 40, RUN, 7);

    // Too long a run is judged when it is whole: S = 5, one low bit missing.
    // 01 010 1111, zeros, 1, low five bits.
    let mut bits = BitString::default();
    bits.text("010101111");
    bits.text("001");
    bits.text("1111");
    assert_eq!(bits.len(), 16);
    reads(&bits.octets(), 1, 127, 40, SHORT, 0);
    bits.text("1");
    body(&bits.octets(), 40, RUN, 9);

    // RUN and PLACE before ALIGN; METHOD and CASE before any later SHORT.
    body(&[0x57, 0x19], 40, RUN, 9);
    body(&[0x86, 0xFC, 0xFF], 80, PLACE, 16);
    body(&[0x86, 0xF8], 80, METHOD, 11);
    body(&[0x86, 0x3F], 80, CASE, 8);
    body(&[0x86, 0x1F], 80, CASE, 8);
    body(&[0x86, 0xBF], 80, CASE, 8);
    body(&[0xC6, 0x3F], 160, CASE, 8);
    // The same case with 240 samples goes on to its values.
    reads(&[0x25, 0x3F], 1, 127, 240, SHORT, 0);

    // The first of four places is bad, the others are missing: PLACE.
    let mut bits = BitString::default();
    bits.text("10000110");
    bits.text("111");
    bits.text("111");
    bits.text("11");
    bits.text("1010000");
    bits.text("0");
    body(&bits.octets(), 80, PLACE, 16);
    // The same with a good first place: SHORT.
    let mut bits = BitString::default();
    bits.text("10000110");
    bits.text("111");
    bits.text("111");
    bits.text("11");
    bits.text("1001111");
    bits.text("0");
    reads(&bits.octets(), 1, 127, 80, SHORT, 0);

    // A value that leaves no place is no fault: the next one's method is what
    // is missing.
    let mut bits = BitString::default();
    bits.text("10000110");
    bits.text("011");
    bits.text("000");
    bits.text(&"1".repeat(80));
    bits.text("00");
    reads(&bits.octets(), 1, 127, 80, SHORT, 0);
}

#[test]
fn zeros_are_counted_up_to_the_frame_length_in_tool_7_too() {
    // 80 samples, 1 taking 79 of them; one place is left for -1, by runs.
    let mut bits = BitString::default();
    bits.text("10000110");
    bits.text("011");
    bits.text("000");
    bits.text(&"1".repeat(79));
    bits.text("0");
    bits.text("001");
    let start = bits.len();
    for zeros in 0..=90usize {
        let mut here = bits.clone();
        here.text(&"0".repeat(zeros));
        if here.len() % 8 == 0 {
            let (ending, bit) = if zeros > 80 { (RUN, start) } else { (SHORT, here.len()) };
            body(&here.octets(), 80, ending, bit);
        }
    }
    // v = 1 fills the place left with 0; v = 0 takes it, v = 2 is too long.
    for (tail, ending, last) in [("11", 0, 0xFF), ("10", 0, 0x7F), ("010", RUN, 0)] {
        let mut here = bits.clone();
        here.text(tail);
        let mut out = [0; 80];
        let report = read_frame(&here.octets(), 1, 127, &mut out);
        assert_eq!(report.ending, ending);
        if ending == 0 {
            assert_eq!(report.bits, start + 2);
            assert_eq!(out[..79], [0xFE; 79]);
            assert_eq!(out[79], last);
        }
    }
}

#[test]
fn walk_law_set_long() {
    let nothing =
        |ending| WalkReport { ending, frames: 0, octets: 0, samples: 0, place: 0, tool: 0, bit: 0 };
    let long = vec![0; 1_048_577];
    let mut out = [LENT; 40];
    for octets in [&[][..], &[0x41], &[0x46], &long] {
        for set in [0, 255, 256] {
            assert_eq!(walk(octets, 2, set, &mut out), nothing(LAW));
        }
        assert_eq!(walk(octets, 1, 256, &mut out), nothing(SET));
        assert_eq!(walk(octets, 0, u32::MAX, &mut out), nothing(SET));
    }
    assert_eq!(walk(&long, 1, 127, &mut out), nothing(LONG));
    assert_eq!(walk(&long, 1, 0, &mut []), nothing(LONG));
    let just = walk(&long[1..], 1, 0, &mut []);
    assert_eq!((just.ending, just.frames, just.octets, just.place), (0, 1_048_576, 1_048_576, 1_048_576));
    assert!(out.iter().all(|&o| o == LENT));
}

#[test]
fn every_refusal_leaves_the_room_as_lent() {
    let mut rng = Prng::new(401);
    let mut by_ending = [0u64; 14];
    for _ in 0..200_000 {
        let law = rng.below(2) as u32;
        let form = gen::make_any_form(law, &mut rng);
        let octets = gen::damage_somehow(&form.octets, &mut rng);
        let room = rng.below(400);
        let mut out = vec![LENT; room];
        let report = read_frame(&octets, law, rng.below(256) as u32 | 0x60, &mut out);
        by_ending[report.ending as usize] += 1;
        if report.ending != 0 {
            assert_eq!((report.samples, report.octets, report.bits), (0, 0, 0));
            assert_eq!(report.tool != 0, report.ending == TOOL);
        }
        assert_eq!(report.bit == 0, [0, PREFIX, TOOL, ROOM].contains(&report.ending) || octets.is_empty());
        assert!(out[report.samples..].iter().all(|&o| o == LENT));
    }
    println!("endings 0 to 13: {by_ending:?}");
    assert!(by_ending[..10].iter().all(|&count| count > 0));
}
