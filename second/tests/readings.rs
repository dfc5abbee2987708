//! The octets of READINGS.md and what this program answers to them.

mod slow;
use second::gen::BitString;
use second::{listing, read_frame, walk, write_frame};
use slow::*;

fn octets_of(parts: &[&str]) -> Vec<u8> {
    let mut bits = BitString::default();
    parts.iter().for_each(|part| bits.text(part));
    assert_eq!(bits.len() % 8, 0);
    bits.octets()
}

fn hex(text: &str) -> Vec<u8> {
    text.split_whitespace().map(|octet| u8::from_str_radix(octet, 16).unwrap()).collect()
}

fn ending(octets: &[u8]) -> u32 {
    read_frame(octets, 1, 127, &mut [0; 320]).ending
}

/// The ending and its bit.
fn ending_and_bit(octets: &[u8]) -> (u32, usize) {
    let report = read_frame(octets, 1, 127, &mut [0; 320]);
    (report.ending, report.bit)
}

#[test]
fn r1_zeros_are_counted_to_the_frame_length() {
    let octets = octets_of(&["10000110", "011", "000", &"1".repeat(79), "0", "001", "0000000"]);
    assert_eq!(octets, hex("86 63 FF FF FF FF FF FF FF FF FF F8 80"));
    assert_eq!(ending(&octets), SHORT);
}

#[test]
fn r2_listed_places_are_judged_one_by_one() {
    let octets = octets_of(&["10000110", "111", "111", "11", "1010000", "0"]);
    assert_eq!(octets, hex("86 FF A0"));
    assert_eq!(ending(&octets), PLACE);
}

#[test]
fn r3_a_value_has_its_method_though_no_place_is_left() {
    let octets = octets_of(&["10000110", "011", "000", &"1".repeat(80), "00"]);
    assert_eq!(octets, hex("86 63 FF FF FF FF FF FF FF FF FF FC"));
    assert_eq!(ending(&octets), SHORT);
    // With method 101 for -1 it is a frame of 80 times 1.
    let octets = hex("86 63 FF FF FF FF FF FF FF FF FF FE 80");
    let mut out = [0; 80];
    let report = read_frame(&octets, 1, 127, &mut out);
    assert_eq!((report.ending, report.bits, out), (0, 97, [0xFE; 80]));
}

#[test]
fn r4_a_list_is_not_judged_by_its_count() {
    let octets =
        octets_of(&["10000110", "011", "010", "111", &"100".repeat(76), "111", "11", "000110"]);
    let middle = "24 92 49 ".repeat(9);
    assert_eq!(octets, hex(&format!("86 6B C9 {middle} 27 C6")));
    assert_eq!(ending(&octets), SHORT);
    // With the fourth place there, whatever it is: PLACE.
    for more in [0x00, 0x40, 0x80, 0xC0] {
        let mut whole = octets.clone();
        whole.push(more);
        assert_eq!(ending(&whole), PLACE);
    }
}

#[test]
fn r5_a_reader_does_not_hold_a_form_to_the_writers_rules() {
    let mut out = [0; 80];
    let report = read_frame(&hex("86 F4"), 1, 127, &mut out);
    assert_eq!((report.ending, report.bits, out), (0, 14, [0xFF; 80]));
    // Marked minus, and all 40 samples the other zero.
    let octets = octets_of(&["01", "011", "01", &"10".repeat(40), "0"]);
    assert_eq!(octets, hex("5B 55 55 55 55 55 55 55 55 55 54"));
    let mut out = [0; 40];
    let report = read_frame(&octets, 1, 127, &mut out);
    assert_eq!((report.ending, report.bits, out), (0, 87, [0xFF; 40]));
}

#[test]
fn r6_a_clean_walk_has_its_place_at_the_end() {
    let report = walk(&[0x00, 0x00], 1, 127, &mut []);
    assert_eq!((report.ending, report.octets, report.place), (0, 2, 2));
}

#[test]
fn r7_law_and_set_refuse_a_walk_over_no_octets() {
    assert_eq!(walk(&[], 2, 127, &mut []).ending, LAW);
    assert_eq!(walk(&[], 1, 256, &mut []).ending, SET);
    assert_eq!(walk(&[], 1, 127, &mut []).ending, 0);
}

#[test]
fn r8_a_long_stream_prints_one_line() {
    let mut input = vec![0x00; 65_537];
    input[0] = b'A';
    assert_eq!(listing(&input), b"stop=13 at=0 tool=0 bit=0\n");
}

#[test]
fn r9_every_line_ends_with_a_line_feed() {
    assert_eq!(listing(b"A"), b"law=0\nstop=0 at=0 tool=0 bit=0\nsamples=0\n");
}

#[test]
fn r10_two_is_added_once_to_the_listed_places() {
    // 1 at places 0 and 16 of 80: runs 0, 15 and 63 need 18 bits (S = 4). Two
    // places of 7 bits are 16 bits with two added once, 18 with two for each.
    let mut samples = [0xFF; 80];
    samples[0] = 0xFE;
    samples[16] = 0xFE;
    let mut out = [0; 81];
    let report = write_frame(&samples, 1, 127, &mut out);
    assert_eq!((report.octets, report.bits), (4, 30));
    assert_eq!(out[..4], [0x86, 0xFD, 0x00, 0x40]);
}

/// 80 times 1 by method 000, then -1 by the bits given, filled up with 0.
fn filled_then(more: &str) -> Vec<u8> {
    let mut bits = BitString::default();
    ["10000110", "011", "000", &"1".repeat(80), more].iter().for_each(|part| bits.text(part));
    bits.octets()
}

#[test]
fn r11_method_110_stays_method_where_no_place_is_left() {
    assert_eq!(filled_then("110"), hex("86 63 FF FF FF FF FF FF FF FF FF FF 00"));
    assert_eq!(ending(&filled_then("110")), METHOD);
}

#[test]
fn r12_a_list_among_no_places_needs_its_two_bits() {
    // 240 samples: 1 five times, -1 everywhere else, then -2 by a list of
    // which one bit is there.
    let row = "1".repeat(5) + &"0".repeat(235);
    let octets = octets_of(&["00100101", "001", "000", &row, "000", &"1".repeat(235), "111", "1"]);
    let zeros = "00 ".repeat(29);
    let ones = "FF ".repeat(29);
    assert_eq!(octets, hex(&format!("25 23 E0 {zeros} 7F {ones}")));
    assert_eq!(ending(&octets), SHORT);
    for more in 0..=255 {
        let mut whole = octets.clone();
        whole.push(more);
        assert_eq!(ending(&whole), PLACE);
    }
}

#[test]
fn r13_among_one_place_a_listed_place_has_no_bits() {
    // 1 at all places but the last, then -1 by a list of one, of two.
    let filled = ["10000110", "011", "000", &"1".repeat(79), "0"].concat();
    let one = octets_of(&[&filled, "111", "00", "00000"]);
    assert_eq!(one, hex("86 63 FF FF FF FF FF FF FF FF FF FB 80"));
    let mut out = [0; 80];
    let report = read_frame(&one, 1, 127, &mut out);
    assert_eq!((report.ending, report.bits), (0, 99));
    assert_eq!((out[..79].to_vec(), out[79]), (vec![0xFE; 79], 0x7F));
    let two = octets_of(&[&filled, "111", "01", "00000"]);
    assert_eq!(two, hex("86 63 FF FF FF FF FF FF FF FF FF FB A0"));
    assert_eq!(ending(&two), PLACE);
}

#[test]
fn r14_the_first_missing_bit_is_not_the_cut_codes_first() {
    assert_eq!(ending_and_bit(&hex("57 80 01")), (SHORT, 24));
    assert_eq!(ending_and_bit(&hex("28")), (SHORT, 8));
}

#[test]
fn r15_too_many_zeros_give_the_first_of_them() {
    assert_eq!(ending_and_bit(&hex("52 00 00 00 00 00")), (RUN, 7));
}

#[test]
fn r16_a_flag_not_allowed_gives_the_range_case() {
    assert_eq!(ending_and_bit(&hex("86 DC")), (CASE, 8));
}

#[test]
fn r17_the_refused_place_is_the_one_pointed_at() {
    assert_eq!(ending_and_bit(&hex("86 FE 00 00")), (PLACE, 23));
    let of_no_bits = hex("86 63 FF FF FF FF FF FF FF FF FF FB A0");
    assert_eq!(ending_and_bit(&of_no_bits), (PLACE, 99));
    assert_eq!(ending_and_bit(&filled_then("11100")), (PLACE, 99));
}

#[test]
fn r18_the_first_wrong_filling_bit_is_not_the_first_filling_bit() {
    assert_eq!(ending_and_bit(&hex("86 F5")), (ALIGN, 15));
    assert_eq!(ending_and_bit(&hex("86 F7")), (ALIGN, 14));
}

#[test]
fn r19_a_walk_counts_bits_from_the_refused_frame() {
    let report = walk(&hex("00 86 F8"), 1, 127, &mut [0; 80]);
    assert_eq!((report.ending, report.place, report.bit), (METHOD, 1, 11));
}
