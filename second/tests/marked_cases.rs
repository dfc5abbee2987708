//! P1 to P16 of document 01.

mod slow;
use second::{read_frame, write_frame, ReadReport, WriteReport};
use slow::*;

const MU: u32 = 1;
const LENT: u8 = 0xA5;

fn read(octets: &[u8]) -> (ReadReport, Vec<u8>) {
    let mut out = vec![LENT; 400];
    let report = read_frame(octets, MU, 127, &mut out);
    (report, out)
}

fn accepts(octets: &[u8], samples: &[u8], bits: usize, tool: u32) {
    let (report, out) = read(octets);
    let octets = bits.div_ceil(8);
    let expected = ReadReport { ending: 0, samples: samples.len(), octets, bits, tool, bit: 0 };
    assert_eq!(report, expected);
    assert_eq!(&out[..samples.len()], samples);
    assert!(out[samples.len()..].iter().all(|&o| o == LENT));
}

fn refuses(octets: &[u8], ending: u32, tool: u32, bit: usize) {
    let (report, out) = read(octets);
    assert_eq!(report, refused_read((ending, tool, bit)));
    assert!(out.iter().all(|&o| o == LENT));
}

fn writes(samples: &[u8], set: u32, octets: &[u8], bits: usize, tool: u32) {
    let mut out = vec![LENT; 400];
    let report = write_frame(samples, MU, set, &mut out);
    assert_eq!(report, WriteReport { ending: 0, octets: octets.len(), bits, tool });
    assert_eq!(&out[..octets.len()], octets);
    assert!(out[octets.len()..].iter().all(|&o| o == LENT));
    accepts(octets, samples, bits, tool);
}

#[test]
fn p1_forty_plus_zeros() {
    accepts(&[0x41], &[0xFF; 40], 8, 2);
}

#[test]
fn p2_240_minus_zeros() {
    accepts(&[0x22], &[0x7F; 240], 8, 3);
}

#[test]
fn p3_pad() {
    accepts(&[0x00], &[], 8, 0);
}

#[test]
fn p4_nothing() {
    refuses(&[], SHORT, 0, 0);
}

#[test]
fn p5_unassigned() {
    refuses(&[0x46], PREFIX, 0, 0);
}

#[test]
fn p6_plus_minus_twenty_times() {
    let samples: Vec<u8> = [0xFF, 0x7F].repeat(20);
    writes(&samples, 127, &[0x44, 0x55, 0x55, 0x55, 0x55, 0x55], 48, 5);
    let mut out = [0; 41];
    assert_eq!(write_frame(&samples, MU, 127 - 16, &mut out).octets, 6);
}

#[test]
fn p7_one_minus_at_the_end() {
    let mut samples = vec![0xFF; 40];
    samples[39] = 0x7F;
    writes(&samples, 127, &[0x56, 0x0F], 16, 6);
}

#[test]
fn p8_forty_plus_without_the_constant_tools() {
    writes(&[0xFF; 40], 33, &[0x57, 0x18], 16, 6);
}

#[test]
fn p9_run_one_too_long() {
    refuses(&[0x57, 0x19], RUN, 0, 9);
}

#[test]
fn p10_one_in_front() {
    let mut samples = vec![0xFF; 80];
    samples[0] = 0xFE;
    writes(&samples, 127, &[0x86, 0xFC, 0x00], 23, 7);
}

#[test]
fn p11_filling_bit_set() {
    refuses(&[0x86, 0xFC, 0x01], ALIGN, 0, 23);
}

#[test]
fn p12_flag_not_allowed() {
    refuses(&[0x86, 0xDC], CASE, 0, 8);
}

#[test]
fn p13_method_110() {
    refuses(&[0x86, 0xF8], METHOD, 0, 11);
}

#[test]
fn p14_place_too_high() {
    refuses(&[0x86, 0xFC, 0xFE], PLACE, 0, 16);
}

#[test]
fn p15_pulse_mode() {
    refuses(&[0x28, 0x00], TOOL, 8, 0);
}

#[test]
fn p16_second_octet_missing() {
    refuses(&[0x28], SHORT, 0, 8);
}
