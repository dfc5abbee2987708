//! Holds the conversions of the proved code against those of sox, an independent implementation of G.711, at sox's own
//! 13 and 14 bits: every value and every octet of both laws. Prints the counts; ends with status 1 at a difference that
//! docs/TESTING.md does not explain, 2 where there is no sox. The gate does not run it.

use g7110::raw::{from_linear, to_linear};
use std::process::{exit, Command};
use tests::program::run;

/// What sox makes of octets of one form.
fn sox(from: [&str; 2], to: [&str; 2], input: &[u8]) -> Vec<u8> {
    let mut command = Command::new("sox");
    command.args(["-V1", "-D", "-t", "raw", "-r", "8000", "-c", "1", "-e", from[0], "-b", from[1], "-"]);
    command.args(["-t", "raw", "-e", to[0], "-b", to[1], "-"]);
    run(command, input).stdout
}

fn octets_of(values: &[i16]) -> Vec<u8> {
    values.iter().flat_map(|value| value.to_le_bytes()).collect()
}

/// Our octets of linear values, and our linear values of octets, in frames of 40.
fn ours(values: &[i16], law: u32) -> Vec<u8> {
    let mut out = vec![0; values.len()];
    values.chunks(40).zip(out.chunks_mut(40)).for_each(|(part, out)| {
        let mut frame = [0; 40];
        frame[..part.len()].copy_from_slice(part);
        let mut octets = [0; 40];
        assert_eq!(from_linear(&frame, law, &mut octets), 0);
        out.copy_from_slice(&octets[..part.len()]);
    });
    out
}

fn linear(octet: u8, law: u32) -> i16 {
    let mut out = [0; 40];
    assert_eq!(to_linear(&[octet; 40], law, &mut out), 0);
    out[0]
}

fn main() {
    if Command::new("sox").arg("--version").output().is_err() {
        eprintln!("sox is missing: the Debian package sox has it");
        exit(2);
    }
    let mut well = true;
    for (law, name, bits, shift) in [(0, "a-law", 13, 3), (1, "mu-law", 14, 2)] {
        let half = 1_i16 << (bits - 1);
        let values: Vec<i16> = (-half..half).collect();
        let wide: Vec<i16> = values.iter().map(|value| value << shift).collect();
        let theirs = sox(["signed", "16"], [name, "8"], &octets_of(&wide));
        let octets = ours(&values, law);
        assert_eq!(octets.len(), theirs.len());
        let far = |octet: u8, value: i16| (i32::from(linear(octet, law)) - i32::from(value)).abs();
        let (mut differ, mut ties, mut nearer, mut above) = (0, 0, 0, 0);
        for ((value, our), their) in values.iter().zip(&octets).zip(&theirs).filter(|((_, our), their)| our != their) {
            differ += 1;
            above += usize::from(*value >= 0);
            ties += usize::from(far(*our, *value) == far(*their, *value));
            nearer += usize::from(far(*our, *value) < far(*their, *value));
        }
        let all: Vec<u8> = (0..=255).collect();
        let back: Vec<u8> = all.iter().flat_map(|octet| (linear(*octet, law) << shift).to_le_bytes()).collect();
        let same = back == sox([name, "8"], ["signed", "16"], &all);
        println!(
            "{name}: {} values of {bits} bits, {differ} differ: {ties} as near both ways, {nearer} nearer here, {above} not below 0; \
             256 octets {}",
            values.len(),
            if same { "the same" } else { "differ" }
        );
        well &= same && differ == [0, 127][law as usize] && ties + nearer == differ && above == 0;
    }
    exit(i32::from(!well));
}
