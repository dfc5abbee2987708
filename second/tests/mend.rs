//! Mending: greetings worked out by hand, the readings M1 to M6, and what is
//! promised on damaged streams.

use second::gen::{damage_somehow, make_any_form, Prng};
use second::mend::{mend, Mended};
use second::walk;

const ROOM: u32 = 4;
const LAW: u32 = 12;
const LONG: u32 = 13;
const TOTAL: u32 = 22;

/// The result of mending with just enough room: octets, frames and octets
/// kept, samples filled.
fn mended(octets: &[u8], total: u64) -> (Vec<u8>, [usize; 3]) {
    let mut out = vec![0xA7; octets.len() + 4_000];
    let done = mend(octets, 1, total, &mut out).unwrap();
    assert!(out[done.octets..].iter().all(|&octet| octet == 0xA7));
    out.truncate(done.octets);
    (out, [done.frames_kept, done.octets_kept, done.samples_filled])
}

#[test]
fn pads_at_the_total() {
    assert_eq!(mended(&[0x41, 0, 0x41, 0], 40), (vec![0x41, 0], [2, 2, 0]));
    assert_eq!(mended(&[0x41, 0, 0x41, 0], 80), (vec![0x41, 0, 0x41, 0], [4, 4, 0]));
    assert_eq!(mended(&[0x41, 0, 0x41, 0], 0), (vec![], [0, 0, 0]));
    assert_eq!(mended(&[0, 0, 0x41], 0), (vec![0, 0], [2, 2, 0]));
    assert_eq!(mended(&[0, 0x41, 0, 0, 0x46, 0], 40), (vec![0, 0x41, 0, 0], [4, 4, 0]));
    assert_eq!(mended(&[], 0), (vec![], [0, 0, 0]));
}

#[test]
fn a_frame_that_passes_the_total() {
    assert_eq!(mended(&[0x41, 0x81, 0x41], 80), (vec![0x41, 0x41], [1, 1, 40]));
    assert_eq!(mended(&[0x31, 0x41], 280), (vec![0x21, 0x41], [0, 0, 280]));
}

#[test]
fn filling() {
    assert_eq!(mended(&[], 600), (vec![0x31, 0x21, 0x41], [0, 0, 600]));
    assert_eq!(mended(&[], 280), (vec![0x21, 0x41], [0, 0, 280]));
    assert_eq!(mended(&[], 200), (vec![0xC1, 0x41], [0, 0, 200]));
    assert_eq!(mended(&[], 120), (vec![0x81, 0x41], [0, 0, 120]));
    assert_eq!(mended(&[], 40), (vec![0x41], [0, 0, 40]));
    assert_eq!(mended(&[0x41], 120), (vec![0x41, 0x81], [1, 1, 80]));
    assert_eq!(mended(&[], 1_000_000), (vec![0x31; 3_125], [0, 0, 1_000_000]));
}

#[test]
fn damage_ends_the_keeping() {
    // An octet that is not assigned, a cut frame, a filling bit.
    assert_eq!(mended(&[0x41, 0x46, 0x41], 120), (vec![0x41, 0x81], [1, 1, 80]));
    assert_eq!(mended(&[0x56, 0x0F, 0x43], 80), (vec![0x56, 0x0F, 0x41], [1, 2, 40]));
    assert_eq!(mended(&[0x86, 0xFC, 0x01, 0x41], 80), (vec![0x81], [0, 0, 80]));
    // Behind the damage nothing is looked at, pads neither.
    assert_eq!(mended(&[0x41, 0x01, 0x00, 0x41], 40), (vec![0x41], [1, 1, 0]));
}

#[test]
fn refusals() {
    let pads = vec![0; 1_048_577];
    assert_eq!(mend(&pads, 2, 39, &mut []), Err(LAW));
    assert_eq!(mend(&pads, 1, 39, &mut []), Err(LONG));
    assert_eq!(mend(&pads[1..], 1, 39, &mut []), Err(TOTAL));
    assert_eq!(mend(&pads[1..], 1, 1_000_040, &mut []), Err(TOTAL));
    assert_eq!(mend(&pads[1..], 1, u64::MAX - 15, &mut []), Err(TOTAL));
    assert_eq!(mend(&pads[1..], 1, 40, &mut []), Err(LONG));
    assert_eq!(mend(&pads[1..], 1, 0, &mut []), Err(ROOM));
    assert_eq!(mended(&pads[1..], 0), (pads[1..].to_vec(), [1_048_576, 1_048_576, 0]));
    // One octet of room too few, and just enough.
    let mut out = [0xA7; 3];
    assert_eq!(mend(&[], 0, 600, &mut out[..2]), Err(ROOM));
    assert_eq!(out, [0xA7; 3]);
    let all = Mended { octets: 3, frames_kept: 0, octets_kept: 0, samples_filled: 600 };
    assert_eq!(mend(&[], 0, 600, &mut out), Ok(all));
}

#[test]
fn promises_on_damaged_streams() {
    let mut rng = Prng::new(12);
    for _ in 0..4_000 {
        let law = rng.below(2) as u32;
        let count = rng.below(12);
        let forms: Vec<_> = (0..count).map(|_| make_any_form(law, &mut rng)).collect();
        let whole: Vec<u8> = forms.iter().flat_map(|form| form.octets.clone()).collect();
        let total: usize = forms.iter().map(|form| form.samples.len()).sum();
        assert_eq!(mended(&whole, total as u64), (whole.clone(), [count, whole.len(), 0]));

        let given = if whole.is_empty() { whole } else { damage_somehow(&whole, &mut rng) };
        let asked = (total + 40 * rng.below(20)).saturating_sub(40 * rng.below(20)) as u64;
        let (result, [frames, octets, filled]) = mended(&given, asked);
        assert_eq!(result[..octets], given[..octets]);
        let mut samples = vec![0; 20_000];
        let walked = walk(&result, law, 255, &mut samples);
        assert_eq!((walked.ending, walked.samples as u64), (0, asked));
        let again = mended(&result, asked);
        assert_eq!((again.0, again.1[2]), (result.clone(), 0));
        // Nothing more could be kept.
        let of_given = walk(&given, law, 255, &mut samples);
        assert!(frames <= of_given.frames && octets <= of_given.octets);
        if octets < of_given.octets {
            let next = walk(&given[octets..], law, 255, &mut samples[..320]);
            let first = second::read_frame(&given[octets..], law, 255, &mut [0; 320]);
            assert!(next.frames > 0 && first.samples > filled);
        }
    }
}
