//! Times reading, writing and walking, kind of frame by kind of frame.

use second::gen::{self, Kind, Often, Pattern, Prng};
use second::{read_frame, walk, write_frame};
use std::hint::black_box;
use std::time::Instant;

const FRAMES: usize = 256;
const LAW: u32 = 1;
const SET: u32 = 127;

struct Case {
    name: &'static str,
    kind: Kind,
}

const CASES: &[Case] = &[
    Case { name: "uncompressed", kind: Kind::RandomOctets },
    Case { name: "plus", kind: Kind::AllPlus },
    Case { name: "constant", kind: Kind::Constant },
    Case { name: "binary", kind: Kind::TwoZeros(Pattern::Half) },
    Case { name: "rice 1/8", kind: Kind::TwoZeros(Pattern::Scattered { part: 1, whole: 8 }) },
    Case { name: "rice 1/30", kind: Kind::TwoZeros(Pattern::Scattered { part: 1, whole: 30 }) },
    Case { name: "rice 1/300", kind: Kind::TwoZeros(Pattern::Scattered { part: 1, whole: 300 }) },
    Case { name: "values, few", kind: values(Often::Times(2), Often::Times(3), Often::Times(1)) },
    Case { name: "values, 1/12", kind: values(Often::OneIn(12), Often::OneIn(12), Often::OneIn(12)) },
    Case { name: "values, 1/5", kind: values(Often::OneIn(5), Often::OneIn(5), Often::OneIn(5)) },
];

const fn values(ones: Often, minus_ones: Often, minus_twos: Often) -> Kind {
    Kind::Range { case: 0, ones, minus_ones, minus_twos }
}

/// Nanoseconds for each of `FRAMES` turns of `work`, the best of many rounds.
fn best_of(mut work: impl FnMut(usize)) -> f64 {
    let mut best = f64::INFINITY;
    for _ in 0..200 {
        let start = Instant::now();
        for index in 0..FRAMES {
            work(index);
        }
        best = best.min(start.elapsed().as_nanos() as f64 / FRAMES as f64);
    }
    best
}

fn main() {
    println!("{:<14} {:>7} {:>6} {:>9} {:>9} {:>9}", "kind", "samples", "octets", "read ns", "write ns", "walk ns");
    let mut rng = Prng::new(1);
    for case in CASES {
        for length in [40, 160, 320] {
            time_case(case, length, &mut rng);
        }
    }
}

fn time_case(case: &Case, length: usize, rng: &mut Prng) {
    let frames: Vec<Vec<u8>> =
        (0..FRAMES).map(|_| gen::make_frame(case.kind, length, LAW, rng)).collect();
    let mut form = [0; 321];
    let forms: Vec<Vec<u8>> = frames
        .iter()
        .map(|frame| {
            let report = write_frame(frame, LAW, SET, &mut form);
            form[..report.octets].to_vec()
        })
        .collect();
    let stream: Vec<u8> = forms.iter().flatten().copied().take(65_535).collect();

    let mut out = [0; 320];
    let read = best_of(|index| {
        black_box(read_frame(black_box(&forms[index]), LAW, SET, &mut out));
    });
    let write = best_of(|index| {
        black_box(write_frame(black_box(&frames[index]), LAW, SET, &mut form));
    });
    let mut all = vec![0; FRAMES * length];
    let mut walked = f64::INFINITY;
    for _ in 0..200 {
        let start = Instant::now();
        let report = walk(black_box(&stream), LAW, SET, &mut all);
        walked = walked.min(start.elapsed().as_nanos() as f64 / report.frames as f64);
        black_box(&all);
    }
    let octets = forms.iter().map(Vec::len).sum::<usize>() as f64 / FRAMES as f64;
    println!("{:<14} {length:>7} {octets:>6.1} {read:>9.1} {write:>9.1} {walked:>9.1}", case.name);
}
