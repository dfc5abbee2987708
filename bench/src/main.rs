//! The proved code, through the archive, beside the second program: the same inputs in one run, both built for
//! release, no buffer cleared between calls. Prints tables for docs/BENCHMARKS.md.
//!
//! Rows of runs have one contestant more: reading bit by bit, as it was before request R-2.

mod by_bits;
mod calls;
mod frames;
mod greetings;
mod jumps;
mod long;
mod mended;
#[cfg(feature = "writer")]
mod reasons;
#[cfg(feature = "writer")]
mod recorded;
mod steps;
mod store;
mod time;

use frames::{any_octets, by_kind, few_values, mixed, recordings, Batch};
use std::hint::black_box;
use time::best;

/// The tools of the older rows, so that they stay what they were; and all, of the rows of tool 11.
const SET: u32 = 127;
const ALL_TOOLS: u32 = 255;
const LENGTHS: [usize; 5] = [40, 80, 160, 240, 320];
/// Octets of a long stream: the longest before R-11.
const STREAM: usize = 65_535;
/// Octets of the longest stream, and of the largest block.
const LONGEST: usize = 1_048_576;

/// A frame of the greatest size: 320 samples, S = 9, 320 empty runs.
fn longest() -> Vec<u8> {
    // 0011 100 111111, then 320 times 1 000000000: 3,213 bits.
    let mut bits = vec![0, 0, 1, 1, 1, 0, 0, 1, 1, 1, 1, 1, 1];
    (0..320).for_each(|_| bits.extend([1, 0, 0, 0, 0, 0, 0, 0, 0, 0]));
    bits.resize(402 * 8, 0);
    bits.chunks(8).map(|octet| octet.iter().fold(0, |sum, bit| sum << 1 | bit)).collect()
}

/// A row: nanoseconds of each, the speed beside the second program's, and the time beside memcpy's, if it has any.
fn row(name: &str, [proved, second, copy]: [f64; 3], count: f64) {
    println!("{}", cells(name, [proved, second, copy], count));
}

/// A row with one cell more: nanoseconds of the loop by bits, if it takes part.
fn row_beside(name: &str, [proved, second, copy, by_bits]: [f64; 4], count: f64, takes_part: bool) {
    let last = if takes_part { format!("{:.1}", by_bits / count) } else { "-".into() };
    println!("{} {last} |", cells(name, [proved, second, copy], count));
}

fn cells(name: &str, times: [f64; 3], count: f64) -> String {
    let [proved, second, copy] = times.map(|time| time / count);
    let start = format!("| {name} | {proved:.1} | {second:.1} | {:.2} |", second / proved);
    match copy < 0.02 {
        true => format!("{start} - | - |"),
        false => format!("{start} {copy:.2} | {:.1} |", proved / copy),
    }
}

/// The last columns of tables of reading and walking, and of the others.
const BESIDE: &str = " by bits, ns |";
const ALONE: &str = "";

fn head(title: &str, first: &str, unit: &str, last: &str) {
    let times = format!("proved, {unit} | second, {unit} | speed to second | memcpy, {unit} | time to memcpy");
    table(title, &format!("| {first} | {times} |{last}"));
}

/// A table's title and its columns.
fn table(title: &str, columns: &str) {
    let line = "---|".repeat(columns.matches('|').count() - 1);
    println!("\n### {title}\n\n{columns}\n|{line}");
}

fn written(batch: &Batch) -> Vec<Vec<u8>> {
    let mut form = [0; 321];
    let write = |frame: &Vec<u8>| {
        let wrote = second::write_frame(frame, batch.law, batch.set, &mut form);
        assert_eq!(wrote.ending, 0);
        form[..wrote.octets].to_vec()
    };
    batch.frames.iter().map(write).collect()
}

/// memcpy of the samples of each frame.
fn copy(frames: &[Vec<u8>], out: &mut [u8]) {
    for frame in frames {
        out[..frame.len()].copy_from_slice(black_box(frame));
        black_box(&mut *out);
    }
}

fn reading(batch: &Batch) {
    let forms = written(batch);
    let besides: &[Vec<u8>] = if batch.has_runs() { &forms } else { &[] };
    let mut outs = [[0; 320]; 4];
    let [one, other, third, fourth] = outs.each_mut();
    let times = best([
        &mut || each(&forms, |form| calls::proved_read(form, batch.law, batch.set, one)),
        &mut || each(&forms, |form| calls::second_read(form, batch.law, batch.set, other)),
        &mut || copy(&batch.frames, third),
        &mut || each(besides, |form| calls::by_bits_read(form, batch.law, batch.set, fourth)),
    ]);
    row_beside(&batch.name, times, forms.len() as f64, batch.has_runs());
}

#[cfg(feature = "writer")]
fn writing(batch: &Batch) {
    let mut outs = [[0; 321]; 3];
    let [one, other, third] = outs.each_mut();
    let times = best([
        &mut || each(&batch.frames, |frame| calls::proved_write(frame, batch.law, batch.set, one)),
        &mut || each(&batch.frames, |frame| calls::second_write(frame, batch.law, batch.set, other)),
        &mut || copy(&batch.frames, third),
    ]);
    row(&batch.name, times, batch.frames.len() as f64);
}

/// The proved writer is not there yet: the second program alone, beside memcpy.
#[cfg(not(feature = "writer"))]
fn writing(batch: &Batch) {
    let mut outs = [[0; 321]; 2];
    let [one, third] = outs.each_mut();
    let [second, _, copied] = best([
        &mut || each(&batch.frames, |frame| calls::second_write(frame, batch.law, batch.set, one)),
        &mut || {},
        &mut || copy(&batch.frames, third),
    ]);
    let count = batch.frames.len() as f64;
    println!("| {} | - | {:.1} | - | {:.2} | - |", batch.name, second / count, copied / count);
}

/// Samples to linear values, frame by frame.
fn expanding(batch: &Batch) {
    let mut outs = [[0; 320]; 2];
    let [one, other] = outs.each_mut();
    let mut third = [0; 320];
    let times = best([
        &mut || each(&batch.frames, |frame| calls::proved_to_linear(frame, batch.law, one)),
        &mut || each(&batch.frames, |frame| calls::second_to_linear(frame, batch.law, other)),
        &mut || copy(&batch.frames, &mut third),
    ]);
    row(&batch.name, times, batch.frames.len() as f64);
}

/// Linear values to samples, frame by frame: the octets are taken for values over the whole scale.
fn compressing(batch: &Batch) {
    let wide = |frame: &Vec<u8>| {
        frame.windows(2).chain([&frame[..2]]).map(|two| i16::from_le_bytes([two[0], two[1]]) >> 2).collect()
    };
    let frames: Vec<Vec<i16>> = batch.frames.iter().map(wide).collect();
    let mut outs = [[0; 320]; 3];
    let [one, other, third] = outs.each_mut();
    let times = best([
        &mut || each(&frames, |frame| calls::proved_from_linear(frame, batch.law, one)),
        &mut || each(&frames, |frame| calls::second_from_linear(frame, batch.law, other)),
        &mut || copy(&batch.frames, third),
    ]);
    row(&batch.name, times, frames.len() as f64);
}

fn each<T>(inputs: &[Vec<T>], mut call: impl FnMut(&[T]) -> u32) {
    for input in inputs {
        black_box(call(black_box(input)));
    }
}

/// Nanoseconds of one walk by each, of a copy of its samples, and of one by bits over the same or over no octets.
fn walk_times(stream: &[u8], (law, set): (u32, u32), by_bits: &[u8]) -> ([f64; 4], usize) {
    let mut one = vec![0; 320 * stream.len()];
    let kept = second::walk(stream, law, set, &mut one);
    assert_eq!(kept.ending, 0);
    one.truncate(kept.samples + 320);
    let (mut other, mut third, mut fourth) = (one.clone(), one.clone(), one.clone());
    let source = one[..kept.samples].to_vec();
    let times = best([
        &mut || {
            black_box(calls::proved_walk(black_box(stream), law, set, &mut one));
        },
        &mut || {
            black_box(calls::second_walk(black_box(stream), law, set, &mut other));
        },
        &mut || {
            third[..source.len()].copy_from_slice(black_box(&source));
            black_box(&mut third);
        },
        &mut || {
            black_box(calls::by_bits_walk(black_box(by_bits), law, set, &mut fourth));
        },
    ]);
    (times, kept.frames)
}

/// As many of the frames as make a stream.
fn stream(batch: &Batch) -> Vec<u8> {
    let mut octets = Vec::new();
    for form in written(batch) {
        if octets.len() + form.len() <= STREAM {
            octets.extend(form);
        }
    }
    octets
}

fn walking(batch: &Batch) {
    let stream = stream(batch);
    let by_bits = if batch.has_runs() { &stream[..] } else { &[] };
    let (times, frames) = walk_times(&stream, (batch.law, batch.set), by_bits);
    row_beside(&batch.name, times, frames as f64, batch.has_runs());
}

/// How a walk's cost grows: nanoseconds an octet of streams of one frame over and over.
fn growth(name: &str, frame: &[u8]) {
    for octets in [1_000, 4_000, 16_000, STREAM, LONGEST] {
        let stream = frame.repeat(octets / frame.len());
        let ([proved, second, copy, _], _) = walk_times(&stream, (1, SET), &[]);
        row(&format!("{name} | {}", stream.len()), [proved, second, copy], stream.len() as f64);
    }
}

/// Frames of every kind and of these lengths, mixed ones and recordings.
fn all_batches(lengths: &[usize]) -> Vec<Batch> {
    by_kind(lengths).into_iter().chain([mixed()]).chain(recordings()).collect()
}

fn frame_tables() {
    let batches = all_batches(&LENGTHS);
    head("Reading one frame", "kind | samples", "ns", BESIDE);
    batches.iter().for_each(reading);
    head("Writing one frame", "kind | samples", "ns", ALONE);
    batches.iter().for_each(writing);
    head("Walking, a frame", "kind | samples", "ns", BESIDE);
    batches.iter().for_each(walking);
    head("How a walk grows, an octet", "stream of | octets", "ns", ALONE);
    growth("pads", &[0x00]);
    growth("plus zeros, 40", &[0x41]);
    growth("the longest frames", &longest());
}

/// Tool 11: speed to second wanted to be 1.0 or more. Then what it costs to weigh it, in frames of the older rows.
fn few_tables() {
    let batches = few_values(&LENGTHS);
    let first = |form: Vec<u8>| (0x02..=0x1F).contains(&form[0]);
    assert!(batches.iter().flat_map(written).all(first), "each frame is of tool 11");
    head("Tool 11: reading one frame", "kind | samples", "ns", BESIDE);
    batches.iter().for_each(reading);
    head("Tool 11: writing one frame", "kind | samples", "ns", ALONE);
    batches.iter().for_each(writing);
    head("Tool 11: walking, a frame", "kind | samples", "ns", BESIDE);
    batches.iter().for_each(walking);
    #[cfg(feature = "writer")]
    weighing();
}

/// The older kinds of frame and the recordings written with all tools, beside writing them with those of before.
#[cfg(feature = "writer")]
fn weighing() {
    let columns = "set 127, ns | set 255, ns | speed to set 127 | second, set 255, ns | speed to second";
    table("Writing one frame with all tools", &format!("| kind | samples | {columns} |"));
    for batch in all_batches(&[40, 160, 320]) {
        let mut outs = [[0; 321]; 3];
        let [one, other, third] = outs.each_mut();
        let times = best([
            &mut || each(&batch.frames, |frame| calls::proved_write(frame, batch.law, SET, one)),
            &mut || each(&batch.frames, |frame| calls::proved_write(frame, batch.law, ALL_TOOLS, other)),
            &mut || each(&batch.frames, |frame| calls::second_write(frame, batch.law, ALL_TOOLS, third)),
        ]);
        let [older, all, second] = times.map(|time| time / batch.frames.len() as f64);
        let speeds = format!("{older:.1} | {all:.1} | {:.2} | {second:.1} | {:.2}", older / all, second / all);
        println!("| {} | {speeds} |", batch.name);
    }
}

fn linear_tables() {
    let batches = any_octets(&LENGTHS);
    head("Samples to linear values, a frame", "law | samples", "ns", ALONE);
    batches.iter().for_each(expanding);
    head("Linear values to samples, a frame", "law | samples", "ns", ALONE);
    batches.iter().for_each(compressing);
}

/// The parts of a run: those named on the command line, or all.
const PARTS: &[(&str, fn())] = &[
    ("frames", frame_tables),
    ("few", few_tables),
    ("linear", linear_tables),
    ("store", store::tables),
    ("long", long::tables),
    ("mend", mended::tables),
    #[cfg(feature = "writer")]
    ("why", reasons::tables),
    #[cfg(feature = "writer")]
    ("file", recorded::tables),
];

fn main() {
    let asked: Vec<String> = std::env::args().skip(1).collect();
    if let Some(word) = asked.iter().find(|word| PARTS.iter().all(|(name, _)| name != word)) {
        eprintln!("There is no part {word}: frames, few, linear, store, long, mend, why, file.");
        std::process::exit(1);
    }
    println!("Best of several turns; ns a frame. Speed to second: the second program's time over the proved code's.");
    for (_, tables) in PARTS.iter().filter(|(name, _)| asked.is_empty() || asked.iter().any(|word| word == name)) {
        tables();
    }
}
