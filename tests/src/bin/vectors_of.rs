//! Compares published test signals: `vectors_of FOLDER`. Raw files (.ul8 .mu8 .mu, .al8 .al) and streams of the same
//! names (.lcm, .lca) stand in the folder or in folders in it. Prints a line for each pair, and the sums. Ends with
//! status 0 if all is equal, 1 at any mismatch, 2 if there was nothing to compare.

use std::path::Path;
use std::process::exit;
use tests::published::{compare, signals, End, Found, Signal};
use tests::{Proved, Second};

fn octets(path: &Path) -> Vec<u8> {
    std::fs::read(path).unwrap_or_else(|fault| fail(&format!("{}: {fault}", path.display())))
}

fn fail(why: &str) -> ! {
    eprintln!("vectors_of: {why}");
    exit(2)
}

fn found(folder: &Path, signal: &Signal) -> Found {
    let name = signal.stream.strip_prefix(folder).unwrap_or(&signal.stream).display().to_string();
    compare(&Proved, &Second, &name, &octets(&signal.raw), &octets(&signal.stream), signal.law)
}

fn main() {
    let words: Vec<_> = std::env::args_os().skip(1).collect();
    let [folder] = &words[..] else { fail("give one folder") };
    let folder = Path::new(folder);
    let (signals, alone) = signals(folder).unwrap_or_else(|fault| fail(&format!("{}: {fault}", folder.display())));
    let all: Vec<Found> = signals.iter().map(|signal| found(folder, signal)).collect();
    all.iter().for_each(|found| println!("{found}"));
    for path in &alone {
        println!("{}: alone, not compared", path.strip_prefix(folder).unwrap_or(path).display());
    }
    let sum = |number: fn(&Found) -> usize| all.iter().map(number).sum::<usize>();
    let equal = sum(|found| usize::from(found.end == End::Equal));
    let refused = sum(|found| usize::from(matches!(found.end, End::NotCarried { .. })));
    let mismatches = all.len() - equal - refused;
    println!(
        "vectors: {} pairs, {equal} equal, {refused} with a tool that is not carried, {mismatches} mismatches, {} files alone",
        all.len(),
        alone.len()
    );
    println!(
        "vectors: {} frames, {} samples, {} octets read; {} frames written again the same",
        sum(|found| found.frames),
        sum(|found| found.samples),
        sum(|found| found.octets),
        sum(|found| found.same)
    );
    if all.is_empty() {
        fail("no pair of a raw file and a stream")
    }
    exit(i32::from(mismatches > 0))
}
