//! Fuzzes for FUZZ_SECONDS (60 unless said), from FUZZ_SEED (the clock unless said). What differs is saved in
//! target/fuzz, and makes the program end with status 1.

use std::path::Path;
use std::time::{Duration, Instant, SystemTime};
use tests::fuzz::Fuzz;
use tests::{Proved, Second};

/// Rounds between two looks at the clock.
const ROUNDS: usize = 2_000;
/// Time between two lines.
const LINE: Duration = Duration::from_secs(10);

fn number(name: &str, otherwise: u64) -> u64 {
    match std::env::var(name) {
        Ok(text) => text.parse().unwrap_or_else(|_| panic!("{name}={text} is no number")),
        Err(_) => otherwise,
    }
}

fn clock() -> u64 {
    SystemTime::now().duration_since(SystemTime::UNIX_EPOCH).map_or(1, |since| since.as_nanos() as u64)
}

fn main() {
    let seconds = Duration::from_secs(number("FUZZ_SECONDS", 60));
    let seed = number("FUZZ_SEED", clock());
    let folder = Path::new(env!("CARGO_MANIFEST_DIR")).join("../target/fuzz");
    println!("fuzz: seed {seed}, {} s", seconds.as_secs());
    let mut fuzz = Fuzz::new(&Proved, &Second, seed, &folder);
    let start = Instant::now();
    let mut next = LINE;
    while start.elapsed() < seconds {
        (0..ROUNDS).for_each(|_| fuzz.round());
        if start.elapsed() >= next {
            tell(&fuzz);
            next += LINE;
        }
    }
    tell(&fuzz);
    fuzz.shown().iter().for_each(|difference| println!("fuzz: {difference}"));
    if fuzz.differences() > 0 {
        println!("fuzz: seed {seed}: saved in target/fuzz");
        std::process::exit(1);
    }
}

fn tell(fuzz: &Fuzz) {
    let Fuzz { reads, writes, walks, .. } = fuzz;
    let (settings, differences) = (fuzz.settings(), fuzz.differences());
    println!(
        "fuzz: {reads} frames read, {writes} written, {walks} streams walked, {settings} calls over settings: {differences} differences"
    );
    println!("fuzz: {}", fuzz.further.words());
}
