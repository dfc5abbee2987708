//! Fuzzing, bounded: so many rounds from one seed. `make fuzz` goes on for as long as one likes.

use std::path::{Path, PathBuf};
use tests::fuzz::Fuzz;
use tests::{say, share, Codec, Proved, Read, Second, Walk, Write};

const ROUNDS: usize = share(300_000);
const SEED: u64 = 7110;

fn folder(name: &str) -> PathBuf {
    let folder = Path::new(env!("CARGO_TARGET_TMPDIR")).join("fuzz").join(name);
    let _ = std::fs::remove_dir_all(&folder);
    folder
}

#[test]
fn nothing_differs() {
    let folder = Path::new(env!("CARGO_MANIFEST_DIR")).join("../target/fuzz");
    let mut fuzz = Fuzz::new(&Proved, &Second, SEED, &folder);
    (0..ROUNDS).for_each(|_| fuzz.round());
    let Fuzz { reads, writes, walks, .. } = fuzz;
    let settings = fuzz.settings();
    say(&format!(
        "compared: fuzz, seed {SEED}: {reads} frames read, {writes} written, {walks} streams walked, {settings} calls over settings\n"
    ));
    say(&format!("compared: fuzz, seed {SEED}: {}\n", fuzz.further.words()));
    assert!(
        fuzz.differences() == 0,
        "{} differences, saved in target/fuzz\n{}",
        fuzz.differences(),
        fuzz.shown().join("\n")
    );
}

/// The second program, wrong where a filling bit is not 0.
struct Careless;

impl Codec for Careless {
    fn name(&self) -> &str {
        "careless"
    }

    fn read(&self, octets: &[u8], law: u32, set: u32, out: &mut [u8]) -> Read {
        let got = Second.read(octets, law, set, out);
        Read { ending: if got.ending == 9 { 0 } else { got.ending }, ..got }
    }

    fn write(&self, samples: &[u8], law: u32, set: u32, out: &mut [u8]) -> Write {
        Second.write(samples, law, set, out)
    }

    fn walk(&self, octets: &[u8], law: u32, set: u32, out: &mut [u8]) -> Walk {
        Second.walk(octets, law, set, out)
    }
}

#[test]
fn a_difference_is_found_and_saved() {
    let folder = folder("careless");
    let mut fuzz = Fuzz::new(&Careless, &Second, SEED, &folder);
    (0..2_000).for_each(|_| fuzz.round());
    assert!(fuzz.differences() > 0);
    assert!(fuzz.shown()[0].starts_with("read octets="), "{}", fuzz.shown()[0]);
    let saved = std::fs::read_dir(&folder).unwrap().count();
    assert_eq!(saved, fuzz.differences().min(100));
}
