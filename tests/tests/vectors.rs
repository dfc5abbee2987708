//! Every vector of `vectors/`, on every back end. Another back end is one more line in `backs`.

use std::io::Write as _;
use tests::{check, check_firsts, firsts, vectors, Codec, Compared, Proved, Second};

fn backs() -> Vec<Box<dyn Codec>> {
    vec![Box::new(Second), Box::new(Proved)]
}

/// The files that a test below runs.
const FILES: [&str; 7] =
    ["usual.txt", "unusual.txt", "faulty.txt", "open-points.txt", "windows.txt", "fractional.txt", "first-octet.txt"];

/// The files that tests of their own run.
const OTHERS: [&str; 7] = ["settings.txt", "why.txt", "mend.txt", "store.txt", "moves.txt", "file.txt", "told.txt"];

fn folder() -> std::path::PathBuf {
    std::path::Path::new(env!("CARGO_MANIFEST_DIR")).join("vectors")
}

fn text(file: &str) -> String {
    std::fs::read_to_string(folder().join(file)).unwrap_or_else(|fault| panic!("{file}: {fault}"))
}

/// Says what was compared, also where the test harness keeps what passing tests print; fails on any difference.
fn close(file: &str, codec: &dyn Codec, compared: &Compared) {
    let said = format!("compared: {file} on {}: {compared}\n", codec.name());
    std::io::stdout().write_all(said.as_bytes()).unwrap();
    assert!(compared.vectors() > 0, "{file} has no vectors");
    let faults = compared.faults.len();
    assert!(faults == 0, "{file}: {faults} differences\n{}", compared.faults.join("\n"));
}

fn run(file: &str) {
    let vectors = vectors(&text(file)).unwrap_or_else(|fault| panic!("{file}: {fault}"));
    for codec in backs() {
        let mut compared = Compared::default();
        for vector in &vectors {
            check(codec.as_ref(), vector, &mut compared);
        }
        close(file, codec.as_ref(), &compared);
    }
}

#[test]
fn usual() {
    run("usual.txt");
}

#[test]
fn unusual() {
    run("unusual.txt");
}

#[test]
fn faulty() {
    run("faulty.txt");
}

#[test]
fn open_points() {
    run("open-points.txt");
}

#[test]
fn windows() {
    run("windows.txt");
}

#[test]
fn fractional() {
    run("fractional.txt");
}

#[test]
fn first_octet() {
    let firsts = firsts(&text("first-octet.txt")).unwrap_or_else(|fault| panic!("first-octet.txt: {fault}"));
    for codec in backs() {
        let mut compared = Compared::default();
        check_firsts(codec.as_ref(), &firsts, &mut compared);
        close("first-octet.txt", codec.as_ref(), &compared);
    }
}

#[test]
fn no_file_is_left_out() {
    let mut found: Vec<String> =
        std::fs::read_dir(folder()).unwrap().map(|file| file.unwrap().file_name().into_string().unwrap()).collect();
    let mut known = FILES.map(String::from).to_vec();
    known.extend(OTHERS.map(String::from));
    found.sort();
    known.sort();
    assert_eq!(found, known);
}

#[test]
fn the_marked_cases_are_all_there() {
    let all: Vec<String> =
        FILES[..6].iter().flat_map(|file| vectors(&text(file)).unwrap()).map(|vector| vector.name).collect();
    for n in 1..=16 {
        assert!(all.contains(&format!("P{n}")), "P{n} is missing");
    }
    for n in 1..=19 {
        assert!(all.iter().any(|name| name.starts_with(&format!("{n}-"))), "open point {n} is missing");
    }
}
