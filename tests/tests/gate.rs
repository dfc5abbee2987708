//! The gate itself: small copies of the repository, each with one thing wrong, are put through the same `.ci/run`.
//! A copy has one tiny crate of Rattle and one or two tiny packages of Rust, and so no test of this file. It stands outside
//! the repository, where rt ci refuses a file of Rattle that no crate of crates.txt has.

use std::fs;
use std::os::unix::fs::PermissionsExt;
use std::path::{Path, PathBuf};
use std::process::{Command, Stdio};
use std::sync::{Mutex, MutexGuard};

/// Provers run one at a time.
static ONE: Mutex<()> = Mutex::new(());

/// The files of a copy with an archive. Its packages have the names, and the second one the tests, that the gate knows.
const ARCHIVE: [(&str, &str); 10] = [
    ("crates.txt", "g7110 staticlib:\n"),
    ("crates/g7110/src/lib.rt", "#[unsafe(no_mangle)]\npub extern \"C\" fn g7110_same(x: u32) -> u32 {\n    x\n}\n"),
    ("Cargo.toml", "[workspace]\nresolver = \"2\"\nmembers = [\"wrapper\", \"tests\"]\n"),
    (
        "Cargo.lock",
        r#"version = 3

[[package]]
name = "g7110"
version = "0.1.0"

[[package]]
name = "tests"
version = "0.1.0"
dependencies = [
 "g7110",
]
"#,
    ),
    ("wrapper/Cargo.toml", "[package]\nname = \"g7110\"\nversion = \"0.1.0\"\nedition = \"2021\"\nlinks = \"g7110\"\n"),
    ("wrapper/build.rs", include_str!("../../wrapper/build.rs")),
    ("wrapper/src/lib.rs", "extern \"C\" {\n    pub fn g7110_same(x: u32) -> u32;\n}\n"),
    (
        "tests/Cargo.toml",
        r#"[package]
name = "tests"
version = "0.1.0"
edition = "2021"

[dependencies]
g7110 = { path = "../wrapper" }

[features]
fourth = []
tenth = []
"#,
    ),
    ("tests/src/lib.rs", ""),
    (
        "tests/tests/compare_one.rs",
        r#"use std::io::Write;

#[test]
fn compares() {
    let same = unsafe { g7110::g7110_same(7) };
    let share = [cfg!(feature = "fourth"), cfg!(feature = "tenth")];
    let said = format!("compared: {same} on {}, {share:?}\n", std::env::consts::ARCH);
    std::io::stdout().write_all(said.as_bytes()).unwrap();
}
"#,
    ),
];

/// Its other tests that call the archive.
const CALLERS: [&str; 7] = [
    "wrapper/tests/calls.rs",
    "tests/tests/compare_linear.rs",
    "tests/tests/fuzz.rs",
    "tests/tests/recordings.rs",
    "tests/tests/settings.rs",
    "tests/tests/store.rs",
    "tests/tests/vectors.rs",
];

struct Copy {
    root: PathBuf,
    _alone: MutexGuard<'static, ()>,
}

impl Drop for Copy {
    fn drop(&mut self) {
        let _ = fs::remove_dir_all(&self.root);
    }
}

struct Ended {
    well: bool,
    said: String,
    report: String,
}

impl Ended {
    fn last(&self) -> &str {
        self.said.lines().last().unwrap_or("")
    }
}

impl Copy {
    /// A copy with nothing wrong.
    fn new(name: &str) -> Copy {
        let alone = ONE.lock().unwrap_or_else(|fault| fault.into_inner());
        let root = std::env::temp_dir().join(format!("g7110-gate-{}-{name}", std::process::id()));
        let _ = fs::remove_dir_all(&root);
        let copy = Copy { root, _alone: alone };
        let here = Path::new(env!("CARGO_MANIFEST_DIR")).join("..");
        for file in [".ci/run", "tools/build", "tools/cross", "tools/native", "KIT"] {
            copy.put(file, &fs::read_to_string(here.join(file)).unwrap());
        }
        fs::set_permissions(copy.root.join("tools/build"), fs::Permissions::from_mode(0o755)).unwrap();
        copy.put("crates.txt", "listed:\n");
        copy.put("crates/listed/src/lib.rt", "pub fn same(x: u8) -> u8 {\n    x\n}\n");
        let named = "name = \"tests\"\nversion = \"0.1.0\"\n";
        let more = "edition = \"2021\"\n\n[workspace]\n\n[features]\nfourth = []\n";
        copy.put("Cargo.toml", &format!("[package]\n{named}{more}"));
        copy.put("Cargo.lock", &format!("version = 3\n\n[[package]]\n{named}"));
        copy.put("src/lib.rs", "#[test]\nfn holds() {}\n");
        copy.put("Makefile", "run:\n\t@true\n");
        let made = Command::new("git").args(["init", "-q"]).current_dir(&copy.root).status().unwrap();
        assert!(made.success());
        copy
    }

    /// A copy whose tests link an archive, with nothing wrong.
    fn with_archive(name: &str) -> Copy {
        let copy = Copy::new(name);
        fs::remove_dir_all(copy.root.join("crates/listed")).unwrap();
        ARCHIVE.into_iter().for_each(|(file, text)| copy.put(file, text));
        let calls = "#[test]\nfn holds() {\n    assert_eq!(unsafe { g7110::g7110_same(7) }, 7);\n}\n";
        CALLERS.into_iter().for_each(|file| copy.put(file, calls));
        copy
    }

    fn put(&self, file: &str, text: &str) {
        let path = self.root.join(file);
        fs::create_dir_all(path.parent().unwrap()).unwrap();
        fs::write(path, text).unwrap();
    }

    /// Runs the copy's gate as CI does, whatever these tests are compiled for.
    fn gate(&self) -> Ended {
        let mut command = Command::new("bash");
        command.arg(".ci/run").current_dir(&self.root).env("CI", "true");
        for word in ["LD_LIBRARY_PATH", "CARGO_BUILD_TARGET", "RUSTC", "RUSTDOC"] {
            command.env_remove(word);
        }
        let out = command.stdin(Stdio::null()).output().unwrap();
        let said = String::from_utf8_lossy(&out.stdout).into_owned();
        let report = fs::read_to_string(self.root.join("target/gate.txt")).unwrap_or_default();
        Ended { well: out.status.success(), said, report }
    }
}

#[test]
fn nothing_wrong_but_another_kit() {
    let copy = Copy::new("another-kit");
    copy.put("KIT", "a kit of another day\n");
    let ended = copy.gate();
    assert!(ended.well, "{}", ended.said);
    assert_eq!(ended.last(), "3 passed, 0 failed", "{}", ended.said);
    assert!(ended.said.contains("the kit differs"), "{}", ended.said);
    for line in
        ["commit: none", "tree: changed", "kit: ", "part: rt ci: 1 passed, 0 failed, ", "last line: 3 passed, 0 failed"]
    {
        assert!(ended.report.lines().any(|found| found.starts_with(line)), "{line}\n{}", ended.report);
    }
}

#[test]
fn a_crate_that_is_not_listed() {
    let copy = Copy::new("not-listed");
    copy.put("crates/planted/src/lib.rt", "pub fn other(x: u8) -> u8 {\n    x\n}\n");
    let ended = copy.gate();
    assert!(!ended.well, "{}", ended.said);
    // rt ci stops there, and so proves nothing.
    assert_eq!(ended.last(), "2 passed, 1 failed", "{}", ended.said);
    let told = |line: &str| line.starts_with("gate: FAILED: rt ci: ") && line.contains("crates/planted/src/lib.rt");
    assert!(ended.said.lines().any(told), "{}", ended.said);
    assert!(ended.report.ends_with("last line: 2 passed, 1 failed\n"), "{}", ended.report);
}

/// rt ci passes such an edit by.
#[test]
fn an_edit_that_cannot_be_applied() {
    let copy = Copy::new("bad-edit");
    copy.put("crates/listed/must-fail/gone.edit", "Gone.\nfile: src/lib.rt\nold: gone\nnew: here\n");
    let ended = copy.gate();
    assert!(!ended.well, "{}", ended.said);
    assert_eq!(ended.last(), "3 passed, 1 failed", "{}", ended.said);
    assert!(ended.said.contains("gate: FAILED: rt ci: 1 bad must-fail edits\n"), "{}", ended.said);
}

#[test]
fn a_test_that_fails_and_a_run_that_fails() {
    let copy = Copy::new("failing");
    copy.put("src/lib.rs", "#[test]\nfn holds() {}\n\n#[test]\nfn breaks() {\n    panic!()\n}\n");
    copy.put("Makefile", "run:\n\t@false\n");
    let ended = copy.gate();
    assert!(!ended.well, "{}", ended.said);
    assert_eq!(ended.last(), "2 passed, 2 failed", "{}", ended.said);
    assert!(ended.said.contains("gate: FAILED: cargo test: breaks\n"), "{}", ended.said);
    assert!(ended.said.contains("gate: FAILED: make run: "), "{}", ended.said);
}

#[test]
fn a_crate_that_is_not_proved_and_tests_that_do_not_build() {
    let copy = Copy::new("broken");
    copy.put("crates/listed/src/lib.rt", "pub fn more(x: u8) -> u8 {\n    x + 1\n}\n");
    copy.put("src/lib.rs", "#[test]\nfn holds() {\n");
    let ended = copy.gate();
    assert!(!ended.well, "{}", ended.said);
    assert_eq!(ended.last(), "1 passed, 2 failed", "{}", ended.said);
    assert!(ended.said.contains("gate: FAILED: rt ci: listed\n"), "{}", ended.said);
    assert!(ended.said.contains("gate: FAILED: cargo test: error"), "{}", ended.said);
}

/// Whether the machine is one that the archive is for. This test itself may be compiled for another one.
fn one_run() -> bool {
    Command::new("uname").arg("-m").output().unwrap().stdout == b"x86_64\n"
}

/// On x86-64 the tests are run once, on the shipped archive. Elsewhere all are run on the archive compiled for the machine, and
/// those that call the archive on the shipped one too. The report says so, and the test itself what it was compiled for, and
/// with which share.
#[test]
fn an_archive() {
    let ended = Copy::with_archive("archive").gate();
    assert!(ended.well, "{}", ended.said);
    let told = ended.report.lines().filter(|line| line.starts_with("archive: ") || line.starts_with("compared: "));
    let told: Vec<&str> = told.collect();
    if one_run() {
        assert_eq!(ended.last(), "11 passed, 0 failed", "{}", ended.said);
        let fourth = "archive: as shipped, for x86-64; a fourth of what is drawn, where that is dear";
        assert_eq!(told, [fourth, "compared: 7 on x86_64, [true, false]"]);
        return;
    }
    assert_eq!(ended.last(), "19 passed, 0 failed", "{}", ended.said);
    let starts =
        ["archive: compiled for ", "compared: 7 on ", "archive: as shipped, for x86-64; ", "compared: 7 on x86_64, "];
    assert_eq!(told.len(), starts.len(), "{told:?}");
    assert!(told.iter().zip(starts).all(|(line, start)| line.starts_with(start)), "{told:?}");
    assert!(!told[1].contains("x86_64"), "{told:?}");
    assert!(told[1].ends_with("[true, false]") && told[3].ends_with("[false, true]"), "{told:?}");
}

#[test]
fn a_test_that_fails_on_the_shipped_archive_alone() {
    let copy = Copy::with_archive("shipped");
    copy.put("tests/tests/vectors.rs", "#[test]\nfn breaks() {\n    assert!(!cfg!(target_arch = \"x86_64\"));\n}\n");
    let ended = copy.gate();
    assert!(!ended.well, "{}", ended.said);
    let (last, part) =
        if one_run() { ("10 passed, 1 failed", "cargo test") } else { ("18 passed, 1 failed", "cargo test, a tenth") };
    assert_eq!(ended.last(), last, "{}", ended.said);
    assert!(ended.said.contains(&format!("gate: FAILED: {part}: breaks\n")), "{}", ended.said);
}
