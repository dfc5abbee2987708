//! What a newcomer runs: `make run` shows the tools on a recording, and fails if one octet of the packed file is changed.

use std::fs;
use std::os::unix::fs::PermissionsExt;
use std::path::{Path, PathBuf};
use std::process::{Command, Output};
use tests::program::repository;
use tests::recordings::{packed, recordings};
use tests::{say, Second, LISTED_TOOLS, MOST};

/// Changed octets that are tried.
const PLACES: usize = 24;

fn folder(name: &str) -> PathBuf {
    let folder = Path::new(env!("CARGO_TARGET_TMPDIR")).join("run").join(name);
    let _ = fs::remove_dir_all(&folder);
    fs::create_dir_all(&folder).unwrap();
    folder
}

/// The packed file of the recording that is shown: it is listed too, so with the listing program's tools.
fn stream() -> Vec<u8> {
    let shown = recordings().into_iter().find(|recording| recording.name == "greeting.ul8").unwrap();
    packed(&Second, &shown.sound, shown.law, LISTED_TOOLS, 160, MOST).octets
}

/// A command for AFTER_PACK that puts these octets in the packed file's place.
fn put_instead(folder: &Path, octets: &[u8]) -> PathBuf {
    let (other, command) = (folder.join("other"), folder.join("put-instead"));
    fs::write(&other, octets).unwrap();
    fs::write(&command, format!("#!/bin/sh\ncp '{}' \"$1\"\n", other.display())).unwrap();
    fs::set_permissions(&command, fs::Permissions::from_mode(0o755)).unwrap();
    command
}

fn text(ended: &Output) -> String {
    String::from_utf8_lossy(&[&ended.stdout[..], &ended.stderr].concat()).into_owned()
}

/// tools/show, with the packed file replaced or not.
fn show(name: &str, instead: Option<&[u8]>) -> Output {
    let folder = folder(name);
    let mut command = Command::new(repository().join("tools/show"));
    command.env("MADE", folder.join("made")).env_remove("AFTER_PACK");
    if let Some(octets) = instead {
        command.env("AFTER_PACK", put_instead(&folder, octets));
    }
    command.output().unwrap()
}

#[test]
fn an_octet_anywhere_is_changed() {
    let whole = stream();
    let ended = show("whole", Some(&whole));
    assert!(ended.status.success(), "{}", text(&ended));
    assert!(text(&ended).contains("octet for octet"), "{}", text(&ended));
    for turn in 0..PLACES {
        let place = turn * (whole.len() - 1) / (PLACES - 1);
        let mut other = whole.clone();
        other[place] ^= 1 << (turn % 8);
        let ended = show("changed", Some(&other));
        assert!(!ended.status.success(), "octet {place} was changed\n{}", text(&ended));
    }
    say(&format!("compared: tools/show: one octet changed at {PLACES} places of the packed file, each found\n"));
}

/// The whole of `make run`; the programs are built already, so nothing is proved again.
fn make_run(name: &str, instead: Option<&[u8]>) -> Output {
    let folder = folder(name);
    let mut command = Command::new("make");
    command.args(["--no-print-directory", "run", "RT=true"]).current_dir(repository());
    command.env("MADE", folder.join("made")).env_remove("AFTER_PACK").env_remove("MAKEFLAGS").env_remove("MAKELEVEL");
    if let Some(octets) = instead {
        command.env("AFTER_PACK", put_instead(&folder, octets));
    }
    command.output().unwrap()
}

#[test]
fn make_run_fails_if_an_octet_is_changed() {
    let ended = make_run("make", None);
    assert!(ended.status.success(), "{}", text(&ended));
    let said = text(&ended);
    for part in [
        "/pack ",
        "/listing",
        "/unpack ",
        "samples=40000",
        "stop=0 at=",
        "cmp ",
        "loss=0 at=0 samples=0 before=0",
        "stop=66 at=",
        "stop=1 at=4 tool=0 bit=8",
    ] {
        assert!(said.contains(part), "{part}\n{said}");
    }
    let mut other = stream();
    other[20_000] ^= 0x01;
    let ended = make_run("make-changed", Some(&other));
    assert!(!ended.status.success(), "{}", text(&ended));
}
