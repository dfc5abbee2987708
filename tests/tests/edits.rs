//! `make faults`: a small repository goes through tools/faults, with a stand-in for rt that proves nothing. An edit's
//! line `log: ` is what rt says of it there, and an edit without one is not refused. The repository has files of Rattle, and
//! so it stands outside this one.

use std::fs;
use std::os::unix::fs::PermissionsExt;
use std::path::PathBuf;
use std::process::Command;
use tests::program::repository;

const RT: &str = r#"#!/bin/sh
set -eu
command=$1
shift
case $command in
check)
    [ -d src ]
    echo "check $(basename "$PWD")" >>"$SAID"
    mkdir -p out
    cksum <src/lib.rt >"$SAID.$(basename "$PWD")"
    ;;
must-fail)
    echo "must-fail $*" >>"$SAID"
    status=0
    for name; do
        [ "$(cksum <"crates/$name/src/lib.rt")" = "$(cat "$SAID.$name")" ]
        [ ! -e "crates/$name/out" ]
    done
    for edit in crates/*/must-fail/*.edit; do
        of=$(basename "$(dirname "$(dirname "$edit")")")
        log=$(sed -n 's/^log: //p' "$edit" | head -n 1)
        label="rt: must-fail $of/$(basename "$edit")"
        if [ -n "$log" ]; then
            echo "$label: refused, as it must be$log"
        else
            echo "$label: NOT REFUSED: the crate is still proved with this edit"
            status=1
        fi
    done
    exit "$status"
    ;;
esac
"#;

const EDITS: [(&str, &str); 4] = [
    (
        "lower/must-fail/first",
        "One.\nfails: `get`, `returns-2`\nlog: : ./proofs/get/Answers.antt:7:13: error: `returns-2`: no\n",
    ),
    ("lower/faults/second", "Two.\nfails: Back, `back`\nlog: : ./proofs/Back.antt:9:1: error: `back`: no\n"),
    (
        "lower/faults/third",
        "Three.\nfails: `get`, `again`\nlog: : ./proofs/get/Invariants.antt:9:1: error: `again`: no\n",
    ),
    (
        "upper/faults/fourth",
        "Four.\nfails: `put`, `returns`\nlog: : note: src/lib.rt:4:1: it is not proved that it holds (`returns`); the facts\n",
    ),
];

struct Small(PathBuf);

impl Drop for Small {
    fn drop(&mut self) {
        let _ = fs::remove_dir_all(&self.0);
    }
}

impl Small {
    /// A repository whose edits are all refused, each for its fact.
    fn new(name: &str) -> Small {
        let root = std::env::temp_dir().join(format!("g7110-edits-{}-{name}", std::process::id()));
        let _ = fs::remove_dir_all(&root);
        let small = Small(root);
        small.put("crates.txt", "lower:\nupper: lower\nnone:\n");
        for of in ["lower", "upper", "none"] {
            small.put(&format!("crates/{of}/src/lib.rt"), &format!("pub fn {of}() {{}}\n"));
        }
        EDITS.into_iter().for_each(|(path, text)| small.put(&format!("crates/{path}.edit"), text));
        small.put("tools/faults", &fs::read_to_string(repository().join("tools/faults")).unwrap());
        small.put("rt", RT);
        for file in ["tools/faults", "rt"] {
            fs::set_permissions(small.0.join(file), fs::Permissions::from_mode(0o755)).unwrap();
        }
        small
    }

    fn put(&self, file: &str, text: &str) {
        let path = self.0.join(file);
        fs::create_dir_all(path.parent().unwrap()).unwrap();
        fs::write(path, text).unwrap();
    }

    /// Whether it ended well, and what it said.
    fn faults(&self, names: &[&str]) -> (bool, String) {
        let mut command = Command::new(self.0.join("tools/faults"));
        command.args(names).env("RT", self.0.join("rt")).env("SAID", self.0.join("said"));
        let ended = command.output().unwrap();
        (ended.status.success(), String::from_utf8_lossy(&[ended.stdout, ended.stderr].concat()).into_owned())
    }

    fn text(&self, file: &str) -> String {
        fs::read_to_string(self.0.join(file)).unwrap_or_default()
    }

    fn tried(&self, edit: &str) -> bool {
        let start = format!("rt: must-fail {edit}.edit: ");
        self.text("target/faults.txt").lines().any(|line| line.starts_with(&start))
    }
}

#[test]
fn all_edits_and_those_of_some_crates() {
    let small = Small::new("whole");
    let (well, said) = small.faults(&[]);
    assert!(well, "{said}");
    assert!(said.contains(", 4 edits, ") && said.ends_with("all refused, each for its fact\n"), "{said}");
    assert!(["lower/first", "lower/second", "lower/third", "upper/fourth"].into_iter().all(|edit| small.tried(edit)));
    assert_eq!(small.text("said"), "check lower\ncheck upper\nmust-fail lower upper\n");
    assert!(!small.0.join("crates/lower/must-fail/second.edit").exists());

    // A crate that has changed, an edit that is gone, and one that is new.
    small.put("crates/upper/src/lib.rt", "pub fn changed() {}\n");
    fs::remove_file(small.0.join("crates/upper/faults/fourth.edit")).unwrap();
    small.put("crates/upper/must-fail/fifth.edit", EDITS[3].1);
    let (well, said) = small.faults(&["upper"]);
    assert!(well && said.contains(", 1 edits, "), "{said}");
    assert!(small.tried("upper/fifth") && !small.tried("upper/fourth") && small.tried("lower/first"));
    assert!(small.text("said").ends_with("check upper\nmust-fail upper\n"));
}

#[test]
fn each_fault_is_told() {
    let [(_, get), ..] = EDITS;
    for (name, text, told) in [
        (
            "another-need",
            get.replace("fails: `get`, `returns-2`", "fails: `get`, `returns`"),
            "get, returns does not fail",
        ),
        ("another-place", get.replace("fails: `get`", "fails: `put`"), "put, returns-2 does not fail"),
        ("no-fact", get.replace("fails: ", "falls: "), "it names no fact"),
        (
            "shape",
            get.replace(
                "log: :",
                "log:  (only because a proof file names what the edit took away, so this says little):",
            ),
            "refused for its shape alone",
        ),
        ("cut", get.replace("returns-2`: no", "retur"), ""),
        ("cut-elsewhere", get.replace("returns-2`: no", "res"), "get, returns-2 does not fail; get, res"),
        ("survives", get.replace("log: ", ""), "not refused"),
    ] {
        let small = Small::new(name);
        small.put("crates/lower/must-fail/first.edit", &text);
        let (well, said) = small.faults(&[]);
        assert_eq!(well, told.is_empty(), "{name}: {said}");
        if well {
            continue;
        }
        assert!(said.contains(&format!("faults: lower/first: {told}")), "{name}: {said}");
        assert!(said.ends_with("NOT all refused for their facts\n"), "{name}: {said}");
    }
    let small = Small::new("names");
    for (names, told) in [(["other"], "there is no crate other"), (["none"], "none has no edit")] {
        let (well, said) = small.faults(&names);
        assert!(!well && said.contains(told), "{said}");
    }
    small.put("crates/lower/faults/first.edit", get);
    let (well, said) = small.faults(&["lower"]);
    assert!(!well && said.contains("another edit of lower has that name"), "{said}");
}
