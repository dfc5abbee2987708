//! The tour of README.md, typed in: each command that it shows prints what stands below it.

use std::process::Command;
use tests::program::repository;
use tests::say;

/// A command, and the lines that follow it.
struct Step {
    command: String,
    wanted: String,
}

/// The commands of the tour, in order. They are in blocks, after a dollar sign.
fn steps(readme: &str) -> Vec<Step> {
    let tour = readme.split("\n## ").find(|part| part.starts_with("Five minutes\n")).expect("README has a tour");
    let mut steps: Vec<Step> = Vec::new();
    for line in tour.lines().filter_map(|line| line.strip_prefix("    ")) {
        match (line.strip_prefix("$ "), steps.last_mut()) {
            (Some(command), _) => steps.push(Step { command: command.to_string(), wanted: String::new() }),
            (None, Some(step)) => step.wanted += &format!("{line}\n"),
            (None, None) => panic!("the tour shows {line} before any command"),
        }
    }
    steps
}

/// The command as it is typed on this machine: with what runs programs for x86-64, and what compiles for it.
fn typed(command: &str) -> String {
    let with = std::env::var("RUN_WITH").unwrap_or_default();
    if with.is_empty() {
        return command.to_string();
    }
    let command = command.replace("target/bin/", &format!("{with} target/bin/"));
    let command = command.replace("&& target/", &format!("&& {with} target/"));
    match (command.strip_prefix("cc "), std::env::var("CC")) {
        (Some(rest), Ok(compiler)) => format!("{compiler} {rest}"),
        _ => command,
    }
}

#[test]
fn the_tour() {
    let readme = std::fs::read_to_string(repository().join("README.md")).unwrap();
    let steps = steps(&readme);
    assert!(steps.len() >= 5, "{} commands", steps.len());
    for Step { command, wanted } in &steps {
        let mut shell = Command::new("sh");
        shell.args(["-c", &format!("exec 2>&1; {}", typed(command))]).current_dir(repository());
        let ended = shell.env_remove("MAKEFLAGS").env_remove("MAKELEVEL").output().unwrap();
        assert_eq!(String::from_utf8_lossy(&ended.stdout), *wanted, "{command}");
        assert!(ended.status.success(), "{command}: {}", ended.status);
    }
    say(&format!("compared: README's tour: {} commands, each prints what it says\n", steps.len()));
}
