//! README's table of rooms: every crate, and nothing else; each below what it stands on.

use super::{cells, Files, Held};

pub fn rooms(files: &Files) -> Held {
    let mut held = Held::new("rooms of README");
    let crates = files.crates();
    let table = files.text("README.md").split("\n## ").find(|part| part.starts_with("The rooms")).unwrap_or("");
    let rows = table.lines().filter_map(|line| cells(line).first().copied()).filter(|room| room.contains('/'));
    let rows: Vec<Vec<&str>> = rows.map(|row| row.split(", ").collect()).collect();
    let row_of = |name: &str| rows.iter().position(|row| row.contains(&&*format!("crates/{name}")));
    for room in rows.iter().flatten() {
        let there = match room.strip_prefix("crates/") {
            Some(name) => crates.contains_key(name),
            None => files.under(room, "").next().is_some(),
        };
        held.hold(there, || format!("README: there is no room {room}"));
    }
    for (name, below) in &crates {
        held.also(row_of(name).is_some(), || format!("README does not list crates/{name}"));
        for other in below.iter().filter(|other| crates.contains_key(*other)) {
            held.also(row_of(other) <= row_of(name), || format!("README: crates/{name} stands above crates/{other}"));
        }
    }
    held
}
