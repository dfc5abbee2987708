//! A greeting store that fills its gaps (document 02, R-6), with marks and jumps: the proved code, through the
//! static library, and the second program behind the same calls, call by call beside a model in plain vectors, and each
//! promise checked on their own answers. tests/tests/store_marks.rs has what marks and jumps need besides,
//! tests/tests/store_faults.rs the comparison itself.

use second::gen::{damage_somehow, Prng};
use second::store::{Greeting, Mark, Store};
use tests::store::{
    change, damaged, early_text_of, ending_name, profiles, script, some_call, some_store, text_of, Call, Keeps, Step,
    Stores, Told, ABSENT, BAD, BEYOND, BLOCK, DAMAGES, FORM, FULL, LAW, MOST_BLOCK, NOROOM, NUMBER, PARTS, ROOM, TABLE,
    TAKEN,
};
use tests::{goes_on, in_tenth, say, share, tenth, Proved, Second, Table};

/// Lists of calls from a fresh block, those of the second program, and calls of each at most.
const LISTS: usize = 700;
const LISTS_OF_SECOND: usize = 100;
const MOST_CALLS: usize = 400;
/// Calls of the lists, at least.
const LEAST_CALLS: usize = share(100_000);
/// What a cell of a table needs.
const NEED: usize = share(500);
/// Tables that are loaded on blocks that they do not belong to, and tables whose numbers are changed.
const APART: usize = 24_000;
const CHANGED: usize = 9_000;

/// The two programs, each beside the model.
const KEEPERS: [(&str, &dyn Keeps); 2] = [("proved", &Proved), ("second", &Second)];

const COLUMNS: [&str; 11] =
    ["ok", "closed up", "ROOM", "LAW", "NUMBER", "TAKEN", "ABSENT", "BAD", "FULL", "NOROOM", "BEYOND"];

/// Vectors worked out by hand.
#[test]
fn vectors() {
    let steps = script(include_str!("../vectors/store.txt")).unwrap();
    for (name, keeper) in KEEPERS {
        let mut stores = Stores::new(keeper, Vec::new());
        let (mut part, mut parts) = (String::new(), 0);
        for step in &steps {
            if let Step::Part(name, _) = step {
                (part, parts) = (name.clone(), parts + 1);
            }
            run(step, &mut stores, &part);
        }
        stores.close();
        say(&format!("compared: store, {name}, vectors: {parts} parts, {} calls\n", stores.calls));
        assert!(parts >= 25 && stores.calls >= 300, "{parts} parts, {} calls", stores.calls);
    }
}

fn run(step: &Step, stores: &mut Stores, part: &str) {
    match step {
        Step::Part(_, block) => stores.renew(block.clone()),
        Step::Makes(call, told) => assert_eq!(stores.call(call), *told, "{part}: {call:?}"),
        Step::Saves(text) => {
            stores.call(&Call::Save(stores.room()));
            assert_eq!(stores.text.escape_ascii().to_string(), text.escape_ascii().to_string(), "{part}");
        }
        Step::Block(block) => assert_eq!(stores.model.block, *block, "{part}"),
        Step::Cells(at, cells) => assert_eq!(stores.cells()[*at..at + cells.len()], *cells, "{part}: from {at} on"),
        Step::Lends(at, cells) => {
            stores.lend(|lent| lent[*at..at + cells.len()].copy_from_slice(cells));
        }
        Step::Writes(at, octets) => octets.iter().enumerate().for_each(|(more, octet)| stores.octet(at + more, *octet)),
        Step::Spare(_) | Step::SpareIs(_) | Step::Steps(..) => panic!("{part}: moves.txt has steps"),
    }
}

#[test]
fn a_faulty_vector_is_refused() {
    for bad in [
        "part x",
        "put 1 41",
        "put x 41 -> 0 0",
        "put 1 4 -> 0 0",
        "put 1 41 -> LONG",
        "put 1 41 law=x -> 0 0",
        "get 1 -> 1 2 3",
        "jump 1 -> 1 2 3 4",
        "jump 1 0 -> 1 2 3",
        "cells 0",
        "cells 0 -> x",
        "lend 0",
        "save x -> ok",
        "keep 1",
    ] {
        assert!(script(bad).is_err(), "{bad}");
    }
}

fn column(call: &Call, told: Told) -> &'static str {
    match (call, told) {
        (Call::Put(..), Told { ending: 0, report: [_, moved, ..] }) if moved > 0 => "closed up",
        _ => ending_name(told.ending),
    }
}

fn endings(title: &str, need: usize) -> Table {
    let mut table = Table::new(title, &["put", "get", "delete", "save", "jump"], &COLUMNS, need);
    let own: [(&str, &[&str]); 5] = [
        ("put", &["ok", "closed up", "LAW", "NUMBER", "TAKEN", "BAD", "FULL", "NOROOM"]),
        ("get", &["ok", "NUMBER", "ABSENT"]),
        ("delete", &["ok", "NUMBER", "ABSENT"]),
        ("save", &["ok", "ROOM"]),
        ("jump", &["ok", "NUMBER", "ABSENT", "BEYOND"]),
    ];
    for (call, endings) in own {
        COLUMNS.iter().filter(|ending| !endings.contains(ending)).for_each(|ending| table.never(call, ending));
    }
    table
}

/// Any list of calls from a fresh block: answer, report, whole block and whole table after each, and each promise. Of so many lists
/// a share is drawn, and on until each ending has been met often enough.
fn any_list(name: &str, keeper: &dyn Keeps, whole: usize, need: usize) -> usize {
    let mut rng = Prng::new(601);
    let profiles = profiles(&mut rng);
    let mut table = endings(&format!("store, {name}, calls of drawn lists from a fresh block"), need);
    let mut stores = Stores::new(keeper, Vec::new());
    let (mut lists, mut loads) = (0, 0);
    while goes_on(lists, share(whole), whole, || table.faults().is_empty()) {
        let profile = &profiles[lists % profiles.len()];
        lists += 1;
        stores.renew(rng.octets(profile.block));
        for _ in 0..rng.below(MOST_CALLS) {
            let call = some_call(profile, &stores, &mut rng);
            let told = stores.promised(&call);
            table.add(call.name(), column(&call, told));
            if rng.chance(1, 50) {
                stores.saved_and_loaded();
                loads += 1;
            }
        }
    }
    table.close();
    stores.close();
    let calls = table.sum();
    say(&format!("compared: store, {name}, drawn lists: {lists} lists, {calls} calls, {loads} tables loaded again\n"));
    calls
}

#[test]
fn any_list_of_calls() {
    let calls = any_list("proved", &Proved, LISTS, NEED);
    assert!(calls >= LEAST_CALLS, "{calls} calls");
}

/// The second program behind the same calls, on fewer lists.
#[test]
fn any_list_of_calls_of_the_second_program() {
    any_list("second", &Second, LISTS_OF_SECOND, share(50));
}

/// Every list of four calls on a block of six octets: puts of 1 to 4 octets under three numbers, and deletes.
#[test]
fn every_list_of_four_calls() {
    let mut stores = Stores::new(&Proved, Vec::new());
    let calls: Vec<Call> = (1..=3)
        .flat_map(|number| {
            let puts = (1..=4).map(move |octets| Call::Put(number & 1, number, vec![0x40 + number as u8; octets]));
            puts.chain([Call::Delete(number)])
        })
        .collect();
    let mut lists = 0;
    for list in (0..calls.len().pow(4)).filter(|list| in_tenth(*list)) {
        stores.renew(vec![0xEE; 6]);
        let mut left = list;
        for _ in 0..4 {
            stores.promised(&calls[left % calls.len()]);
            left /= calls.len();
        }
        lists += 1;
    }
    stores.close();
    say(&format!("compared: store, every list of four calls: {lists} lists, {} calls\n", stores.calls));
}

/// Saved tables damaged in every way, each TABLE; with a greeting that is BAD too, TABLE where the lines tell the damage and BAD
/// where only the walk does. Then the store goes on as it was.
#[test]
fn damaged_tables() {
    let mut rng = Prng::new(602);
    let profiles = profiles(&mut rng);
    let mut stores = Stores::new(&Proved, Vec::new());
    let columns = ["TABLE", "before BAD", "after BAD"];
    let mut table = Table::new("store, damaged tables, and with a greeting that is BAD too", &DAMAGES, &columns, 0);
    for damage in DAMAGES {
        table.needs(damage, "TABLE", NEED);
        while table.count(damage, "TABLE") < NEED {
            some_store(rng.pick(&profiles), &mut stores, &mut rng);
            for _ in 0..20 {
                let rows = stores.model.greetings.clone();
                let Some(made) = damaged(damage, &rows, stores.model.size(), &mut rng) else { continue };
                load_damaged(damage, &made.text, TABLE, &mut stores);
                table.add(damage, "TABLE");
                // 46 is no first octet.
                let (place, wanted) = (rng.pick(&rows).start, if made.by_lines { TABLE } else { BAD });
                let octet = stores.model.block[place];
                stores.octet(place, 0x46);
                load_damaged(damage, &made.text, wanted, &mut stores);
                stores.octet(place, octet);
                table.add(damage, if made.by_lines { "before BAD" } else { "after BAD" });
            }
        }
    }
    table.close();
    for (column, least) in [("before BAD", 20), ("after BAD", 11)] {
        let found = DAMAGES.iter().filter(|damage| table.count(damage, column) >= share(25)).count();
        assert!(found >= least, "{found} kinds of damage {column}");
    }
    stores.close();
    say(&format!("compared: store, damaged tables: {} calls\n", stores.calls));
}

fn load_damaged(damage: &str, text: &[u8], wanted: u32, stores: &mut Stores) {
    let told = stores.call(&Call::Load(text.to_vec()));
    if told.ending != wanted {
        stores.differ(damage, &format!("{told:?}: {}", text.escape_ascii()));
    }
}

/// The lines of a list in which one greeting is longer or shorter, lies elsewhere, is empty, or has the other law.
fn changed_rows(kind: &str, rows: &[Greeting], size: usize, rng: &mut Prng) -> Vec<Greeting> {
    let mut rows = rows.to_vec();
    let at = rng.below(rows.len());
    let row = &mut rows[at];
    match kind {
        "octets changed" => row.octets = (row.octets + rng.below(4)).saturating_sub(rng.below(4)).max(1),
        "start changed" => row.start = (row.start + rng.below(4)).saturating_sub(rng.below(4)),
        "law changed" => row.law = 1 - row.law,
        _ => {
            (row.octets, row.samples) = (0, 0);
            row.marks.clear();
            let empty = Greeting { number: 65_000, start: size + rng.below(2), ..row.clone() };
            if rng.chance(1, 3) {
                rows.push(empty);
            }
        }
    }
    rows
}

/// Loads by ending: greetings moved over the block, shortened, lengthened, emptied, and blocks that were changed; in R-6's lines
/// and in R-8's, which find out more.
#[test]
fn tables_and_blocks_that_do_not_belong_together() {
    let mut rng = Prng::new(603);
    let profiles = profiles(&mut rng);
    let mut stores = Stores::new(&Proved, Vec::new());
    let kinds = [
        "block changed",
        "octets changed",
        "start changed",
        "empty greeting",
        "law changed",
        "another store's",
        "text damaged",
    ];
    let rows = kinds.map(|kind| ["R-6", "R-8"].map(|lines| format!("{kind}, {lines}"))).concat();
    let columns = ["ok", "TABLE", "BAD"];
    let mut table = Table::new("store, loads by what is wrong, lines and ending", &rows, &columns, share(50));
    table.never("block changed, R-6", "TABLE");
    table.never("law changed, R-6", "TABLE");
    table.never("empty greeting, R-6", "ok");
    table.never("empty greeting, R-8", "ok");
    for (row, column, need) in [
        ("text damaged, R-6", "ok", 10),
        ("text damaged, R-6", "BAD", 10),
        ("text damaged, R-8", "ok", 1),
        ("text damaged, R-8", "BAD", 1),
        ("another store's, R-6", "BAD", 10),
        ("another store's, R-8", "BAD", 10),
        ("law changed, R-6", "BAD", 1),
        ("law changed, R-8", "BAD", 1),
        ("law changed, R-8", "TABLE", 1),
        ("octets changed, R-8", "BAD", 10),
        ("start changed, R-8", "BAD", 10),
    ] {
        table.needs(row, column, share(need));
    }
    let (mut other, mut turns) = (Vec::new(), 0);
    while goes_on(turns, share(APART), APART, || table.faults().is_empty()) {
        let turn = turns;
        turns += 1;
        if turn % 8 == 0 {
            other.clone_from(&stores.model.greetings);
            some_store(rng.pick(&profiles), &mut stores, &mut rng);
        }
        let rows = stores.model.greetings.clone();
        if rows.is_empty() {
            continue;
        }
        let kind = kinds[turn % kinds.len()];
        let said = match kind {
            "block changed" => {
                let row = rng.pick(&rows);
                let place = row.start + rng.below(row.octets);
                let octet = stores.model.block[place] ^ (1 << rng.below(8));
                stores.octet(place, octet);
                rows
            }
            "another store's" if rng.flip() => other.clone(),
            "another store's" => rows[..rng.below(rows.len())].to_vec(),
            "text damaged" => rows,
            _ => changed_rows(kind, &rows, stores.model.size(), &mut rng),
        };
        let (lines, mut text) = if rng.flip() { ("R-6", early_text_of(&said)) } else { ("R-8", text_of(&said)) };
        if kind == "text damaged" {
            text = damage_somehow(&text, &mut rng);
        }
        let told = stores.call(&Call::Load(text));
        table.add(format!("{kind}, {lines}"), ending_name(told.ending));
    }
    table.close();
    stores.close();
    say(&format!("compared: store, tables and blocks apart: {} calls\n", stores.calls));
}

/// Every octet at every place of a saved table: put in, in the place of another; each left out; cut at every octet. In R-6's lines
/// and in R-8's, where a greeting has two marks; and of R-11's first line before those.
#[test]
fn every_octet_of_a_table() {
    let mut stores = Stores::new(&Proved, vec![0; 100]);
    let (one, two) = (vec![Mark { octets: 0, samples: 0 }], [0, 64].map(|octets| Mark { octets, samples: 0 }));
    let row = |number, start, octets, marks: &[Mark]| {
        let law = number & 1;
        Greeting { number, start, octets, law, samples: 0, marks: marks.to_vec() }
    };
    let rows = [row(9, 0, 4, &one), row(10, 4, 1, &one), row(65_535, 11, 89, &two)];
    let mut endings = [0; 3];
    let mut tried = |text: &[u8]| {
        let told = stores.call(&Call::Load(text.to_vec()));
        endings[[0, TABLE, BAD].iter().position(|ending| *ending == told.ending).expect("an ending of load")] += 1;
    };
    let (early, late) = (early_text_of(&rows), text_of(&rows));
    let with_form = [FORM, &late].concat();
    for (text, last) in [(&early, early.len()), (&late, late.len()), (&with_form, FORM.len() + 8)] {
        for at in 0..=last {
            tried(&text[..at]);
            tried(&text[at..]);
            for octet in (0..=255).filter(|octet| in_tenth(usize::from(*octet) + at)) {
                tried(&[&text[..at], &[octet], &text[at..]].concat());
                if at < text.len() {
                    tried(&[&text[..at], &[octet], &text[at + 1..]].concat());
                }
            }
            if at < text.len() {
                tried(&[&text[..at], &text[at + 1..]].concat());
            }
        }
    }
    stores.close();
    let [ok, refused, bad] = endings;
    say(&format!("compared: store, every octet of a table: {refused} TABLE, {bad} BAD, {ok} loaded\n"));
    assert!(refused > tenth(100_000) && ok >= tenth(100) && bad > 0, "{endings:?}");
}

/// Tables whose numbers were changed between calls: TABLE of every call and nothing changed, or a store that goes on, with marks
/// that may be false: answer, block and table are the model's all the same.
#[test]
fn changed_numbers() {
    let mut rng = Prng::new(604);
    let profiles = profiles(&mut rng);
    let mut stores = Stores::new(&Proved, Vec::new());
    let mut table = Table::new("store, tables with changed numbers", &PARTS, &["TABLE", "a store"], share(100));
    table.needs("how many", "a store", share(20));
    // What marks say is not judged: only where all numbers were drawn.
    table.needs("marks", "TABLE", share(10));
    let jumps = ["ok", "NUMBER", "ABSENT", "BEYOND", "BAD"];
    let mut met = Table::new("store, jumps over changed numbers", &["jump"], &jumps, share(50));
    let mut tables = 0;
    while goes_on(tables, share(CHANGED), CHANGED, || table.faults().is_empty() && met.faults().is_empty()) {
        let turn = tables;
        tables += 1;
        let profile = &profiles[turn % profiles.len()];
        if turn % 6 == 0 {
            some_store(profile, &mut stores, &mut rng);
        }
        let (saved, kept, cells) = (stores.model.text(), stores.model.clone(), stores.cells().to_vec());
        let part = PARTS[turn % PARTS.len()];
        let judged = stores.lend(|cells| match turn % 97 {
            0 => cells.fill(rng.next_u64() as u32),
            1 => cells.iter_mut().for_each(|cell| *cell = rng.next_u64() as u32),
            _ => (0..1 + rng.below(3)).for_each(|_| change(part, cells, &mut rng)),
        });
        table.add(part, if judged { "a store" } else { "TABLE" });
        for _ in 0..10 {
            let call = some_call(profile, &stores, &mut rng);
            let told = stores.call(&call);
            if let (Call::Jump(..), true) = (call, judged) {
                met.add("jump", ending_name(told.ending));
            }
        }
        // Back to the table of before, by its numbers or by what it saved.
        (0..kept.block.len()).for_each(|at| stores.octet(at, kept.block[at]));
        if turn % 2 == 0 {
            assert!(stores.lend(|lent| lent.copy_from_slice(&cells)), "they were a table");
        } else {
            let told = stores.call(&Call::Load(saved));
            assert_eq!(told.ending, 0, "what was saved is loaded over any numbers");
        }
        assert_eq!(stores.model, kept);
    }
    table.close();
    met.close();
    stores.close();
    say(&format!("compared: store, changed numbers: {tables} tables, {} calls\n", stores.calls));
}

/// Tables that are too short or longer than needed; blocks of every size; what a table needs.
#[test]
fn sizes() {
    for (size, needed) in [(0, 258), (63, 258), (64, 260), (16_384, 770), (16_385, 770), (16_448, 772)] {
        assert_eq!(Proved.cells(size), needed, "{size}");
    }
    let most = MOST_BLOCK as u64;
    for (size, needed) in
        [(most - 1, 33_024), (most, 33_026), (most + 1, 33_026), (most + 64, 33_026), (u64::MAX, 33_026)]
    {
        assert_eq!(Proved.cells(size), needed, "{size}");
    }
    let far = [65_535, 65_536, u64::from(u32::MAX), 1 << 32, 1 << 63];
    for size in (0..=BLOCK as u64 + 200).chain(most - 200..most + 200).chain(far) {
        assert_eq!(Proved.cells(size), 194 + 2 * (size.min(1_048_576) / 64 + 32), "{size}");
    }
    let needed = |size: usize| Proved.cells(size as u64) as usize;
    let mut calls = 0;
    for size in [0, 1, 39, 40, 1_000, BLOCK, BLOCK + 1] {
        let (mut block, text) = (vec![0; size], b"prompt=5\nstart=0\noctets=1\n".to_vec());
        let text = if size == 0 { Vec::new() } else { text };
        for cells in (0..needed(size)).filter(|cells| in_tenth(*cells)) {
            for fill in [0, u32::MAX] {
                let mut table = vec![fill; cells];
                let told = [
                    Proved.put(&mut block, &mut table, 2, 0, &[]),
                    Proved.get(&block, &table, 0),
                    Proved.delete(&block, &mut table, 0),
                    Proved.save(&block, &table, &mut []),
                    Proved.load(&text, &block, &mut table),
                    Proved.jump(&block, &table, 0, 0),
                ];
                assert_eq!(told, [Told::refused(TABLE); 6], "{size}, {cells} numbers");
                assert!(table.iter().all(|cell| *cell == fill) && block.iter().all(|octet| *octet == 0));
                calls += told.len();
            }
        }
        for more in [0, 1, 50] {
            let mut table = vec![0; needed(size) + more];
            let past = needed(size);
            table[past..].fill(0xA7A7_A7A7);
            let or = |refusal: u32, told: Told| if size == 0 { Told::refused(refusal) } else { told };
            assert_eq!(Proved.put(&mut block, &mut table, 0, 5, &[0x41]), or(NOROOM, Told::ok(0, 0)));
            assert_eq!(Proved.get(&block, &table, 5), or(ABSENT, Told::ok(0, 1)));
            assert_eq!(Proved.jump(&block, &table, 5, 39), or(ABSENT, Told::jumped([0, 0, 39, 1])));
            assert_eq!(Proved.load(&text, &block, &mut table).ending, 0);
            assert_eq!(Proved.get(&block, &table, 5), or(ABSENT, Told::ok(0, 1)));
            assert_eq!(Proved.jump(&block, &table, 5, 40), or(ABSENT, Told::refused(BEYOND)));
            assert_eq!(Proved.delete(&block, &mut table, 5).ending, if size == 0 { ABSENT } else { 0 });
            assert!(table[past..].iter().all(|cell| *cell == 0xA7A7_A7A7), "{size}");
            block.fill(0);
            calls += 7;
        }
    }
    say(&format!("compared: store, sizes: a table has {} numbers; {calls} calls\n", needed(BLOCK)));
}

/// The writes of a put, in the order of the text: each moved greeting front to back, then the new one.
fn writes(before: &Store, after: &Store, number: u32) -> Vec<(usize, u8)> {
    let mut writes = Vec::new();
    for row in &before.greetings {
        let now = after.greetings.iter().find(|now| now.number == row.number).expect("it is kept");
        let octets = before.block[row.start..row.start + row.octets].iter();
        writes
            .extend(octets.enumerate().filter(|_| now.start != row.start).map(|(at, octet)| (now.start + at, *octet)));
    }
    let new = after.greetings.iter().find(|now| now.number == number).expect("it was put");
    writes.extend((new.start..new.start + new.octets).map(|at| (at, after.block[at])));
    writes
}

/// Power lost at every write of a put, with closing up and without. The old table is there until the block is whole: what
/// loads then? In a gap: the old store. In place, closing up: anything. With the new block in another place: the old store or
/// the new one.
#[test]
fn cut_at_every_write() {
    let mut rng = Prng::new(605);
    let profiles = profiles(&mut rng);
    let columns = ["the old store", "another store", "BAD", "TABLE"];
    let rows = ["in a gap", "closing up in place", "closing up in a copy"];
    let mut table = Table::new("store, what loads after a cut at every write of a put", &rows, &columns, share(1_000));
    for row in ["in a gap", "closing up in a copy"] {
        columns[1..].iter().for_each(|column| table.never(row, column));
    }
    // The marks and samples of the old table find out most of what was never put.
    table.needs("closing up in place", "another store", 0);
    table.needs("closing up in place", "TABLE", share(50));
    let mut puts = [0; 2];
    let mut stores = Stores::new(&Proved, Vec::new());
    while puts.iter().any(|count| *count < share(60)) {
        let profile = &profiles[2 + rng.below(3)];
        some_store(profile, &mut stores, &mut rng);
        let before = stores.model.clone();
        let (number, octets) = (60_000, rng.pick(&profile.pool).clone());
        let told = stores.call(&Call::Put(rng.below(2) as u32, number, octets));
        if told.ending != 0 {
            continue;
        }
        let closing = told.report[1] > 0;
        puts[usize::from(closing)] += 1;
        let writes = writes(&before, &stores.model, number);
        let (mut block, old) = (before.block.clone(), before.text());
        let mut cells = vec![0; Proved.cells(block.len() as u64) as usize];
        for (at, octet) in &writes {
            block[*at] = *octet;
            let told = Proved.load(&old, &block, &mut cells);
            let wanted = Store::load(&old, block.clone()).map_or_else(Told::refused, |_| Told::ok(0, 0));
            assert_eq!(told, wanted);
            let reads_the_same = before.greetings.iter().all(|row| {
                let place = row.start..row.start + row.octets;
                block[place.clone()] == before.block[place]
            });
            let loads = match (told.ending, reads_the_same) {
                (0, true) => columns[0],
                (0, false) => columns[1],
                (BAD, _) => columns[2],
                _ => columns[3],
            };
            table.add(if closing { rows[1] } else { rows[0] }, loads);
            if closing {
                // The writes went to a copy; the old block is as it was.
                let told = Proved.load(&old, &before.block, &mut cells);
                table.add(rows[2], if told.ending == 0 { columns[0] } else { columns[2] });
            }
        }
        assert_eq!(block, stores.model.block, "these are the writes of the put");
        // All octets written, and then the new table: the new store.
        assert_eq!(Proved.load(&stores.model.text(), &block, &mut cells), Told::ok(0, 0));
        let told = Proved.get(&block, &cells, number);
        assert_eq!(Ok((told.report[0] as usize, told.report[1] as usize)), stores.model.get(number));
    }
    table.close();
    stores.close();
    say(&format!("compared: store, cut at every write: {} puts in a gap, {} with closing up\n", puts[0], puts[1]));
}

/// The refusals that this file names.
#[test]
fn refusals_by_name() {
    let named = [
        (ROOM, "ROOM"),
        (LAW, "LAW"),
        (NUMBER, "NUMBER"),
        (TAKEN, "TAKEN"),
        (ABSENT, "ABSENT"),
        (BAD, "BAD"),
        (FULL, "FULL"),
        (NOROOM, "NOROOM"),
        (BEYOND, "BEYOND"),
        (TABLE, "TABLE"),
    ];
    for (number, name) in named {
        assert_eq!(ending_name(number), name);
    }
}
