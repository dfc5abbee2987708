//! Closing up by moves of one greeting each (docs/STORE.md, "What to write first"): the five calls of the proved code, through the
//! static library, and the second program behind the same calls, beside a model in plain vectors. tests/tests/store_cuts.rs cuts the
//! writes that they are made for, tests/tests/store_faults.rs has the comparison itself.

use second::gen::Prng;
use tests::store::{
    change, ending_name, profiles, script, some_call, some_move, some_store, Call, Keeps, Record, Step, Stores, Told,
    MOST_BLOCK, MOVE, PARTS, TABLE,
};
use tests::{goes_on, in_tenth, say, share, tenth, Proved, Second, Table};

/// Lists of calls from a fresh block, and calls of each at most.
const LISTS: usize = 400;
const MOST_CALLS: usize = 300;
/// What a cell of a table needs.
const NEED: usize = share(200);
/// Tables whose numbers are changed.
const CHANGED: usize = 6_000;
/// Records of each kind.
const RECORDS: usize = share(4_000);

/// The two programs, each beside the model.
const KEEPERS: [(&str, &dyn Keeps); 2] = [("proved", &Proved), ("second", &Second)];

/// Vectors worked out by hand.
#[test]
fn vectors() {
    let steps = script(include_str!("../vectors/moves.txt")).unwrap();
    for (name, keeper) in KEEPERS {
        let mut stores = Stores::new(keeper, Vec::new());
        let (mut part, mut parts) = (String::new(), 0);
        for step in &steps {
            if let Step::Part(name, _) = step {
                (part, parts) = (name.clone(), parts + 1);
            }
            run(step, &mut stores, &part);
        }
        stores.close();
        say(&format!("compared: moves, {name}, vectors: {parts} parts, {} calls\n", stores.calls));
        assert!(parts >= 14 && stores.calls >= 170, "{parts} parts, {} calls", stores.calls);
    }
}

fn run(step: &Step, stores: &mut Stores, part: &str) {
    match step {
        Step::Part(_, block) => stores.renew(block.clone()),
        Step::Makes(call, told) => assert_eq!(stores.call(call), *told, "{part}: {call:?}"),
        Step::Saves(text) => {
            stores.call(&Call::Save(stores.room()));
            assert_eq!(stores.text.escape_ascii().to_string(), text.escape_ascii().to_string(), "{part}");
        }
        Step::Block(block) => assert_eq!(stores.model.block, *block, "{part}"),
        Step::Cells(at, cells) => assert_eq!(stores.cells()[*at..at + cells.len()], *cells, "{part}: from {at} on"),
        Step::Lends(at, cells) => {
            stores.lend(|lent| lent[*at..at + cells.len()].copy_from_slice(cells));
        }
        Step::Writes(at, octets) => octets.iter().enumerate().for_each(|(more, octet)| stores.octet(at + more, *octet)),
        Step::Spare(spare) => stores.spare.clone_from(spare),
        Step::SpareIs(spare) => assert_eq!(stores.spare, *spare, "{part}"),
        Step::Steps(record, after) => assert_eq!(stores.step(record), *after, "{part}: {record:?}"),
    }
}

#[test]
fn a_faulty_vector_is_refused() {
    for bad in [
        "try x 41 -> 0 0",
        "try 1 41",
        "next",
        "next 1 -> 0 0 0 0",
        "next -> 0 0 0",
        "moved 1 -> ok",
        "moved 1 -1 -> ok",
        "renumber 1 -> ok",
        "spare 5",
        "spare -> 50 51",
        "step 0 1 2 1 6 0 0 -> MOVE",
        "step 0 1 2 1 6 0 0 0 -> ok",
        "step 0 1 2 1 6 0 0 0 -> TABLE",
    ] {
        assert!(script(bad).is_err(), "{bad}");
    }
}

const CALLS: [&str; 4] = ["try", "next", "moved", "renumber"];
const COLUMNS: [&str; 10] = ["ok", "closed up", "LAW", "NUMBER", "TAKEN", "ABSENT", "BAD", "FULL", "NOROOM", "MOVE"];

fn endings(title: &str, need: usize) -> Table {
    let mut table = Table::new(title, &CALLS, &COLUMNS, need);
    let own: [&[&str]; 4] = [
        &["ok", "closed up", "LAW", "NUMBER", "TAKEN", "BAD", "FULL", "NOROOM"],
        &["ok", "closed up"],
        &["ok", "NUMBER", "ABSENT", "MOVE"],
        &["ok", "NUMBER", "ABSENT", "TAKEN"],
    ];
    for (call, endings) in CALLS.iter().zip(own) {
        COLUMNS.iter().filter(|ending| !endings.contains(ending)).for_each(|ending| table.never(call, ending));
    }
    for (call, ending) in [("try", "closed up"), ("try", "FULL"), ("moved", "NUMBER")] {
        table.needs(call, ending, need.div_ceil(4));
    }
    table
}

/// Of a put tried: it would close up. Of the next move: there is none.
fn column(call: &Call, told: Told) -> &'static str {
    match (call, told) {
        (Call::Try(..), Told { ending: 0, report: [_, moved, ..] }) if moved > 0 => "closed up",
        (Call::Next, Told { ending: 0, report: [0, ..] }) => "closed up",
        _ => ending_name(told.ending),
    }
}

/// Any list of calls from a fresh block, the new ones among them: answer, report, whole block and whole table after each, and each
/// promise. What a put is told when it is tried it is told when it is made.
fn any_list(name: &str, keeper: &dyn Keeps, whole: usize, need: usize) {
    let mut rng = Prng::new(3701);
    let profiles = profiles(&mut rng);
    let mut table = endings(&format!("moves, {name}, calls of drawn lists from a fresh block"), need);
    let mut stores = Stores::new(keeper, Vec::new());
    let (mut lists, mut tried) = (0, 0);
    while goes_on(lists, share(whole), whole, || table.faults().is_empty()) {
        let profile = &profiles[lists % profiles.len()];
        lists += 1;
        stores.renew(rng.octets(profile.block));
        for _ in 0..rng.below(MOST_CALLS) {
            let call = if rng.chance(1, 3) {
                some_call(profile, &stores, &mut rng)
            } else {
                some_move(profile, &stores, &mut rng)
            };
            let told = stores.promised(&call);
            if CALLS.contains(&call.name()) {
                table.add(call.name(), column(&call, told));
            }
            if let Call::Try(law, number, octets) = call {
                if rng.chance(2, 3) {
                    assert_eq!(stores.promised(&Call::Put(law, number, octets)), told);
                    tried += 1;
                }
            }
        }
    }
    table.close();
    stores.close();
    let calls = stores.calls;
    say(&format!(
        "compared: moves, {name}, drawn lists: {lists} lists, {calls} calls, {tried} puts as they were tried\n"
    ));
}

#[test]
fn any_list_of_calls() {
    any_list("proved", &Proved, LISTS, NEED);
}

/// The second program behind the same calls, on fewer lists.
#[test]
fn any_list_of_calls_of_the_second_program() {
    any_list("second", &Second, LISTS / 4, share(20));
}

/// Moves until there is none end at what a put that closes up leaves: the same table, the same octets moved.
#[test]
fn moves_close_up() {
    let mut rng = Prng::new(3702);
    let profiles = profiles(&mut rng);
    let mut stores = Stores::new(&Proved, Vec::new());
    let (mut puts, mut moves, mut turns) = (0, 0, 0);
    while puts < share(600) {
        turns += 1;
        some_store(&profiles[turns % profiles.len()], &mut stores, &mut rng);
        let before = stores.model.clone();
        let free = before.size() - before.held();
        if before.next_move().is_none() || before.greetings.len() == 32 || free == 0 {
            continue;
        }
        // As many octets as are free: in no gap, unless there is one alone.
        let call = Call::Put(1, 60_000, vec![0; free]);
        let mut alone = before.clone();
        let put = alone.put(1, 60_000, &vec![0; free]).expect("there is room");
        if put.moved == 0 {
            continue;
        }
        let mut sum = 0;
        while let Some(next) = stores.model.next_move() {
            assert_eq!(
                stores.call(&Call::Next).report,
                [next.number as usize, next.from, next.to, next.octets].map(|n| n as u64)
            );
            assert_eq!(stores.call(&Call::Moved(next.number, next.to as u64)), Told::ok(0, 0));
            stores.carry(next.from..next.from + next.octets, next.to);
            (sum, moves) = (sum + next.octets, moves + 1);
        }
        assert_eq!((stores.call(&call), sum), (Told::ok(put.start, 0), put.moved));
        assert!(
            stores.model.greetings == alone.greetings && stores.model.block == alone.block,
            "{:?}",
            alone.greetings
        );
        puts += 1;
    }
    stores.close();
    say(&format!("compared: moves, closing up: {puts} puts, {moves} moves, as one put closes up\n"));
}

/// Tables whose numbers were changed: TABLE of every call and nothing changed, or what the model says.
#[test]
fn changed_numbers() {
    let mut rng = Prng::new(3703);
    let profiles = profiles(&mut rng);
    let mut stores = Stores::new(&Proved, Vec::new());
    let mut table = Table::new("moves, tables with changed numbers", &CALLS, &["TABLE", "a store"], share(500));
    for turn in 0..share(CHANGED) {
        let profile = &profiles[turn % profiles.len()];
        if turn % 6 == 0 {
            some_store(profile, &mut stores, &mut rng);
        }
        let (kept, cells) = (stores.model.clone(), stores.cells().to_vec());
        let part = PARTS[turn % PARTS.len()];
        stores.lend(|cells| match turn % 97 {
            0 => cells.fill(rng.next_u64() as u32),
            1 => cells.iter_mut().for_each(|cell| *cell = rng.next_u64() as u32),
            _ => (0..1 + rng.below(3)).for_each(|_| change(part, cells, &mut rng)),
        });
        for _ in 0..10 {
            let call = some_move(profile, &stores, &mut rng);
            let told = stores.call(&call);
            table.add(call.name(), if told.ending == TABLE { "TABLE" } else { "a store" });
        }
        (0..kept.block.len()).for_each(|at| stores.octet(at, kept.block[at]));
        assert!(stores.lend(|lent| lent.copy_from_slice(&cells)), "they were a table");
    }
    table.close();
    stores.close();
    say(&format!("compared: moves, changed numbers: {} calls\n", stores.calls));
}

/// Tables of every length up to what is needed: TABLE before all else; cells past it are never touched.
#[test]
fn short_tables() {
    let mut calls = 0;
    for size in [0, 1, 63, 64, 1_000] {
        let (block, needed) = (vec![0; size], Proved.cells(size as u64) as usize);
        for cells in (0..needed).filter(|cells| in_tenth(*cells)) {
            for fill in [0, u32::MAX] {
                let mut table = vec![fill; cells];
                let told = [
                    Proved.try_put(&block, &table, 2, 0, &[]),
                    Proved.next(&block, &table),
                    Proved.moved(&block, &mut table, 0, 0),
                    Proved.renumber(&block, &mut table, 0, 0),
                ];
                assert_eq!(told, [Told::refused(TABLE); 4], "{size}, {cells} numbers");
                assert!(table.iter().all(|cell| *cell == fill));
                calls += told.len();
            }
        }
        let mut table = vec![0; needed + 9];
        table[needed..].fill(0xA7A7_A7A7);
        let mut block = block;
        let put = Proved.put(&mut block, &mut table, 1, 5, &vec![0; size.saturating_sub(1)]).ending == 0;
        assert_eq!(put, size > 1);
        assert_eq!(Proved.next(&block, &table), Told::ok(0, 0));
        assert_eq!(Proved.moved(&block, &mut table, 5, 0).ending, if put { MOVE } else { 17 });
        assert_eq!(Proved.renumber(&block, &mut table, 5, 6).ending, if put { 0 } else { 17 });
        assert!(table[needed..].iter().all(|cell| *cell == 0xA7A7_A7A7), "{size}");
        calls += 4;
    }
    say(&format!("compared: moves, short tables: {calls} calls\n"));
}

/// Every record of small numbers, on a block of seven octets, with every spare up to nine: accepted where it tells of a move, with
/// block, spare and record after it.
#[test]
fn every_small_record() {
    const MOST: u32 = 8;
    let mut stores = Stores::new(&Proved, Vec::new());
    let block: Vec<u8> = (0..7).map(|at| 0xA0 + at).collect();
    let mut endings = [0; 2];
    let numbers = MOST + 1;
    for spare in 0..=9 {
        let octets: Vec<u8> = (0..spare).map(|at| 0x50 + at).collect();
        for at in (0..3 * 4 * numbers.pow(4)).filter(|at| in_tenth(*at as usize)) {
            let (page, at) = (at % 3, at / 3);
            let (state, at) = (at % 4, at / 4);
            let [from, to, octets_moved, done] = [0, 1, 2, 3].map(|digit| at / numbers.pow(digit) % numbers);
            if endings[0] == 0 || stores.model.block != block {
                stores.renew(block.clone());
            }
            stores.spare.clone_from(&octets);
            let told = stores.step(&[page, state, from, to, octets_moved, done, 0, 0]);
            endings[usize::from(told.is_err())] += 1;
        }
    }
    stores.close();
    let [steps, refused] = endings;
    say(&format!("compared: moves, every small record: {steps} steps, {refused} MOVE\n"));
    assert!(steps > tenth(4_000) && refused > tenth(700_000));
}

/// A record that tells of a move in a block, and a spare that fits its state.
struct Drawn {
    block: usize,
    spare: usize,
    record: Record,
}

fn drawn(state: u32, rng: &mut Prng) -> Drawn {
    let block = 4 + *rng.pick(&[0, 3, 20, 100, 700]) + rng.below(30);
    let from = 1 + rng.below(block - 1);
    let near = 1 + rng.below(from);
    let to = from - 1 - rng.below(near);
    let octets = 1 + rng.below(block - from);
    let (done, distance) = (rng.below(octets), from - to);
    let more = [1, 1 + rng.below(9), 64, 256, octets][rng.below(5)];
    let spare = match state {
        2 => distance + more,
        _ if rng.flip() => [0, 1, 7, 64, 256, distance][rng.below(6)].min(distance),
        _ => distance + more,
    };
    let [from, to, octets, done] = [from, to, octets, done].map(|number| number as u32);
    Drawn { block, spare, record: [rng.below(2) as u32, state, from, to, octets, done, 0, 0] }
}

/// The conditions of MOVE, one by one, and beside them what is only just a move.
const KINDS: [(&str, bool); 24] = [
    ("a move, state 1", true),
    ("a move, state 2", true),
    ("still", false),
    ("state above 2", false),
    ("page above 1", false),
    ("to is from", false),
    ("to above from", false),
    ("past the block by one", false),
    ("past the block, round at 32 bits", false),
    ("past 1,048,576 in a longer block", false),
    ("done is octets", false),
    ("done above octets", false),
    ("no octets", false),
    ("state 2, spare as long as the distance", false),
    ("state 2, a shorter spare", false),
    ("state 2, no spare", false),
    ("seventh not 0", false),
    ("eighth not 0", false),
    ("to the block's end", true),
    ("one octet left", true),
    ("by one", true),
    ("spare one longer than the distance", true),
    ("spare as long as the distance", true),
    ("spare one shorter", true),
];

/// One condition of a record changed; none where it can't be.
fn turned(kind: &str, at: &mut Drawn, rng: &mut Prng) -> Option<()> {
    let Drawn { block, spare, record } = at;
    let distance = (record[2] - record[3]) as usize;
    let any = |least: u32, rng: &mut Prng| *rng.pick(&[least, least + 1, least + 255, 1 << 16, 1 << 31, u32::MAX]);
    match kind {
        "still" => record[1] = 0,
        "state above 2" => record[1] = any(3, rng),
        "page above 1" => record[0] = any(2, rng),
        "to is from" => record[3] = record[2],
        "to above from" => record[3] = any(record[2] + 1, rng),
        "past the block by one" => *block = (record[2] + record[4]) as usize - 1,
        "past the block, round at 32 bits" => {
            record[4] = u32::MAX - record[2] + 1 + rng.below(record[2] as usize) as u32
        }
        "done is octets" => record[5] = record[4],
        "done above octets" => record[5] = any(record[4] + 1, rng),
        "no octets" => (record[4], record[5]) = (0, 0),
        "state 2, spare as long as the distance" | "spare as long as the distance" => *spare = distance,
        "state 2, a shorter spare" => *spare = 1 + rng.below((distance - 1).max(1)).min(distance.checked_sub(2)?),
        "state 2, no spare" => *spare = 0,
        "seventh not 0" => record[6] = any(1, rng),
        "eighth not 0" => record[7] = any(1, rng),
        "to the block's end" => *block = (record[2] + record[4]) as usize,
        "one octet left" => record[5] = record[4] - 1,
        "by one" => record[3] = record[2] - 1,
        "spare one longer than the distance" => *spare = distance + 1,
        "spare one shorter" => *spare = distance - 1,
        _ => {}
    }
    Some(())
}

/// Records that tell of a move, and those that miss one condition: answer, block, spare and record.
#[test]
fn records_by_condition() {
    let mut rng = Prng::new(3704);
    let mut stores = Stores::new(&Proved, Vec::new());
    let names = KINDS.map(|(name, _)| name);
    let mut table = Table::new("moves, records by condition", &names, &["a step", "MOVE"], RECORDS);
    for (kind, good) in KINDS {
        table.never(kind, if good { "MOVE" } else { "a step" });
        if kind.starts_with("past 1,048,576") {
            table.needs(kind, "MOVE", tenth(40));
            continue;
        }
        while table.count(kind, if good { "a step" } else { "MOVE" }) < RECORDS {
            let state = if kind.contains("state 2")
                || (!kind.contains("state 1") && !kind.starts_with("spare ") && rng.flip())
            {
                2
            } else {
                1
            };
            let mut at = drawn(state, &mut rng);
            if kind == "by one" && state == 2 {
                at.spare = at.spare.max(2);
            }
            if turned(kind, &mut at, &mut rng).is_none() {
                continue;
            }
            stores.renew(rng.octets(at.block));
            stores.spare = rng.octets(at.spare);
            let told = stores.step(&at.record);
            table.add(kind, if told.is_ok() { "a step" } else { "MOVE" });
        }
    }
    // The block is used up to 1,048,576 octets.
    for turn in 0..tenth(40) as u32 {
        stores.renew(vec![0x41; MOST_BLOCK + 1 + turn as usize]);
        stores.spare = vec![0x42; 3];
        let from = MOST_BLOCK as u32 - 9;
        let record = |octets| [turn % 2, 1, from, from - 1 - turn % 7, octets, turn % 5, 0, 0];
        assert!(stores.step(&record(9)).is_ok());
        assert_eq!(stores.step(&record(10)), Err(MOVE));
        table.add("past 1,048,576 in a longer block", "MOVE");
    }
    table.close();
    stores.close();
    say(&format!("compared: moves, records by condition: {} calls\n", stores.calls));
}

/// Any eight numbers, any block and spare.
#[test]
fn any_record() {
    let mut rng = Prng::new(3705);
    let mut stores = Stores::new(&Proved, Vec::new());
    let mut steps = 0;
    for turn in 0..share(60_000) {
        let mut at = drawn(1 + turn as u32 % 2, &mut rng);
        for _ in 0..rng.below(3) {
            let cell = rng.below(8);
            at.record[cell] = match rng.below(4) {
                0 => rng.below(at.block + 2) as u32,
                1 => at.record[cell].wrapping_add(1),
                2 => at.record[cell].wrapping_sub(1),
                _ => rng.next_u64() as u32 >> rng.below(32),
            };
        }
        if rng.chance(1, 4) {
            at.spare = rng.below(at.block + 9);
        }
        stores.renew(rng.octets(at.block));
        stores.spare = rng.octets(at.spare);
        steps += usize::from(stores.step(&at.record).is_ok());
    }
    stores.close();
    say(&format!("compared: moves, any record: {} calls, {steps} steps\n", stores.calls));
    assert!(steps > share(60_000) / 4);
}

/// Steps until the record is still make the move as memmove does, from wherever it stands; each step made again, over what a cut may
/// have left of it, ends alike.
#[test]
fn whole_moves() {
    let mut rng = Prng::new(3706);
    let mut stores = Stores::new(&Proved, Vec::new());
    let mut again = 0;
    for turn in 0..share(4_000) {
        let mut at = drawn(1, &mut rng);
        at.record[5] = 0;
        let [page, _, from, to, octets, ..] = at.record.map(|number| number as usize);
        let block = rng.octets(at.block);
        let mut wanted = block.clone();
        wanted.copy_within(from..from + octets, to);
        stores.renew(block);
        stores.spare = rng.octets(at.spare);
        let mut record = at.record;
        while record[1] != 0 {
            let before = (stores.model.block.clone(), stores.spare.clone());
            let next = stores.step(&record).expect("it tells of a move");
            if turn % 2 == 0 {
                // What the step covers is drawn anew, and it is made once more.
                let after = (stores.model.block.clone(), stores.spare.clone());
                (0..at.block)
                    .filter(|at| before.0[*at] != after.0[*at])
                    .for_each(|at| stores.octet(at, rng.next_u64() as u8));
                let changed = (0..at.spare).filter(|at| before.1[*at] != after.1[*at]);
                changed.for_each(|at| stores.spare[at] = rng.next_u64() as u8);
                assert_eq!(stores.step(&record), Ok(next));
                assert!((&stores.model.block, &stores.spare) == (&after.0, &after.1), "{record:?}");
                again += 1;
            }
            record = next;
        }
        assert_eq!(record, [1 - page as u32, 0, 0, 0, 0, 0, 0, 0]);
        assert!(stores.model.block == wanted, "{:?}, spare of {}", at.record, at.spare);
    }
    stores.close();
    say(&format!("compared: moves, whole moves: {} steps, {again} made again over what a cut left\n", stores.calls));
}
