//! Marks inside a greeting and jumps to a sample (document 02, R-8 and R-9): the proved code, and the second program behind the
//! same calls, beside the model and beside all frames of each greeting, read one by one with the same back end's reader.

use second::gen::Prng;
use tests::forms::{any_form, some_form, LENGTHS};
use tests::store::{
    early_text_of, ending_name, frames_of, profiles, rows_of, short_frames, some_store, Call, Frames, Keeps, Stores,
    Told, BEYOND, BLOCK, MARKS, MORE_ROWS, TABLE,
};
use tests::{in_tenth, say, tenth, Proved, Second, Table, ALL_TOOLS, TOOLS};

const KEEPERS: [(&str, &dyn Keeps); 2] = [("proved", &Proved), ("second", &Second)];

/// Frames of a greeting, around each of the first marks.
const COUNTS: [usize; 15] = [1, 2, 63, 64, 65, 66, 127, 128, 129, 191, 192, 193, 255, 256, 257];
const KINDS: [&str; 6] = ["pads", "one octet, 40", "one octet, 320", "two octets", "pads in rows", "every tool"];

/// A greeting of exactly so many frames, of a kind.
fn greeting(kind: &str, frames: usize, law: u32, rng: &mut Prng) -> Vec<u8> {
    match kind {
        "pads" => vec![0; frames],
        "one octet, 40" => vec![0x41; frames],
        "one octet, 320" => vec![0x32; frames],
        "two octets" => [0x83, rng.octet()].repeat(frames),
        "pads in rows" => short_frames(frames, rng),
        _ => (0..frames).flat_map(|_| some_form(law, rng).octets()).collect(),
    }
}

/// A jump that the whole walk makes known.
fn jump(stores: &mut Stores, number: u32, frames: &Frames, sample: usize) {
    let wanted = if sample < frames.samples { frames.holding(sample) } else { Told::refused(BEYOND) };
    let told = stores.call(&Call::Jump(number, sample as u64));
    if told != wanted {
        stores.differ(&format!("jump {number} {sample}"), &format!("{told:?}, the whole walk gives {wanted:?}"));
    }
}

/// To the first and the last sample of each frame, and past the last one. Gives how many.
fn jumps_to_ends(stores: &mut Stores, number: u32, frames: &Frames) -> usize {
    let starts = frames.before.iter().map(|(_, samples)| *samples);
    let ends = starts.flat_map(|samples| [samples, samples.saturating_sub(1)]);
    let mut samples: Vec<usize> = ends.chain([frames.samples.saturating_sub(1), frames.samples]).collect();
    samples.dedup();
    samples.iter().for_each(|sample| jump(stores, number, frames, *sample));
    samples.len()
}

/// Greetings of 1, 63, 64, 65, 128 frames and others around the marks: put, saved and loaded, loaded in R-6's lines, jumped into.
#[test]
fn frames_around_marks() {
    for (name, keeper) in KEEPERS {
        let mut rng = Prng::new(801);
        let mut stores = Stores::new(keeper, Vec::new());
        let mut table =
            Table::new(&format!("store, {name}, marks of greetings by kind and frames"), &KINDS, &COUNTS, 2);
        for (kind, frames) in KINDS.iter().flat_map(|kind| COUNTS.map(|frames| (kind, frames))) {
            for law in [0, 1] {
                let octets = greeting(kind, frames, law, &mut rng);
                let behind = BLOCK - 3 - octets.len();
                stores.renew(rng.octets(BLOCK));
                stores.promised(&Call::Put(1 - law, 1, vec![0; 2]));
                stores.promised(&Call::Put(law, 2, octets.clone()));
                stores.promised(&Call::Put(law, 3, vec![0]));
                let all = frames_of(keeper.reader(), &octets, law).expect("a good greeting");
                assert_eq!(all.before.len(), frames);
                let row = stores.model.greetings[1].clone();
                assert_eq!((row.law, row.samples, row.marks.len()), (law, all.samples, frames.div_ceil(64)));
                assert_eq!(row.marks, all.marks());
                jumps_to_ends(&mut stores, 2, &all);
                stores.saved_and_loaded();
                let text = early_text_of(&stores.model.greetings);
                assert_eq!(stores.call(&Call::Load(text)).ending, 0);
                // Then moved down by two octets, for want of a gap: the same marks.
                stores.call(&Call::Delete(1));
                let told = stores.call(&Call::Put(law, 4, vec![0; behind + 1]));
                assert_eq!(told, Told::ok(octets.len() + 1, octets.len() + 1));
                let early = &stores.model.greetings[0];
                assert_eq!((early.law, early.samples, &early.marks), (1, row.samples, &row.marks));
                jumps_to_ends(&mut stores, 2, &all);
                table.add(kind, frames);
            }
        }
        table.close();
        stores.close();
        say(&format!("compared: store, {name}, frames around marks: {} calls\n", stores.calls));
    }
}

/// Greetings with all tools at all lengths, in any order, with rows of pads between: put, loaded again, loaded in R-6's lines.
#[test]
fn marks_with_all_tools() {
    for (name, keeper) in KEEPERS {
        let mut rng = Prng::new(802);
        let mut stores = Stores::new(keeper, Vec::new());
        let tools = [1, 2, 3, 4, 5, 6, 7];
        let title = format!("store, {name}, frames between marks, by tool and length");
        let mut table = Table::new(&title, &tools, &LENGTHS, tenth(300));
        table.never(7, 40);
        let (mut greetings, mut marks, mut equal) = (0, 0, 0);
        for turn in 0..tenth(300) {
            let law = turn as u32 % 2;
            let lengths = |tool: u32| LENGTHS.map(|length| (tool, length));
            let mut kinds: Vec<(u32, usize)> = tools.into_iter().flat_map(lengths).chain([(0, 0); 60]).collect();
            rng.shuffle(&mut kinds);
            let mut octets = Vec::new();
            for (tool, length) in kinds {
                // Two of 60 pads are a row that is longer than from one mark to the next.
                let pads = if tool == 0 && rng.chance(1, 30) { 130 } else { 0 };
                let form = any_form(tool, length, law, &mut rng).map_or(Vec::new(), |form| form.octets());
                octets.extend(form.into_iter().chain(vec![0; pads]));
            }
            stores.renew(rng.octets(BLOCK));
            stores.promised(&Call::Put(law, 7, vec![0; 1 + rng.below(9)]));
            assert_eq!(stores.promised(&Call::Put(law, 8, octets.clone())).ending, 0);
            let all = frames_of(keeper.reader(), &octets, law).expect("a good greeting");
            equal += all.marks().windows(2).filter(|two| two[0].samples == two[1].samples).count();
            let row = stores.model.greetings[1].clone();
            assert_eq!((row.law, row.samples, &row.marks), (law, all.samples, &all.marks()));
            stores.saved_and_loaded();
            let early = early_text_of(&stores.model.greetings);
            assert_eq!(stores.call(&Call::Load(early)).ending, 0);
            let now = &stores.model.greetings[1];
            assert_eq!((now.law, now.samples, &now.marks), (1, row.samples, &row.marks));
            for (at, (place, _)) in all.before.iter().enumerate() {
                let read = keeper.reader().read(&octets[*place..], law, 127, &mut [0; 320]);
                let end = all.before.get(at + 1).map_or(octets.len(), |next| next.0);
                assert_eq!(read.octets, end - place);
                if read.tool != 0 {
                    table.add(read.tool, read.samples);
                }
            }
            (greetings, marks) = (greetings + 1, marks + row.marks.len());
        }
        table.close();
        stores.close();
        assert!(equal >= tenth(50), "{equal} marks have the samples of the one before");
        say(&format!("compared: store, {name}, all tools: {greetings} greetings, {marks} marks, {equal} equal ones\n"));
    }
}

/// Every sample of greetings with all tools at all lengths, in any order, with rows of pads between.
#[test]
fn every_sample_with_all_tools() {
    for (name, keeper) in KEEPERS {
        let mut rng = Prng::new(802);
        let mut stores = Stores::new(keeper, Vec::new());
        let title = format!("store, {name}, samples jumped to, by tool and length of the frame");
        let mut table = Table::new(&title, &TOOLS, &LENGTHS, tenth(1_000));
        table.never(7, 40);
        let (mut greetings, mut equal) = (0, 0);
        for turn in 0..tenth(30) {
            let law = turn as u32 % 2;
            let lengths = |tool: u32| LENGTHS.map(|length| (tool, length));
            let mut kinds: Vec<(u32, usize)> = TOOLS.into_iter().flat_map(lengths).chain([(0, 0); 60]).collect();
            rng.shuffle(&mut kinds);
            let mut octets = Vec::new();
            for (tool, length) in kinds {
                // Two of 60 pads are a row that is longer than from one mark to the next.
                let pads = if tool == 0 && rng.chance(1, 30) { 130 } else { 0 };
                let form = any_form(tool, length, law, &mut rng).map_or(Vec::new(), |form| form.octets());
                octets.extend(form.into_iter().chain(vec![0; pads]));
            }
            stores.renew(rng.octets(BLOCK));
            stores.promised(&Call::Put(law, 7, vec![0; 1 + rng.below(9)]));
            assert_eq!(stores.promised(&Call::Put(law, 8, octets.clone())).ending, 0);
            let all = frames_of(keeper.reader(), &octets, law).expect("a good greeting");
            equal += all.marks().windows(2).filter(|two| two[0].samples == two[1].samples).count();
            for sample in 0..=all.samples {
                jump(&mut stores, 8, &all, sample);
            }
            for (at, (place, _)) in all.before.iter().enumerate() {
                let read = keeper.reader().read(&octets[*place..], law, ALL_TOOLS, &mut [0; 320]);
                let end = all.before.get(at + 1).map_or(octets.len(), |next| next.0);
                assert_eq!(read.octets, end - place);
                if read.tool != 0 {
                    table.add_many(read.tool, read.samples, read.samples);
                }
            }
            greetings += 1;
        }
        table.close();
        stores.close();
        assert!(equal >= tenth(5), "{equal} marks have the samples of the one before");
        let samples = table.sum();
        say(&format!(
            "compared: store, {name}, every sample: {greetings} greetings, {samples} samples, {equal} equal marks\n"
        ));
    }
}

/// Greetings that fill the block: 16,384 pads, 16,384 frames of one octet and of each length, pads in rows.
#[test]
fn the_longest_greetings() {
    for (name, keeper) in KEEPERS {
        let mut rng = Prng::new(803);
        let mut stores = Stores::new(keeper, Vec::new());
        let mut jumps = 0;
        let same = [0x00, 0x41, 0x82, 0xC1, 0x22, 0x31].map(|octet| vec![octet; BLOCK]);
        let drawn = [(); 3].map(|()| short_frames(BLOCK, &mut rng));
        for (turn, octets) in same.into_iter().chain(drawn).enumerate() {
            stores.renew(vec![0xEE; BLOCK]);
            stores.promised(&Call::Put(turn as u32 % 2, 1, octets.clone()));
            let all = frames_of(keeper.reader(), &octets, 1).expect("a good greeting");
            assert_eq!(stores.model.greetings[0].marks.len(), 256);
            assert_eq!(stores.cells()[MORE_ROWS..MORE_ROWS + 4], [1, turn as u32 % 2, all.samples as u32, 256]);
            stores.saved_and_loaded();
            let few = Frames { before: all.before.iter().copied().step_by(tenth(10).min(7)).collect(), ..all.clone() };
            let ends: Vec<usize> = few.before.iter().flat_map(|(_, at)| [*at, at.saturating_sub(1)]).collect();
            ends.iter().for_each(|sample| jump(&mut stores, 1, &all, *sample));
            jump(&mut stores, 1, &all, all.samples);
            jumps += ends.len() + 1;
            stores.promised(&Call::Put(1, 2, vec![0]));
            stores.promised(&Call::Delete(1));
        }
        stores.close();
        say(&format!("compared: store, {name}, the longest greetings: {jumps} jumps, {} calls\n", stores.calls));
    }
}

/// Ways in which the numbers of a table, or the block, are false.
const FALSE: [&str; 9] = [
    "a mark's octets",
    "a mark's samples",
    "marks swapped",
    "fewer marks",
    "no marks",
    "all marks drawn",
    "marks drawn small",
    "the greeting's samples",
    "the block",
];

/// Numbers changed in such a way, in a store of a few greetings.
fn falsify(how: &str, cells: &mut [u32], rng: &mut Prng) {
    let count = cells[0] as usize;
    let row = rng.below(count);
    let counts: Vec<usize> = (0..count).map(|row| cells[MORE_ROWS + 3 + 3 * row] as usize).collect();
    let first = MARKS + 2 * counts[..row].iter().sum::<usize>();
    let (mark, other) = (first + 2 * rng.below(counts[row]), first + 2 * rng.below(counts[row]));
    let odd = |old: u32, rng: &mut Prng| match rng.below(7) {
        0 => old.wrapping_sub(1),
        1 => old.wrapping_add(1),
        2 => old.wrapping_add(40 * rng.below(200) as u32),
        3 => old.wrapping_sub(40 * rng.below(200) as u32),
        4 => rng.below(400) as u32,
        5 => u32::MAX,
        _ => rng.next_u64() as u32,
    };
    match how {
        "a mark's octets" => cells[mark] = odd(cells[mark], rng),
        "a mark's samples" => cells[mark + 1] = odd(cells[mark + 1], rng),
        "marks swapped" => {
            cells.swap(mark, other);
            cells.swap(mark + 1, other + 1);
        }
        "fewer marks" => cells[MORE_ROWS + 3 + 3 * row] -= 1,
        "no marks" => cells[MORE_ROWS + 3 + 3 * row] = 0,
        "all marks drawn" => cells[MARKS..].iter_mut().for_each(|cell| *cell = rng.next_u64() as u32),
        "marks drawn small" => cells[MARKS..].iter_mut().for_each(|cell| *cell = rng.below(3_000) as u32),
        _ => cells[MORE_ROWS + 2 + 3 * row] = odd(cells[MORE_ROWS + 2 + 3 * row], rng),
    }
}

/// False marks in lent numbers, and blocks that were changed: answers alike, in bounds, at most 64 frames read. Other calls go on
/// and carry the marks along as they are.
#[test]
fn false_marks() {
    for (name, keeper) in KEEPERS {
        let mut rng = Prng::new(804);
        let mut stores = Stores::new(keeper, Vec::new());
        let columns = ["ok", "BEYOND", "BAD"];
        let mut table = Table::new(&format!("store, {name}, jumps by false marks"), &FALSE, &columns, tenth(300));
        table.needs("all marks drawn", "ok", 0);
        table.needs("marks drawn small", "ok", tenth(100));
        table.needs("the block", "BAD", tenth(100));
        for turn in 0..tenth(3_600) {
            stores.renew(rng.octets(3_000));
            for number in 1..=3 {
                let frames = 1 + rng.below(600);
                let octets = if rng.flip() { short_frames(frames, &mut rng) } else { vec![0x41; frames] };
                stores.call(&Call::Put(rng.below(2) as u32, number, octets));
            }
            let how = FALSE[turn % FALSE.len()];
            match how {
                "the block" => (0..2 + rng.below(8)).for_each(|_| {
                    let at = rng.below(stores.model.held());
                    let octet = *rng.pick(&[0x46, 0x00, 0x31, 0x41, 0x33, 0x50]);
                    stores.octet(at, octet);
                }),
                _ => assert!(stores.lend(|cells| falsify(how, cells, &mut rng)), "what marks say is not judged"),
            }
            for _ in 0..20 {
                let row = rng.pick(&stores.model.greetings).clone();
                let near = match row.marks.len() {
                    0 => 0,
                    marks => row.marks[rng.below(marks)].samples + rng.below(100),
                };
                let sample = if rng.chance(1, 3) { near } else { rng.below(row.samples + 1 + row.samples / 8) };
                let told = stores.call(&Call::Jump(row.number, sample as u64));
                let [frame, place, within, read] = told.report;
                let bounds = place < row.octets as u64 && within < 320 && (1..=64).contains(&read) && frame + 1 >= read;
                if told.ending == 0 && !bounds {
                    stores.differ("a jump by false marks", &format!("{told:?}"));
                }
                table.add(how, ending_name(told.ending));
            }
            stores.call(&Call::Put(1, 9, vec![0x41; 70]));
            stores.call(&Call::Delete(1 + turn as u32 % 3));
            stores.call(&Call::Save(stores.room()));
        }
        table.close();
        stores.close();
        say(&format!("compared: store, {name}, false marks: {} jumps, {} calls\n", table.sum(), stores.calls));
    }
}

/// Counts of marks that fit, and one more: TABLE from there on.
#[test]
fn as_many_marks_as_fit() {
    for (name, keeper) in KEEPERS {
        let mut stores = Stores::new(keeper, Vec::new());
        for octets in (1..=400).filter(|octets| in_tenth(*octets)) {
            stores.renew(vec![0; 400]);
            stores.call(&Call::Put(1, 1, vec![0x41; octets]));
            for marks in 0..9 {
                let judged = stores.lend(|cells| cells[MORE_ROWS + 3] = marks as u32);
                assert_eq!(judged, marks <= octets / 64 + 1, "{octets} octets, {marks} marks");
                let told = stores.call(&Call::Jump(1, 0));
                assert_eq!(told.ending == TABLE, !judged);
                stores.call(&Call::Save(stores.room()));
            }
            stores.lend(|cells| cells[MORE_ROWS + 3] = octets.div_ceil(64) as u32);
        }
        stores.close();
        say(&format!("compared: store, {name}, counts of marks: {} calls\n", stores.calls));
    }
}

/// As many marks as a table can have: 287 that are true, of 32 greetings that each end just behind a mark; and 288 that are lent,
/// which reach the last cell. Saved, loaded, jumped by, closed up from the front, the middle and the end.
#[test]
fn the_fullest_table() {
    for (name, keeper) in KEEPERS {
        let mut stores = Stores::new(keeper, vec![0xEE; BLOCK]);
        for number in 1..=32 {
            let octets = if number == 32 { BLOCK - 31 * 513 } else { 513 };
            assert_eq!(stores.promised(&Call::Put(number & 1, number, vec![0x41; octets])).ending, 0);
        }
        let marks = |stores: &Stores| stores.model.greetings.iter().map(|row| row.marks.len()).sum::<usize>();
        assert_eq!((marks(&stores), stores.model.held()), (287, BLOCK));
        stores.saved_and_loaded();
        for number in [1, 32, 16] {
            stores.promised(&Call::Jump(number, 40 * 480));
            stores.promised(&Call::Delete(number));
            stores.promised(&Call::Put(0, number, vec![0x31; 481]));
        }
        stores.close();
        // 32 greetings of 512 octets have 8 marks each, and are lent with 9.
        stores.renew(vec![0xEE; BLOCK]);
        for number in 1..=32 {
            stores.call(&Call::Put(1, number, vec![0x41; 512]));
        }
        assert_eq!(marks(&stores), 256);
        let judged = stores.lend(|cells| {
            (0..32).for_each(|row| cells[MORE_ROWS + 3 + 3 * row] = 9);
            (MARKS + 512..cells.len()).for_each(|at| cells[at] = 1_000_000 + at as u32);
        });
        assert!(judged && marks(&stores) == 288);
        stores.call(&Call::Save(stores.room()));
        assert!(stores.text.ends_with(b"mark=1000768,1000769\n"));
        for number in [1, 32, 16, 2, 31] {
            (0..24).for_each(|part| {
                stores.call(&Call::Jump(number, part * 853));
            });
            stores.call(&Call::Delete(number));
            stores.call(&Call::Put(1, 100 + number, vec![0; 64]));
            stores.call(&Call::Save(stores.room()));
        }
        stores.close();
        say(&format!("compared: store, {name}, the fullest table: {} calls\n", stores.calls));
    }
}

/// Drawn stores, of both laws, read back from R-6's lines: law 1, the same samples and marks, and saved in R-8's lines.
#[test]
fn early_tables() {
    let mut rng = Prng::new(805);
    let profiles = profiles(&mut rng);
    for (name, keeper) in KEEPERS {
        let mut stores = Stores::new(keeper, Vec::new());
        let (mut tables, mut greetings) = (0, 0);
        while tables < tenth(400) {
            some_store(rng.pick(&profiles), &mut stores, &mut rng);
            let rows = stores.model.greetings.clone();
            assert_eq!(stores.call(&Call::Load(early_text_of(&rows))), Told::ok(0, 0));
            stores.call(&Call::Save(stores.room()));
            let now = rows_of(&stores.text).expect("it is saved in R-8's lines");
            for (row, before) in now.iter().zip(&rows) {
                assert_eq!((row.law, row.samples, &row.marks), (1, before.samples, &before.marks));
            }
            assert_eq!(now.len(), rows.len());
            (tables, greetings) = (tables + 1, greetings + rows.len());
        }
        stores.close();
        say(&format!("compared: store, {name}, tables in R-6's lines: {tables}, of {greetings} greetings\n"));
    }
}
