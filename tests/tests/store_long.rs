//! Longer greetings (document 02, R-11): large blocks, tables with the first line `form=2`, and what an old box makes of them. The
//! proved code, and the second program behind the same calls, beside the model; as tests/tests/store.rs has it for usual blocks.

use second::gen::Prng;
use second::saved::old_reads;
use second::store::Greeting;
use tests::recordings::{packed, two_minutes};
use tests::store::{
    asks_for_form, damaged, early_text_of, ending_name, first_line, frames_of, is_large, large_profiles, profiles,
    short_frames, some_call, some_store, text_of, whole_text_of, Call, Keeps, Profile, Stores, Told, BAD, BEYOND,
    BLOCK, DAMAGES, FIRST_LINES, FORM, MARKS, MORE_ROWS, MOST_BLOCK, MOST_WITHOUT, NOROOM, TABLE,
};
use tests::streams::plain_frames;
use tests::{goes_on, say, share, Codec, Proved, Second, Table, ALL_TOOLS, LISTED_TOOLS, MOST};

const KEEPERS: [(&str, &dyn Keeps); 2] = [("proved", &Proved), ("second", &Second)];
/// Lists of calls from a fresh block, those of the second program, and stores whose tables an old box reads.
const LISTS: usize = 60;
const LISTS_OF_SECOND: usize = 12;
const OLD: usize = 400;
/// What a cell of a table of damaged texts needs.
const NEED: usize = share(100);

/// Any list of calls on large blocks, each promise checked; after each one what is saved is read by an old box too. Of so many
/// lists a share is drawn, and on until each block has been met.
fn any_list(name: &str, keeper: &dyn Keeps, whole: usize) {
    let mut rng = Prng::new(1101);
    let profiles = large_profiles(&mut rng);
    let sizes: Vec<usize> = profiles.iter().map(|profile| profile.block).collect();
    let columns = ["calls", "puts", "closed up", "NOROOM", "loaded again", "form=2", "large start", "large octets"];
    let mut table = Table::new(&format!("store, {name}, drawn lists on large blocks, by octets"), &sizes, &columns, 1);
    let few = ["closed up", "NOROOM", "large start", "large octets"];
    sizes.iter().for_each(|size| few.iter().for_each(|column| table.needs(size, column, 0)));
    // Greetings of at most 16,000 octets.
    for size in [MOST_WITHOUT, MOST_WITHOUT + 1] {
        ["large start", "large octets"].iter().for_each(|column| table.never(size, column));
    }
    table.never(MOST_WITHOUT, "form=2");
    let mut stores = Stores::new(keeper, Vec::new());
    let of_all = |table: &Table, column: &str| sizes.iter().map(|size| table.count(size, column)).sum::<usize>();
    let met = |table: &Table| few.iter().all(|column| of_all(table, column) >= share(whole) / 4);
    let mut lists = 0;
    while goes_on(lists, share(whole), whole, || table.faults().is_empty() && met(&table)) {
        let profile = &profiles[lists % profiles.len()];
        lists += 1;
        stores.renew(rng.octets(profile.block));
        for _ in 0..20 + rng.below(80) {
            let call = some_call(profile, &stores, &mut rng);
            let told = stores.promised(&call);
            counted(&mut table, profile, &call, told, &stores);
            if rng.chance(1, 12) {
                stores.saved_and_loaded();
                table.add(profile.block, "loaded again");
            }
            read_by_an_old_box(&mut stores);
        }
    }
    table.close();
    assert!(met(&table), "{few:?}: {:?}", few.map(|column| of_all(&table, column)));
    stores.close();
    say(&format!("compared: store, {name}, drawn lists on large blocks: {lists} lists, {} calls\n", stores.calls));
}

fn counted(table: &mut Table, profile: &Profile, call: &Call, told: Told, stores: &Stores) {
    table.add(profile.block, "calls");
    let rows = &stores.model.greetings;
    let closed = told.report[1] > 0;
    for (column, met) in [
        ("puts", matches!(call, Call::Put(..)) && told.ending == 0),
        ("closed up", matches!(call, Call::Put(..)) && told.ending == 0 && closed),
        ("NOROOM", told.ending == NOROOM),
        ("form=2", stores.text.starts_with(FORM)),
        ("large start", rows.iter().any(|row| row.start > MOST_WITHOUT)),
        ("large octets", rows.iter().any(|row| row.octets > MOST_WITHOUT)),
    ] {
        if met {
            table.add(profile.block, column);
        }
    }
}

/// What the back end saves, read by a box from before R-11: never a shortened number. With form=2 it is TABLE, whatever follows that
/// line; without it the store is the same where it lies in the old box's block, and else TABLE. It has the older tools, so that a
/// greeting with a frame of tool 11 is BAD to it.
fn read_by_an_old_box(stores: &mut Stores) -> u32 {
    stores.call(&Call::Save(stores.room()));
    let model = &stores.model;
    let told = old_reads(&stores.text, model.block.clone());
    let inside = |row: &Greeting| row.start + row.octets <= BLOCK;
    let newer = |row: &Greeting| needs_tool_11(&model.block[row.start..row.start + row.octets], row.law);
    let wanted = match stores.text.starts_with(FORM) || !model.greetings.iter().all(inside) {
        true => Err(TABLE),
        false if model.greetings.iter().any(newer) => Err(BAD),
        false => Ok(model.clone()),
    };
    if told != wanted {
        stores.differ("an old box", "it reads a saved table otherwise");
    }
    told.err().unwrap_or(0)
}

/// Whether a walk with the older set stops at a frame of tool 11.
fn needs_tool_11(octets: &[u8], law: u32) -> bool {
    Codec::walk(&Second, octets, law, LISTED_TOOLS, &mut vec![0; 320 * octets.len()]).tool == 11
}

#[test]
fn any_list_of_calls() {
    any_list("proved", &Proved, LISTS);
}

#[test]
fn any_list_of_calls_of_the_second_program() {
    any_list("second", &Second, LISTS_OF_SECOND);
}

/// Every saved table of drawn stores, usual and large, read by an old box; and behind form=2 anything at all.
#[test]
fn old_boxes() {
    let mut rng = Prng::new(1102);
    let mut stores = Stores::new(&Proved, Vec::new());
    let columns = ["read alike", "TABLE", "BAD"];
    let rows = ["up to 16,384", "up to 65,535", "larger"];
    let mut table =
        Table::new("store, saved tables read by an old box, by octets of the block", &rows, &columns, share(20));
    table.never("up to 16,384", "TABLE");
    ["read alike", "BAD"].iter().for_each(|column| table.never("larger", column));
    let mut all = profiles(&mut rng);
    // Blocks in which some stores lie in an old box's, and some do not.
    let last = [&[][..], &[0x02, 0x55, 0x55, 0x55, 0x55, 0x55]];
    let blocks = [(BLOCK + 1, 0), (40_000, 0), (MOST_WITHOUT, 0), (BLOCK + 1, 1), (40_000, 1)];
    all.extend(blocks.map(|(block, newer)| {
        let frames = |_| plain_frames(1 + rng.below(block / 3_000), &mut Prng::new(block as u64));
        let pool = (0..20).map(frames).map(|octets| [&octets[..], last[newer]].concat()).collect();
        Profile { block, numbers: 12, pool }
    }));
    all.extend(large_profiles(&mut rng).into_iter().take(3));
    // The same with greetings of the older tools alone.
    let older = all.iter().map(|Profile { block, numbers, pool }| {
        let listed = pool.iter().filter(|octets| !needs_tool_11(octets, 1)).cloned().chain([vec![0x41]]);
        Profile { block: *block, numbers: *numbers, pool: listed.collect() }
    });
    let all: Vec<Profile> = older.collect::<Vec<_>>().into_iter().chain(all).collect();
    let mut turns = 0;
    while goes_on(turns, share(OLD), OLD, || table.faults().is_empty()) {
        let profile = &all[turns % all.len()];
        turns += 1;
        some_store(profile, &mut stores, &mut rng);
        let row = match profile.block {
            0..=BLOCK => rows[0],
            block if block <= MOST_WITHOUT => rows[1],
            _ => rows[2],
        };
        let ending = read_by_an_old_box(&mut stores);
        let column = [0, TABLE, BAD].iter().position(|known| *known == ending).expect("an old box says no more");
        table.add(row, columns[column]);
        let lines = text_of(&stores.model.greetings);
        let behind = &lines[..rng.below(lines.len() + 1)];
        for text in
            [[FORM, &lines].concat(), [FORM, behind].concat(), [FORM, &early_text_of(&stores.model.greetings)].concat()]
        {
            assert_eq!(old_reads(&text, stores.model.block.clone()), Err(TABLE));
        }
    }
    assert_eq!(old_reads(FORM, vec![0; BLOCK]), Err(TABLE));
    table.close();
    stores.close();
    say(&format!("compared: store, tables read by an old box: {} calls\n", stores.calls));
}

/// A store of a few greetings with large starts and octet counts, in pads and frames of 321 octets.
fn some_large_store(stores: &mut Stores, rng: &mut Prng) {
    stores.renew(rng.octets(MOST_WITHOUT + 100_000));
    for number in 1..=5 {
        let frames = if number == 2 { 205 } else { 1 + rng.below(80) };
        let pads = rng.below(3);
        let octets = [plain_frames(frames, rng), vec![0; pads]].concat();
        stores.call(&Call::Put(rng.below(2) as u32, number, octets));
    }
    if rng.flip() {
        stores.call(&Call::Delete(1));
    }
}

/// A text that must be TABLE, on the block as it is and where a greeting is BAD besides.
fn not_loaded(what: &str, text: &[u8], by_lines: bool, stores: &mut Stores, rng: &mut Prng) {
    let place = rng.pick(&stores.model.greetings).start;
    let octet = stores.model.block[place];
    for (octet, wanted) in [(octet, TABLE), (0x46, if by_lines { TABLE } else { BAD }), (octet, TABLE)] {
        stores.octet(place, octet);
        let told = stores.call(&Call::Load(text.to_vec()));
        if told.ending != wanted {
            stores.differ(what, &format!("{told:?}, and not {wanted}"));
        }
    }
}

/// First lines that are wrong, misplaced or missing: TABLE, before BAD. On blocks that need none, that need one, and with greetings
/// that need one.
#[test]
fn first_lines() {
    let mut rng = Prng::new(1103);
    let profiles = [profiles(&mut rng).remove(3), large_profiles(&mut rng).remove(1)];
    let mut stores = Stores::new(&Proved, Vec::new());
    let columns = ["a small block", "a large block", "large numbers"];
    let mut table = Table::new("store, first lines that are wrong", &FIRST_LINES, &columns, NEED);
    columns[..2].iter().for_each(|column| table.never("missing", column));
    for (at, column) in columns.into_iter().enumerate() {
        for how in FIRST_LINES.into_iter().filter(|how| at == 2 || *how != "missing") {
            while table.count(how, column) < NEED {
                match profiles.get(at) {
                    Some(profile) => some_store(profile, &mut stores, &mut rng),
                    None => some_large_store(&mut stores, &mut rng),
                }
                let rows = stores.model.greetings.clone();
                assert_eq!(at == 2, rows.iter().any(is_large));
                for _ in 0..10 {
                    let Some(text) = first_line(how, &rows, &mut rng) else { continue };
                    not_loaded(how, &text, true, &mut stores, &mut rng);
                    table.add(how, column);
                }
            }
        }
    }
    table.close();
    stores.close();
    say(&format!("compared: store, first lines that are wrong: {} calls\n", stores.calls));
}

/// Tables behind form=2 damaged in each of the ways in which others are.
#[test]
fn damaged_behind_form_2() {
    let mut rng = Prng::new(1104);
    let mut stores = Stores::new(&Proved, Vec::new());
    let columns = ["before BAD", "after BAD"];
    let mut table = Table::new("store, damaged tables behind form=2", &DAMAGES, &columns, 0);
    for damage in DAMAGES {
        let mut met = 0;
        while met < NEED / 4 {
            some_large_store(&mut stores, &mut rng);
            for _ in 0..10 {
                let rows = stores.model.greetings.clone();
                let Some(made) = damaged(damage, &rows, stores.model.size(), &mut rng) else { continue };
                assert!(made.text.starts_with(FORM));
                not_loaded(damage, &made.text, made.by_lines, &mut stores, &mut rng);
                table.add(damage, columns[usize::from(!made.by_lines)]);
                met += 1;
            }
        }
    }
    table.close();
    stores.close();
    say(&format!("compared: store, damaged tables behind form=2: {} calls\n", stores.calls));
}

/// The lines of one greeting of pads, R-8's or R-6's.
fn pads(start: usize, octets: usize, early: bool) -> Vec<u8> {
    let marks = (0..octets.div_ceil(64)).map(|mark| second::store::Mark { octets: 64 * mark, samples: 0 }).collect();
    let row = [Greeting { number: 7, start, octets, law: 1, samples: 0, marks }];
    if early {
        early_text_of(&row)
    } else {
        text_of(&row)
    }
}

/// Starts and octet counts on both sides of 65,535, and those that 16 bits would shorten to small ones: with form=2 each is loaded
/// as it is, without it those above 65,535 are TABLE; on large blocks and on ones that end just there.
#[test]
fn both_sides_of_65535() {
    for (name, keeper) in KEEPERS {
        let mut stores = Stores::new(keeper, Vec::new());
        let numbers = [0, 1, 65_534, 65_535, 65_536, 65_537, 131_071, 131_072, 131_073, 196_608];
        let (mut loaded, mut refused) = (0, 0);
        for block in [MOST_WITHOUT, MOST_WITHOUT + 1, 2 * MOST_WITHOUT, 400_000] {
            stores.renew(vec![0; block]);
            for (start, octets) in numbers.iter().flat_map(|start| numbers.map(|octets| (*start, octets))) {
                let large = start > MOST_WITHOUT || octets > MOST_WITHOUT;
                for (form, early) in [(true, false), (true, true), (false, false), (false, true)] {
                    let lines = pads(start, octets, early);
                    let text = if form { [FORM, &lines].concat() } else { lines };
                    let wanted = match () {
                        () if start + octets > block || (form && early) || (!form && large) => TABLE,
                        () if octets == 0 => BAD,
                        () => 0,
                    };
                    let told = stores.call(&Call::Load(text));
                    let got = stores.call(&Call::Get(7));
                    if told.ending != wanted || (wanted == 0 && got != Told::ok(start, octets)) {
                        stores.differ(
                            &format!("{start}, {octets}, form {form}, early {early}"),
                            &format!("{told:?}, {got:?}"),
                        );
                    }
                    *if wanted == 0 { &mut loaded } else { &mut refused } += 1;
                }
            }
        }
        stores.close();
        say(&format!("compared: store, {name}, both sides of 65,535: {loaded} loaded, {refused} refused\n"));
        assert!(loaded > 200 && refused > 400, "{loaded}, {refused}");
    }
}

/// Blocks of 65,535, 65,536, 1,048,576 octets and more, filled up to the last octet by one greeting, by two and by 32.
#[test]
fn blocks_filled_up() {
    for (name, keeper) in KEEPERS {
        let mut stores = Stores::new(keeper, Vec::new());
        let mut rng = Prng::new(1105);
        for block in [BLOCK, MOST_WITHOUT, MOST_WITHOUT + 1, MOST_BLOCK, MOST_BLOCK + 1, MOST_BLOCK + 70_000] {
            let size = block.min(MOST_BLOCK);
            stores.renew(vec![0xEE; block]);
            stores.call(&Call::Save(stores.room()));
            assert_eq!(stores.text, if size > MOST_WITHOUT { FORM } else { &[] }, "what a fresh block saves");
            let whole = |octets: usize, rng: &mut Prng| {
                let frames = plain_frames(octets / 321, rng);
                [&frames[..], &vec![0; octets - frames.len()]].concat()
            };
            for (parts, ending) in [(vec![size + 1], if size < MOST { NOROOM } else { BAD }), (vec![size, 1], NOROOM)] {
                let told = parts
                    .iter()
                    .zip(1..)
                    .map(|(octets, number)| stores.promised(&Call::Put(1, number, whole(*octets, &mut rng))));
                assert_eq!(told.last().map(|told| told.ending), Some(ending), "{block}");
            }
            stores.saved_and_loaded();
            stores.promised(&Call::Delete(1));
            for number in 1..=32 {
                let octets = if number == 32 { size - 31 * (size / 32) } else { size / 32 };
                assert_eq!(stores.promised(&Call::Put(number & 1, number, whole(octets, &mut rng))).ending, 0);
            }
            assert_eq!((stores.model.held(), stores.model.greetings.len()), (size, 32));
            stores.saved_and_loaded();
            stores.promised(&Call::Delete(9));
            assert_eq!(stores.promised(&Call::Put(1, 40, vec![0; size / 32 + 1])).ending, NOROOM);
            assert_eq!(stores.promised(&Call::Put(1, 40, vec![0; size / 32])).ending, 0);
            assert!(stores.model.block[size..].iter().all(|octet| *octet == 0xEE), "what lies past the size stays");
        }
        stores.close();
        say(&format!("compared: store, {name}, blocks filled up: {} calls\n", stores.calls));
    }
}

/// As many marks as the table of the greatest block can have: 16,415 that are true, and 16,416 that are lent, which reach its last
/// number. A greeting of 1,048,576 octets.
#[test]
fn the_fullest_table() {
    for (name, keeper) in KEEPERS {
        let mut stores = Stores::new(keeper, vec![0xEE; MOST_BLOCK]);
        let marks = |stores: &Stores| stores.model.greetings.iter().map(|row| row.marks.len()).sum::<usize>();
        for number in 1..32 {
            assert_eq!(stores.promised(&Call::Put(1, number, vec![0x41; 65])).ending, 0);
        }
        assert_eq!(stores.promised(&Call::Put(0, 32, vec![0x31; MOST_BLOCK - 31 * 65])).ending, 0);
        assert_eq!((marks(&stores), stores.model.held()), (16_415, MOST_BLOCK));
        assert!(stores.model.text().len() <= g7110::saved::MAX_TABLE, "the text's greatest length");
        stores.saved_and_loaded();
        stores.promised(&Call::Jump(32, 320 * (MOST_BLOCK as u64 - 31 * 65) - 1));
        stores.promised(&Call::Delete(1));
        stores.promised(&Call::Put(1, 99, vec![0; 65]));
        // 32 greetings of 32,768 octets may have 513 marks each.
        stores.renew(vec![0; MOST_BLOCK]);
        let frames = [&plain_frames(102, &mut Prng::new(1106))[..], &[0; 26]].concat();
        (1..=32).for_each(|number| {
            stores.call(&Call::Put(1, number, frames.clone()));
        });
        let judged = stores.lend(|cells| {
            assert_eq!(cells.len(), 33_026);
            (0..32).for_each(|row| cells[MORE_ROWS + 3 + 3 * row] = 513);
            (MARKS..cells.len()).for_each(|at| cells[at] = 4_294_000_000 + at as u32);
        });
        assert!(judged && marks(&stores) == 16_416);
        stores.call(&Call::Save(stores.room()));
        assert!(stores.text.starts_with(FORM) && stores.text.ends_with(b"mark=4294033024,4294033025\n"));
        for number in [1, 32, 16] {
            stores.call(&Call::Jump(number, 5_000));
            stores.call(&Call::Delete(number));
            stores.call(&Call::Put(1, 100 + number, vec![0; 64]));
        }
        assert!(!stores.lend(|cells| cells[MORE_ROWS + 3] = 3), "64 octets have at most 2 marks");
        stores.call(&Call::Get(2));
        stores.renew(vec![0xEE; MOST_BLOCK]);
        for (law, octet) in [(0, 0x41), (1, 0x00)] {
            stores.promised(&Call::Put(law, 1, vec![octet; MOST_BLOCK]));
            assert_eq!(stores.cells()[MORE_ROWS + 3], 16_384);
            stores.promised(&Call::Jump(1, 40 * MOST_BLOCK as u64 - 1));
            stores.promised(&Call::Delete(1));
        }
        stores.close();
        say(&format!("compared: store, {name}, the fullest table: {} calls\n", stores.calls));
    }
}

/// Greetings of so many frames of one octet that they have around 256, 512, 1,024 and more marks, put between two others that have
/// some; saved, loaded, in R-6's lines too, jumped into, moved, and with a mark that is wrong, missing or one too many.
#[test]
fn many_marks() {
    for (name, keeper) in KEEPERS {
        let mut rng = Prng::new(1107);
        let mut stores = Stores::new(keeper, Vec::new());
        let (mut greetings, mut wrong) = (0, 0);
        let all: &[usize] = &[255, 256, 257, 258, 288, 289, 511, 512, 513, 1_023, 1_024, 1_025, 2_048, 4_097];
        for &marks in if name == "proved" { all } else { &all[1..4] } {
            for frames in [64 * marks - 1, 64 * marks, 64 * marks + 1] {
                let law = greetings % 2;
                let octets = if frames % 3 == 0 { vec![0x42; frames] } else { short_frames(frames, &mut rng) };
                let all = frames_of(keeper.reader(), &octets, law).expect("a good greeting");
                stores.renew(rng.octets(frames + 500));
                stores.promised(&Call::Put(1, 1, vec![0x41; 130]));
                stores.promised(&Call::Put(1, 2, vec![0; frames]));
                stores.promised(&Call::Put(0, 3, vec![0x31; 200]));
                stores.promised(&Call::Delete(2));
                assert_eq!(stores.promised(&Call::Put(law, 4, octets)), Told::ok(130, 0));
                assert_eq!(stores.model.greetings[1].marks.len(), frames.div_ceil(64));
                stores.saved_and_loaded();
                for sample in
                    [0, 1, all.samples / 2, all.samples - 1].into_iter().chain((0..9).map(|_| rng.below(all.samples)))
                {
                    assert_eq!(stores.call(&Call::Jump(4, sample as u64)), all.holding(sample));
                }
                let rows = stores.model.greetings.clone();
                for damage in [
                    "a wrong mark",
                    "a mark too many",
                    "a mark too few",
                    "no marks",
                    "a mark of 40 digits",
                    "wrong samples",
                ] {
                    let Some(made) = damaged(damage, &rows, stores.model.size(), &mut rng) else { continue };
                    not_loaded(damage, &made.text, made.by_lines, &mut stores, &mut rng);
                    wrong += 1;
                }
                // The last mark, and the one in the middle.
                for at in [rows[1].marks.len() - 1, rows[1].marks.len() / 2] {
                    let mut others = rows.clone();
                    others[1].marks[at].samples += 1;
                    not_loaded(
                        "a wrong mark",
                        &whole_text_of(&others, stores.model.size()),
                        false,
                        &mut stores,
                        &mut rng,
                    );
                    wrong += 1;
                }
                let early = stores.call(&Call::Load(early_text_of(&rows)));
                assert_eq!(early.ending, if rows.iter().any(is_large) { TABLE } else { 0 });
                stores.call(&Call::Delete(1));
                stores.call(&Call::Put(law, 5, vec![0; 300]));
                assert_eq!(stores.call(&Call::Get(4)), Told::ok(0, frames));
                greetings += 1;
            }
        }
        stores.close();
        say(&format!(
            "compared: store, {name}, many marks: {greetings} greetings, {wrong} wrong tables, {} calls\n",
            stores.calls
        ));
    }
}

/// Two minutes of a hotel's guide, in both laws and in frames of two lengths: stored, saved, loaded, moved, and jumped into.
#[test]
fn two_minutes_stored() {
    for (name, keeper) in KEEPERS {
        let mut stores = Stores::new(keeper, Vec::new());
        let (mut jumps, mut octets) = (0, Vec::new());
        for recording in two_minutes() {
            let lengths = if recording.law == 1 { [160, 40] } else { [320, 80] };
            for length in lengths {
                let stream = packed(&Second, &recording.sound, recording.law, ALL_TOOLS, length, MOST);
                assert_eq!(stream.samples, 120 * 8_000, "all of it is packed");
                assert!(stream.octets.len() > 8 * MOST_WITHOUT, "{} octets", stream.octets.len());
                octets.push(stream.octets.len());
                let all = frames_of(keeper.reader(), &stream.octets, recording.law).expect("a good greeting");
                stores.renew(vec![0xEE; stream.octets.len() + 1_000]);
                stores.promised(&Call::Put(1 - recording.law, 2, vec![0x41; 990]));
                assert_eq!(stores.promised(&Call::Put(recording.law, 1, stream.octets.clone())).report[..2], [990, 0]);
                stores.saved_and_loaded();
                assert!(stores.text.starts_with(FORM));
                // Without its first line it is no table.
                assert_eq!(stores.call(&Call::Load(text_of(&stores.model.greetings))).ending, TABLE);
                for second in (0..120).step_by(if name == "proved" { 1 } else { 7 }) {
                    let sample = 8_000 * second + 17 * second;
                    let told = stores.call(&Call::Jump(1, sample as u64));
                    assert_eq!(told, all.holding(sample), "{second} s");
                    jumps += 1;
                }
                assert_eq!(stores.call(&Call::Jump(1, 960_000)), Told::refused(BEYOND));
                assert_eq!(stores.call(&Call::Jump(1, 959_999)), all.holding(959_999));
                // Moved down, for want of a gap.
                stores.promised(&Call::Delete(2));
                let moved = stores.promised(&Call::Put(recording.law, 3, vec![0x31; 1_000]));
                assert_eq!(moved.report[..2], [stream.octets.len() as u64; 2]);
                assert_eq!(stores.call(&Call::Jump(1, 480_000)), all.holding(480_000));
            }
        }
        stores.close();
        say(&format!(
            "compared: store, {name}, two minutes: streams of {octets:?} octets, {jumps} jumps, {} calls\n",
            stores.calls
        ));
    }
}

/// What the tests of this file name.
#[test]
fn first_lines_are_asked_for() {
    let row = |start, octets| Greeting { number: 1, start, octets, law: 1, samples: 0, marks: Vec::new() };
    for (rows, size, asked) in [
        (vec![], 65_535, false),
        (vec![], 65_536, true),
        (vec![row(65_534, 1)], 65_535, false),
        (vec![row(65_535, 65_535)], 65_535, false),
        (vec![row(1, 1), row(65_536, 1)], 65_535, true),
        (vec![row(0, 65_536)], 65_535, true),
    ] {
        assert_eq!(asks_for_form(&rows, size), asked);
        assert_eq!(whole_text_of(&rows, size).starts_with(FORM), asked);
    }
    assert_eq!(
        [ending_name(BAD), ending_name(TABLE), ending_name(NOROOM), ending_name(BEYOND)],
        ["BAD", "TABLE", "NOROOM", "BEYOND"]
    );
}
