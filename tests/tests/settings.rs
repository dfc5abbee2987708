//! Settings that can be put back (document 02, R-13): the proved code, through the static library, against the second
//! program, and both against a history of all that was ever saved.

use second::gen::Prng;
use tests::settings::{
    damaged, script, some_call, some_cells, some_revision, some_text, some_values, text_of, values_of, Call, History,
    Keeper, Keepers, State, Step, Told, CELLS, DAMAGES, FRESH, GONE, LINE, LINES, SPENT,
};
use tests::{goes_on, in_tenth, say, tenth, tenths, Proved, Second, Table};

/// Lists of calls from a fresh state, and near the last number; calls of each at most.
const LISTS: usize = 2_000;
const NEAR_THE_LAST: usize = 600;
const MOST_CALLS: usize = 160;
/// Calls of the lists from a fresh state, at least; each is followed by readings.
const LEAST_CALLS: usize = tenth(100_000);
/// States of each kind of content.
const STATES: usize = 12_000;
/// What a cell of a table needs.
const NEED: usize = tenth(1_000);

/// Octets of the longest text.
const LONGEST: usize = 67;

const REFUSALS: [(u32, &str); 4] = [(0, "ok"), (LINE, "LINE"), (GONE, "GONE"), (SPENT, "SPENT")];

fn ending(told: Told) -> &'static str {
    REFUSALS.iter().find(|(number, _)| *number == told.ending).expect("a known ending").1
}

/// A table of calls by ending, where each call has only its own refusals.
fn endings(title: &str) -> Table {
    let mut table = Table::new(title, &["save", "back", "read", "wipe"], &["ok", "LINE", "GONE", "SPENT"], NEED);
    for (call, ending) in [
        ("save", "GONE"),
        ("back", "LINE"),
        ("read", "LINE"),
        ("read", "SPENT"),
        ("wipe", "LINE"),
        ("wipe", "GONE"),
        ("wipe", "SPENT"),
    ] {
        table.never(call, ending);
    }
    table
}

/// The vectors worked out by hand, on the back ends side by side.
#[test]
fn vectors() {
    let steps = script(include_str!("../vectors/settings.txt")).unwrap();
    let mut keepers = Keepers::new(&Proved, &Second);
    let (mut state, mut part, mut parts, mut states) = (FRESH, String::new(), 0, 0);
    for step in &steps {
        match step {
            Step::Part(name) => (state, part, parts) = (FRESH, name.clone(), parts + 1),
            Step::Cells(cells) => state = *cells,
            Step::Leaves(left) => {
                assert_eq!(state, *left, "{part}");
                states += 1;
            }
            Step::Makes(call, told, text) => {
                keepers.call_as(&mut state, call, *told);
                assert_eq!(keepers.text, *text, "{part}: {call:?}");
            }
        }
    }
    keepers.close();
    say(&format!("compared: settings, vectors: {parts} parts, {} calls, {states} states\n", keepers.calls));
    assert!(parts >= 14 && keepers.calls >= 70 && states >= 14);
}

/// What the text of the vectors can say, and what it can't.
#[test]
fn a_faulty_vector_is_refused() {
    let good = "part x\ncells 0=1 3=4,5\nsave law=1| -> LINE\nback 1 -> 2\nread 1 -> a|\nwipe\nstate 0=1\n";
    assert_eq!(script(good).unwrap().len(), 7);
    for bad in ["saves a -> 1", "save a", "save a -> b", "back x -> 1", "read 1", "wipe now", "cells 41=1", "state 0"] {
        assert!(script(bad).is_err(), "{bad}");
    }
}

/// Each promise over a list of calls: what is kept is what was saved under its number, the newest eight, and no more;
/// numbers rise by one and never come again; after a wipe nothing is left; text saved reads back.
fn check_kept(keepers: &mut Keepers, state: &mut State, history: &History) {
    let wanted = history.state();
    if *state != wanted {
        keepers.differ(state, &Call::Wipe, &format!("the history says {wanted:?}"));
    }
    let last = history.last();
    for revision in (last.saturating_sub(10)..=last).chain([0, last.wrapping_add(1)]) {
        let call = Call::Read(revision);
        let text = history.text(revision);
        let known = text.as_ref().map_or(Told::refused(GONE), |text| Told { ending: 0, told: text.len() as u64 });
        keepers.call_as(state, &call, known);
        if keepers.text != text.unwrap_or_default() {
            keepers.differ(state, &call, "the text is not the one that was saved");
        }
    }
}

/// Drawn lists of calls, from a state that has given so many numbers and keeps nothing: as many, or a tenth of them, and on until
/// each ending has been met often enough. Gives how many lists.
fn lists(keepers: &mut Keepers, table: &mut Table, whole: usize, first: impl Fn(&mut Prng) -> u32, seed: u64) -> usize {
    let mut rng = Prng::new(seed);
    let mut lists = 0;
    while goes_on(lists, tenth(whole), whole, || table.faults().is_empty()) {
        lists += 1;
        let mut history = History::new(first(&mut rng));
        let mut state = history.state();
        for _ in 0..rng.below(MOST_CALLS) {
            let call = some_call(&state, &mut rng);
            let known = history.answer(&call);
            keepers.call_as(&mut state, &call, known);
            table.add(call.name(), ending(known));
            check_kept(keepers, &mut state, &history);
        }
    }
    lists
}

/// Any list of calls from a fresh state.
#[test]
fn any_list_of_calls() {
    let mut keepers = Keepers::new(&Proved, &Second);
    let mut table = endings("settings, calls of drawn lists from a fresh state");
    table.never("save", "SPENT");
    table.never("back", "SPENT");
    let lists = lists(&mut keepers, &mut table, LISTS, |_| 0, 131);
    table.close();
    keepers.close();
    assert!(table.sum() >= LEAST_CALLS, "{} calls", table.sum());
    say(&format!("compared: settings, drawn lists: {lists} lists, {} calls in all\n", keepers.calls));
}

/// The same where the numbers end: SPENT, and LINE and GONE before it.
#[test]
fn near_the_last_number() {
    let mut keepers = Keepers::new(&Proved, &Second);
    let mut table = endings("settings, calls of drawn lists near the last number");
    let lists = lists(&mut keepers, &mut table, NEAR_THE_LAST, |rng| u32::MAX - rng.below(40) as u32, 132);
    table.close();
    keepers.close();
    say(&format!("compared: settings, near the last number: {lists} lists, {} calls in all\n", keepers.calls));
}

/// Any 41 numbers are a state: every call on them. What is kept and what is left is worked out here once more.
#[test]
fn any_cells() {
    let mut keepers = Keepers::new(&Proved, &Second);
    let mut rng = Prng::new(133);
    let columns = ["save", "SPENT", "back", "GONE", "read", "read none", "wipe"];
    let mut table = Table::new("settings, calls on any 41 numbers", &CELLS, &columns, NEED);
    let (mut longest, mut turns) = (0, 0);
    let whole = CELLS.len() * STATES;
    while goes_on(turns, tenth(whole), whole, || table.faults().is_empty() && longest == LONGEST) {
        let kind = CELLS[turns % CELLS.len()];
        turns += 1;
        let cells = some_cells(kind, &mut rng);
        let revision = some_revision(&cells, &mut rng);
        let rows: Vec<&[u32]> = cells[1..].chunks_exact(5).filter(|row| row[0] != 0).collect();
        let kept: Option<[u32; 4]> = rows.iter().find(|row| row[0] == revision).map(|row| row[1..].try_into().unwrap());
        let spent = cells[0] == u32::MAX;
        let values = some_values(&mut rng);

        let mut state = cells;
        let call = Call::Save(text_of(values));
        let (known, left) = added(&cells, &rows, values);
        keepers.call_as(&mut state, &call, known);
        check_left(&mut keepers, &cells, &call, state, left);
        table.add(kind, if spent { "SPENT" } else { "save" });

        let mut state = cells;
        let call = Call::Back(revision);
        let (known, left) = kept.map_or((Told::refused(GONE), cells), |values| added(&cells, &rows, values));
        keepers.call_as(&mut state, &call, known);
        check_left(&mut keepers, &cells, &call, state, left);
        table.add(kind, if known.ending == 0 { "back" } else { ending(known) });

        let mut state = cells;
        let call = Call::Read(revision);
        let text = kept.map(text_of);
        let known = text.as_ref().map_or(Told::refused(GONE), |text| Told { ending: 0, told: text.len() as u64 });
        keepers.call_as(&mut state, &call, known);
        longest = longest.max(keepers.text.len());
        table.add(kind, if kept.is_some() { "read" } else { "read none" });

        let mut state = cells;
        keepers.call_as(&mut state, &Call::Wipe, Told { ending: 0, told: 0 });
        let left = std::array::from_fn(|at| if at == 0 { cells[0] } else { 0 });
        check_left(&mut keepers, &cells, &Call::Wipe, state, left);
        table.add(kind, "wipe");
    }
    table.close();
    keepers.close();
    assert_eq!(longest, LONGEST, "the longest text");
    say(&format!("compared: settings, any 41 numbers: {} calls, longest text {longest} octets\n", keepers.calls));
}

/// What adding values answers and leaves, from the rows that are kept.
fn added(cells: &State, rows: &[&[u32]], values: [u32; 4]) -> (Told, State) {
    if cells[0] == u32::MAX {
        return (Told::refused(SPENT), *cells);
    }
    let number = cells[0] + 1;
    let new = [&[number][..], &values].concat();
    let all: Vec<&[u32]> = rows.iter().copied().chain([&new[..]]).collect();
    let newest = all[all.len().saturating_sub(8)..].concat();
    let mut left = FRESH;
    left[0] = number;
    left[1..1 + newest.len()].copy_from_slice(&newest);
    (Told { ending: 0, told: u64::from(number) }, left)
}

fn check_left(keepers: &mut Keepers, before: &State, call: &Call, state: State, left: State) {
    if state != left {
        keepers.differ(before, call, &format!("left {state:?}, and it should be {left:?}"));
    }
}

/// Saves a text over something saved; LINE changes nothing, and what is taken reads back.
fn try_text(keepers: &mut Keepers, text: &[u8], good: bool) {
    let mut history = History::new(0);
    history.answer(&Call::Save(text_of([1, 255, 16_384, 0])));
    let mut state = history.state();
    let call = Call::Save(text.to_vec());
    keepers.call_as(&mut state, &call, if good { Told { ending: 0, told: 2 } } else { Told::refused(LINE) });
    if good {
        keepers.call(&mut state, &Call::Read(2));
        if keepers.text != text {
            keepers.differ(&state, &call, "the text that was saved is not the text that is read");
        }
    }
}

/// Texts damaged in every way, at every line.
#[test]
fn damaged_texts() {
    let mut keepers = Keepers::new(&Proved, &Second);
    let mut rng = Prng::new(134);
    let keys = LINES.map(|(key, ..)| key);
    let mut table = Table::new("settings, damaged texts by line, all LINE", &DAMAGES, &keys, NEED);
    // No number is below 0.
    ["law", "set", "greeting"].iter().for_each(|key| table.never("one below the range", key));
    for damage in DAMAGES {
        for (line, key) in keys.iter().enumerate() {
            for _ in 0..NEED {
                let Some(text) = damaged(damage, line, &mut rng) else { break };
                assert_eq!(values_of(&text), None, "{damage}, {key}: {}", text.escape_ascii());
                try_text(&mut keepers, &text, false);
                table.add(damage, key);
            }
        }
    }
    table.close();
    keepers.close();
    say(&format!("compared: settings, damaged texts: {} calls\n", keepers.calls));
}

/// Every octet at every place of a text: put in its place, and put in before it; each one left out; cut at every octet.
#[test]
fn every_octet_of_a_text() {
    let mut keepers = Keepers::new(&Proved, &Second);
    let mut taken = [0; 2];
    let mut tried = |keepers: &mut Keepers, text: &[u8]| {
        let good = values_of(text).is_some();
        try_text(keepers, text, good);
        taken[usize::from(good)] += 1;
    };
    for values in [[1, 255, 16_384, 0], [0, 9, 1, 65_535], [1, 100, 1_048_576, 10]] {
        let text = text_of(values);
        for at in 0..=text.len() {
            tried(&mut keepers, &text[..at]);
            tried(&mut keepers, &text[at..]);
            for octet in (0..=255).filter(|octet| in_tenth(usize::from(*octet) + at)) {
                tried(&mut keepers, &[&text[..at], &[octet], &text[at..]].concat());
                if at < text.len() {
                    tried(&mut keepers, &[&text[..at], &[octet], &text[at + 1..]].concat());
                }
            }
            if at < text.len() {
                tried(&mut keepers, &[&text[..at], &text[at + 1..]].concat());
            }
        }
    }
    keepers.close();
    let [refused, good] = taken;
    assert!(refused > tenth(50_000) && good > tenth(100), "{refused} refused, {good} taken");
    say(&format!("compared: settings, every octet of a text: {refused} texts refused, {good} taken\n"));
}

/// Every value of every line around its range, and values far past it, that must not come round.
#[test]
fn every_value() {
    let mut keepers = Keepers::new(&Proved, &Second);
    let far = [1u128 << 32, 1 << 64, 1 << 96].into_iter().flat_map(|round| (0..3).map(move |more| round - 1 + more));
    let far: Vec<u128> = far.chain([10u128.pow(38), u128::MAX]).collect();
    let ranges = [vec![0..300], vec![0..400], vec![0..3_000, 1_047_000..1_050_000], vec![0..70_000]];
    let (mut refused, mut good) = (0, 0);
    for (line, ranges) in ranges.into_iter().enumerate() {
        let (_, least, greatest) = LINES[line];
        for value in tenths(ranges.into_iter().flatten()).chain(far.iter().copied()) {
            let mut values: [u128; 4] = [1, 255, 16_384, 0];
            values[line] = value;
            let inside = (u128::from(least)..=u128::from(greatest)).contains(&value);
            try_text(&mut keepers, &text_of(values), inside);
            *if inside { &mut good } else { &mut refused } += 1;
        }
    }
    keepers.close();
    say(&format!("compared: settings, every value: {refused} refused, {good} taken\n"));
    let all = 2 + 256 + 2_999 + 1_577 + 65_536;
    // One of each ten values of four lines may be some more or fewer.
    let apart = if tenth(all) == all { 0 } else { 10 };
    assert!(tenth(all).abs_diff(good) <= apart, "{good} taken");
}

/// The second program, wrong in one way.
#[derive(Clone, Copy, Debug)]
enum Fault {
    NumbersAgainAfterAWipe,
    WipeLeavesTheRows,
    NewestPushedOut,
    SevenKept,
    SpentBeforeGone,
    SpentBeforeLine,
    OneNumberFewer,
    OldNumberTold,
    BlockOneMore,
    LastEndLeftOut,
    LastOfTwo,
    RevisionZero,
    TextPastReport,
    TextOfARefusal,
    ReportOfARefusal,
    RowsNotClosedUp,
    SetTo127,
    SetOneMore,
}

const FAULTS: [Fault; 18] = [
    Fault::NumbersAgainAfterAWipe,
    Fault::WipeLeavesTheRows,
    Fault::NewestPushedOut,
    Fault::SevenKept,
    Fault::SpentBeforeGone,
    Fault::SpentBeforeLine,
    Fault::OneNumberFewer,
    Fault::OldNumberTold,
    Fault::BlockOneMore,
    Fault::LastEndLeftOut,
    Fault::LastOfTwo,
    Fault::RevisionZero,
    Fault::TextPastReport,
    Fault::TextOfARefusal,
    Fault::ReportOfARefusal,
    Fault::RowsNotClosedUp,
    Fault::SetTo127,
    Fault::SetOneMore,
];

struct Wrong(Fault);

impl Wrong {
    fn added(&self, before: &State, state: &mut State, mut told: Told) -> Told {
        let full = state[36] != 0 && before[36] != 0 && told.ending == 0;
        match self.0 {
            Fault::NewestPushedOut if full => state[1..36].copy_from_slice(&before[1..36]),
            Fault::SevenKept if state[36] != 0 && told.ending == 0 => {
                state.copy_within(6.., 1);
                state[36..].fill(0);
            }
            Fault::OneNumberFewer if before[0] == u32::MAX - 1 && told.ending == 0 => {
                *state = *before;
                told = Told::refused(SPENT);
            }
            Fault::RowsNotClosedUp if told.ending == 0 && before[1] == 0 && before[6] != 0 && before[11] == 0 => {
                state[6..11].copy_from_slice(&before[6..11]);
            }
            Fault::OldNumberTold if told.ending == 0 => told.told -= 1,
            Fault::ReportOfARefusal if told.ending == SPENT => told.told = u64::from(before[0]),
            _ => {}
        }
        told
    }
}

impl Keeper for Wrong {
    fn save(&self, state: &mut State, text: &[u8]) -> Told {
        let before = *state;
        let mut given = text.to_vec();
        match self.0 {
            Fault::SpentBeforeLine if state[0] == u32::MAX => return Told::refused(SPENT),
            Fault::BlockOneMore => given = String::from_utf8_lossy(text).replace("1048577", "1048576").into_bytes(),
            // The set line goes to 255.
            Fault::SetTo127 if values_of(text).is_some_and(|values| values[1] > 127) => return Told::refused(LINE),
            Fault::SetOneMore => given = String::from_utf8_lossy(text).replace("set=256\n", "set=255\n").into_bytes(),
            Fault::LastEndLeftOut if !text.ends_with(b"\n") => given.push(b'\n'),
            _ => {}
        }
        let told = Second.save(state, &given);
        self.added(&before, state, told)
    }

    fn back(&self, state: &mut State, revision: u32) -> Told {
        let before = *state;
        match self.0 {
            Fault::SpentBeforeGone if state[0] == u32::MAX => return Told::refused(SPENT),
            _ => {}
        }
        let told = Second.back(state, revision);
        self.added(&before, state, told)
    }

    fn read(&self, state: &State, revision: u32, text: &mut [u8; 80]) -> Told {
        let told = Second.read(state, revision, text);
        match self.0 {
            Fault::TextPastReport if told.ending == 0 => text[told.told as usize] = 0,
            Fault::TextOfARefusal if told.ending != 0 => text[0] = b'l',
            Fault::RevisionZero if revision == 0 => {
                text[..5].copy_from_slice(b"law=0");
                return Told { ending: 0, told: 5 };
            }
            Fault::LastOfTwo if told.ending == 0 => {
                let mut turned = *state;
                for row in 0..8 {
                    turned[1 + 5 * row..6 + 5 * row].copy_from_slice(&state[36 - 5 * row..41 - 5 * row]);
                }
                return Second.read(&turned, revision, text);
            }
            _ => {}
        }
        told
    }

    fn wipe(&self, state: &mut State) -> Told {
        match self.0 {
            Fault::NumbersAgainAfterAWipe => *state = FRESH,
            Fault::WipeLeavesTheRows => (0..8).for_each(|row| state[1 + 5 * row] = 0),
            _ => return Second.wipe(state),
        }
        Told { ending: 0, told: 0 }
    }
}

/// The comparison finds a back end that is wrong in one way, on drawn lists, any cells and damaged texts.
#[test]
fn a_wrong_back_end_is_found() {
    for fault in FAULTS {
        let wrong = Wrong(fault);
        let mut keepers = Keepers::new(&wrong, &Second);
        let mut rng = Prng::new(135);
        for turn in 0..20_000 {
            let mut state = match turn % 3 {
                0 => some_cells(*rng.pick(&CELLS), &mut rng),
                _ => History::new(if turn % 2 == 0 { 0 } else { u32::MAX - 9 }).state(),
            };
            for _ in 0..rng.below(20) {
                let call = some_call(&state, &mut rng);
                keepers.call(&mut state, &call);
            }
            if keepers.differences > 0 {
                break;
            }
        }
        assert!(keepers.differences > 0, "{fault:?} was not found in {} calls", keepers.calls);
    }
    say(&format!("compared: settings, {} wrong back ends: each one found\n", FAULTS.len()));
}

/// Drawn texts are of both kinds, so drawn lists save and are refused.
#[test]
fn drawn_texts_are_of_both_kinds() {
    let mut rng = Prng::new(136);
    let mut kinds = [0; 2];
    (0..tenth(10_000)).for_each(|_| kinds[usize::from(values_of(&some_text(&mut rng)).is_some())] += 1);
    assert!(kinds.iter().all(|count| *count > NEED), "{kinds:?}");
}
