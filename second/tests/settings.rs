//! Settings, against a history of all that was ever saved.

use second::gen::Prng;
use second::settings::{back, read, save, wipe, State, FRESH};

const LINE: u32 = 23;
const GONE: u32 = 24;
const SPENT: u32 = 25;
const MOST: u32 = u32::MAX;

const T: &str = "law=1\nset=127\nblock=16384\ngreeting=0\n";

fn text_of(values: [u64; 4]) -> Vec<u8> {
    let [law, set, block, greeting] = values;
    format!("law={law}\nset={set}\nblock={block}\ngreeting={greeting}\n").into_bytes()
}

fn any_values(rng: &mut Prng) -> [u64; 4] {
    let edge = |rng: &mut Prng, least: usize, greatest: usize| match rng.below(4) {
        0 => least as u64,
        1 => greatest as u64,
        _ => (least + rng.below(greatest - least + 1)) as u64,
    };
    [edge(rng, 0, 1), edge(rng, 0, 255), edge(rng, 1, 1_048_576), edge(rng, 0, 65_535)]
}

/// Everything that was saved, by number, and where the last wipe was.
#[derive(Default)]
struct History {
    texts: Vec<Vec<u8>>,
    wiped: usize,
}

impl History {
    /// The numbers kept: the last eight that came after the wipe.
    fn kept(&self) -> std::ops::RangeInclusive<usize> {
        let last = self.texts.len();
        (self.wiped + 1).max((last + 1).saturating_sub(8))..=last
    }

    /// What was saved under a number, if it is kept.
    fn text(&self, revision: u32) -> Result<Vec<u8>, u32> {
        let revision = revision as usize;
        match self.kept().contains(&revision) {
            true => Ok(self.texts[revision - 1].clone()),
            false => Err(GONE),
        }
    }

    fn save(&mut self, text: Vec<u8>) -> u32 {
        self.texts.push(text);
        self.texts.len() as u32
    }
}

/// A state that calls left: empty places last and all 0, numbers rising.
fn check_left_state(state: &State, history: &History) {
    assert_eq!(state[0] as usize, history.texts.len());
    let kept: Vec<usize> = history.kept().collect();
    for (index, place) in state[1..].chunks_exact(5).enumerate() {
        match kept.get(index) {
            Some(&number) => assert_eq!(place[0] as usize, number),
            None => assert_eq!(place, [0; 5]),
        }
    }
}

/// How often each came: saves, going back, revisions gone, wipes.
type Counts = [u64; 4];

/// Any call, made on the state and on the history.
fn any_call(state: &mut State, history: &mut History, counts: &mut Counts, rng: &mut Prng) {
    let some = rng.below(history.texts.len() + 3) as u32;
    let came = match (rng.below(10), history.text(some)) {
        (0..=4, _) => {
            let text = text_of(any_values(rng));
            assert_eq!(save(state, &text), Ok(history.save(text)));
            0
        }
        (5..=8, Ok(text)) => {
            assert_eq!(back(state, some), Ok(history.save(text)));
            1
        }
        (5..=8, Err(refusal)) => {
            let before = *state;
            assert_eq!(back(state, some), Err(refusal));
            assert_eq!(*state, before);
            2
        }
        _ => {
            wipe(state);
            history.wiped = history.texts.len();
            3
        }
    };
    counts[came] += 1;
}

#[test]
fn any_calls_keep_what_was_saved() {
    let mut rng = Prng::new(1301);
    let (mut counts, mut reads) = ([0; 4], 0u64);
    for _ in 0..300 {
        let mut state = FRESH;
        let mut history = History::default();
        for _ in 0..rng.below(60) {
            any_call(&mut state, &mut history, &mut counts, &mut rng);
            check_left_state(&state, &history);
            for revision in 0..history.texts.len() as u32 + 3 {
                assert_eq!(read(&state, revision), history.text(revision));
                reads += 1;
            }
        }
    }
    println!("saves, backs, gone, wipes: {counts:?}, reads: {reads}");
    assert!(counts.iter().all(|&count| count > 100));
}

/// The lines by another way: split, then compared with what would be printed.
fn is_good(text: &[u8]) -> bool {
    let Ok(text) = std::str::from_utf8(text) else { return false };
    let mut numbers = vec![];
    for field in text.split_inclusive('\n') {
        let Some((_, digits)) = field.split_once('=') else { return false };
        let Ok(number) = digits.trim_end_matches('\n').parse::<u64>() else { return false };
        numbers.push(number);
    }
    let Ok(values) = <[u64; 4]>::try_from(numbers) else { return false };
    let [law, set, block, greeting] = values;
    text_of(values) == text.as_bytes()
        && law <= 1
        && set <= 255
        && (1..=1_048_576).contains(&block)
        && greeting <= 65_535
}

/// Saves a text over a state with something in it; checks what is left.
fn try_save(text: &[u8]) -> bool {
    let mut state = FRESH;
    save(&mut state, T.as_bytes()).unwrap();
    let before = state;
    match save(&mut state, text) {
        Ok(revision) => {
            assert_eq!(revision, 2);
            assert_eq!(read(&state, 2).unwrap(), text);
            assert_eq!(read(&state, 1).unwrap(), T.as_bytes());
            true
        }
        Err(refusal) => {
            assert_eq!((refusal, state), (LINE, before));
            false
        }
    }
}

#[test]
fn every_value_of_every_line() {
    let mut texts = [0u64; 2];
    let mut tries = |values: [u64; 4]| {
        let text = text_of(values);
        let good = try_save(&text);
        assert_eq!(good, is_good(&text), "{values:?}");
        texts[usize::from(good)] += 1;
    };
    let far = [1 << 32, (1 << 32) + 1, u64::from(MOST), u64::MAX];
    for law in (0..300).chain(far) {
        tries([law, 127, 16_384, 0]);
    }
    for set in (0..400).chain(far) {
        tries([0, set, 16_384, 0]);
    }
    for block in (0..3_000).chain(1_048_000..1_050_000).chain(far) {
        tries([1, 1, block, 65_535]);
    }
    for greeting in (0..70_000).chain(far) {
        tries([1, 0, 1, greeting]);
    }
    println!("texts refused and saved: {texts:?}");
}

#[test]
fn texts_of_another_form() {
    let mut rng = Prng::new(1302);
    let mut tried = [0u64; 2];
    for _ in 0..200_000 {
        let mut text = text_of(any_values(&mut rng));
        for _ in 0..rng.below(3) {
            if text.is_empty() {
                continue;
            }
            let at = rng.below(text.len());
            let octet = match rng.below(3) {
                0 => rng.octet(),
                1 => *rng.pick(b"0123456789"),
                _ => *rng.pick(b"=\n lawset+-"),
            };
            match rng.below(5) {
                0 => text[at] = octet,
                1 => text.insert(at, octet),
                2 => drop(text.remove(at)),
                3 => text.truncate(at),
                _ => text.push(octet),
            }
        }
        let good = try_save(&text);
        assert_eq!(good, is_good(&text), "{:?}", String::from_utf8_lossy(&text));
        tried[usize::from(good)] += 1;
    }
    println!("damaged texts refused and saved: {tried:?}");
    assert!(tried.iter().all(|&count| count > 10_000));
}

#[test]
fn lines_in_another_order_or_number() {
    let lines: Vec<&str> = T.split_inclusive('\n').collect();
    let mut saved = 0u64;
    let mut tried = 0u64;
    // Every list of up to five of the four lines.
    for count in 0..=5u32 {
        for index in 0..4usize.pow(count) {
            let text: String = (0..count).map(|at| lines[index / 4usize.pow(at) % 4]).collect();
            let good = try_save(text.as_bytes());
            assert_eq!(good, text == T);
            saved += u64::from(good);
            tried += 1;
        }
    }
    println!("lists of lines: {tried}, saved: {saved}");
    assert_eq!(saved, 1);
}

#[test]
fn the_readings_of_the_text() {
    for text in [
        &T[..T.len() - 1],
        &(T.to_string() + "\n"),
        &(T.to_string() + "\0"),
        &T.replace('\n', "\r\n"),
        &T.replace("law=1", "law=01"),
        &T.replace("law=1", "law="),
        &T.replace("law=1", "law= 1"),
        &T.replace("law=1", "law=+1"),
        &T.replace("law=1", "Law=1"),
        &T.replace("law=1", "law=4294967297"),
        &T.replace("law=1", "law=18446744073709551617"),
        &T.replace("law=1", &("law=1".to_string() + &"0".repeat(400))),
        &T.replace("block=16384", "block=0"),
        &T.replace("greeting=0", "greeting=00"),
        "",
    ] {
        assert!(!try_save(text.as_bytes()), "{text:?}");
    }
    for text in [T, &T.replace("set=127", "set=126"), &T.replace("set=127", "set=0"), &T.replace("127", "255")] {
        assert!(try_save(text.as_bytes()), "{text:?}");
    }
}

#[test]
fn line_and_gone_before_spent() {
    let mut state = FRESH;
    state[0] = MOST - 1;
    assert_eq!(save(&mut state, T.as_bytes()), Ok(MOST));
    let before = state;
    assert_eq!(save(&mut state, T.as_bytes()), Err(SPENT));
    assert_eq!(save(&mut state, b"law=2\n"), Err(LINE));
    assert_eq!(back(&mut state, MOST), Err(SPENT));
    assert_eq!(back(&mut state, 1), Err(GONE));
    assert_eq!(state, before);
    assert_eq!(read(&state, MOST).unwrap(), T.as_bytes());
    // A wipe does not start the numbering again.
    wipe(&mut state);
    assert_eq!((state[0], &state[1..]), (MOST, &[0; 40][..]));
    assert_eq!(save(&mut state, T.as_bytes()), Err(SPENT));
    assert_eq!(back(&mut state, MOST), Err(GONE));
}

#[test]
fn going_back_may_push_out_what_is_gone_back_to() {
    let mut state = FRESH;
    let texts: Vec<Vec<u8>> = (1..=8).map(|greeting| text_of([0, 1, 1, greeting])).collect();
    for (index, text) in texts.iter().enumerate() {
        assert_eq!(save(&mut state, text), Ok(index as u32 + 1));
    }
    assert_eq!(back(&mut state, 1), Ok(9));
    assert_eq!(read(&state, 1), Err(GONE));
    assert_eq!(read(&state, 9).as_ref(), Ok(&texts[0]));
    assert_eq!(back(&mut state, 1), Err(GONE));
    assert_eq!(back(&mut state, 9), Ok(10));
    assert_eq!(read(&state, 2), Err(GONE));
    assert_eq!(read(&state, 10).as_ref(), Ok(&texts[0]));
}

#[test]
fn a_wipe_leaves_the_numbering_running() {
    let mut state = FRESH;
    for number in 1..=3 {
        assert_eq!(save(&mut state, T.as_bytes()), Ok(number));
    }
    wipe(&mut state);
    for revision in 0..=4 {
        assert_eq!(read(&state, revision), Err(GONE));
        assert_eq!(back(&mut state, revision), Err(GONE));
    }
    assert_eq!(save(&mut state, T.as_bytes()), Ok(4));
    assert_eq!(read(&FRESH, 0), Err(GONE));
}

/// The places of a state whose number is not 0, in their order.
fn rows(state: &State) -> Vec<[u32; 5]> {
    let places = state[1..].chunks_exact(5);
    let all = places.map(|place| <[u32; 5]>::try_from(place).unwrap());
    all.filter(|place| place[0] != 0).collect()
}

/// The values of the first place with this number, which must not be 0.
fn meant(state: &State, revision: u32) -> Option<[u32; 4]> {
    let row = rows(state).into_iter().find(|row| row[0] == revision)?;
    Some([row[1], row[2], row[3], row[4]])
}

/// What a call that adds a revision must leave, and what it must answer.
fn added(state: &State, values: [u32; 4]) -> (State, Result<u32, u32>) {
    let Some(number) = state[0].checked_add(1) else { return (*state, Err(SPENT)) };
    let mut kept = rows(state);
    let [law, set, block, greeting] = values;
    kept.push([number, law, set, block, greeting]);
    let newest = kept[kept.len().saturating_sub(8)..].concat();
    let mut after = FRESH;
    after[0] = number;
    after[1..1 + newest.len()].copy_from_slice(&newest);
    (after, Ok(number))
}

fn any_cells(few: usize, rng: &mut Prng) -> State {
    std::array::from_fn(|_| match rng.below(3) {
        0 => rng.next_u64() as u32,
        1 => MOST,
        _ => rng.below(few) as u32,
    })
}

#[test]
fn any_cells_are_a_state() {
    let mut rng = Prng::new(1303);
    let (mut calls, mut longest) = (0u64, 0);
    for _ in 0..50_000 {
        let few = 1 + rng.below(9);
        let state = any_cells(few, &mut rng);
        let revision = if rng.flip() { rng.below(few) as u32 } else { MOST };
        let values = meant(&state, revision);

        let text = read(&state, revision);
        assert_eq!(text, values.map(|values| text_of(values.map(u64::from))).ok_or(GONE));
        longest = longest.max(text.map_or(0, |text| text.len()));

        let mut after = state;
        let answer = save(&mut after, T.as_bytes());
        assert_eq!((after, answer), added(&state, [1, 127, 16_384, 0]));

        let mut after = state;
        let answer = back(&mut after, revision);
        let wanted = values.map_or((state, Err(GONE)), |values| added(&state, values));
        assert_eq!((after, answer), wanted);

        let mut after = state;
        wipe(&mut after);
        assert_eq!((after[0], &after[1..]), (state[0], &[0; 40][..]));
        calls += 4;
    }
    println!("calls over any cells: {calls}, longest text: {longest} octets");
    assert_eq!(longest, 67);
}
