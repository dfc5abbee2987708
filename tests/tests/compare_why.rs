//! Why this tool (document 02, R-10): the proved code, through the static library, against the second program, and both
//! against what the proved writer writes.

use second::gen::{all_kinds, make_frame, sample_of, Kind, Miss, Pattern, Prng, RANGES};
use tests::digits::{self, some_numbers, Digits, TABLE};
use tests::forms::LENGTHS;
use tests::frames::{even_frame, few_frame, located_frame, near_tie_frame, scattered, SINGLE};
use tests::settings::Told;
use tests::why::{script, Explains, Reasons, Said, State, LENT};
use tests::{goes_on, odd_set, say, set_of, share, tenths, vectors, Call, Proved, Second, Table, ALL_TOOLS, TOOLS};

const ROOM: u32 = 4;
const LENGTH: u32 = 10;
const SET: u32 = 11;
const LAW: u32 = 12;
/// What a cell of a table needs.
const NEED: usize = share(1_000);
/// Frames that all 128 sets are asked of.
const FRAMES: usize = 5_000;

/// The odd sets.
fn odd_sets() -> impl Iterator<Item = u32> {
    (1..=ALL_TOOLS).step_by(2)
}

/// Vectors worked out by hand, on the back ends side by side.
#[test]
fn lines_worked_out_by_hand() {
    let lines = script(include_str!("../vectors/why.txt")).unwrap();
    let mut reasons = Reasons::new(&Proved, &Second);
    let mut accepted = 0;
    for line in &lines {
        match &line.wanted {
            Err(ending) => reasons.refused(&line.samples, line.law, line.set, *ending),
            Ok(wanted) => {
                let said = reasons.said(&line.samples, line.law, line.set);
                assert_eq!(said.as_ref(), Some(wanted), "{}", line.name);
                accepted += 1;
            }
        }
    }
    reasons.close();
    say(&format!("compared: why, vectors: {accepted} accepted, {} refused\n", lines.len() - accepted));
    assert!(accepted >= 30 && lines.len() - accepted >= 9);
}

#[test]
fn a_faulty_vector_is_refused() {
    for bad in [
        "why x samples=FF*40",
        "whi x samples=FF*40 -> LAW",
        "why x samples=FF*40 -> ok",
        "why x samples=FF*40 -> ok 41 1 no1 2 6 2 no1 out winner=2",
        "why x samples=FF*40 -> ok 41 1 no1 2 6 2 no1 winner=2 by=octets",
        "why x samples=FF*40 -> ok 41 1 no1 2 6 2 no1 out winner=2 by=luck",
        "why x samples=FF*40 room=3 -> LAW",
        "why x samples=FF*40 -> fine",
    ] {
        assert!(script(bad).is_err(), "{bad}");
    }
}

/// Every vector of writing: the same tool and octets, the same refusal, and no room to be short of.
#[test]
fn every_vector_of_writing() {
    let mut reasons = Reasons::new(&Proved, &Second);
    let mut endings = [0; 2];
    for text in [
        include_str!("../vectors/usual.txt"),
        include_str!("../vectors/unusual.txt"),
        include_str!("../vectors/faulty.txt"),
        include_str!("../vectors/open-points.txt"),
        include_str!("../vectors/fractional.txt"),
    ] {
        for vector in vectors(text).unwrap() {
            let Call::Write(ask, wanted, _) = vector.call else { continue };
            if wanted.ending != 0 && wanted.ending != ROOM {
                reasons.refused(&ask.given, ask.law, ask.set, wanted.ending);
                endings[1] += 1;
                continue;
            }
            let said = reasons.said(&ask.given, ask.law, ask.set).expect(&vector.name);
            if wanted.ending == 0 {
                assert_eq!(said.winner, wanted.tool as usize, "{}", vector.name);
                let octets = said.state(said.winner).unwrap_or(State::Fits(1));
                assert_eq!(octets, State::Fits(wanted.octets), "{}", vector.name);
            }
            endings[0] += 1;
        }
    }
    reasons.close();
    say(&format!("compared: why, vectors of writing: {} accepted, {} refused\n", endings[0], endings[1]));
    assert!(endings[0] >= 110 && endings[1] >= 15, "{endings:?}");
}

/// A frame that one tool or another is for, or one that just is not.
fn some_frame(length: usize, law: u32, kinds: &[Kind], rng: &mut Prng) -> Vec<u8> {
    match rng.below(8) {
        0 => make_frame(*rng.pick(&SINGLE), length, law, rng),
        1 => make_frame(Kind::TwoZeros(scattered(rng)), length, law, rng),
        2 => located_frame(length, law, rng),
        3 => even_frame(length, law, rng),
        4 => few_frame(length, law, rng),
        5 => near_tie_frame(length, law, rng),
        6 => make_frame(Kind::Digits { row: rng.below(12), one_in: 1 + rng.below(4) }, length, law, rng),
        _ => make_frame(*rng.pick(kinds), length, law, rng),
    }
}

/// All 128 odd sets; who wins, and by what. Only constant and binary are ever met by another tool, Rice, and value-location by tool 11.
#[test]
fn every_set() {
    let mut reasons = Reasons::new(&Proved, &Second);
    let mut table = Table::new("why, all 128 sets, by winner", &TOOLS, &["octets", "tie"], NEED);
    [1, 2, 3, 6, 11].iter().for_each(|winner| table.never(winner, "tie"));
    // Rice has 2 octets in 40 equal zeros alone.
    table.needs(4, "tie", share(400));
    let kinds = all_kinds();
    let mut rng = Prng::new(101);
    let mut frames = 0;
    while goes_on(frames, share(FRAMES), FRAMES, || table.faults().is_empty()) {
        let (length, law) = (LENGTHS[frames % 5], (frames / 5 % 2) as u32);
        frames += 1;
        let samples = some_frame(length, law, &kinds, &mut rng);
        for set in odd_sets() {
            if let Some(said) = reasons.said(&samples, law, set) {
                table.add(said.winner, if said.tie { "tie" } else { "octets" });
            }
        }
    }
    table.close();
    reasons.close();
    say(&format!("compared: why, all 128 sets: {frames} frames, {} calls\n", reasons.calls));
}

/// Every kind of frame at every length and law, with all tools and with a set that is drawn.
#[test]
fn every_kind_of_frame() {
    let mut reasons = Reasons::new(&Proved, &Second);
    let mut rng = Prng::new(102);
    for kind in tenths(all_kinds()) {
        for length in LENGTHS {
            for law in 0..2 {
                let samples = make_frame(kind, length, law, &mut rng);
                reasons.said(&samples, law, ALL_TOOLS);
                reasons.said(&samples, law, odd_set(&mut rng));
            }
        }
    }
    reasons.close();
    say(&format!("compared: why, every kind of frame: {} calls\n", reasons.calls));
}

fn samples_of(numbers: &[i32], law: u32) -> Vec<u8> {
    numbers.iter().map(|number| sample_of(*number, law)).collect()
}

/// Ways to fit a tool, or to fail one of its conditions.
const WAYS: [(usize, &str, State); 25] = [
    (1, "any frame", State::Fits(0)),
    (2, "all plus", State::Fits(1)),
    (2, "one other sample", State::No(1)),
    (2, "all minus", State::No(1)),
    (3, "all minus", State::Fits(1)),
    (3, "one other sample", State::No(1)),
    (3, "all plus", State::No(1)),
    (4, "equal samples", State::Fits(2)),
    (4, "one other sample", State::No(1)),
    (5, "the two zeros", State::Fits(0)),
    (5, "one other sample", State::No(1)),
    (6, "the two zeros", State::Fits(0)),
    (6, "one other sample", State::No(1)),
    (7, "40 samples", State::No(1)),
    (7, "40 samples, no row, 0 rare", State::No(1)),
    (7, "no row", State::No(2)),
    (7, "no row, 0 rare", State::No(2)),
    (7, "-2 and 1 in 80 or 160", State::No(2)),
    (7, "0 rare", State::No(3)),
    (7, "a row, 0 as frequent", State::Fits(0)),
    (11, "a row", State::Fits(0)),
    (11, "a row, 0 rare", State::Fits(0)),
    (11, "no row of this length", State::No(1)),
    (11, "no row at all", State::No(1)),
    (11, "equal samples", State::No(1)),
];

/// A frame made for a way; none where its length has none.
fn made(tool: usize, way: &str, length: usize, law: u32, rng: &mut Prng) -> Option<Vec<u8>> {
    let somewhere = rng.below(length);
    let (short, long) = (length == 40, length >= 240);
    let one_other = |mut numbers: Vec<i32>, rng: &mut Prng, other: &[i32]| {
        numbers[somewhere] = *rng.pick(other);
        samples_of(&numbers, law)
    };
    Some(match (tool, way) {
        (1, _) => rng.octets(length),
        (_, "all plus") => samples_of(&vec![0; length], law),
        (_, "all minus") => samples_of(&vec![-1; length], law),
        (2, _) => one_other(vec![0; length], rng, &[-1, 1, -2, 127, -128]),
        (3, _) => one_other(vec![-1; length], rng, &[0, 1, -2, 127, -128]),
        (4 | 11, "equal samples") => vec![rng.octet(); length],
        (11, way) => return digits_for(way, length, law, rng),
        (4, _) => {
            let octet = rng.octet();
            let mut samples = vec![octet; length];
            samples[somewhere] = octet ^ (1 << rng.below(8));
            samples
        }
        (5 | 6, "the two zeros") => make_frame(Kind::TwoZeros(*rng.pick(Pattern::ALL)), length, law, rng),
        (5 | 6, _) => {
            let miss = *rng.pick(&[Miss::ZerosAndOneMore, Miss::ZerosAndOneFar]);
            make_frame(Kind::NearMiss(miss), length, law, rng)
        }
        (7, "40 samples") if short => few_frame(length, law, rng),
        (7, "40 samples, no row, 0 rare") if short => samples_of(&vec![*rng.pick(&[5, -7, 1]); 40], law),
        _ if short => return None,
        (7, "no row") => {
            // 0 is the commonest, and the least or the greatest is no row's.
            let others = *rng.pick(&[&[-1][..], &[2], &[-3], &[1, -3], &[-1, 2], &[]]);
            let mut numbers = vec![0; length];
            others.iter().for_each(|other| {
                let first = rng.below(length / 3);
                (0..1 + rng.below(length / 6)).for_each(|at| numbers[first + at] = *other);
            });
            if others.len() == 2 {
                (numbers[length - 2], numbers[length - 1]) = (others[0], others[1]);
            }
            samples_of(&numbers, law)
        }
        (7, "no row, 0 rare") => make_frame(Kind::NearMiss(Miss::NoRow), length, law, rng),
        (7, "-2 and 1 in 80 or 160") if !long => make_frame(Kind::NearMiss(Miss::WideRange), length, law, rng),
        (7, "0 rare") => {
            let miss = *rng.pick(&[Miss::ZeroNotCommonest, Miss::NoZero]);
            let samples = make_frame(Kind::NearMiss(miss), length, law, rng);
            row_of(&samples, law, length).then_some(samples)?
        }
        (7, "a row, 0 as frequent") => {
            let samples = make_frame(Kind::NearMiss(Miss::ZeroAsCommon), length, law, rng);
            row_of(&samples, law, length).then_some(samples)?
        }
        _ => return None,
    })
}

/// A frame that a row of tool 11 is for, or just is not.
fn digits_for(way: &str, length: usize, law: u32, rng: &mut Prng) -> Option<Vec<u8>> {
    let there = |row: &&Digits| row.first(length).is_some() != (way == "no row of this length");
    let able: Vec<&Digits> = TABLE.iter().filter(there).collect();
    if way == "no row at all" {
        return Some(make_frame(Kind::NearMiss(Miss::NoDigits), length, law, rng));
    }
    let row = *able.get(rng.below(able.len().max(1)))?;
    let mut numbers = some_numbers(row, digits::WAYS[0], length, rng)?;
    if way == "a row, 0 rare" {
        let other = if row.greatest() > 0 { row.greatest() } else { row.least() };
        numbers.iter_mut().filter(|number| **number == 0).for_each(|number| *number = other);
        numbers[0] = row.least();
        numbers[1] = row.greatest();
    }
    let known = digits::row_of(&numbers);
    let wanted = way != "no row of this length";
    (known.is_some() == wanted).then(|| samples_of(&numbers, law))
}

/// Whether least and greatest are a row's, and N fits it.
fn row_of(samples: &[u8], law: u32, length: usize) -> bool {
    let numbers = tests::measure::numbers(samples, law);
    let ends = (*numbers.iter().min().unwrap(), *numbers.iter().max().unwrap());
    RANGES.contains(&ends) && (ends != RANGES[0] || length >= 240)
}

/// Frames that fit each tool or fail each of its conditions, several at once among them: what is said is known.
#[test]
fn every_condition_of_every_tool() {
    let mut reasons = Reasons::new(&Proved, &Second);
    let names = WAYS.map(|(tool, way, state)| format!("tool {tool}, {way}: {}", word(state)));
    let mut table = Table::new("why, frames by tool, condition and length", &names, &LENGTHS, NEED);
    let mut rng = Prng::new(103);
    for ((tool, way, wanted), name) in WAYS.iter().zip(&names) {
        for length in LENGTHS {
            let mut met = 0;
            for turn in 0..3 * NEED {
                if met == NEED {
                    break;
                }
                let law = (turn % 2) as u32;
                let Some(samples) = made(*tool, way, length, law, &mut rng) else { continue };
                let set = odd_set(&mut rng) | set_of(*tool as u32);
                let Some(said) = reasons.said(&samples, law, set) else { continue };
                let state = said.state(*tool).expect("the tool has a line");
                // 0 stands for octets that are not known here.
                if state != *wanted && !matches!((state, wanted), (State::Fits(_), State::Fits(0))) {
                    reasons.differ(&samples, law, set, &format!("{way}: {state:?}, wanted {wanted:?}"));
                }
                table.add(name, length);
                met += 1;
            }
            if met == 0 {
                table.never(name, length);
            }
        }
    }
    table.close();
    reasons.close();
    assert!(table.sum() >= 80 * NEED, "{} frames", table.sum());
    say(&format!("compared: why, every condition of every tool: {} calls\n", reasons.calls));
}

fn word(state: State) -> String {
    match state {
        State::Out => "out".into(),
        State::No(why) => format!("no {why}"),
        State::Fits(_) => "fits".into(),
    }
}

/// No samples, with all 128 sets; each refusal, in its order, at every length to 700.
#[test]
fn no_samples_and_refusals() {
    let mut reasons = Reasons::new(&Proved, &Second);
    for set in odd_sets() {
        for law in 0..2 {
            let said = reasons.said(&[], law, set).expect("no samples are a frame");
            assert_eq!((said.winner, said.tie), (0, false));
        }
    }
    let empty = reasons.calls;
    let mut rng = Prng::new(104);
    let mut refused = [0; 3];
    for length in (0..=700).chain([65_535, 65_536, 131_392]) {
        let samples = rng.octets(length);
        let frame = length == 0 || LENGTHS.contains(&length);
        for law in [0, 1, 2, 255, u32::MAX] {
            for set in [1, 127, 129, 255, 0, 126, 128, 254, 256, 257, u32::MAX] {
                let ending = match (law > 1, set > ALL_TOOLS || set % 2 == 0, frame) {
                    (true, ..) => LAW,
                    (_, true, _) => SET,
                    (_, _, false) => LENGTH,
                    _ => continue,
                };
                reasons.refused(&samples, law, set, ending);
                refused[(ending - LENGTH) as usize] += 1;
            }
        }
    }
    reasons.close();
    let [length, set, law] = refused;
    say(&format!("compared: why, no samples: {empty} calls; refused: LENGTH {length}, SET {set}, LAW {law}\n"));
    assert!(refused.iter().all(|count| *count >= 1_000), "{refused:?}");
}

/// The second program, wrong in one way.
#[derive(Clone, Copy, Debug)]
enum Fault {
    TieOfOthers,
    TieNeverTold,
    TieBelowOnly,
    FrequencyBeforeRow,
    LengthOfARowFirst,
    OutShownAsFits,
    OutShownAsNo,
    OctetsOneMore,
    WinnerByOrder,
    NoSamplesFit,
    NoLastEnd,
    TextPastReport,
    SetBeforeLaw,
    LengthBeforeSet,
    EvenSet,
    TextOfARefusal,
    ReportOfARefusal,
    NoLineOfTool11,
    Tool11NamedEight,
    Tool11WinsTies,
    Tool11WithSet127,
    Tool11SecondCondition,
    Tool11WithoutItsFirstOctet,
    NoRowOfZeroAndOne,
    OldSets,
}

const FAULTS: [Fault; 25] = [
    Fault::TieOfOthers,
    Fault::TieNeverTold,
    Fault::TieBelowOnly,
    Fault::FrequencyBeforeRow,
    Fault::LengthOfARowFirst,
    Fault::OutShownAsFits,
    Fault::OutShownAsNo,
    Fault::OctetsOneMore,
    Fault::WinnerByOrder,
    Fault::NoSamplesFit,
    Fault::NoLastEnd,
    Fault::TextPastReport,
    Fault::SetBeforeLaw,
    Fault::LengthBeforeSet,
    Fault::EvenSet,
    Fault::TextOfARefusal,
    Fault::ReportOfARefusal,
    Fault::NoLineOfTool11,
    Fault::Tool11NamedEight,
    Fault::Tool11WinsTies,
    Fault::Tool11WithSet127,
    Fault::Tool11SecondCondition,
    Fault::Tool11WithoutItsFirstOctet,
    Fault::NoRowOfZeroAndOne,
    Fault::OldSets,
];

struct Wrong(Fault);

impl Wrong {
    fn turned(&self, mut said: Said, samples: &[u8], law: u32) -> Said {
        let sizes = |said: &Said| -> Vec<usize> {
            said.states
                .iter()
                .filter_map(|state| if let State::Fits(octets) = state { Some(*octets) } else { None })
                .collect()
        };
        match self.0 {
            Fault::TieOfOthers => {
                let mut all = sizes(&said);
                all.sort();
                said.tie = all.windows(2).any(|two| two[0] == two[1]);
            }
            Fault::TieNeverTold => said.tie = false,
            Fault::TieBelowOnly => said.tie = said.tie && said.winner != 4,
            Fault::FrequencyBeforeRow if said.states[6] == State::No(2) => {
                let numbers = tests::measure::numbers(samples, law);
                let count = |value: i32| numbers.iter().filter(|number| **number == value).count();
                if (-128..=127).any(|value| count(value) > count(0)) {
                    said.states[6] = State::No(3);
                }
            }
            Fault::LengthOfARowFirst if said.states[6] == State::No(2) && samples.len() < 240 => {
                said.states[6] = State::No(1);
            }
            Fault::OutShownAsFits if said.states[4] == State::Out => {
                said.states[4] = State::Fits(1 + samples.len() / 8)
            }
            Fault::OutShownAsNo if said.states[6] == State::Out => said.states[6] = State::No(1),
            Fault::OctetsOneMore => {
                if let State::Fits(octets) = &mut said.states[6] {
                    *octets += usize::from(*octets > 30);
                }
            }
            Fault::WinnerByOrder if said.tie => said.winner = 6,
            Fault::NoSamplesFit if samples.is_empty() => said.states[0] = State::Fits(1),
            Fault::Tool11WinsTies if said.tie && said.winner == 7 => said.winner = 11,
            Fault::Tool11SecondCondition if said.states[7] == State::No(1) => said.states[7] = State::No(2),
            Fault::Tool11WithoutItsFirstOctet => {
                if let State::Fits(octets) = &mut said.states[7] {
                    *octets -= 1;
                }
            }
            Fault::NoRowOfZeroAndOne => {
                let numbers = tests::measure::numbers(samples, law);
                if said.states[7] != State::Out && numbers.iter().all(|number| [0, 1].contains(number)) {
                    said.states[7] = State::No(1);
                }
            }
            _ => {}
        }
        said
    }
}

impl Explains for Wrong {
    fn why(&self, samples: &[u8], law: u32, set: u32, text: &mut [u8; LENT]) -> Told {
        match self.0 {
            Fault::SetBeforeLaw if set % 2 == 0 => return Told::refused(SET),
            Fault::LengthBeforeSet if law < 2 && samples.len() % 40 != 0 => return Told::refused(LENGTH),
            Fault::EvenSet if set == 126 => return self.why(samples, law, 127, text),
            Fault::Tool11WithSet127 if set == 127 => return self.why(samples, law, ALL_TOOLS, text),
            Fault::OldSets if law < 2 && (128..256).contains(&set) => return Told::refused(SET),
            _ => {}
        }
        let lent = text[LENT - 1];
        let mut told = Second.why(samples, law, set, text);
        if told.ending != 0 {
            match self.0 {
                Fault::TextOfARefusal => text[0] = b't',
                Fault::ReportOfARefusal if told.ending == LENGTH => told.told = 1,
                _ => {}
            }
            return told;
        }
        let mut said = Said::of(&text[..told.told as usize]).expect("the second program's lines");
        said = self.turned(said, samples, law);
        let said = said.text();
        let mut lines = match self.0 {
            Fault::NoLineOfTool11 => said.split_inclusive('\n').filter(|line| !line.starts_with("tool=11")).collect(),
            Fault::Tool11NamedEight => said.replace("tool=11", "tool=8"),
            _ => said,
        }
        .into_bytes();
        text.fill(lent);
        if matches!(self.0, Fault::NoLastEnd) {
            lines.pop();
        }
        text[..lines.len()].copy_from_slice(&lines);
        if matches!(self.0, Fault::TextPastReport) {
            text[lines.len()] = 0;
        }
        Told { ending: 0, told: lines.len() as u64 }
    }
}

/// The comparison finds a back end that is wrong in one way.
#[test]
fn a_wrong_back_end_is_found() {
    let kinds = all_kinds();
    for fault in FAULTS {
        let wrong = Wrong(fault);
        let mut reasons = Reasons::new(&wrong, &Second);
        let mut rng = Prng::new(105);
        for turn in 0..20_000 {
            let law = if turn % 50 == 0 { 2 } else { (turn % 2) as u32 };
            let drawn = if turn % 7 == 2 { 127 } else { odd_set(&mut rng) };
            let set = if turn % 7 == 1 { *rng.pick(&[0, 126, 128, 256, 257, u32::MAX]) } else { drawn };
            let mut samples = some_frame(LENGTHS[turn % 5], law.min(1), &kinds, &mut rng);
            match rng.below(40) {
                0 => samples.clear(),
                1 => drop(samples.pop()),
                _ => {}
            }
            reasons.call(&samples, law, set);
            if reasons.differences > 0 {
                break;
            }
        }
        assert!(reasons.differences > 0, "{fault:?} was not found in {} calls", reasons.calls);
    }
    say(&format!("compared: why, {} wrong back ends: each one found\n", FAULTS.len()));
}
