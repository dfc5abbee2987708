//! A larger tool set never costs room: every frame written with all 128 odd sets, through the static library and by the second
//! program, and every pair of them, one within the other, compared.

#![cfg(feature = "writer")]

use second::gen::{make_frame, Kind, Miss, Often, Pattern, Prng};
use std::iter::repeat_with;
use tests::forms::LENGTHS;
use tests::frames::{even_frame, few_frame, located_frame, near_tie_frame};
use tests::wrong::Wrong;
use tests::{say, set_of, share, Ask, Codec, Pair, Proved, Read, Second, Table, Walk, Write, ALL_TOOLS, TOOLS};

/// The greatest form.
const MOST: usize = 321;
/// Frames of each kind, length and law.
const FRAMES: usize = share(24);
/// Pairs wanted in a cell.
const PAIRS: usize = share(1_000);
/// Lists of frames, and the frames of the longest.
const LISTS: usize = share(500);
const LONGEST: usize = 60;

/// All 128 odd sets.
fn sets() -> impl Iterator<Item = u32> {
    (1..=ALL_TOOLS).step_by(2)
}

/// Every pair of odd sets of which the first lies within the second: tool 1 is in both, and each of the other seven is in
/// both, in the second alone, or in neither.
fn pairs() -> Vec<(u32, u32)> {
    let pairs: Vec<_> = sets().flat_map(|b| sets().filter(move |a| a & !b == 0).map(move |a| (a, b))).collect();
    assert_eq!(pairs.len(), 3usize.pow(7));
    pairs
}

/// Frames that each tool is for; of no samples there is one.
fn frames(length: usize, law: u32, rng: &mut Prng) -> Vec<Vec<u8>> {
    if length == 0 {
        return vec![Vec::new()];
    }
    let (few, many) = (Often::Times(3), Often::OneIn(5));
    let mut kinds = vec![Kind::RandomOctets, Kind::Constant, Kind::AllPlus, Kind::AllMinus];
    kinds.extend([Pattern::Half, Pattern::Exactly(2), Pattern::Every(2), Pattern::AllButLast].map(Kind::TwoZeros));
    for case in 0..4 {
        kinds.push(Kind::Range { case, ones: few, minus_ones: few, minus_twos: few });
        kinds.push(Kind::Range { case, ones: many, minus_ones: many, minus_twos: many });
    }
    kinds.extend([Miss::ZeroAsCommon, Miss::DigitsAndOneMore].map(Kind::NearMiss));
    kinds.extend([0, 1, 3].map(|row| Kind::Digits { row, one_in: 1 }));
    kinds.push(Kind::Digits { row: 3 + rng.below(9), one_in: 2 });
    let mut frames = Vec::new();
    for _ in 0..FRAMES {
        frames.extend(kinds.iter().map(|kind| make_frame(*kind, length, law, rng)));
        frames.extend([few_frame, even_frame, located_frame, near_tie_frame].map(|draw| draw(length, law, rng)));
    }
    frames
}

/// A frame with its form of each odd set.
struct Written {
    frame: Vec<u8>,
    law: u32,
    /// By the set, halved.
    forms: Vec<(Write, Vec<u8>)>,
}

impl Written {
    fn of(pair: &mut Pair, frame: Vec<u8>, law: u32) -> Written {
        let mut forms = Vec::new();
        for set in sets() {
            let ask = Ask { given: frame.clone(), law, set, room: MOST };
            let wrote = pair.write(&ask);
            if wrote.ending != 0 {
                pair.differ("write", &ask, &format!("{wrote:?}"));
            }
            forms.push((wrote, pair.output().to_vec()));
        }
        Written { frame, law, forms }
    }

    fn with(&self, set: u32) -> &(Write, Vec<u8>) {
        &self.forms[set as usize / 2]
    }

    fn octets(&self, set: u32) -> usize {
        self.with(set).0.octets
    }

    fn ask(&self, set: u32, room: usize) -> Ask {
        Ask { given: self.frame.clone(), law: self.law, set, room }
    }
}

/// What the pairs of sets have shown.
struct Shown {
    /// By how many tools more.
    fewer: Table,
    /// By the one tool more, where it wins.
    wins: Table,
    /// By the one tool more, where another still does.
    loses: Table,
}

impl Shown {
    fn new() -> Shown {
        let (more, tools): (Vec<u32>, Vec<u32>) = ((0..=7).collect(), TOOLS[1..].to_vec());
        let lengths: Vec<usize> = [0].into_iter().chain(LENGTHS).collect();
        let mut fewer = Table::new(
            "pairs of nested sets, by tools more",
            &more,
            &["fewer octets", "as many", "more octets"],
            PAIRS,
        );
        fewer.never(0, "fewer octets");
        // One pair of sets, 1 and 255.
        fewer.needs(7, "as many", share(400));
        more.iter().for_each(|more| fewer.never(more, "more octets"));
        let mut wins = Table::new("sets with one tool more: that tool wins, by length", &tools, &lengths, PAIRS);
        tools.iter().for_each(|tool| wins.never(tool, 0));
        wins.never(7, 40);
        let mut loses = Table::new("sets with one tool more: the form stays, by length", &tools, &lengths, PAIRS);
        // One frame of no samples with each law, and 64 pairs of sets.
        tools.iter().for_each(|tool| loses.needs(tool, 0, 128));
        Shown { fewer, wins, loses }
    }

    /// Two sets, one within the other, on one frame: the larger set's form is no longer, and room for the smaller's is enough.
    fn pair(&mut self, pair: &mut Pair, written: &Written, (a, b): (u32, u32)) {
        let (small, large) = (written.octets(a), written.octets(b));
        let more = (b & !a).count_ones();
        let column = match large.cmp(&small) {
            std::cmp::Ordering::Less => "fewer octets",
            std::cmp::Ordering::Equal => "as many",
            std::cmp::Ordering::Greater => "more octets",
        };
        self.fewer.add(more, column);
        let ask = written.ask(b, small);
        let got = pair.write(&ask);
        let (wrote, form) = written.with(b);
        if got != *wrote || pair.output() != form {
            pair.differ("room for the smaller set's form", &ask, &format!("{got:?}, wanted {wrote:?}"));
        }
        if more == 1 {
            self.one_more(pair, written, a, b);
        }
    }

    /// A set with exactly one tool more: another form exactly where that tool wins.
    fn one_more(&mut self, pair: &mut Pair, written: &Written, a: u32, b: u32) {
        let tool = TOOLS[(b & !a).trailing_zeros() as usize];
        let wins = written.with(b).0.tool == tool;
        if (written.with(a).1 != written.with(b).1) != wins {
            let said = format!("tool {} with set {a}, {:?} with set {b}", written.with(a).0.tool, written.with(b).0);
            pair.differ("one tool more", &written.ask(b, MOST), &said);
        }
        let table = if wins { &mut self.wins } else { &mut self.loses };
        table.add(tool, written.frame.len());
    }

    fn close(&self) {
        let tables = [&self.fewer, &self.wins, &self.loses];
        say(&tables.map(Table::text).concat());
        let faults: Vec<String> = tables.iter().flat_map(|table| table.faults()).collect();
        assert!(faults.is_empty(), "{}", faults.join("\n"));
    }
}

/// All frames, of all lengths and both laws, each written with every odd set.
fn all_written(pair: &mut Pair, rng: &mut Prng) -> Vec<Written> {
    let mut all = Vec::new();
    for length in [0].into_iter().chain(LENGTHS) {
        for law in [0, 1] {
            all.extend(frames(length, law, rng).into_iter().map(|frame| Written::of(pair, frame, law)));
        }
    }
    all
}

#[test]
fn a_larger_set_never_costs_room() {
    let mut pair = Pair::new(&Proved, &Second);
    let mut rng = Prng::new(61);
    let all = all_written(&mut pair, &mut rng);
    let pairs = pairs();
    let mut shown = Shown::new();
    for written in &all {
        for two in &pairs {
            shown.pair(&mut pair, written, *two);
        }
    }
    shown.close();
    let sums = sums_over_lists(&mut pair, &all, &pairs, &mut rng);
    say(&format!(
        "compared: write, {} pairs of nested odd sets on {} frames: {} pairs, {sums} sums over {LISTS} lists, {} calls\n",
        pairs.len(),
        all.len(),
        shown.fewer.sum(),
        pair.calls
    ));
    pair.close();
}

/// Lists of frames, each with every pair of sets, and with a pair of its own for each frame. Gives the number of sums.
fn sums_over_lists(pair: &mut Pair, all: &[Written], pairs: &[(u32, u32)], rng: &mut Prng) -> usize {
    let mut sums = 0;
    for turn in 0..LISTS {
        let count = 1 + rng.below(LONGEST);
        let law = turn as u32 % 2;
        let list: Vec<&Written> = repeat_with(|| rng.pick(all)).filter(|one| one.law == law).take(count).collect();
        let sum = |set: u32| list.iter().map(|one| one.octets(set)).sum::<usize>();
        for (a, b) in pairs {
            sums += 1;
            assert!(sum(*b) <= sum(*a), "list {turn}: {} octets with set {b}, {} with set {a}", sum(*b), sum(*a));
        }
        let own: Vec<(u32, u32)> = list.iter().map(|_| *rng.pick(pairs)).collect();
        let [small, large] = [0, 1].map(|which| {
            let set = |two: &(u32, u32)| [two.0, two.1][which];
            list.iter().zip(&own).flat_map(|(one, two)| one.with(set(two)).1.clone()).collect::<Vec<u8>>()
        });
        sums += 1;
        assert!(large.len() <= small.len(), "list {turn}, each frame with sets of its own");
        for stream in [small, large] {
            walk_back(pair, &list, stream, law);
        }
    }
    sums
}

/// What was written of a list is walked back to its frames.
fn walk_back(pair: &mut Pair, list: &[&Written], stream: Vec<u8>, law: u32) {
    let samples: Vec<u8> = list.iter().flat_map(|one| one.frame.clone()).collect();
    let ask = Ask { given: stream, law, set: ALL_TOOLS, room: samples.len() };
    let got = pair.walk(&ask);
    if (got.ending, got.frames, got.octets) != (0, list.len(), ask.given.len()) || pair.output() != samples {
        pair.differ("walk back", &ask, &format!("{got:?}"));
    }
}

/// A writer that takes the first tool that applies, in the tie order, and weighs no octets.
struct First;

impl Codec for First {
    fn name(&self) -> &str {
        "first"
    }

    fn read(&self, octets: &[u8], law: u32, set: u32, out: &mut [u8]) -> Read {
        Second.read(octets, law, set, out)
    }

    fn write(&self, samples: &[u8], law: u32, set: u32, out: &mut [u8]) -> Write {
        let alone = |tool: &u32| set & set_of(*tool) | 1;
        let applies = |tool: &u32| Second.write(samples, law, alone(tool), &mut [0; MOST]).tool == *tool;
        let first = TOOLS[1..].iter().copied().find(applies).unwrap_or(1);
        Second.write(samples, law, alone(&first), out)
    }

    fn walk(&self, octets: &[u8], law: u32, set: u32, out: &mut [u8]) -> Walk {
        Second.walk(octets, law, set, out)
    }
}

/// Such a writer is found out by what a larger set costs, though it agrees with itself; so is one that takes tool 11 wherever it
/// applies.
#[test]
fn a_writer_that_takes_the_first_that_applies_is_found_out() {
    costs_room(&First);
    costs_room(&Wrong("puts tool 11 before all others"));
}

fn costs_room(writer: &dyn Codec) {
    let mut pair = Pair::new(writer, writer);
    let mut shown = Shown::new();
    for frame in frames(160, 1, &mut Prng::new(62)).into_iter().take(25) {
        let written = Written::of(&mut pair, frame, 1);
        pairs().iter().for_each(|two| shown.pair(&mut pair, &written, *two));
    }
    let more: usize = (0..=7).map(|more| shown.fewer.count(more, "more octets")).sum();
    assert!(more > 0 && !shown.fewer.faults().is_empty(), "no larger set cost room");
    assert!(pair.differences >= more, "room for the smaller set's form was always enough");
}
