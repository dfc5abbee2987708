//! The calls that tell of a store, of settings and of a mending, the proved code against the second program: drawn tables, whole and with a
//! number changed, drawn states, and drawn greetings, damaged or not. Each refusal is met, in its order.

use g7110::store;
use second::gen::{damage_somehow, Prng};
use std::collections::BTreeMap;
use tests::settings::State;
use tests::store::{change, profiles, some_store, Stores, PARTS};
use tests::streams::Stream;
use tests::told_store::{script, Ask, Tellers, Tells, Told};
use tests::{goes_on, say, share, tenth, Proved, Second, MOST};

const LAW: u32 = 12;
const LONG: u32 = 13;
const NUMBER: u32 = 15;
const ABSENT: u32 = 17;
const TOTAL: u32 = 22;
const GONE: u32 = 24;
const TABLE: u32 = 26;

/// How often each ending was given.
#[derive(Default)]
struct Met(BTreeMap<u32, usize>);

impl Met {
    fn add(&mut self, told: &Told) {
        *self.0.entry(told.ending).or_default() += 1;
        if told.ending != 0 {
            assert!(told.report.iter().all(|number| *number == 0), "refused, and not zeros: {told:?}");
        }
    }

    fn all(&self, wanted: &[u32], least: usize) -> String {
        assert!(wanted.iter().all(|ending| self.0.get(ending).is_some_and(|met| *met >= least)), "{:?}", self.0);
        assert_eq!(self.0.len(), wanted.len(), "{:?}", self.0);
        self.0.iter().map(|(ending, met)| format!("{ending}: {met}")).collect::<Vec<_>>().join(", ")
    }
}

/// Vectors worked out by hand, on the back ends side by side.
#[test]
fn worked_out_by_hand() {
    let lines = script(include_str!("../vectors/told.txt")).unwrap();
    let mut tellers = Tellers::new(&Proved, &Second);
    for line in &lines {
        assert_eq!(tellers.ask(&line.ask), line.wanted, "{}", line.name);
    }
    tellers.close();
    say(&format!("compared: told, store, settings and mend: {} lines worked out by hand\n", lines.len()));
    assert!(lines.len() > 35);
}

/// A drawn store's table, and in two of three draws a number of it changed.
fn drawn(turn: usize, stores: &mut Stores, profile: &tests::store::Profile, rng: &mut Prng) -> (Vec<u8>, Vec<u32>) {
    some_store(profile, stores, rng);
    let mut table = stores.cells().to_vec();
    if turn % 3 != 0 {
        change(PARTS[turn % 5], &mut table, rng);
    }
    if rng.chance(1, 40) {
        table.truncate(rng.below(table.len()));
    }
    (vec![0x5A; profile.block], table)
}

/// Every number, place and total of drawn tables.
#[test]
fn stores() {
    let mut rng = Prng::new(391);
    let mut tellers = Tellers::new(&Proved, &Second);
    let (mut info, mut at, mut totals) = (Met::default(), Met::default(), Met::default());
    let (mut tables, mut listed, mut tried) = (0, 0, 0);
    for profile in profiles(&mut rng) {
        let keeper = Proved;
        let mut stores = Stores::new(&keeper, vec![0; profile.block]);
        for turn in 0..share(400) {
            let (block, table) = drawn(turn, &mut stores, &profile, &mut rng);
            tables += 1;
            let sum = tellers.ask(&Ask::Totals(block.clone(), table.clone()));
            totals.add(&sum);
            let far = [1u64 << 32, u64::MAX, u64::MAX - 31];
            let mut told = Vec::new();
            for index in (0..34).chain(far) {
                let one = tellers.ask(&Ask::At(block.clone(), table.clone(), index));
                at.add(&one);
                told.extend((one.ending == 0).then_some(one.report));
            }
            let numbers = told.iter().map(|row| row[0] as u32).chain([0, 1, 2, 65_535, 65_536, u32::MAX]);
            for number in numbers.chain((0..4).map(|_| 1 + rng.below(profile.numbers) as u32)) {
                let one = tellers.ask(&Ask::Info(block.clone(), table.clone(), number));
                info.add(&one);
                // What a get gives, the info tells; and it is told at its place too.
                let got = store::get(&block, &table, number);
                match got {
                    Ok(got) => assert_eq!(one.report[..2], [got.start as u64, got.octets as u64]),
                    Err(why) => assert_eq!(one.ending, why.number()),
                }
                assert_eq!(got.is_ok(), told.iter().any(|row| row[0] as u32 == number && row[1..] == one.report));
            }
            if sum.ending == 0 {
                assert_eq!(told.len() as u64, sum.report[0]);
                assert!(told.windows(2).all(|two| two[0][1] < two[1][1]), "in order of start");
                assert_eq!(sum.report[1] + sum.report[2], profile.block.min(MOST) as u64);
                assert_eq!(sum.report[1], told.iter().map(|row| row[2]).sum::<u64>());
                listed += told.len();
                tried += gap_is_the_largest(&block, &table, sum.report[3] as usize, &told);
            }
        }
    }
    tellers.close();
    let least = tenth(10);
    say(&format!(
        "compared: told, {tables} tables: {} calls, {listed} greetings listed, {tried} puts tried\n",
        tellers.calls
    ));
    say(&format!("  info: {}\n", info.all(&[0, NUMBER, ABSENT, TABLE], least)));
    say(&format!("  at: {}\n", at.all(&[0, ABSENT, TABLE], least)));
    say(&format!("  totals: {}\n", totals.all(&[0, TABLE], least)));
}

/// Pads of as many octets as the largest gap has move nothing; of one more, where they fit at all, something moves.
fn gap_is_the_largest(block: &[u8], table: &[u32], gap: usize, told: &[Vec<u64>]) -> usize {
    let Some(free) = (1..=65_535).find(|number| told.iter().all(|row| row[0] != u64::from(*number))) else { return 0 };
    if told.len() == 32 || gap == 0 {
        return 0;
    }
    let put = |octets: usize| store::try_put(block, table, g7110::Law::Mu, free, &vec![0; octets]);
    assert_eq!(put(gap).map(|put| put.moved), Ok(0));
    match put(gap + 1) {
        Ok(put) => assert!(put.moved > 0),
        Err(why) => assert_eq!(why, store::Refusal::NoRoom),
    }
    2
}

/// TABLE comes before NUMBER and ABSENT, NUMBER before ABSENT.
#[test]
fn refusals_in_order() {
    let mut tellers = Tellers::new(&Proved, &Second);
    let block = vec![0; 64];
    let mut table = vec![0; store::cells(64)];
    let short = table[..table.len() - 1].to_vec();
    for number in [0, 1, 65_535, 65_536, u32::MAX] {
        assert_eq!(tellers.ask(&Ask::Info(block.clone(), short.clone(), number)).ending, TABLE);
        let wanted = if (1..=65_535).contains(&number) { ABSENT } else { NUMBER };
        assert_eq!(tellers.ask(&Ask::Info(block.clone(), table.clone(), number)).ending, wanted);
    }
    for index in [0, 1, 31, 32, u64::MAX] {
        assert_eq!(tellers.ask(&Ask::At(block.clone(), short.clone(), index)).ending, TABLE);
        assert_eq!(tellers.ask(&Ask::At(block.clone(), table.clone(), index)).ending, ABSENT);
    }
    table[0] = 33;
    assert_eq!(tellers.ask(&Ask::Totals(block.clone(), table)).ending, TABLE);
    assert_eq!(tellers.ask(&Ask::Totals(block, short)).ending, TABLE);
    // LAW, LONG, TOTAL of one call that is wrong in all three ways, mended one by one.
    let long = vec![0; MOST + 1];
    assert_eq!(tellers.ask(&Ask::MendWhy(long.clone(), 2, 39)).ending, LAW);
    assert_eq!(tellers.ask(&Ask::MendWhy(long, 1, 39)).ending, LONG);
    assert_eq!(tellers.ask(&Ask::MendWhy(vec![0; MOST], 1, 39)).ending, TOTAL);
    assert_eq!(tellers.ask(&Ask::MendWhy(vec![0; MOST], 1, 40)).ending, LONG);
    assert_eq!(tellers.ask(&Ask::MendWhy(vec![0; MOST], 1, 0)).ending, 0);
    tellers.close();
    say(&format!("compared: told, refusals in their order: {} calls\n", tellers.calls));
}

/// Drawn states, of few numbers, so that rows are 0 and numbers stand twice.
#[test]
fn settings() {
    let mut rng = Prng::new(392);
    let mut tellers = Tellers::new(&Proved, &Second);
    let mut met = Met::default();
    let mut counts = [0; 9];
    for turn in 0..share(20_000) {
        let mut state: State = [0; 41];
        for cell in state.iter_mut() {
            *cell = match rng.below(6) {
                0 | 1 => rng.below(12) as u32,
                2 => u32::MAX - rng.below(2) as u32,
                3 => rng.below(1 << 20) as u32,
                _ => 0,
            };
        }
        match turn % 4 {
            0 => (0..8).for_each(|row| state[1 + 5 * row] = 1 + rng.below(20) as u32),
            1 => (0..8).for_each(|row| state[1 + 5 * row] *= u32::from(rng.chance(1, 4))),
            _ => {}
        }
        let kept = tellers.ask(&Ask::Kept(state));
        assert_eq!(kept.ending, 0);
        counts[kept.report.iter().filter(|number| **number != 0).count()] += 1;
        for revision in (0..14).chain([u32::MAX, u32::MAX - 1, state[0]]) {
            let got = tellers.ask(&Ask::Get(state, revision));
            met.add(&got);
            // Those that are told are those that are got.
            let told = revision != 0 && kept.report.contains(&u64::from(revision));
            assert_eq!(got.ending == 0, told, "{state:?}, {revision}");
            // And what is got is what the text says, where it says anything that can be saved.
            if let (0, Some(said)) = (got.ending, text_of(&state, revision)) {
                assert_eq!(said, got.report);
            }
        }
    }
    tellers.close();
    assert!(counts.iter().all(|count| *count >= tenth(5)), "{counts:?}");
    say(&format!(
        "compared: told, settings: {} calls, get {}; rows kept {counts:?}\n",
        tellers.calls,
        met.all(&[0, GONE], 100)
    ));
}

/// The four numbers of a revision's text.
fn text_of(state: &State, revision: u32) -> Option<Vec<u64>> {
    let mut text = [0; 80];
    let octets = g7110::settings::read(state, revision, &mut text).ok()?;
    let lines = std::str::from_utf8(&text[..octets]).ok()?.lines();
    lines.map(|line| line.split_once('=')?.1.parse().ok()).collect()
}

/// Drawn greetings, whole, damaged and with any total: what is kept, why it ends there, and what a mending reports.
#[test]
fn mending() {
    let mut rng = Prng::new(393);
    let mut tellers = Tellers::new(&Proved, &Second);
    let (mut met, mut stops) = (Met::default(), BTreeMap::<u64, usize>::new());
    let mut out = vec![0; MOST];
    let all = [0, 1, 2, 3, 5, 6, 7, 8, 9];
    let mut turn = 0;
    while goes_on(turn, share(12_000), 12_000, || all.iter().all(|stop| stops.contains_key(stop))) {
        turn += 1;
        let law = rng.below(2) as u32;
        let stream = Stream::mixed(1 + rng.below(400), law, &mut rng);
        let mut octets = stream.octets.clone();
        if turn % 3 != 0 && !octets.is_empty() {
            octets = damage_somehow(&octets, &mut rng);
        }
        let total = match rng.below(12) {
            0 => rng.below(2_000) as u64,
            1 => stream.samples() as u64 + 40,
            2..=6 => stream.samples() as u64,
            _ => 40 * rng.below(1 + stream.samples() / 40) as u64,
        };
        let told = tellers.ask(&Ask::MendWhy(octets.clone(), law, total));
        met.add(&told);
        let mut report = [0; 4];
        assert_eq!(g7110::raw::mend(&octets, law, total, &mut out, &mut report), told.ending);
        assert_eq!(report, told.report[..4]);
        if told.ending == 0 {
            assert_eq!(told.report[2], told.report[5], "the place is the octets kept");
            *stops.entry(told.report[4]).or_default() += 1;
        }
    }
    tellers.close();
    say(&format!(
        "compared: told, mend_why: {} calls, {}; stops {stops:?}\n",
        tellers.calls,
        met.all(&[0, TOTAL], tenth(10))
    ));
    assert!(stops.keys().eq(all.iter()), "ROOM is told as 0, and each other refusal is met: {stops:?}");
}

/// The second program, wrong in one way.
struct Wrong(usize);

const FAULTS: usize = 8;

impl Tells for Wrong {
    fn tell(&self, ask: &Ask) -> Told {
        let mut told = Second.tell(ask);
        match (self.0, ask) {
            (0, Ask::Info(..)) => told.report[4] += u64::from(told.ending == 0),
            (1, Ask::At(block, table, index)) => {
                return Second.tell(&Ask::At(block.clone(), table.clone(), index % (1 << 32)));
            }
            (2, Ask::At(block, table, index)) if *index > 0 => {
                return Second.tell(&Ask::At(block.clone(), table.clone(), index - 1));
            }
            (3, Ask::Totals(block, table)) if told.ending == 0 => {
                // The room behind the last is no gap.
                let mut end = 0;
                let rows = (0..table[0] as usize).map(|row| &table[1 + 3 * row..][..3]);
                let gaps = rows.map(|row| {
                    let gap = row[1] - end;
                    end = row[1] + row[2];
                    u64::from(gap)
                });
                told.report[3] = gaps.max().unwrap_or(0).min(block.len() as u64);
            }
            (4, Ask::Get(state, revision)) if told.ending == 0 => {
                let last = (0..8).rev().find(|row| state[1 + 5 * row] == *revision).unwrap();
                told.report = state[2 + 5 * last..][..4].iter().map(|number| u64::from(*number)).collect();
            }
            (5, Ask::Kept(_)) => {
                // A number in two rows is told once.
                let mut once = Vec::new();
                for number in told.report.drain(..).filter(|number| *number != 0) {
                    if !once.contains(&number) {
                        once.push(number);
                    }
                }
                once.resize(8, 0);
                told.report = once;
            }
            (6, Ask::MendWhy(octets, law, total)) if told.ending == 0 && told.report[4] == 0 => {
                let walked = second::walk(octets, *law, 255, &mut vec![0; *total as usize]);
                told.report[4] = walked.ending.into();
            }
            (7, Ask::MendWhy(..)) => told.report[5] = told.report[0],
            _ => {}
        }
        told
    }
}

/// The comparison finds a back end that is wrong in one way.
#[test]
fn a_wrong_back_end_is_found() {
    let lines = script(include_str!("../vectors/told.txt")).unwrap();
    for fault in 0..FAULTS {
        let wrong = Wrong(fault);
        let mut tellers = Tellers::new(&wrong, &Second);
        lines.iter().for_each(|line| drop(tellers.ask(&line.ask)));
        assert!(tellers.differences > 0, "fault {fault} was not found in {} calls", tellers.calls);
    }
    say(&format!("compared: told, {FAULTS} wrong back ends: each one found\n"));
}
