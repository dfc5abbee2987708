//! A cut of power in every store of a block of up to 7 octets: every put and
//! delete that is not refused, with every spare from 0 to 7 and a cut at every
//! octet; every replace; and cuts of the start.
//!
//! The smallest greetings are frames of one octet, the pad 00 among them.

mod cutting;

use cutting::{fresh, started, Call, Cutter, Plan, ONES};
use second::gen::Prng;
use second::lasting::{AsTold, Caller, Lasting, Run};
use second::store::{Put, Store};
use second::walk;

/// A greeting of so many octets, each another.
fn octets(count: usize, from: usize) -> Vec<u8> {
    (from..from + count).map(|at| ONES[at % ONES.len()]).collect()
}

/// Every row of greetings and gaps of one octet in a block: a greeting is its
/// octets, a gap is 0.
fn rows(size: usize) -> Vec<Vec<usize>> {
    if size == 0 {
        return vec![vec![]];
    }
    let behind = |first: usize, taken: usize| {
        rows(size - taken).into_iter().map(move |row| [vec![first], row].concat())
    };
    behind(0, 1).chain((1..=size).flat_map(|count| behind(count, count))).collect()
}

/// What lasts of a store that has a row: its greetings are 1, 2 and so on in
/// order of start. What was in the gaps is deleted.
fn laid_out(row: &[usize], rng: &mut Prng) -> Lasting {
    let size = row.iter().map(|&count| count.max(1)).sum();
    let mut run = Run::of(fresh(size, 0, rng));
    let mut store = started(&run.lasting);
    let mut at = 0;
    for (place, &count) in row.iter().enumerate() {
        let number = if count == 0 { 100 + place } else { 1 + place } as u32;
        AsTold.put(&mut run, &mut store, place as u32 % 2, number, &octets(count.max(1), at)).unwrap();
        at += count.max(1);
    }
    for (place, _) in row.iter().enumerate().filter(|(_, &count)| count == 0) {
        AsTold.delete(&mut run, &mut store, 100 + place as u32).unwrap();
    }
    run.lasting
}

/// The calls on a store of a row that are not refused for NOROOM.
fn calls(row: &[usize]) -> Vec<Call> {
    let free = row.iter().filter(|&&count| count == 0).count();
    let held: Vec<u32> = (1..).zip(row).filter(|(_, &count)| count > 0).map(|(number, _)| number).collect();
    let mut calls: Vec<Call> = held.iter().map(|&number| Call::Delete { number }).collect();
    for count in 1..=free {
        let octets = octets(count, row.len() + free);
        calls.push(Call::Put { law: 1, number: 50, octets: octets.clone() });
        let replace = |&number: &u32| Call::Replace { law: 0, number, octets: octets.clone() };
        calls.extend(held.iter().map(replace));
    }
    calls
}

/// The store between the two calls of a replace.
fn after_the_put(at: &Lasting, run: &Run) -> (Lasting, Store) {
    let mut lasting = at.clone();
    run.writes[..run.writes.len() - 2].iter().for_each(|write| lasting.write(write));
    let store = started(&lasting);
    (lasting, store)
}

#[test]
fn every_store_of_up_to_7_octets() {
    for octet in ONES {
        assert_eq!(walk(&[octet], 1, 255, &mut [0; 320]).ending, 0);
    }
    let plan = Plan { every: 7, near: 1, drawn: 1, all_ways: false, writes: 1_000, deep: 2, writes_deep: 2 };
    let mut cutter = Cutter::new(&AsTold, plan, 42);
    let mut rng = Prng::new(43);
    let (mut stores, mut made, mut closed_up, mut most_writes) = (0, 0, 0, 0);
    for size in 1..=7 {
        for row in rows(size) {
            stores += 1;
            let mut at = laid_out(&row, &mut rng);
            for call in calls(&row) {
                let replaces = matches!(call, Call::Replace { .. });
                // The put of a replace is a put: one spare is enough.
                let first = if replaces { rng.below(8) } else { 0 };
                for spare in first..=7 {
                    at.spare = rng.octets(spare);
                    cutter.plan.deep = if size <= 5 { 2 } else { 1 };
                    let before = started(&at);
                    let (mut run, mut after, mut alone) =
                        (Run::of(at.clone()), before.clone(), before.clone());
                    let answer = call.make(&AsTold, &mut run, &mut after);
                    assert_eq!(answer, call.alone(&mut alone));
                    assert_eq!((&after, &after.block), (&alone, &run.lasting.block));
                    let Put { moved, .. } = answer.unwrap();
                    made += 1;
                    closed_up += usize::from(moved > 0);
                    most_writes = most_writes.max(run.writes.len());
                    if replaces {
                        let (middle, both) = after_the_put(&at, &run);
                        let (first, rest) = run.writes.split_at(run.writes.len() - 2);
                        cutter.cut_call(&at, first, &before, &both);
                        cutter.cut_call(&middle, rest, &both, &after);
                    } else {
                        cutter.cut_call(&at, &run.writes, &before, &after);
                    }
                    // Without a move no spare is asked for.
                    if moved == 0 || replaces {
                        break;
                    }
                }
            }
        }
    }
    cutter.cuts.tell("every store of up to 7 octets");
    println!("{stores} stores, {made} calls, {closed_up} closed up, {most_writes} writes at most");
    assert_eq!(stores, 2 + 5 + 13 + 34 + 89 + 233 + 610);
    assert_eq!(cutter.cuts.others, 0);
    assert!(cutter.cuts.all() > 500_000);
}
