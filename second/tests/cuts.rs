//! A cut of power loses no greeting: drawn lists of puts, deletes and
//! replaces, each call cut behind every write and inside it, each start cut
//! again. Every store of a small block is in `cuts_small.rs`, the faults that
//! must be found are in `cut_faults.rs`.

mod cutting;

use cutting::{fresh, same, started, writes_asked, Call, Cuts, Cutter, Plan, Wanted};
use second::gen::Prng;
use second::lasting::{AsTold, Caller, Lasting, Run};
use second::store::Store;

/// Calls that were not refused, and what they asked for.
#[derive(Debug, Default)]
struct Asked {
    calls: [usize; 3],
    refused: usize,
    closed_up: usize,
    octets_moved: usize,
    chunks: usize,
    writes: usize,
    most_writes: usize,
}

/// One list of calls over one block.
fn list(cutter: &mut Cutter, asked: &mut Asked, size: usize, spare: usize, calls: usize) {
    let mut rng = Prng::new(cutter.rng.next_u64());
    let mut lasting = fresh(size, spare, &mut rng);
    let mut store = started(&lasting);
    for _ in 0..calls {
        let (at, before) = (lasting, store);
        let call = Call::drawn(&before, &mut rng);
        let (mut run, mut after) = (Run::of(at.clone()), before.clone());
        let answer = call.make(&AsTold, &mut run, &mut after);
        // moves-close: the same answer, table and block as the put alone.
        let mut alone = before.clone();
        assert_eq!(answer, call.alone(&mut alone), "{call:?}");
        assert_eq!(after, alone, "{call:?}");
        assert_eq!(after.block, run.lasting.block);
        assert_eq!(started(&run.lasting), after);
        let Ok(put) = answer else {
            asked.refused += 1;
            assert_eq!((run.writes.len(), &run.lasting), (0, &at));
            (lasting, store) = (at, before);
            continue;
        };
        let (writes, chunks) = writes_asked(&before, &call, put.moved > 0, spare);
        assert_eq!(run.writes.len(), writes, "{call:?}");
        asked.closed_up += usize::from(put.moved > 0);
        asked.octets_moved += put.moved;
        asked.chunks += chunks;
        asked.writes += writes;
        asked.most_writes = asked.most_writes.max(writes);
        match call {
            Call::Put { .. } => asked.calls[0] += 1,
            Call::Delete { .. } => asked.calls[1] += 1,
            Call::Replace { .. } => asked.calls[2] += 1,
        }
        let mut allowed = vec![before.clone(), after.clone()];
        if matches!(call, Call::Replace { .. }) {
            // Two calls: the put, and the rest. Between them both are held.
            let (first, rest) = run.writes.split_at(writes - 2);
            let mut middle = Run::of(at.clone());
            first.iter().for_each(|write| middle.write(write.clone()));
            let both = started(&middle.lasting);
            assert_eq!(both.greetings.len(), before.greetings.len() + 1);
            cutter.cut_call(&at, first, &before, &both);
            cutter.cut_call(&middle.lasting, rest, &both, &after);
            allowed.push(both);
        } else {
            cutter.cut_call(&at, &run.writes, &before, &after);
        }
        // The list goes on behind this call, or behind a cut of it.
        (lasting, store) = if rng.flip() {
            (run.lasting, after)
        } else {
            cut_somewhere(cutter, at, run, &allowed, &mut rng)
        };
    }
}

/// Cuts a call at one place, and its start too, now and then twice; gives what
/// lasts and the store that the last start gives.
fn cut_somewhere(
    cutter: &mut Cutter,
    at: Lasting,
    run: Run,
    allowed: &[Store],
    rng: &mut Prng,
) -> (Lasting, Store) {
    let (mut at, mut writes) = (at, run.writes);
    loop {
        let place = rng.below(writes.len());
        writes[..place].iter().for_each(|write| at.write(write));
        let old = at.covered(&writes[place]).to_vec();
        let lefts = cutter.lefts(&old, writes[place].octets(), 0);
        at.cut(&writes[place], &lefts[rng.below(lefts.len())]);
        let mut run = Run::of(at.clone());
        let store = AsTold.start(&mut run).unwrap();
        assert!(allowed.iter().any(|allowed| same(allowed, &store)), "{store:?}");
        if run.writes.is_empty() || rng.flip() {
            return (run.lasting, store);
        }
        writes = run.writes;
    }
}

fn tell(what: &str, cuts: &Cuts, asked: &Asked) {
    cuts.tell(what);
    let [puts, deletes, replaces] = asked.calls;
    println!(
        "{what}: {puts} puts, {deletes} deletes, {replaces} replaces, {} refused; {} closed up, \
         {} octets moved in {} chunks; {} writes, {} at most",
        asked.refused, asked.closed_up, asked.octets_moved, asked.chunks, asked.writes, asked.most_writes
    );
}

/// Small blocks: every write at nearly every octet, in all ways.
#[test]
fn small_blocks() {
    let plan = Plan { every: 24, near: 5, drawn: 5, all_ways: true, writes: 60, deep: 2, writes_deep: 2 };
    let mut cutter = Cutter::new(&AsTold, plan, 37);
    let mut asked = Asked::default();
    for round in 0..150 {
        let size = 8 + round % 40;
        let spare = [0, 1, 2, 3, 5, 8, 13, 21, size, size + 9][round % 10];
        list(&mut cutter, &mut asked, size, spare, 14);
    }
    tell("small blocks", &cutter.cuts, &asked);
    assert!(cutter.cuts.all() > 200_000 && cutter.cuts.others == 0);
    assert!(cutter.cuts.places.iter().chain(&cutter.cuts.deep[..3]).all(|&count| count > 5_000));
    assert!(asked.closed_up > 50);
}

/// Middling blocks, with marks, and spares of every kind.
#[test]
fn middling_blocks() {
    let plan = Plan { every: 6, near: 3, drawn: 3, all_ways: false, writes: 24, deep: 2, writes_deep: 2 };
    let mut cutter = Cutter::new(&AsTold, plan, 38);
    let mut asked = Asked::default();
    for round in 0..45 {
        let size = [100, 200, 400, 1_000, 2_500][round % 5];
        let spare = [0, 16, 100, 7, size, 33][round % 6];
        list(&mut cutter, &mut asked, size, spare, 16);
    }
    tell("middling blocks", &cutter.cuts, &asked);
    assert!(cutter.cuts.all() > 20_000 && cutter.cuts.others == 0);
    assert!(asked.closed_up > 15);
}

/// Blocks past 65,535 octets, whose texts have `form=2`.
#[test]
fn a_large_block() {
    let plan = Plan { every: 2, near: 1, drawn: 1, all_ways: false, writes: 6, deep: 0, writes_deep: 0 };
    let mut cutter = Cutter::new(&AsTold, plan, 39);
    let mut asked = Asked::default();
    for spare in [0, 700, 30_000] {
        list(&mut cutter, &mut asked, 66_000, spare, 20);
    }
    tell("large blocks", &cutter.cuts, &asked);
    assert_eq!(cutter.cuts.others, 0);
}

/// A page may be just as long as the longest text: then the text ends at the
/// page's end.
#[test]
fn pages_that_are_full() {
    let mut rng = Prng::new(40);
    let size = 2_080;
    let mut lasting = fresh(size, 0, &mut rng);
    let mut store = started(&lasting);
    for number in 0..32 {
        let mut run = Run::of(lasting);
        AsTold.put(&mut run, &mut store, 1, 65_504 + number, &[0x31; 65]).unwrap();
        lasting = run.lasting;
    }
    let text = store.text();
    for more in [0, 1] {
        let page = vec![0xFF; text.len() + more];
        lasting.pages = [page.clone(), page];
        let mut run = Run::of(lasting.clone());
        AsTold.leave(&mut run, &store, [1, 0, 0, 0, 0, 0, 0, 0]);
        assert_eq!(run.lasting.text(1), text);
        assert!(same(&AsTold.start(&mut run).unwrap(), &store));
    }
}

/// The judge itself: one octet, number, law or mark that is another.
#[test]
fn something_else_is_seen() {
    let mut store = Store::fresh(vec![0xEE; 80]);
    store.put(1, 1, &[0x41; 66]).unwrap();
    store.put(0, 2, &[0x42, 0x00]).unwrap();
    let mut cutter = Cutter::new(
        &AsTold,
        Plan { every: 0, near: 0, drawn: 0, all_ways: false, writes: 6, deep: 0, writes_deep: 0 },
        41,
    );
    cutter.strict = false;
    let changes: [fn(&mut Store); 7] = [
        |store| store.block[67] = 0x41,
        |store| store.greetings[0].number = 3,
        |store| store.greetings[1].law = 1,
        |store| store.greetings[0].samples += 1,
        |store| store.greetings[0].marks[1].octets += 1,
        |store| store.greetings[1].octets = 1,
        |store| store.greetings.truncate(1),
    ];
    for change in changes {
        let mut other = store.clone();
        change(&mut other);
        cutter.judge(&Ok(other), Wanted { before: &store, after: &store, ended: false });
    }
    cutter.judge(&Err(26), Wanted { before: &store, after: &store, ended: false });
    assert_eq!((cutter.cuts.others, cutter.cuts.before), (8, 0));
}
