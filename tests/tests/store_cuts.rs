//! A cut of power loses no greeting (docs/STORE.md, "What to write first"): drawn lists of puts, deletes and replaces, kept by the
//! proved calls in the order that is told, each call cut behind every write and inside it, each start cut again. What a start loads is
//! the store before the call or the one after it. tests/tests/store_cut_faults.rs has orders
//! and steps that are wrong.

use second::gen::Prng;
use second::lasting::free_number;
use second::store::Store;
use second::table;
use tests::store::{
    a_fresh_store, held, turned, AsTold, Asked, Cuts, Cutter, Drives, Lasting, Plan, Running, Wanted, Write,
};
use tests::{say, share, tenth, tenths, Proved};

/// Calls that were not refused, and what they needed.
#[derive(Default)]
struct Met {
    puts: usize,
    deletes: usize,
    replaces: usize,
    refused: usize,
    closed_up: usize,
    writes: usize,
}

/// One list of calls over one block, each of them cut.
fn list(cutter: &mut Cutter, met: &mut Met, size: usize, spare: usize, calls: usize) {
    let mut rng = Prng::new(cutter.rng.next_u64());
    let mut run = Running::started(cutter.driver, a_fresh_store(size, spare, &mut rng)).expect("a fresh store");
    let mut store = Store::fresh(run.block.clone());
    for _ in 0..calls {
        let call = Asked::drawn(&store, &mut rng);
        let (at, before) = (run.lasting.clone(), store.clone());
        run.writes.clear();
        let told = call.make(cutter.driver, &mut run);
        // With no cut it tells and leaves what the calls alone would.
        assert_eq!(told, call.alone(&mut store), "{call:?}");
        assert!(run.block == store.block && run.lasting.block == store.block, "{call:?}");
        let Ok([_, moved]) = told else {
            assert!(run.writes.is_empty() && run.lasting == at, "{call:?}");
            met.refused += 1;
            continue;
        };
        assert_eq!(
            String::from_utf8_lossy(run.lasting.text(run.lasting.page_in_use())),
            String::from_utf8_lossy(&store.text())
        );
        assert_eq!(run.writes.len(), call.writes(&before, moved > 0, spare), "{call:?}");
        met.closed_up += usize::from(moved > 0);
        met.writes += run.writes.len();
        match call {
            Asked::Put(..) => met.puts += 1,
            Asked::Delete(_) => met.deletes += 1,
            Asked::Replace(law, _, octets) => {
                met.replaces += 1;
                // Two calls: the put, and the rest. Between them both greetings are held.
                let (first, rest) = run.writes.split_at(run.writes.len() - 2);
                let (mut middle, mut both) = (at.clone(), before.clone());
                first.iter().for_each(|write| middle.write(write));
                Asked::Put(law, free_number(&before), octets).alone(&mut both).expect("it was put");
                cutter.cut_call(&at, first, &before, &both);
                cutter.cut_call(&middle, rest, &both, &store);
                continue;
            }
        }
        let writes = run.writes.clone();
        cutter.cut_call(&at, &writes, &before, &store);
        // Now and then the list goes on behind a cut.
        if rng.chance(1, 3) {
            (run, store) = cut_somewhere(cutter, at, &writes, [before, store], &mut rng);
        }
    }
}

/// Cuts a call at one place, and its start too, now and then twice; gives the box that has started then, and its store.
fn cut_somewhere(
    cutter: &mut Cutter,
    mut at: Lasting,
    writes: &[Write],
    stores: [Store; 2],
    rng: &mut Prng,
) -> (Running, Store) {
    let mut writes = writes.to_vec();
    loop {
        let place = rng.below(writes.len());
        writes[..place].iter().for_each(|write| at.write(write));
        if let Write::Octets(_, _, new) = &writes[place] {
            let old = at.covered(&writes[place]).to_vec();
            let lefts = cutter.lefts(&old, new, 0);
            at.covered(&writes[place]).copy_from_slice(&lefts[rng.below(lefts.len())]);
        }
        let run = Running::started(cutter.driver, at.clone()).expect("it starts");
        if run.writes.is_empty() || rng.flip() {
            let model =
                Store::load(run.lasting.text(run.lasting.page_in_use()), run.block.clone()).expect("it was loaded");
            let cells = |store: &Store| {
                let mut cells = vec![0; run.table.len()];
                table::close(store, &mut cells);
                cells
            };
            let now = held(&run.block, &run.table);
            assert!(stores.iter().any(|store| held(&store.block, &cells(store)) == now), "{model:?}");
            return (run, model);
        }
        writes = run.writes;
    }
}

fn tell(what: &str, cuts: &Cuts, met: &Met) {
    let Met { puts, deletes, replaces, refused, closed_up, writes } = met;
    say(&format!(
        "compared: cuts, {what}: {}\ncompared: cuts, {what}: {puts} puts, {closed_up} calls that close up, {deletes} deletes, \
         {replaces} replaces, {refused} refused; {writes} writes\n",
        cuts.told()
    ));
    assert_eq!(cuts.others, 0, "{what}");
}

/// Small blocks: every write at nearly every octet, in all ways, and starts twice deep.
#[test]
fn small_blocks() {
    let plan = Plan { every: 24, near: 5, drawn: 5, all_ways: true, writes: 60, writes_of_a_start: 2, deep: 2 };
    let driver = AsTold(&Proved);
    let mut cutter = Cutter::new(&driver, plan, 3710);
    let mut met = Met::default();
    for round in 0..share(160) {
        let size = 8 + round % 40;
        let spare = [0, 1, 7, 64, 256, 2, 3, 13, size, size + 9][round % 10];
        list(&mut cutter, &mut met, size, spare, 14);
    }
    tell("small blocks", &cutter.cuts, &met);
    assert!(cutter.cuts.all() > share(200_000) && met.closed_up > share(60));
    assert!(cutter.cuts.places.iter().chain(&cutter.cuts.depths).all(|count| *count > share(5_000)));
}

/// Middling blocks, with marks, and spares of every kind.
#[test]
fn middling_blocks() {
    let plan = Plan { every: 6, near: 3, drawn: 3, all_ways: false, writes: 24, writes_of_a_start: 2, deep: 2 };
    let driver = AsTold(&Proved);
    let mut cutter = Cutter::new(&driver, plan, 3711);
    let mut met = Met::default();
    for round in 0..share(120) {
        let size = [100, 200, 400, 1_000, 2_500][round % 5];
        let spare = [0, 1, 7, 64, 256, 33, size][round % 7];
        list(&mut cutter, &mut met, size, spare, 16);
    }
    tell("middling blocks", &cutter.cuts, &met);
    assert!(cutter.cuts.all() > share(60_000) && met.closed_up > share(40));
}

/// A box's usual block, and blocks past 65,535 octets, whose texts begin with form=2.
#[test]
fn large_blocks() {
    let plan = Plan { every: 2, near: 1, drawn: 1, all_ways: false, writes: 6, writes_of_a_start: 1, deep: 1 };
    let driver = AsTold(&Proved);
    let mut cutter = Cutter::new(&driver, plan, 3712);
    let mut met = Met::default();
    for round in 0..share(16) {
        let (size, calls) = if round % 2 == 0 { (16_384, 20) } else { (66_000, 12) };
        let spare = [64, 4_096, 256, 700, 1_000, 20_000, 7, 30_000][round % 8];
        list(&mut cutter, &mut met, size, spare, calls);
    }
    tell("large blocks", &cutter.cuts, &met);
    assert!(cutter.cuts.all() > share(1_000));
}

/// Every way in which greetings lie in a block of so many octets: start and octets of each.
fn every_store(size: usize) -> Vec<Vec<(usize, usize)>> {
    let mut stores = vec![Vec::new()];
    for start in (0..size).rev() {
        // Those that begin here, before all that begin behind them.
        let behind = stores.clone();
        for octets in 1..=size - start {
            let apart = |rows: &&Vec<(usize, usize)>| rows.first().is_none_or(|(next, _)| start + octets <= *next);
            stores.extend(behind.iter().filter(apart).map(|rows| [&[(start, octets)][..], rows].concat()));
        }
    }
    stores
}

/// Every store of seven octets that a put of all its free octets closes up, with every spare: every write cut at every octet of block and
/// spare, and every write of the starts behind that.
#[test]
fn every_small_store() {
    const SIZE: usize = 7;
    let plan = Plan { every: 8, near: 2, drawn: 1, all_ways: true, writes: 99, writes_of_a_start: 99, deep: 1 };
    let driver = AsTold(&Proved);
    let mut cutter = Cutter::new(&driver, plan, 3715);
    let mut met = Met::default();
    let stores = every_store(SIZE);
    for rows in tenths(&stores) {
        let block = [0x41, 0x42, 0x81, 0x82, 0xC1, 0xC2, 0x21];
        let early: String = rows
            .iter()
            .zip(1..)
            .map(|((start, octets), number)| format!("prompt={number}\nstart={start}\noctets={octets}\n"))
            .collect();
        let before = Store::load(early.as_bytes(), block.to_vec()).expect("all octets are frames");
        let call = Asked::Put(0, 9, vec![0x31; SIZE - before.held()]);
        let mut after = before.clone();
        if !call.alone(&mut after).is_ok_and(|[_, moved]| moved > 0) {
            continue;
        }
        for spare in 0..=SIZE + 1 {
            let mut at = a_fresh_store(SIZE, spare, &mut cutter.rng);
            at.block.copy_from_slice(&block);
            let text = before.text();
            at.pages[0][..text.len()].copy_from_slice(&text);
            at.pages[0][text.len()] = 0;
            let mut run = Running::started(&driver, at.clone()).expect("it is loaded");
            call.make(&driver, &mut run).expect("there is room");
            assert!(
                run.block == after.block && run.lasting.text(run.lasting.page_in_use()) == after.text(),
                "{rows:?}"
            );
            (met.puts, met.closed_up, met.writes) = (met.puts + 1, met.closed_up + 1, met.writes + run.writes.len());
            cutter.cut_call(&at, &run.writes, &before, &after);
        }
    }
    let all = stores.len();
    tell(&format!("every store of {SIZE} octets, of {all}"), &cutter.cuts, &met);
    assert!(all == 610 && met.closed_up > tenth(800), "{all} stores, {} puts", met.closed_up);
}

/// A page that is just as long as the longest text, or one octet longer: the text ends at the page's end, or before its octet 0.
#[test]
fn pages_that_are_full() {
    let driver = AsTold(&Proved);
    let mut rng = Prng::new(3713);
    let mut run = Running::started(&driver, a_fresh_store(2_080, 0, &mut rng)).unwrap();
    for number in 65_504..65_536 {
        driver.put(&mut run, 1, number, &[0x31; 65]).unwrap();
    }
    let (wanted, text) = (held(&run.block, &run.table), run.lasting.text(run.lasting.page_in_use()).to_vec());
    assert_eq!(wanted.len(), 32);
    for more in [0, 1] {
        run.lasting.pages = [vec![0xFF; text.len() + more], vec![0xFF; text.len() + more]];
        let (table, record) = (run.table.clone(), turned(&run));
        driver.leave(&mut run, &table, record).unwrap();
        let again = Running::started(&driver, run.lasting.clone()).unwrap();
        assert_eq!(
            (again.lasting.text(again.lasting.page_in_use()), held(&again.block, &again.table)),
            (&text[..], wanted.clone())
        );
    }
}

/// The judge itself: a start that loads nothing, and one octet, number, law, sample or mark that is another, is seen.
#[test]
fn something_else_is_seen() {
    let driver = AsTold(&Proved);
    let plan = Plan { every: 0, near: 0, drawn: 0, all_ways: false, writes: 6, writes_of_a_start: 0, deep: 0 };
    let mut cutter = Cutter::new(&driver, plan, 3714);
    let mut store = Store::fresh(vec![0xEE; 80]);
    store.put(1, 1, &[0x41; 66]).unwrap();
    store.put(0, 2, &[0x42, 0x00]).unwrap();
    let mut cells = vec![0; table::cells(80) as usize];
    table::close(&store, &mut cells);
    let right = held(&store.block, &cells);
    let changes: [fn(&mut Vec<u8>, &mut Vec<u32>); 8] = [
        |block, _| block[67] = 0x41,
        |_, cells| cells[1] = 3,
        |_, cells| cells[98] = 0,
        |_, cells| cells[102] += 1,
        |_, cells| cells[196] += 1,
        |_, cells| cells[197] += 1,
        |_, cells| cells[6] = 1,
        |_, cells| cells[0] = 1,
    ];
    let wanted = Wanted { before: &right, after: &right, ended: false };
    for change in changes {
        let (mut block, mut cells) = (store.block.clone(), cells.clone());
        change(&mut block, &mut cells);
        cutter.judge(&Ok(held(&block, &cells)), wanted);
    }
    cutter.judge(&Err(26), wanted);
    assert_eq!((cutter.cuts.others, cutter.cuts.before), (9, 0));
    cutter.judge(&Ok(right.clone()), wanted);
    assert_eq!((cutter.cuts.others, cutter.cuts.before), (9, 1));
}
