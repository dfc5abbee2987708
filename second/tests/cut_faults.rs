//! Faults that a cut of power must show: each is the caller's loop with one
//! thing wrong, and cuts of it must lead to something else than the store
//! before the call or after it.

mod cutting;

use cutting::{fresh, started, Call, Cuts, Cutter, Plan};
use second::gen::Prng;
use second::lasting::{turned, AsTold, Caller, Lasting, Run, Write};
use second::moves::{move_step, Record};
use second::store::{Put, Store};

/// The record before the page.
struct RecordFirst;

impl Caller for RecordFirst {
    fn leave(&self, run: &mut Run, store: &Store, record: Record) {
        let other = 1 - run.page_in_use() as usize;
        run.write(Write::Record(record));
        run.write_text(other, store);
    }
}

/// A chunk longer than the distance, by one octet.
struct LongChunk;

impl Caller for LongChunk {
    fn step(
        &self,
        block: &mut [u8],
        spare: &mut [u8],
        record: &Record,
        next: &mut Record,
    ) -> Result<(), u32> {
        let [page, state, from, to, octets, done, ..] = *record;
        let (distance, left) = (from - to, octets - done);
        if state != 1 || (distance as usize) < spare.len() || left <= distance {
            return move_step(block, spare, record, next);
        }
        let source = (from + done) as usize;
        block.copy_within(source..source + distance as usize + 1, (to + done) as usize);
        *next = [page, 1, from, to, octets, done + distance + 1, 0, 0];
        if left == distance + 1 {
            *next = [1 - page, 0, 0, 0, 0, 0, 0, 0];
        }
        Ok(())
    }
}

/// The text over the page in use, which stays in use.
struct PageInUse;

impl Caller for PageInUse {
    fn step(
        &self,
        block: &mut [u8],
        spare: &mut [u8],
        record: &Record,
        next: &mut Record,
    ) -> Result<(), u32> {
        NotTurned.step(block, spare, record, next)
    }

    fn leave(&self, run: &mut Run, store: &Store, mut record: Record) {
        record[0] = run.page_in_use();
        run.write_text(run.page_in_use() as usize, store);
        run.write(Write::Record(record));
    }
}

/// A put that closes up by itself: its write goes over held greetings.
struct PutClosesUp;

impl Caller for PutClosesUp {
    fn put(
        &self,
        run: &mut Run,
        store: &mut Store,
        law: u32,
        number: u32,
        octets: &[u8],
    ) -> Result<Put, u32> {
        let put = store.put(law, number, octets)?;
        let (at, end) = if put.moved > 0 { (0, store.held()) } else { (put.start, put.start + octets.len()) };
        run.write(Write::Block { at, octets: store.block[at..end].to_vec() });
        self.leave(run, store, turned(run));
        Ok(put)
    }
}

/// A replace that deletes first: the new one may be put over the old one.
struct DeletesFirst;

impl Caller for DeletesFirst {
    fn replace(
        &self,
        run: &mut Run,
        store: &mut Store,
        law: u32,
        number: u32,
        octets: &[u8],
    ) -> Result<Put, u32> {
        store.delete(number)?;
        self.put(run, store, law, number, octets)
    }
}

/// The record is not turned at a move's end.
struct NotTurned;

impl Caller for NotTurned {
    fn step(
        &self,
        block: &mut [u8],
        spare: &mut [u8],
        record: &Record,
        next: &mut Record,
    ) -> Result<(), u32> {
        move_step(block, spare, record, next)?;
        next[0] = record[0];
        Ok(())
    }
}

/// The record of a put or delete is not turned.
struct CallNotTurned;

impl Caller for CallNotTurned {
    fn leave(&self, run: &mut Run, store: &Store, mut record: Record) {
        record[0] = run.page_in_use();
        AsTold.leave(run, store, record);
    }
}

/// A step in state 2 takes its octets from the block.
struct FromTheBlock;

impl Caller for FromTheBlock {
    fn step(
        &self,
        block: &mut [u8],
        spare: &mut [u8],
        record: &Record,
        next: &mut Record,
    ) -> Result<(), u32> {
        let [_, state, from, _, octets, done, ..] = record.map(|cell| cell as usize);
        let mut taken = spare.to_vec();
        if state == 2 {
            let count = spare.len().min(octets - done);
            taken[..count].copy_from_slice(&block[from + done..from + done + count]);
            return move_step(block, &mut taken, record, next);
        }
        move_step(block, spare, record, next)
    }
}

/// The write of a text that leaves out the octet 0 behind it.
struct NoEnd;

impl Caller for NoEnd {
    fn leave(&self, run: &mut Run, store: &Store, record: Record) {
        let page = 1 - run.page_in_use() as usize;
        run.write(Write::Page { page, octets: store.text() });
        run.write(Write::Record(record));
    }
}

/// Cuts the calls of a faulty loop, each from where the loop as it is told
/// has led.
fn cuts_of(caller: &dyn Caller, power_off: fn(&mut Lasting, &mut Prng)) -> Cuts {
    let plan = Plan { every: 8, near: 3, drawn: 3, all_ways: false, writes: 40, deep: 1, writes_deep: 3 };
    let mut cutter = Cutter::new(caller, plan, 44);
    (cutter.strict, cutter.power_off) = (false, power_off);
    let mut rng = Prng::new(45);
    for round in 0..40 {
        let spare = [0, 3, 8, 30][round % 4];
        let mut lasting = fresh(12 + round, spare, &mut rng);
        let mut store = started(&lasting);
        for _ in 0..12 {
            let call = Call::drawn(&store, &mut rng);
            let (mut run, mut after) = (Run::of(lasting.clone()), store.clone());
            if call.alone(&mut after).is_err() {
                continue;
            }
            // Between the two calls of a replace both are held: its cuts are
            // judged where the loop is another one there.
            let _ = call.make(caller, &mut run, &mut store.clone());
            let two = matches!(call, Call::Replace { .. }) && run.writes.len() > 3;
            if !two {
                cutter.cut_call(&lasting, &run.writes, &store, &after);
            }
            let mut told = Run::of(lasting);
            call.make(&AsTold, &mut told, &mut store).unwrap();
            lasting = told.lasting;
        }
    }
    cutter.cuts
}

#[test]
fn each_fault_is_found() {
    let kept: fn(&mut Lasting, &mut Prng) = |_, _| ();
    let lost: fn(&mut Lasting, &mut Prng) = |lasting, rng| lasting.spare = rng.octets(lasting.spare.len());
    let another: fn(&mut Lasting, &mut Prng) = |lasting, rng| {
        let length = rng.below(2 * lasting.spare.len() + 1);
        lasting.spare.resize(length, 0x41);
    };
    let faults: [(&str, &dyn Caller, fn(&mut Lasting, &mut Prng)); 11] = [
        ("the record before the page", &RecordFirst, kept),
        ("a chunk longer than the distance", &LongChunk, kept),
        ("the text over the page in use", &PageInUse, kept),
        ("a put over held greetings", &PutClosesUp, kept),
        ("a replace over the old one", &DeletesFirst, kept),
        ("a record not turned at a move's end", &NotTurned, kept),
        ("a record not turned at a call's end", &CallNotTurned, kept),
        ("state 2 from the block", &FromTheBlock, kept),
        ("a spare that is lost", &AsTold, lost),
        ("a spare of another length", &AsTold, another),
        ("a text without its end", &NoEnd, kept),
    ];
    let told = cuts_of(&AsTold, kept);
    told.tell("the loop as it is told");
    assert!(told.others == 0 && told.all() > 10_000);
    for (what, caller, power_off) in faults {
        let cuts = cuts_of(caller, power_off);
        println!("fault found by {} of {} cuts: {what}", cuts.others, cuts.all());
        assert!(cuts.others > 0, "{what}");
    }
}
