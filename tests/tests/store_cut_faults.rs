//! Orders of writes and steps that are wrong in one way each (docs/STORE.md, "What to write first"): cuts of them must lead to
//! something else than the store before the call or the one after it, or the call must tell or leave something else.

use second::gen::Prng;
use second::store::Store;
use tests::store::{
    a_fresh_store, accepted, turned, AsTold, Asked, Cuts, Cutter, Drives, Keeps, Lasting, Part, Plan, Record, Running,
    Write,
};
use tests::{say, Proved};

/// A driver of the proved calls with these functions in the place of its own.
macro_rules! wrong {
    ($name:ident, $($own:item)*) => {
        struct $name;

        impl Drives for $name {
            fn keeper(&self) -> &dyn Keeps {
                &Proved
            }

            $($own)*
        }
    };
}

const TOLD: AsTold = AsTold(&Proved);

wrong! {
    RecordBeforeThePage,
    fn leave(&self, run: &mut Running, table: &[u32], record: Record) -> Result<(), u32> {
        let (text, other) = (self.text(run, table)?, 1 - run.lasting.page_in_use());
        run.write(Write::Record(record));
        run.write(Write::Octets(Part::Page(other), 0, text));
        Ok(())
    }
}

wrong! {
    PageInUse,
    fn leave(&self, run: &mut Running, table: &[u32], mut record: Record) -> Result<(), u32> {
        let (text, page) = (self.text(run, table)?, run.lasting.page_in_use());
        record[0] = page as u32;
        run.write(Write::Octets(Part::Page(page), 0, text));
        run.write(Write::Record(record));
        Ok(())
    }
    fn move_step(&self, block: &mut [u8], spare: &mut [u8], record: &Record, next: &mut Record) -> u32 {
        MoveNotTurned.move_step(block, spare, record, next)
    }
}

wrong! {
    TextWithoutItsEnd,
    fn text(&self, run: &Running, table: &[u32]) -> Result<Vec<u8>, u32> {
        let mut text = TOLD.text(run, table)?;
        text.pop();
        Ok(text)
    }
}

wrong! {
    CallNotTurned,
    fn leave(&self, run: &mut Running, table: &[u32], mut record: Record) -> Result<(), u32> {
        record[0] = run.lasting.record[0];
        TOLD.leave(run, table, record)
    }
}

wrong! {
    MovedNotSaved,
    fn make(&self, run: &mut Running, [number, from, to, octets]: [u64; 4]) -> Result<(), u32> {
        let (table, page) = (run.table.clone(), run.lasting.record[0]);
        self.leave(run, &table, [page, 1, from as u32, to as u32, octets as u32, 0, 0, 0])?;
        while !run.lasting.is_still() {
            self.step(run)?;
        }
        accepted(Proved.moved(&run.block, &mut run.table, number as u32, to)).map(|_| ())
    }
}

// Moves only until a gap is large enough: R-6 closes up all.
wrong! {
    UntilAGapIsEnough,
    fn close_up(&self, run: &mut Running, wanted: usize) -> Result<u64, u32> {
        let mut moved = 0;
        loop {
            let next = accepted(Proved.next(&run.block, &run.table))?;
            let tried = Proved.try_put(&run.block, &run.table, 1, 65_535, &vec![0; wanted]);
            if next[0] == 0 || (tried.ending == 0 && tried.report[1] == 0) {
                return Ok(moved);
            }
            self.make(run, next)?;
            moved += next[3];
        }
    }
}

// A put that closes up by itself: its write goes over held greetings.
wrong! {
    PutClosesUp,
    fn put(&self, run: &mut Running, law: u32, number: u32, octets: &[u8]) -> Result<[u64; 2], u32> {
        let [start, moved, ..] = accepted(Proved.put(&mut run.block, &mut run.table, law, number, octets))?;
        let (from, end) = (if moved > 0 { 0 } else { start as usize }, start as usize + octets.len());
        run.write_block(from, end - from);
        let (table, record) = (run.table.clone(), turned(run));
        self.leave(run, &table, record)?;
        Ok([start, moved])
    }
}

wrong! {
    RecordBeforeTheOctets,
    fn put(&self, run: &mut Running, law: u32, number: u32, octets: &[u8]) -> Result<[u64; 2], u32> {
        let told = TOLD.put(run, law, number, octets)?;
        let last = run.writes.len();
        run.writes[last - 3..].rotate_left(1);
        Ok(told)
    }
}

wrong! {
    RecordBeforeTheChunk,
    fn step(&self, run: &mut Running) -> Result<(), u32> {
        TOLD.step(run)?;
        let last = run.writes.len();
        run.writes[last - 2..].rotate_left(1);
        Ok(())
    }
}

wrong! {
    SpareNotWritten,
    fn step(&self, run: &mut Running) -> Result<(), u32> {
        let (from, spare) = (run.writes.len(), run.lasting.spare.clone());
        TOLD.step(run)?;
        if matches!(run.writes[from], Write::Octets(Part::Spare, ..)) {
            run.writes.remove(from);
            run.lasting.spare = spare;
        }
        Ok(())
    }
}

wrong! {
    ReplaceDeletesFirst,
    fn replace(&self, run: &mut Running, law: u32, number: u32, octets: &[u8]) -> Result<[u64; 2], u32> {
        accepted(Proved.delete(&run.block, &mut run.table, number))?;
        self.put(run, law, number, octets)
    }
}

// A start that loads before the move is made to its end.
wrong! {
    StartLoadsAtOnce,
    fn start(&self, run: &mut Running) -> Result<(), u32> {
        let page = run.lasting.page_in_use();
        accepted(Proved.load(run.lasting.text(page), &run.block, &mut run.table)).map(|_| ())
    }
}

wrong! {
    StartFromTheOtherPage,
    fn start(&self, run: &mut Running) -> Result<(), u32> {
        let moving = !run.lasting.is_still();
        while !run.lasting.is_still() {
            self.step(run)?;
        }
        let page = run.lasting.page_in_use();
        let page = if moving { 1 - page } else { page };
        accepted(Proved.load(run.lasting.text(page), &run.block, &mut run.table)).map(|_| ())
    }
}

// A start that makes one step too few: the record is told to be still.
wrong! {
    OneStepTooFew,
    fn start(&self, run: &mut Running) -> Result<(), u32> {
        while !run.lasting.is_still() {
            let (block, page) = (run.block.clone(), run.lasting.record[0]);
            self.step(run)?;
            if run.lasting.is_still() && run.lasting.record[0] != page {
                run.block = block;
            }
        }
        let page = run.lasting.page_in_use();
        accepted(Proved.load(run.lasting.text(page), &run.block, &mut run.table)).map(|_| ())
    }
}

// A chunk that is one octet longer than the distance.
wrong! {
    ChunkPastTheDistance,
    fn move_step(&self, block: &mut [u8], spare: &mut [u8], record: &Record, next: &mut Record) -> u32 {
        let [page, state, from, to, octets, done, ..] = *record;
        let (distance, left) = (from - to, octets - done);
        if state != 1 || (distance as usize) < spare.len() || left <= distance {
            return Proved.step(block, spare, record, next);
        }
        let (source, count) = ((from + done) as usize, distance + 1);
        block.copy_within(source..source + count as usize, (to + done) as usize);
        *next = [page, 1, from, to, octets, done + count, 0, 0];
        if left == count {
            *next = [1 - page, 0, 0, 0, 0, 0, 0, 0];
        }
        0
    }
}

// A step that goes on from the record's start and not from what is done.
wrong! {
    DoneNotCounted,
    fn move_step(&self, block: &mut [u8], spare: &mut [u8], record: &Record, next: &mut Record) -> u32 {
        let [_, state, from, to, _, done, ..] = record.map(|number| number as usize);
        let ending = Proved.step(block, spare, record, next);
        if state == 1 && next[1] != 2 && done > 0 {
            block[to + done] = block[from];
        }
        ending
    }
}

// A step in state 2 that takes its octets from the block.
wrong! {
    State2FromTheBlock,
    fn move_step(&self, block: &mut [u8], spare: &mut [u8], record: &Record, next: &mut Record) -> u32 {
        let [_, state, from, _, octets, done, ..] = record.map(|number| number as usize);
        let mut taken = spare.to_vec();
        if state == 2 {
            let count = spare.len().min(octets - done);
            taken[..count].copy_from_slice(&block[from + done..from + done + count]);
            return Proved.step(block, &mut taken, record, next);
        }
        Proved.step(block, spare, record, next)
    }
}

wrong! {
    MoveNotTurned,
    fn move_step(&self, block: &mut [u8], spare: &mut [u8], record: &Record, next: &mut Record) -> u32 {
        let ending = Proved.step(block, spare, record, next);
        next[0] = record[0];
        ending
    }
}

/// Nothing more happens at a cut; or the spare is lost, or has another length afterwards.
fn kept(_: &mut Lasting, _: &mut Prng) {}

fn lost(lasting: &mut Lasting, rng: &mut Prng) {
    lasting.spare = rng.octets(lasting.spare.len());
}

fn another(lasting: &mut Lasting, rng: &mut Prng) {
    let length = rng.below(2 * lasting.spare.len() + 1);
    lasting.spare.resize(length, 0x41);
}

/// Cuts of a driver's calls that gave something else, and calls that told or left something else, each from where the right driver
/// has led.
fn found(driver: &dyn Drives, power_off: fn(&mut Lasting, &mut Prng)) -> (Cuts, usize) {
    let plan = Plan { every: 8, near: 3, drawn: 3, all_ways: false, writes: 40, writes_of_a_start: 3, deep: 1 };
    let mut cutter = Cutter::new(driver, plan, 3720);
    cutter.power_off = power_off;
    let mut rng = Prng::new(3721);
    let mut other = 0;
    for round in 0..40 {
        let lasting = a_fresh_store(12 + 2 * round, [0, 3, 8, 30][round % 4], &mut rng);
        let mut told = Running::started(&TOLD, lasting).expect("a fresh store");
        let mut store = Store::fresh(told.block.clone());
        for _ in 0..20 {
            let call = Asked::drawn(&store, &mut rng);
            let mut after = store.clone();
            let Ok(alone) = call.alone(&mut after) else { continue };
            told.writes.clear();
            let (at, mut run) = (told.lasting.clone(), told.clone());
            let answer = call.make(driver, &mut run);
            call.make(&TOLD, &mut told).expect("it is not refused");
            other += usize::from(answer != Ok(alone) || run.block != told.block || run.table != told.table);
            // Between the two calls of a replace both are held: its cuts are judged where the order is another one there.
            let two = matches!(call, Asked::Replace(..)) && run.writes.len() == told.writes.len();
            if !two {
                cutter.cut_call(&at, &run.writes, &store, &after);
            }
            store = after;
        }
    }
    (cutter.cuts, other)
}

/// The driver as it is told differs in nothing; each of the wrong ones does, by a cut or by what a call tells or leaves.
#[test]
fn each_fault_is_found() {
    let (cuts, other) = found(&TOLD, kept);
    assert!((cuts.others, other) == (0, 0) && cuts.all() > 10_000, "{}, {other} calls", cuts.told());
    let faults: [(&str, &dyn Drives, fn(&mut Lasting, &mut Prng)); 20] = [
        ("the record before the page", &RecordBeforeThePage, kept),
        ("the text over the page in use", &PageInUse, kept),
        ("a text without its end", &TextWithoutItsEnd, kept),
        ("a call's record not turned", &CallNotTurned, kept),
        ("the table before the move saved", &MovedNotSaved, kept),
        ("moves until a gap is large enough", &UntilAGapIsEnough, kept),
        ("a put over held greetings", &PutClosesUp, kept),
        ("text and record before the octets", &RecordBeforeTheOctets, kept),
        ("the record before the chunk", &RecordBeforeTheChunk, kept),
        ("the spare not written", &SpareNotWritten, kept),
        ("a replace over the old one", &ReplaceDeletesFirst, kept),
        ("a start that loads at once", &StartLoadsAtOnce, kept),
        ("a start from the other page", &StartFromTheOtherPage, kept),
        ("a start with a step too few", &OneStepTooFew, kept),
        ("a chunk longer than the distance", &ChunkPastTheDistance, kept),
        ("a step that forgets what is done", &DoneNotCounted, kept),
        ("state 2 from the block", &State2FromTheBlock, kept),
        ("a move's record not turned", &MoveNotTurned, kept),
        ("a spare that is lost", &TOLD, lost),
        ("a spare of another length", &TOLD, another),
    ];
    for (what, driver, power_off) in faults {
        let (cuts, other) = found(driver, power_off);
        say(&format!("compared: cuts, {what}: found by {} of {} cuts and by {other} calls\n", cuts.others, cuts.all()));
        assert!(cuts.others > 0 || other > 0, "{what}");
    }
}
