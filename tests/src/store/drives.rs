//! A box that keeps what lasts by a back end's calls: which are made, and in which order what they leave is written, as docs/STORE.md
//! has it. Tests put a wrong part in the place of each.

use super::{saved_room, Keeps, Lasting, Part, Record, Told, Write, ABSENT, MOVE};

/// What lasts, the writes to it so far, and what a running box has in memory.
#[derive(Clone, Debug)]
pub struct Running {
    pub lasting: Lasting,
    pub writes: Vec<Write>,
    pub block: Vec<u8>,
    pub spare: Vec<u8>,
    pub table: Vec<u32>,
}

impl Running {
    /// A box that has just got power: block and spare are read, and the table is not loaded yet.
    pub fn on(lasting: Lasting, cells: usize) -> Running {
        let (block, spare) = (lasting.block.clone(), lasting.spare.clone());
        Running { lasting, writes: Vec::new(), block, spare, table: vec![0; cells] }
    }

    /// A box that has started.
    pub fn started(driver: &dyn Drives, lasting: Lasting) -> Result<Running, u32> {
        let cells = driver.keeper().cells(lasting.block.len() as u64) as usize;
        let mut run = Running::on(lasting, cells);
        driver.start(&mut run).map(|()| run)
    }

    pub fn write(&mut self, write: Write) {
        self.lasting.write(&write);
        self.writes.push(write);
    }

    /// Writes a part of the block in memory.
    pub fn write_block(&mut self, at: usize, count: usize) {
        let octets = self.block[at..at + count].to_vec();
        self.write(Write::Octets(Part::Block, at, octets));
    }
}

/// The record that ends a call: the other page, still.
pub fn turned(run: &Running) -> Record {
    [1 - run.lasting.record[0], 0, 0, 0, 0, 0, 0, 0]
}

/// The report of a call that is accepted.
pub fn accepted(told: Told) -> Result<[u64; 4], u32> {
    match told.ending {
        0 => Ok(told.report),
        ending => Err(ending),
    }
}

pub trait Drives {
    fn keeper(&self) -> &dyn Keeps;

    fn move_step(&self, block: &mut [u8], spare: &mut [u8], record: &Record, next: &mut Record) -> u32 {
        self.keeper().step(block, spare, record, next)
    }

    /// The saved text of a table, with the octet 0 behind it where the page has room for one.
    fn text(&self, run: &Running, table: &[u32]) -> Result<Vec<u8>, u32> {
        let mut text = vec![0; saved_room(run.block.len())];
        let [octets, ..] = accepted(self.keeper().save(&run.block, table, &mut text))?;
        text.truncate((octets as usize + 1).min(run.lasting.pages[0].len()));
        Ok(text)
    }

    /// The text to the page that is not in use, then the record.
    fn leave(&self, run: &mut Running, table: &[u32], record: Record) -> Result<(), u32> {
        let text = self.text(run, table)?;
        run.write(Write::Octets(Part::Page(1 - run.lasting.page_in_use()), 0, text));
        run.write(Write::Record(record));
        Ok(())
    }

    /// A step: what it wrote, then the record.
    fn step(&self, run: &mut Running) -> Result<(), u32> {
        let record = run.lasting.record;
        let mut next = [0; 8];
        accepted(Told::refused(self.move_step(&mut run.block, &mut run.spare, &record, &mut next)))?;
        let [_, _, _, to, octets, done, ..] = record.map(|number| number as usize);
        if next[1] == 2 {
            let count = run.spare.len().min(octets - done);
            let octets = run.spare[..count].to_vec();
            run.write(Write::Octets(Part::Spare, 0, octets));
        } else {
            let end = if next[1] == 0 { octets } else { next[5] as usize };
            run.write_block(to + done, end - done);
        }
        run.write(Write::Record(next));
        Ok(())
    }

    /// A move: the table with the greeting at its new place is left, the record tells of the move; then steps.
    fn make(&self, run: &mut Running, [number, from, to, octets]: [u64; 4]) -> Result<(), u32> {
        let mut table = run.table.clone();
        accepted(self.keeper().moved(&run.block, &mut table, number as u32, to))?;
        let page = run.lasting.record[0];
        self.leave(run, &table, [page, 1, from as u32, to as u32, octets as u32, 0, 0, 0])?;
        while !run.lasting.is_still() {
            self.step(run)?;
        }
        run.table = table;
        Ok(())
    }

    /// Moves until there is no next one; the octets moved.
    fn close_up(&self, run: &mut Running, _wanted: usize) -> Result<u64, u32> {
        let mut moved = 0;
        loop {
            let next = accepted(self.keeper().next(&run.block, &run.table))?;
            if next[0] == 0 {
                return Ok(moved);
            }
            self.make(run, next)?;
            moved += next[3];
        }
    }

    /// A put: tried; closed up where it would move anything; then its octets, the text and the record. What it tells is the start and
    /// the octets moved.
    fn put(&self, run: &mut Running, law: u32, number: u32, octets: &[u8]) -> Result<[u64; 2], u32> {
        let [_, would_move, ..] = accepted(self.keeper().try_put(&run.block, &run.table, law, number, octets))?;
        let moved = if would_move > 0 { self.close_up(run, octets.len())? } else { 0 };
        let [start, more, ..] = accepted(self.keeper().put(&mut run.block, &mut run.table, law, number, octets))?;
        run.write_block(start as usize, octets.len());
        let (table, record) = (run.table.clone(), turned(run));
        self.leave(run, &table, record)?;
        Ok([start, moved + more])
    }

    fn delete(&self, run: &mut Running, number: u32) -> Result<(), u32> {
        accepted(self.keeper().delete(&run.block, &mut run.table, number))?;
        let (table, record) = (run.table.clone(), turned(run));
        self.leave(run, &table, record)
    }

    /// A greeting in the place of another of the same number: put under one that is not in use, then the old one deleted and the new
    /// one renumbered.
    fn replace(&self, run: &mut Running, law: u32, number: u32, octets: &[u8]) -> Result<[u64; 2], u32> {
        let keeper = self.keeper();
        accepted(keeper.get(&run.block, &run.table, number))?;
        let free = |other: &u32| keeper.get(&run.block, &run.table, *other).ending == ABSENT;
        let other = (1..=65_535).find(free).expect("32 of them are in use at most");
        let told = self.put(run, law, other, octets)?;
        accepted(keeper.delete(&run.block, &mut run.table, number))?;
        accepted(keeper.renumber(&run.block, &mut run.table, other, number))?;
        let (table, record) = (run.table.clone(), turned(run));
        self.leave(run, &table, record)?;
        Ok(told)
    }

    /// A start: steps while the record is not still; then the text of the page in use is loaded.
    fn start(&self, run: &mut Running) -> Result<(), u32> {
        while !run.lasting.is_still() {
            self.step(run)?;
        }
        if run.lasting.page_in_use() > 1 {
            return Err(MOVE);
        }
        let Running { lasting, block, table, .. } = run;
        accepted(self.keeper().load(lasting.text(lasting.page_in_use()), block, table)).map(|_| ())
    }
}

/// The order as it is told, by a back end's calls.
pub struct AsTold<'a>(pub &'a dyn Keeps);

impl Drives for AsTold<'_> {
    fn keeper(&self) -> &dyn Keeps {
        self.0
    }
}
