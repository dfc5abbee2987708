//! Cuts of power: behind every write of a call and inside it, with a start behind each cut, and cuts of that start again. What a
//! start loads is held against the store before the call and after it, which are the model's.

use super::{Drives, Lasting, Part, Running, Write, MARKS, MORE_ROWS, ROWS};
use second::gen::Prng;
use second::store::{Greeting, Store};

/// A greeting that is held: number, law, samples, marks, octets. Where it lies is left out.
pub type Held = (u32, u32, u32, Vec<(u32, u32)>, Vec<u8>);

/// What a block and its table hold, by number.
pub fn held(block: &[u8], table: &[u32]) -> Vec<Held> {
    let mut marks = table[MARKS..].chunks(2).map(|mark| (mark[0], mark[1]));
    let rows = table[ROWS + 1..].chunks(3).zip(table[MORE_ROWS + 1..].chunks(3)).take(table[ROWS] as usize);
    let mut held: Vec<Held> = rows
        .map(|(lies, more)| {
            let (start, octets) = (lies[1] as usize, lies[2] as usize);
            let marks = marks.by_ref().take(more[2] as usize).collect();
            (lies[0], more[0], more[1], marks, block[start..start + octets].to_vec())
        })
        .collect();
    held.sort();
    held
}

/// What the model holds.
fn held_by(store: &Store) -> Vec<Held> {
    let one = |row: &Greeting| {
        let marks = row.marks.iter().map(|mark| (mark.octets as u32, mark.samples as u32)).collect();
        (row.number, row.law, row.samples as u32, marks, store.block[row.start..row.start + row.octets].to_vec())
    };
    let mut held: Vec<Held> = store.greetings.iter().map(one).collect();
    held.sort();
    held
}

/// Where writes are cut, and what is left there.
#[derive(Clone, Copy)]
pub struct Plan {
    /// A write of at most so many octets is cut at every octet; a longer one at so many from either end, and at so many drawn ones.
    pub every: usize,
    pub near: usize,
    pub drawn: usize,
    /// All five ways of what is left at each place, or one that is drawn.
    pub all_ways: bool,
    /// Of a call's writes about so many are cut, the first and the last at any rate; and of a start's.
    pub writes: usize,
    pub writes_of_a_start: usize,
    /// Starts that are cut themselves: so many deep.
    pub deep: usize,
}

/// What was cut, and what the starts gave.
#[derive(Clone, Copy, Debug, Default, PartialEq, Eq)]
pub struct Cuts {
    /// Inside a write to the block, a page, the spare; behind a write.
    pub places: [usize; 4],
    /// During a call, a start, a start behind a cut start.
    pub depths: [usize; 3],
    /// Starts that loaded the store before the call, the one after it, another or none.
    pub before: usize,
    pub after: usize,
    pub others: usize,
}

const BEHIND: usize = 3;

impl Cuts {
    pub fn all(&self) -> usize {
        self.depths.iter().sum()
    }

    pub fn told(&self) -> String {
        let [block, page, spare, behind] = self.places;
        let [call, start, again] = self.depths;
        format!(
            "{} cuts: {block} inside the block, {page} a page, {spare} the spare, {behind} behind a write; {call} of calls, {start} \
             of starts, {again} of starts behind those; {} load the store before, {} the one after, {} anything else",
            self.all(),
            self.before,
            self.after,
            self.others
        )
    }
}

/// What a start must load: the store before the call until its last write is whole, then the one after it.
#[derive(Clone, Copy)]
pub struct Wanted<'a> {
    pub before: &'a [Held],
    pub after: &'a [Held],
    pub ended: bool,
}

pub struct Cutter<'a> {
    pub driver: &'a dyn Drives,
    /// What a cut does besides; nothing, but for a fault.
    pub power_off: fn(&mut Lasting, &mut Prng),
    pub plan: Plan,
    pub rng: Prng,
    pub cuts: Cuts,
}

impl<'a> Cutter<'a> {
    pub fn new(driver: &'a dyn Drives, plan: Plan, seed: u64) -> Cutter<'a> {
        Cutter { driver, power_off: |_, _| (), plan, rng: Prng::new(seed), cuts: Cuts::default() }
    }

    /// Cuts the writes of a call that turns one store into another with its last write.
    pub fn cut_call(&mut self, at: &Lasting, writes: &[Write], before: &Store, after: &Store) {
        let (before, after) = (held_by(before), held_by(after));
        self.cut_all(at, writes, Wanted { before: &before, after: &after, ended: false }, 0);
    }

    fn cut_all(&mut self, at: &Lasting, writes: &[Write], wanted: Wanted, depth: usize) {
        let mut lasting = at.clone();
        let most = if depth == 0 { self.plan.writes } else { self.plan.writes_of_a_start };
        for (place, write) in writes.iter().enumerate() {
            let last = place + 1 == writes.len();
            if place > 0 && !last && self.rng.below(writes.len()) >= most {
                lasting.write(write);
                continue;
            }
            if let Write::Octets(part, _, octets) = write {
                let kind = match part {
                    Part::Block => 0,
                    Part::Page(_) => 1,
                    Part::Spare => 2,
                };
                let old = lasting.covered(write).to_vec();
                for left in self.lefts(&old, octets, depth) {
                    let mut cut = lasting.clone();
                    cut.covered(write).copy_from_slice(&left);
                    self.start_again(cut, wanted, depth, kind);
                }
            }
            lasting.write(write);
            let wanted = Wanted { ended: wanted.ended || (last && depth == 0), ..wanted };
            self.start_again(lasting.clone(), wanted, depth, BEHIND);
        }
    }

    fn start_again(&mut self, mut lasting: Lasting, wanted: Wanted, depth: usize, kind: usize) {
        (self.power_off)(&mut lasting, &mut self.rng);
        self.cuts.places[kind] += 1;
        self.cuts.depths[depth] += 1;
        let again = (depth < self.plan.deep && !lasting.is_still()).then(|| lasting.clone());
        let cells = self.driver.keeper().cells(lasting.block.len() as u64) as usize;
        let mut run = Running::on(lasting, cells);
        let loaded = self.driver.start(&mut run).map(|()| held(&run.block, &run.table));
        self.judge(&loaded, wanted);
        if let Some(at) = again {
            self.cut_all(&at, &run.writes, wanted, depth + 1);
        }
    }

    /// More than is promised: up to the last write it is the store before the call, and never the one after it.
    pub fn judge(&mut self, loaded: &Result<Vec<Held>, u32>, wanted: Wanted) {
        let now = if wanted.ended { wanted.after } else { wanted.before };
        match loaded.as_ref().is_ok_and(|loaded| loaded == now) {
            true if wanted.ended => self.cuts.after += 1,
            true => self.cuts.before += 1,
            false => self.cuts.others += 1,
        }
    }

    /// What a cut may leave of a write: the new up to a place and from there on the old, zeros or ones; or the other way round; or
    /// of each octet the old, the new or a frame that neither has.
    pub fn lefts(&mut self, old: &[u8], new: &[u8], depth: usize) -> Vec<Vec<u8>> {
        let Plan { every, near, drawn, all_ways, .. } = self.plan;
        let count = new.len();
        let places: Vec<usize> = if count <= every.max(2 * near) {
            (0..=count).collect()
        } else {
            let between: Vec<usize> = (0..drawn).map(|_| near + self.rng.below(count - 2 * near)).collect();
            (0..near).chain(between).chain(count - near + 1..=count).collect()
        };
        let mut lefts = Vec::new();
        for place in places {
            let one = self.rng.below(5);
            for way in (0..5).filter(|way| (all_ways && depth == 0) || *way == one) {
                lefts.push(self.left(old, new, place, way));
            }
        }
        lefts
    }

    fn left(&mut self, old: &[u8], new: &[u8], place: usize, way: usize) -> Vec<u8> {
        let rest = old.len() - place;
        match way {
            0 => [&new[..place], &old[place..]].concat(),
            1 => [&old[..place], &new[place..]].concat(),
            2 => [&new[..place], &vec![0; rest]].concat(),
            3 => [&new[..place], &vec![0xFF; rest]].concat(),
            _ => old.iter().zip(new).map(|(old, new)| *self.rng.pick(&[*old, *new, 0x81])).collect(),
        }
    }
}
