//! Cuts of power: behind each write of a call and inside each, with a start
//! behind every cut, and cuts of that start again.
#![allow(dead_code)]

use second::gen::{make_any_form, Prng};
use second::lasting::{free_number, page_octets, AsTold, Caller, Lasting, Run, Write};
use second::store::{Greeting, Put, Store};

/// Frames of one octet: whatever a cut mixes of them is a greeting again.
pub const ONES: [u8; 11] = [0x00, 0x41, 0x42, 0x81, 0x82, 0xC1, 0xC2, 0x21, 0x22, 0x31, 0x32];

/// The same numbers, octets, laws, samples, marks.
pub fn same(one: &Store, other: &Store) -> bool {
    let held = |store: &Store, g: &Greeting| store.block[g.start..g.start + g.octets].to_vec();
    let alike = |a: &Greeting, b: &Greeting| {
        (a.number, a.octets, a.law, a.samples) == (b.number, b.octets, b.law, b.samples) && a.marks == b.marks
    };
    let there = |a: &Greeting| other.greetings.iter().any(|b| alike(a, b) && held(one, a) == held(other, b));
    one.greetings.len() == other.greetings.len() && one.greetings.iter().all(there)
}

/// Where a write is cut, and what is left there.
#[derive(Clone, Copy)]
pub struct Plan {
    /// A write of at most so many octets is cut at every octet, a longer one
    /// at so many from either end and at so many drawn places.
    pub every: usize,
    pub near: usize,
    pub drawn: usize,
    /// All five ways at each place, or one that is drawn.
    pub all_ways: bool,
    /// A list of at most so many writes is cut at each, a longer one at so many
    /// that are drawn, and at the first and the last.
    pub writes: usize,
    /// Starts that are cut themselves: so many deep, and there at so many
    /// writes.
    pub deep: usize,
    pub writes_deep: usize,
}

const BEHIND: usize = 3;

#[derive(Clone, Copy, Debug, Default)]
pub struct Cuts {
    /// Inside a write of the block, a page, the spare; behind a write.
    pub places: [usize; 4],
    /// During a call, a start, a start after a cut start.
    pub deep: [usize; 4],
    /// Starts that gave the store before the call, and after it.
    pub before: usize,
    pub after: usize,
    /// Starts that gave something else.
    pub others: usize,
}

impl Cuts {
    pub fn all(&self) -> usize {
        self.deep.iter().sum()
    }

    pub fn tell(&self, what: &str) {
        let [block, page, spare, behind] = self.places;
        println!(
            "compared: {} cuts, {what}: {block} inside the block, {page} a page, {spare} the spare, \
             {behind} behind a write; by depth {:?}; {} before, {} after, {} others",
            self.all(),
            self.deep,
            self.before,
            self.after,
            self.others
        );
    }
}

pub struct Cutter<'a> {
    pub caller: &'a dyn Caller,
    /// What a cut does besides; nothing, but for a fault.
    pub power_off: fn(&mut Lasting, &mut Prng),
    pub plan: Plan,
    pub rng: Prng,
    pub cuts: Cuts,
    /// Whether something else is a failure at once.
    pub strict: bool,
}

/// The store before a call and after it, and whether all its writes are made:
/// then only the second is right.
#[derive(Clone, Copy)]
pub struct Wanted<'a> {
    pub before: &'a Store,
    pub after: &'a Store,
    pub ended: bool,
}

impl<'a> Cutter<'a> {
    pub fn new(caller: &'a dyn Caller, plan: Plan, seed: u64) -> Cutter<'a> {
        let rng = Prng::new(seed);
        Cutter { caller, power_off: |_, _| (), plan, rng, cuts: Cuts::default(), strict: true }
    }

    /// Cuts the writes of a call that turns `before` into `after` with its
    /// last write.
    pub fn cut_call(&mut self, at: &Lasting, writes: &[Write], before: &Store, after: &Store) {
        self.cut_all(at, writes, Wanted { before, after, ended: false }, 0);
    }

    fn cut_all(&mut self, at: &Lasting, writes: &[Write], wanted: Wanted, depth: usize) {
        let mut lasting = at.clone();
        let most = if depth == 0 { self.plan.writes } else { self.plan.writes_deep };
        for (place, write) in writes.iter().enumerate() {
            let ended = place + 1 == writes.len();
            if place > 0 && !ended && self.rng.below(writes.len()) >= most {
                lasting.write(write);
                continue;
            }
            let kind = match write {
                Write::Block { .. } => 0,
                Write::Page { .. } => 1,
                Write::Spare { .. } => 2,
                Write::Record(_) => BEHIND,
            };
            if kind != BEHIND {
                let old = lasting.covered(write).to_vec();
                for left in self.lefts(&old, write.octets(), depth) {
                    let mut cut = lasting.clone();
                    cut.cut(write, &left);
                    self.start_again(cut, wanted, depth, kind);
                }
            }
            lasting.write(write);
            let wanted = Wanted { ended: wanted.ended || (ended && depth == 0), ..wanted };
            self.start_again(lasting.clone(), wanted, depth, BEHIND);
        }
    }

    fn start_again(&mut self, mut lasting: Lasting, wanted: Wanted, depth: usize, kind: usize) {
        (self.power_off)(&mut lasting, &mut self.rng);
        self.cuts.places[kind] += 1;
        self.cuts.deep[depth] += 1;
        let again = (depth < self.plan.deep && !lasting.is_still()).then(|| lasting.clone());
        let mut run = Run::of(lasting);
        let got = self.caller.start(&mut run);
        self.judge(&got, wanted);
        if let Some(at) = again {
            self.cut_all(&at, &run.writes, wanted, depth + 1);
        }
    }

    pub fn judge(&mut self, got: &Result<Store, u32>, wanted: Wanted) {
        let is = |wanted: &Store| got.as_ref().is_ok_and(|got| same(got, wanted));
        if self.strict {
            // More than is promised: it is the one before up to the last write.
            let now = if wanted.ended { wanted.after } else { wanted.before };
            assert!(is(now), "{got:?}, not {now:?}");
        }
        match (is(wanted.before) && !wanted.ended, is(wanted.after)) {
            (true, _) => self.cuts.before += 1,
            (false, true) => self.cuts.after += 1,
            (false, false) => self.cuts.others += 1,
        }
    }

    /// What a cut may leave of a write: up to a place it is the new; from there
    /// on the old, zeros or ones; or the other way round; or a mixture.
    pub fn lefts(&mut self, old: &[u8], new: &[u8], depth: usize) -> Vec<Vec<u8>> {
        let Plan { every, near, drawn, all_ways, .. } = self.plan;
        let count = new.len();
        let places: Vec<usize> = if count <= every {
            (0..=count).collect()
        } else {
            let between = (0..drawn).map(|_| near + self.rng.below(count - 2 * near));
            (0..near).chain(between).chain(count - near + 1..=count).collect()
        };
        let mut lefts = vec![];
        for place in places {
            let one = self.rng.below(5);
            for way in 0..5 {
                if (all_ways && depth == 0) || way == one {
                    lefts.push(self.left(old, new, place, way));
                }
            }
        }
        lefts
    }

    fn left(&mut self, old: &[u8], new: &[u8], place: usize, way: usize) -> Vec<u8> {
        let rest = old.len() - place;
        match way {
            0 => [&new[..place], &old[place..]].concat(),
            1 => [&old[..place], &new[place..]].concat(),
            2 => [&new[..place], &vec![0; rest]].concat(),
            3 => [&new[..place], &vec![0xFF; rest]].concat(),
            _ => {
                let rng = &mut self.rng;
                old.iter().zip(new).map(|(&old, &new)| *rng.pick(&[old, new, ONES[3]])).collect()
            }
        }
    }
}

/// A fresh store whose pages, spare and block hold anything.
pub fn fresh(size: usize, spare: usize, rng: &mut Prng) -> Lasting {
    let page = page_octets(size) + rng.below(3);
    let pages = [rng.octets(page), rng.octets(page)];
    Lasting::fresh(rng.octets(size), pages, rng.octets(spare))
}

#[derive(Clone, Debug)]
pub enum Call {
    Put { law: u32, number: u32, octets: Vec<u8> },
    Replace { law: u32, number: u32, octets: Vec<u8> },
    Delete { number: u32 },
}

impl Call {
    /// The call by a caller's loop.
    pub fn make(&self, caller: &dyn Caller, run: &mut Run, store: &mut Store) -> Result<Put, u32> {
        match self {
            Call::Put { law, number, octets } => caller.put(run, store, *law, *number, octets),
            Call::Replace { law, number, octets } => caller.replace(run, store, *law, *number, octets),
            Call::Delete { number } => {
                caller.delete(run, store, *number)?;
                Ok(Put { start: 0, moved: 0 })
            }
        }
    }

    /// What the calls of the store alone answer and leave.
    pub fn alone(&self, store: &mut Store) -> Result<Put, u32> {
        match self {
            Call::Put { law, number, octets } => store.put(*law, *number, octets),
            Call::Replace { law, number, octets } => {
                store.get(*number)?;
                let other = free_number(store);
                let put = store.put(*law, other, octets)?;
                store.delete(*number)?;
                store.renumber(other, *number)?;
                Ok(put)
            }
            Call::Delete { number } => {
                store.delete(*number)?;
                Ok(Put { start: 0, moved: 0 })
            }
        }
    }

    /// A call on a store: puts, many of more than any gap holds, so that it
    /// closes up; deletes and replaces.
    pub fn drawn(store: &Store, rng: &mut Prng) -> Call {
        let law = rng.below(2) as u32;
        let held = |rng: &mut Prng| match store.greetings.len() {
            0 => 1,
            count => store.greetings[rng.below(count)].number,
        };
        let what = rng.below(8);
        let free = store.size() - store.held();
        if what < 3 || (free == 0 && what < 7) {
            let number = if rng.chance(1, 8) { 1 + rng.below(12) as u32 } else { held(rng) };
            return Call::Delete { number };
        }
        let gap = largest_gap(store);
        let count = if gap < free && rng.chance(2, 3) {
            gap + 1 + rng.below(free - gap)
        } else {
            1 + rng.below(1 + store.size() / 6)
        };
        let octets = drawn_octets(count, law, rng);
        if what == 3 {
            return Call::Replace { law, number: held(rng), octets };
        }
        Call::Put { law, number: 1 + rng.below(40) as u32, octets }
    }
}

fn largest_gap(store: &Store) -> usize {
    let ends = store.greetings.iter().map(|greeting| greeting.start + greeting.octets);
    let starts = store.greetings.iter().map(|greeting| greeting.start);
    let gaps = [0].into_iter().chain(ends).zip(starts.chain([store.size()]));
    gaps.map(|(from, to)| to - from).max().unwrap_or(0)
}

/// A greeting of so many octets: frames of one octet, or of any form.
pub fn drawn_octets(count: usize, law: u32, rng: &mut Prng) -> Vec<u8> {
    let mut octets = vec![];
    while octets.len() < count {
        let form = if rng.chance(1, 4) { make_any_form(law, rng).octets } else { vec![*rng.pick(&ONES)] };
        if octets.len() + form.len() <= count {
            octets.extend(form);
        } else {
            octets.push(*rng.pick(&ONES));
        }
    }
    octets
}

/// How many writes a call asks for, its chunks among them: of each move a
/// text, a record and n / max(distance, spare) chunks, rounded up, two writes
/// each and four by way of the spare.
pub fn writes_asked(before: &Store, call: &Call, moved: bool, spare: usize) -> (usize, usize) {
    let (mut writes, mut chunks, mut to) = (0, 0, 0);
    for greeting in before.greetings.iter().filter(|_| moved) {
        let distance = greeting.start - to;
        if distance > 0 {
            let here = greeting.octets.div_ceil(distance.max(spare));
            chunks += here;
            writes += 2 + here * if distance >= spare { 2 } else { 4 };
        }
        to += greeting.octets;
    }
    match call {
        Call::Put { .. } => (writes + 3, chunks),
        Call::Replace { .. } => (writes + 5, chunks),
        Call::Delete { .. } => (2, 0),
    }
}

/// The store in memory of a box that has started without a cut.
pub fn started(lasting: &Lasting) -> Store {
    let mut run = Run::of(lasting.clone());
    AsTold.start(&mut run).unwrap()
}
