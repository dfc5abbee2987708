//! The proved code and the second program on drawn and changed inputs, for as long as one likes. What differs is saved.

use crate::faults;
use crate::forms::{some_form, LENGTHS};
use crate::further::Further;
use crate::pair::asked;
use crate::settings::{some_call, some_cells, Keepers, State, CELLS, FRESH};
use crate::streams::Stream;
use crate::vectors::Ask;
use crate::{Codec, Pair, Proved, Second, ALL_TOOLS};
use second::gen::{all_kinds, damage_somehow, make_frame, Kind, Prng};
use std::fs;
use std::path::{Path, PathBuf};

/// Inputs kept to be changed again.
const POOL: usize = 512;
/// Differences that are saved; more are only counted.
const SAVED: usize = 100;

/// Fuzzing under way.
pub struct Fuzz<'a> {
    pair: Pair<'a>,
    rng: Prng,
    seed: u64,
    kinds: Vec<Kind>,
    /// Octets of frames and streams, some changed several times.
    pool: Vec<Vec<u8>>,
    folder: PathBuf,
    keepers: Keepers<'static>,
    state: State,
    /// The calls of document 02 that came after settings.
    pub further: Further,
    pub reads: usize,
    pub writes: usize,
    pub walks: usize,
}

impl<'a> Fuzz<'a> {
    /// The same seed gives the same inputs. What differs is saved in the folder.
    pub fn new(one: &'a dyn Codec, other: &'a dyn Codec, seed: u64, folder: &Path) -> Fuzz<'a> {
        Fuzz {
            pair: Pair::new(one, other),
            rng: Prng::new(seed),
            seed,
            kinds: all_kinds(),
            pool: vec![vec![0x00]],
            folder: folder.to_path_buf(),
            keepers: Keepers::new(&Proved, &Second),
            state: FRESH,
            further: Further::new(seed),
            reads: 0,
            writes: 0,
            walks: 0,
        }
    }

    pub fn differences(&self) -> usize {
        self.pair.differences + self.keepers.differences + self.further.differences()
    }

    pub fn shown(&self) -> Vec<String> {
        [self.pair.shown(), self.keepers.shown(), &self.further.shown()].concat()
    }

    /// Calls over settings.
    pub fn settings(&self) -> usize {
        self.keepers.calls
    }

    /// One input, and one call or more with it.
    pub fn round(&mut self) {
        match self.rng.below(9) {
            0..=3 => self.read(),
            4..=6 if cfg!(feature = "writer") => self.write(),
            4..=6 => self.read(),
            7 => self.walk(),
            _ => self.settle(),
        }
        self.go_further();
    }

    fn go_further(&mut self) {
        let before = self.further.differences();
        self.further.round(&self.pool);
        if self.further.differences() > before && before < SAVED {
            let name = format!("seed-{}-further-{}.txt", self.seed, self.further.differences());
            let said = self.further.shown().last().cloned().unwrap_or_default();
            self.put(&name, &format!("{said}\n\nseed={}\n", self.seed));
        }
    }

    fn read(&mut self) {
        let ask = Ask { given: self.octets(), law: self.law(), set: self.set(), room: self.room(330) };
        self.reads += 1;
        self.watched(&ask, |pair, ask| {
            pair.read(ask);
        });
    }

    fn walk(&mut self) {
        let most = self.rng.below(2_000);
        let given = match self.rng.below(3) {
            0 => (0..1 + self.rng.below(20)).flat_map(|_| self.rng.pick(&self.pool).clone()).collect(),
            1 => Stream::mixed(most, 1, &mut self.rng).octets,
            _ => self.octets(),
        };
        let ask = Ask { given, law: self.law(), set: self.set(), room: self.room(6_000) };
        self.walks += 1;
        self.watched(&ask, |pair, ask| {
            pair.walk(ask);
        });
    }

    /// Writes a frame, some of its samples changed, and reads the form back.
    fn write(&mut self) {
        let law = self.law();
        let length = *self.rng.pick(&LENGTHS);
        let kind = *self.rng.pick(&self.kinds);
        let mut given = make_frame(kind, length, law, &mut self.rng);
        for _ in 0..self.rng.below(3) {
            let (from, to) = (self.rng.below(length), self.rng.below(length));
            given[to] = if self.rng.chance(1, 8) { self.rng.octet() } else { given[from] };
        }
        if self.rng.chance(1, 50) {
            given.truncate(self.rng.below(length + 1));
        }
        let set = self.set() | u32::from(!self.rng.chance(1, 50));
        let ask = Ask { given, law, set, room: self.room(330) };
        self.writes += 1;
        self.watched(&ask, |pair, ask| {
            let wrote = pair.write(ask);
            if wrote.ending != 0 {
                return;
            }
            let back = Ask { given: pair.output().to_vec(), room: ask.given.len(), ..ask.clone() };
            let read = pair.read(&back);
            if (read.ending, read.samples) != (0, ask.given.len()) || pair.output() != ask.given {
                pair.differ("read back", &back, &format!("{read:?}"));
            }
        });
    }

    /// Some calls over a box's settings, on the state that earlier ones left, a fresh one, or one of any content.
    fn settle(&mut self) {
        match self.rng.below(40) {
            0 => self.state = FRESH,
            1 => {
                let kind = *self.rng.pick(&CELLS);
                self.state = some_cells(kind, &mut self.rng);
            }
            _ => {}
        }
        for _ in 0..1 + self.rng.below(8) {
            let call = some_call(&self.state, &mut self.rng);
            let before = self.keepers.differences;
            self.keepers.call(&mut self.state, &call);
            if self.keepers.differences > before && before < SAVED {
                let name = format!("seed-{}-settings-{}.txt", self.seed, self.keepers.differences);
                let said = self.keepers.shown().last().cloned().unwrap_or_default();
                self.put(&name, &format!("{said}\n\nseed={}\n", self.seed));
            }
        }
    }

    /// Octets: a form, a faulty frame, something at random, or something of the pool changed once more.
    fn octets(&mut self) -> Vec<u8> {
        let law = self.rng.below(2) as u32;
        let made = match self.rng.below(8) {
            0 | 1 => some_form(law, &mut self.rng).octets(),
            2 => self.faulty(),
            3 => {
                let count = self.rng.below(64);
                self.rng.octets(count)
            }
            _ => {
                let old = self.rng.pick(&self.pool).clone();
                if old.is_empty() {
                    old
                } else {
                    damage_somehow(&old, &mut self.rng)
                }
            }
        };
        if self.pool.len() < POOL {
            self.pool.push(made.clone());
        } else if made.len() < 3_000 {
            let at = self.rng.below(POOL);
            self.pool[at] = made.clone();
        }
        made
    }

    fn faulty(&mut self) -> Vec<u8> {
        let all = faults::all();
        let (fault, length) = (*self.rng.pick(&all), *self.rng.pick(&LENGTHS));
        let made = fault.possible(length).then(|| fault.make(length, &mut self.rng)).flatten();
        made.map(|made| made.octets).unwrap_or_default()
    }

    fn law(&mut self) -> u32 {
        if self.rng.chance(1, 100) {
            self.rng.next_u64() as u32
        } else {
            self.rng.below(2) as u32
        }
    }

    fn set(&mut self) -> u32 {
        match self.rng.below(100) {
            0 => self.rng.next_u64() as u32,
            1..=40 => self.rng.below(256) as u32,
            _ => ALL_TOOLS,
        }
    }

    fn room(&mut self, most: usize) -> usize {
        if self.rng.chance(1, 6) {
            self.rng.below(most)
        } else {
            most
        }
    }

    /// Makes calls, and saves what differed.
    fn watched(&mut self, ask: &Ask, calls: impl Fn(&mut Pair, &Ask)) {
        let before = self.pair.differences;
        calls(&mut self.pair, ask);
        if self.pair.differences > before && before < SAVED {
            self.save(ask);
        }
    }

    fn save(&self, ask: &Ask) {
        let name = format!("seed-{}-{}.txt", self.seed, self.pair.differences);
        self.put(&name, &format!("{}\n\nseed={} {}\n", self.pair.last(), self.seed, asked(ask, usize::MAX)));
    }

    fn put(&self, name: &str, text: &str) {
        fs::create_dir_all(&self.folder).expect("the folder can be made");
        fs::write(self.folder.join(name), text).expect("the folder can be written to");
    }
}
