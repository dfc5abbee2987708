//! Fuzzing of the calls of document 02. Their inputs are drawn from a generator of their own, and from the octets that
//! [`crate::fuzz`] has drawn and changed: with them or without, those inputs are the same.

use crate::file::{file, Filed, LOSS, LOST};
use crate::forms::LENGTHS;
use crate::mend::Menders;
use crate::store::{early_text_of, Call, Stores, BLOCK};
use crate::streams::plain_frames;
use crate::vectors::Ask;
use crate::why::Reasons;
use crate::{odd_set, Pair, Proved, Second, ALL_TOOLS, MOST, MOST_LISTED};
use second::gen::{all_kinds, damage_somehow, make_frame, sample_of, Kind, Prng};

/// Of so many rounds each kind of call has one.
const ROUNDS: usize = 20;
/// Of so many one is of a long stream.
const LONG_ROUNDS: usize = 10_000;

/// The calls of document 02, under way.
pub struct Further {
    rng: Prng,
    kinds: Vec<Kind>,
    reasons: Reasons<'static>,
    menders: Menders<'static>,
    stores: Stores<'static>,
    files: Filed<'static>,
    /// Long streams have a generator of their own too; so have moves.
    long: Prng,
    walks: Pair<'static>,
    large: Stores<'static>,
    moving: Prng,
    moved: Stores<'static>,
    rounds: usize,
}

impl Further {
    /// The same seed gives the same inputs.
    pub fn new(seed: u64) -> Further {
        Further {
            rng: Prng::new(!seed),
            kinds: all_kinds(),
            reasons: Reasons::new(&Proved, &Second),
            menders: Menders::new(&Proved, &Second),
            stores: Stores::new(&Proved, vec![0; BLOCK]),
            files: Filed::new(&Proved, &Second),
            long: Prng::new(seed.rotate_left(32) ^ 11),
            walks: Pair::new(&Proved, &Second),
            large: Stores::new(&Proved, Vec::new()),
            moving: Prng::new(seed.rotate_left(32) ^ 37),
            moved: Stores::new(&Proved, vec![0; 500]),
            rounds: 0,
        }
    }

    /// One round; the pool has octets of frames and streams, good and bad.
    pub fn round(&mut self, pool: &[Vec<u8>]) {
        match self.rng.below(ROUNDS) {
            0 => self.explain(),
            1 => self.mend(pool),
            2 => self.keep(pool),
            3 => self.record(pool),
            _ => {}
        }
        self.rounds += 1;
        if self.rounds % LONG_ROUNDS == 0 {
            self.lengthen(pool);
        }
        if self.rounds % ROUNDS == 0 {
            self.move_on(pool);
        }
    }

    pub fn differences(&self) -> usize {
        let all =
            [&self.reasons.differences, &self.menders.differences, &self.stores.differences, &self.files.differences];
        all.into_iter().chain([&self.walks.differences, &self.large.differences, &self.moved.differences]).sum()
    }

    pub fn shown(&self) -> Vec<String> {
        let all = [self.reasons.shown(), self.menders.shown(), self.stores.shown(), self.files.shown()];
        let more = [self.walks.shown(), self.large.shown(), self.moved.shown()];
        [all.concat(), more.concat()].concat()
    }

    /// How many calls there were, in words.
    pub fn words(&self) -> String {
        let all = [
            format!("{} frames explained", self.reasons.calls),
            format!("{} greetings mended", self.menders.calls),
            format!("{} calls of a store", self.stores.calls),
            format!("{} files written or read", self.files.calls),
            format!(
                "{} long streams walked, in a file, mended and kept, {} calls of a large store",
                self.walks.calls, self.large.calls
            ),
            format!("{} calls of a store that closes up by moves", self.moved.calls),
        ];
        all.join(", ")
    }

    fn law(&mut self) -> u32 {
        if self.rng.chance(1, 60) {
            self.rng.next_u64() as u32
        } else {
            self.rng.below(2) as u32
        }
    }

    fn set(&mut self) -> u32 {
        match self.rng.below(60) {
            0 => self.rng.next_u64() as u32,
            1..=30 => odd_set(&mut self.rng),
            _ => ALL_TOOLS,
        }
    }

    /// A frame of some kind, some of its samples changed.
    fn frame(&mut self, law: u32) -> Vec<u8> {
        let (kind, length) = (*self.rng.pick(&self.kinds), *self.rng.pick(&LENGTHS));
        let mut samples = make_frame(kind, length, law.min(1), &mut self.rng);
        for _ in 0..self.rng.below(3) {
            let (from, to) = (self.rng.below(length), self.rng.below(length));
            samples[to] = if self.rng.chance(1, 8) { self.rng.octet() } else { samples[from] };
        }
        samples
    }

    fn explain(&mut self) {
        let (law, set) = (self.law(), self.set());
        let mut samples = self.frame(law);
        if self.rng.chance(1, 40) {
            samples.truncate(self.rng.below(samples.len() + 1));
        }
        self.reasons.call(&samples, law, set);
    }

    /// Some octets of the pool, one after another.
    fn octets(&mut self, pool: &[Vec<u8>], parts: usize) -> Vec<u8> {
        (0..self.rng.below(parts + 1)).flat_map(|_| self.rng.pick(pool).clone()).collect()
    }

    fn mend(&mut self, pool: &[Vec<u8>]) {
        let (law, octets) = (self.law(), self.octets(pool, 8));
        let total = match self.rng.below(20) {
            0 => self.rng.next_u64(),
            1 => 999_960 + self.rng.below(100) as u64,
            _ => 40 * self.rng.below(80) as u64,
        };
        let room = if self.rng.chance(1, 6) { self.rng.below(200) } else { octets.len() + 3_200 };
        self.menders.call(&octets, law, total, room);
    }

    /// Some calls of a store, on what earlier ones left or on a fresh block.
    fn keep(&mut self, pool: &[Vec<u8>]) {
        if self.rng.chance(1, 60) {
            let size = *self.rng.pick(&[0, 30, 500, 3_000, BLOCK, BLOCK + 20]);
            self.stores.renew(self.rng.octets(size));
        }
        for _ in 0..1 + self.rng.below(6) {
            let number = match self.rng.below(20) {
                0 => self.rng.next_u64() as u32,
                _ => self.rng.below(40) as u32,
            };
            let call = match self.rng.below(12) {
                0..=5 => Call::Put(self.law(), number, self.octets(pool, 3)),
                6 | 7 => Call::Delete(number),
                8 => Call::Get(number),
                9 => Call::Save(self.rng.below(self.stores.room())),
                10 => {
                    let text = self.text();
                    let damaged = !text.is_empty() && self.rng.flip();
                    Call::Load(if damaged { damage_somehow(&text, &mut self.rng) } else { text })
                }
                _ => self.jump(number),
            };
            self.stores.call(&call);
        }
        if self.rng.chance(1, 20) {
            let (at, bit) = (self.rng.below(self.stores.cells().len()), self.rng.below(32));
            if !self.stores.lend(|cells| cells[at] ^= 1 << bit) {
                let calls = [
                    Call::Get(1),
                    Call::Put(1, 1, vec![0x41]),
                    Call::Delete(1),
                    Call::Save(self.stores.room()),
                    Call::Jump(1, 0),
                ];
                calls.iter().for_each(|call| {
                    self.stores.call(call);
                });
                self.stores.renew(vec![0; BLOCK]);
            }
        }
    }

    /// A recording that was written, or octets of the pool and marks behind a heading, read; damaged now and then.
    fn record(&mut self, pool: &[Vec<u8>]) {
        let law = self.law();
        let mut octets = if self.rng.flip() {
            self.written(law)
        } else {
            let mut body = Vec::new();
            for _ in 0..self.rng.below(6) {
                body.extend(if self.rng.chance(1, 4) { vec![LOST] } else { self.rng.pick(pool).clone() });
            }
            file(law.min(1), &body)
        };
        if !octets.is_empty() && self.rng.chance(1, 4) {
            octets = damage_somehow(&octets, &mut self.rng);
        }
        let set = if self.rng.chance(1, 3) { self.rng.below(260) as u32 } else { self.set() };
        let room = if self.rng.chance(1, 6) { self.rng.below(600) } else { 320 * octets.len() };
        let places = if self.rng.chance(1, 6) { self.rng.below(8) } else { octets.len() };
        self.files.held(&octets, set, room, places);
    }

    /// A stream of about as many octets as a walk takes, or took before R-11: walked, behind a heading, mended, and kept in a block of
    /// about its size. One in two is damaged.
    fn lengthen(&mut self, pool: &[Vec<u8>]) {
        let rng = &mut self.long;
        let octets = *rng.pick(&[MOST_LISTED, MOST]) + 3 - rng.below(6);
        let mut stream = plain_frames(rng.below(octets / 321), rng);
        stream.extend((0..rng.below(30)).flat_map(|_| rng.pick(pool).clone()));
        stream.resize((stream.len() + rng.below(20_000)).min(octets), 0x41);
        stream.resize(octets, 0x00);
        if rng.flip() {
            let at = rng.below(octets);
            stream[at] ^= 1 << rng.below(8);
        }
        let (law, number, total) = (rng.below(2) as u32, 1 + rng.below(40) as u32, 40 * rng.below(25_001) as u64);
        let (size, sample) = (octets + 3 - rng.below(6), rng.below(2_000_000) as u64);
        let block = rng.octets(size);
        self.walks.walk(&Ask { given: stream.clone(), law, set: ALL_TOOLS, room: 2_000_000 });
        self.files.read(&file(law, &stream), ALL_TOOLS, 2_000_000, octets);
        self.menders.call(&stream, law, total, octets + 3_200);
        self.large.renew(block);
        self.large.call(&Call::Put(law, number, stream));
        self.large.call(&Call::Jump(number, sample));
        self.large.saved_and_loaded();
        self.large.call(&Call::Delete(number));
    }

    /// Some calls of a store that closes up by moves, on what earlier ones left or on a fresh block, and a step of the next move's
    /// record or of one that is nearly that.
    fn move_on(&mut self, pool: &[Vec<u8>]) {
        let (rng, stores) = (&mut self.moving, &mut self.moved);
        if rng.chance(1, 30) {
            let size = *rng.pick(&[0, 12, 100, 500, 3_000, BLOCK + 20]);
            stores.renew(rng.octets(size));
        }
        for _ in 0..1 + rng.below(6) {
            let (law, number, other) = (rng.below(2) as u32, rng.below(20) as u32, rng.below(20) as u32);
            let octets = if rng.flip() { rng.pick(pool).clone() } else { vec![0x41; rng.below(60)] };
            let next = stores.model.next_move();
            stores.call(&match rng.below(8) {
                0 | 1 => Call::Put(law, number, octets),
                2 => Call::Delete(number),
                3 => Call::Try(law, number, octets),
                4 => Call::Next,
                5 => Call::Renumber(number, other),
                _ => Call::Moved(next.map_or(number, |next| next.number), next.map_or(0, |next| next.to as u64)),
            });
        }
        stores.spare = vec![0x42; *rng.pick(&[0, 1, 7, 64, 256])];
        if let Some(next) = stores.model.next_move() {
            let [from, to, octets] = [next.from, next.to, next.octets].map(|number| number as u32);
            let [page, state] = [rng.below(2) as u32, 1 + rng.below(2) as u32];
            let mut record = [page, state, from, to, octets, rng.below(next.octets) as u32, 0, 0];
            if rng.chance(1, 3) {
                record[rng.below(8)] ^= 1 << rng.below(32);
            }
            let _ = stores.step(&record);
        }
    }

    /// The file of a drawn list of frames, pads and losses; none where it is refused.
    fn written(&mut self, law: u32) -> Vec<u8> {
        let (mut items, mut samples) = (Vec::new(), Vec::new());
        for _ in 0..self.rng.below(6) {
            let mut frame = self.frame(law);
            match self.rng.below(8) {
                0 => items.push(0),
                1 => items.push(LOSS),
                2 => items.push(LOSS + frame.len() as u16),
                turn => {
                    if turn == 3 {
                        let second = *self.rng.pick(&[1, -2]);
                        frame.fill(sample_of(second, law.min(1)));
                    }
                    items.push(frame.len() as u16);
                    samples.extend(frame);
                }
            }
        }
        if self.rng.chance(1, 20) {
            items.push(self.rng.next_u64() as u16);
        }
        if self.rng.chance(1, 20) {
            samples.truncate(self.rng.below(samples.len() + 1));
        }
        let (set, room) = (self.set(), if self.rng.chance(1, 6) { self.rng.below(400) } else { 2_000 });
        self.files.write(&samples, &items, law, set, room);
        self.files.out.clone()
    }

    /// The lines of the store as it is; now and then those of R-6 alone.
    fn text(&mut self) -> Vec<u8> {
        match self.rng.below(4) {
            0 => early_text_of(&self.stores.model.greetings),
            _ => self.stores.model.text(),
        }
    }

    /// A jump into a greeting that is there, mostly, and to a sample that it has.
    fn jump(&mut self, number: u32) -> Call {
        let rows = &self.stores.model.greetings;
        if rows.is_empty() || self.rng.chance(1, 10) {
            return Call::Jump(number, self.rng.next_u64());
        }
        let row = &rows[self.rng.below(rows.len())];
        Call::Jump(row.number, self.rng.below(row.samples + 2) as u64)
    }
}
