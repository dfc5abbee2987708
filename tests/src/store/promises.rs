//! The promises over any list of calls from a fresh block, checked on a back end's own answers: what it saved before and
//! after, what it tells of where a greeting lies and of a jump, and its own reader over what was put. The call's own answer is
//! held against the model's first. The model's marks take no part.

use super::stores::Kept;
use super::{
    asks_for_form, frames_of, lowest_gap, rows_of, sane, Call, Frames, Stores, Told, ABSENT, BAD, BEYOND, FORM, FULL,
    GREETINGS, LAW, MOVE, NOROOM, NUMBER, TAKEN,
};
use second::store::Greeting;

/// The first greeting that does not begin where those before it, put together, end; and that place.
fn next_of(rows: &[Greeting]) -> Option<(&Greeting, usize)> {
    let ends = rows.iter().scan(0, |held, row| {
        *held += row.octets;
        Some(*held - row.octets)
    });
    rows.iter().zip(ends).find(|(row, to)| row.start != *to)
}

impl Stores<'_> {
    /// Makes a call of a list from a fresh block, and checks each promise.
    pub fn promised(&mut self, call: &Call) -> Told {
        let (rows, block) = (std::mem::take(&mut self.rows), self.model.block.clone());
        let frames = match call {
            Call::Put(law, _, octets) | Call::Try(law, _, octets) if *law <= 1 => {
                frames_of(self.keeper.reader(), octets, *law)
            }
            _ => None,
        };
        let known = self.known(call, &rows, frames.as_ref());
        let words = call.words();
        let got = self.call(call);
        if known.is_some_and(|(ending, report)| ending != got.ending || report.is_some_and(|told| told != got)) {
            self.differ(&words, &format!("{got:?}, and the promise is {known:?}"));
        }
        if got.ending == 0 {
            match call {
                Call::Put(law, number, octets) => {
                    self.put += octets.len();
                    let (law, octets, frames) = (*law, octets.clone(), frames.unwrap_or_default());
                    self.kept.insert(*number, Kept { law, octets, frames });
                }
                Call::Delete(number) => self.deleted += self.kept.remove(number).map_or(0, |kept| kept.octets.len()),
                Call::Renumber(number, to) => {
                    let kept = self.kept.remove(number).expect("it is kept");
                    self.kept.insert(*to, kept);
                }
                // The table says where its octets go; they follow, as the steps of the move bring them.
                Call::Moved(number, to) => {
                    if let Some(row) = rows.iter().find(|row| row.number == *number) {
                        self.carry(row.start..row.start + row.octets, *to as usize);
                    }
                }
                _ => {}
            }
        }
        self.make(&Call::Save(self.room()));
        match rows_of(&self.text) {
            Some(now) => self.check(&words, call, got, &rows, &block, now),
            None => self.differ(&words, "what is saved does not read back"),
        }
        got
    }

    /// The ending that a list of calls makes known, and the whole answer where it does: a put's is checked from its rows.
    fn known(&self, call: &Call, rows: &[Greeting], frames: Option<&Frames>) -> Option<(u32, Option<Told>)> {
        let ranged = |number: &u32| (1..=65_535).contains(number);
        let told = |told: Told| Some((told.ending, Some(told)));
        match call {
            Call::Put(law, number, octets) | Call::Try(law, number, octets) => {
                let room = self.put - self.deleted + octets.len() <= self.model.size();
                let refusals = [
                    (*law > 1, LAW),
                    (!ranged(number), NUMBER),
                    (self.kept.contains_key(number), TAKEN),
                    (frames.is_none(), BAD),
                    (rows.len() == GREETINGS, FULL),
                    (!room, NOROOM),
                ];
                let refusal = refusals.iter().find(|(refused, _)| *refused);
                refusal.map_or(Some((0, None)), |(_, ending)| told(Told::refused(*ending)))
            }
            Call::Get(number) | Call::Delete(number) | Call::Jump(number, _) if !ranged(number) => {
                told(Told::refused(NUMBER))
            }
            Call::Get(number) | Call::Delete(number) | Call::Jump(number, _) if !self.kept.contains_key(number) => {
                told(Told::refused(ABSENT))
            }
            Call::Jump(number, sample) => {
                let frames = &self.kept[number].frames;
                let beyond = *sample >= frames.samples as u64;
                told(if beyond { Told::refused(BEYOND) } else { frames.holding(*sample as usize) })
            }
            Call::Get(_) | Call::Delete(_) => Some((0, None)),
            Call::Next => told(
                next_of(rows)
                    .map_or(Told::ok(0, 0), |(row, to)| Told::jumped([row.number as usize, row.start, to, row.octets])),
            ),
            Call::Moved(number, _) if !ranged(number) => told(Told::refused(NUMBER)),
            Call::Moved(number, _) if !self.kept.contains_key(number) => told(Told::refused(ABSENT)),
            Call::Moved(number, to) => {
                let due = next_of(rows).is_some_and(|(row, at)| row.number == *number && at as u64 == *to);
                told(if due { Told::ok(0, 0) } else { Told::refused(MOVE) })
            }
            Call::Renumber(number, to) => {
                let refusals = [
                    (!ranged(number) || !ranged(to), NUMBER),
                    (!self.kept.contains_key(number), ABSENT),
                    (self.kept.contains_key(to), TAKEN),
                ];
                let refusal = refusals.iter().find(|(refused, _)| *refused);
                told(refusal.map_or(Told::ok(0, 0), |(_, ending)| Told::refused(*ending)))
            }
            Call::Save(_) | Call::Load(_) => None,
        }
    }

    /// Each promise over a list of calls, from what was there before and is there now.
    fn check(&mut self, words: &str, call: &Call, got: Told, rows: &[Greeting], block: &[u8], now: Vec<Greeting>) {
        let mut faults = Vec::new();
        let held: usize = now.iter().map(|row| row.octets).sum();
        if held != self.put - self.deleted || now.len() != self.kept.len() || !sane(&now, self.model.size()) {
            faults.push("held is not what was put less what was deleted".to_string());
        }
        if asks_for_form(&now, self.model.size()) != self.text.starts_with(FORM) {
            faults.push("the first line form=2 is there and is not asked for, or the other way round".to_string());
        }
        let mut moved = 0;
        let mut written = vec![false; block.len()];
        let renumbered = |number: u32| match call {
            Call::Renumber(old, new) if got.ending == 0 && *new == number => *old,
            _ => number,
        };
        for row in &now {
            faults.extend(self.faults_of(row));
            let place = row.start..row.start + row.octets;
            match rows.iter().find(|before| before.number == renumbered(row.number)) {
                Some(before) if before.start == row.start => {}
                Some(_) => {
                    moved += row.octets;
                    written[place].fill(true);
                }
                None => written[place].fill(true),
            }
        }
        let stays = (0..block.len()).all(|at| written[at] || block[at] == self.model.block[at]);
        if !stays {
            faults.push("octets that nothing wrote have changed".to_string());
        }
        if let (Call::Put(_, _, octets), 0) = (call, got.ending) {
            let gap = lowest_gap(rows, self.model.size(), octets.len());
            let ends = [0].into_iter().chain(now.iter().map(|row| row.start + row.octets));
            let closed = gap.is_none() && now.iter().zip(ends).all(|(row, end)| row.start == end);
            let start = got.report[0] as usize;
            if got.report[1] as usize != moved || gap.map_or(!closed, |gap| gap != start || moved > 0) {
                faults.push(format!("{got:?}, lowest gap {gap:?}, {moved} octets moved"));
            }
        } else if moved > 0 && !matches!(call, Call::Moved(..)) {
            faults.push("a call other than a put moved something".to_string());
        }
        faults.extend(self.fault_of_a_jump(&now));
        faults.iter().for_each(|fault| self.differ(words, fault));
        self.rows = now;
    }

    /// Of a greeting that is kept: it is got where its row says, reads as it was put, and has the law that it was put with, and
    /// the samples and marks that the walk gives.
    fn faults_of(&mut self, row: &Greeting) -> Vec<String> {
        let mut faults = Vec::new();
        let told = self.make(&Call::Get(row.number));
        if told != Told::ok(row.start, row.octets) {
            faults.push(format!("get {}: {told:?}", row.number));
        }
        let Some(kept) = self.kept.get(&row.number) else { return vec![format!("{} was never put", row.number)] };
        if Some(&kept.octets[..]) != self.model.block.get(row.start..row.start + row.octets) {
            faults.push(format!("{} does not read as it was put", row.number));
        }
        if (row.law, row.samples) != (kept.law, kept.frames.samples) || row.marks != kept.frames.marks() {
            faults.push(format!("law, samples or marks of {} are not what the walk gives", row.number));
        }
        faults
    }

    /// A jump into one of the greetings, another one after each call, beside all its frames.
    fn fault_of_a_jump(&mut self, now: &[Greeting]) -> Option<String> {
        let row = now.get(self.calls % now.len().max(1))?;
        let kept = self.kept.get(&row.number)?;
        let sample = self.calls.wrapping_mul(0x9E37_79B9) % kept.frames.samples.max(1);
        let wanted = if kept.frames.samples == 0 { Told::refused(BEYOND) } else { kept.frames.holding(sample) };
        let told = self.make(&Call::Jump(row.number, sample as u64));
        (told != wanted).then(|| format!("jump {} {sample}: {told:?}, the whole walk gives {wanted:?}", row.number))
    }
}
