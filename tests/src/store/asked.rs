//! Calls of a box, drawn: what lists of puts, deletes and replaces are made of, and what each needs.

use super::{page_octets, Drives, Lasting, Running};
use second::gen::{make_any_form, Prng};
use second::lasting::free_number;
use second::store::{Put, Store};

/// Frames of one octet: whatever a cut mixes of them is a greeting again.
const ONES: [u8; 11] = [0x00, 0x41, 0x42, 0x81, 0x82, 0xC1, 0xC2, 0x21, 0x22, 0x31, 0x32];

/// A fresh store whose pages, spare and block hold anything.
pub fn a_fresh_store(size: usize, spare: usize, rng: &mut Prng) -> Lasting {
    let page = page_octets(size) + rng.below(3);
    let pages = [rng.octets(page), rng.octets(page)];
    Lasting::fresh(rng.octets(size), pages, rng.octets(spare))
}

/// A greeting of so many octets: frames of one octet, and of any form.
fn some_octets(count: usize, law: u32, rng: &mut Prng) -> Vec<u8> {
    let mut octets = Vec::new();
    while octets.len() < count {
        let form = if rng.chance(1, 4) { make_any_form(law, rng).octets } else { vec![*rng.pick(&ONES)] };
        if octets.len() + form.len() <= count {
            octets.extend(form);
        } else {
            octets.push(*rng.pick(&ONES));
        }
    }
    octets
}

fn largest_gap(store: &Store) -> usize {
    let ends = [0].into_iter().chain(store.greetings.iter().map(|row| row.start + row.octets));
    let starts = store.greetings.iter().map(|row| row.start).chain([store.size()]);
    ends.zip(starts).map(|(from, to)| to - from).max().unwrap_or(0)
}

/// A call of a box.
#[derive(Clone, Debug)]
pub enum Asked {
    /// Law, number, octets.
    Put(u32, u32, Vec<u8>),
    Replace(u32, u32, Vec<u8>),
    Delete(u32),
}

/// What a call tells that tells nothing.
const NOTHING: [u64; 2] = [0, 0];

impl Asked {
    /// A call on a store: puts, many of more than any gap holds, so that it closes up; deletes, replaces.
    pub fn drawn(store: &Store, rng: &mut Prng) -> Asked {
        let law = rng.below(2) as u32;
        let number = match store.greetings.len() {
            0 => 1,
            count => store.greetings[rng.below(count)].number,
        };
        let (what, free, gap) = (rng.below(8), store.size() - store.held(), largest_gap(store));
        if what < 3 || (free == 0 && what < 7) {
            return Asked::Delete(if rng.chance(1, 8) { 1 + rng.below(12) as u32 } else { number });
        }
        let count = match gap < free && rng.chance(2, 3) {
            true => gap + 1 + rng.below(free - gap),
            false => 1 + rng.below(1 + store.size() / 6),
        };
        match what {
            3 => Asked::Replace(law, number, some_octets(count, law, rng)),
            _ => Asked::Put(law, 1 + rng.below(40) as u32, some_octets(count, law, rng)),
        }
    }

    /// By a driver.
    pub fn make(&self, driver: &dyn Drives, run: &mut Running) -> Result<[u64; 2], u32> {
        match self {
            Asked::Put(law, number, octets) => driver.put(run, *law, *number, octets),
            Asked::Replace(law, number, octets) => driver.replace(run, *law, *number, octets),
            Asked::Delete(number) => driver.delete(run, *number).map(|()| NOTHING),
        }
    }

    /// What the model's calls alone answer and leave.
    pub fn alone(&self, store: &mut Store) -> Result<[u64; 2], u32> {
        let told = |put: Put| [put.start as u64, put.moved as u64];
        match self {
            Asked::Put(law, number, octets) => store.put(*law, *number, octets).map(told),
            Asked::Replace(law, number, octets) => {
                store.get(*number)?;
                let other = free_number(store);
                let put = store.put(*law, other, octets)?;
                store.delete(*number)?;
                store.renumber(other, *number)?;
                Ok(told(put))
            }
            Asked::Delete(number) => store.delete(*number).map(|()| NOTHING),
        }
    }

    /// How many writes it needs, as docs/STORE.md counts them: of each move a text and a record, and for each chunk two, or four by
    /// way of the spare.
    pub fn writes(&self, before: &Store, closes_up: bool, spare: usize) -> usize {
        let (mut writes, mut to) = (0, 0);
        for row in before.greetings.iter().filter(|_| closes_up) {
            let distance = row.start - to;
            if distance > 0 {
                let chunks = row.octets.div_ceil(distance.max(spare));
                writes += 2 + chunks * if distance >= spare { 2 } else { 4 };
            }
            to += row.octets;
        }
        writes
            + match self {
                Asked::Put(..) => 3,
                Asked::Replace(..) => 5,
                Asked::Delete(_) => 2,
            }
    }
}
