//! What lists of calls are drawn from.

use super::{a_greeting, Call, Stores, BLOCK, MARKS, MORE_ROWS, MOST_BLOCK, MOST_WITHOUT};
use crate::streams::plain_frames;
use crate::MOST;
use second::gen::{damage_somehow, Prng};

/// What a list of calls draws from: the block, how many numbers, and greetings.
pub struct Profile {
    pub block: usize,
    pub numbers: usize,
    pub pool: Vec<Vec<u8>>,
}

/// Blocks with room for few greetings and for many, short ones and long ones; one longer than a box has without settings.
pub fn profiles(rng: &mut Prng) -> Vec<Profile> {
    let kinds = [
        (BLOCK, 40, 2_500),
        (BLOCK, 24, 6_000),
        (300, 60, 12),
        (300, 12, 90),
        (2_000, 50, 120),
        (BLOCK + 300, 30, 5_000),
        (40, 8, 20),
    ];
    let pool = |most: usize, rng: &mut Prng| (0..120).map(|_| a_greeting_of(most, rng)).collect();
    kinds.map(|(block, numbers, most)| Profile { block, numbers, pool: pool(most, rng) }).into_iter().collect()
}

/// Large blocks, on both sides of 65,535 octets and up to the greatest; one longer than that. In some a greeting has more
/// than 65,535 octets.
pub fn large_profiles(rng: &mut Prng) -> Vec<Profile> {
    let kinds = [
        (MOST_WITHOUT, 24, 16_000),
        (MOST_WITHOUT + 1, 24, 16_000),
        (MOST_WITHOUT + 1_000, 8, 66_500),
        (200_000, 12, 90_000),
        (MOST_BLOCK, 16, 260_000),
        (MOST_BLOCK + 300, 12, 600_000),
    ];
    let pool = |most: usize, rng: &mut Prng| (0..16).map(|_| a_long_greeting(1 + rng.below(most), rng)).collect();
    kinds.map(|(block, numbers, most)| Profile { block, numbers, pool: pool(most, rng) }).into_iter().collect()
}

/// So many octets: frames of every tool, rows of frames of one octet and of pads, and many of 321 octets, as those take few marks.
fn a_long_greeting(octets: usize, rng: &mut Prng) -> Vec<u8> {
    let mut greeting = Vec::new();
    while greeting.len() + 400 < octets {
        let most = octets - greeting.len();
        let part = match rng.below(4) {
            0 => a_greeting(1 + rng.below(most.min(3_000)), rng),
            1 => short_frames(1 + rng.below(most.min(3_000)), rng),
            _ => plain_frames(1 + rng.below(most / 321), rng),
        };
        greeting.extend(part);
    }
    greeting.resize(octets, 0);
    greeting
}

/// One in three has frames of one octet alone, and so many marks; pads come in rows.
fn a_greeting_of(most: usize, rng: &mut Prng) -> Vec<u8> {
    let octets = 1 + rng.below(most);
    if rng.chance(1, 3) {
        short_frames(octets, rng)
    } else {
        a_greeting(octets, rng)
    }
}

/// So many frames of one octet, with rows of pads, some longer than from one mark to the next.
pub fn short_frames(frames: usize, rng: &mut Prng) -> Vec<u8> {
    let mut greeting = Vec::new();
    while greeting.len() < frames {
        if rng.chance(1, 12) {
            greeting.resize(greeting.len() + rng.below(150), 0);
        }
        greeting.push(*rng.pick(&[0x41, 0x42, 0x81, 0x82, 0xC1, 0xC2, 0x21, 0x22, 0x31, 0x32, 0x00]));
    }
    greeting.truncate(frames);
    greeting
}

pub fn a_number(profile: &Profile, rng: &mut Prng) -> u32 {
    match rng.below(30) {
        0 => 0,
        1 => *rng.pick(&[65_535, 65_536, u32::MAX, 1 << 16 | 1]),
        _ => 1 + rng.below(profile.numbers) as u32,
    }
}

pub fn a_law(rng: &mut Prng) -> u32 {
    match rng.below(40) {
        0 => *rng.pick(&[2, 3, 256, 1 << 31, u32::MAX]),
        _ => rng.below(2) as u32,
    }
}

/// Octets for a put: most are taken by the walk.
fn some_octets(profile: &Profile, rng: &mut Prng) -> Vec<u8> {
    let greeting = rng.pick(&profile.pool).clone();
    match rng.below(60) {
        0 => Vec::new(),
        1 | 2 => damage_somehow(&greeting, rng),
        3 => vec![0; *rng.pick(&[profile.block, profile.block + 1, BLOCK, BLOCK + 1])],
        4 if rng.chance(1, 20) => vec![0; MOST + rng.below(2)],
        _ => greeting,
    }
}

/// A jump: mostly into a greeting that is there, and to a sample that it has.
pub fn some_jump(profile: &Profile, stores: &Stores, rng: &mut Prng) -> Call {
    let rows = &stores.model.greetings;
    if rows.is_empty() || rng.chance(1, 7) {
        let number = if rng.chance(1, 6) { *rng.pick(&[0, 65_536, u32::MAX]) } else { a_number(profile, rng) };
        return Call::Jump(number, rng.below(1_000) as u64);
    }
    let row = rng.pick(rows);
    let last = row.samples.saturating_sub(1) as u64;
    let sample = match rng.below(16) {
        0 => last + 1,
        1 => last + 2 + rng.below(400) as u64,
        2 => *rng.pick(&[u64::MAX, 1 << 32, (1 << 32) + last, 1 << 63]),
        3 => last,
        4 => 0,
        5 => row.marks.get(rng.below(row.marks.len().max(1))).map_or(0, |mark| mark.samples as u64),
        // Around where frames of the usual lengths begin.
        6 | 7 => (rng.below(row.samples / 40 + 1) as u64 * 40).saturating_sub(rng.below(2) as u64),
        _ => rng.below(row.samples.max(1)) as u64,
    };
    Call::Jump(row.number, sample)
}

pub fn some_call(profile: &Profile, stores: &Stores, rng: &mut Prng) -> Call {
    match rng.below(24) {
        0..=10 => Call::Put(a_law(rng), a_number(profile, rng), some_octets(profile, rng)),
        11..=14 => Call::Delete(a_number(profile, rng)),
        15..=17 => Call::Get(a_number(profile, rng)),
        18 | 19 => {
            let saved = stores.model.text().len();
            Call::Save(if rng.flip() { stores.room() } else { (saved + 1).saturating_sub(rng.below(3)) })
        }
        _ => some_jump(profile, stores, rng),
    }
}

/// A call of closing up by moves: a put tried, the next move, that move or nearly that one, a greeting renumbered.
pub fn some_move(profile: &Profile, stores: &Stores, rng: &mut Prng) -> Call {
    let rows = &stores.model.greetings;
    let held = |rng: &mut Prng| match rows.len() {
        0 => a_number(profile, rng),
        count => rows[rng.below(count)].number,
    };
    match rng.below(8) {
        0 | 1 => Call::Try(a_law(rng), a_number(profile, rng), some_octets(profile, rng)),
        2 => Call::Next,
        3..=5 => {
            let next = stores.model.next_move();
            let (number, to) = next.map_or((held(rng), 0), |next| (next.number, next.to as u64));
            match rng.below(8) {
                0 => Call::Moved(a_number(profile, rng), to),
                1 => Call::Moved(held(rng), to),
                2 => Call::Moved(number, to.wrapping_add(1)),
                3 => Call::Moved(number, to.wrapping_sub(1)),
                4 => Call::Moved(number, to + (1 << (31 + rng.below(32)))),
                5 => Call::Moved(number, next.map_or(to, |next| next.from as u64)),
                _ => Call::Moved(number, to),
            }
        }
        _ => {
            let number = if rng.chance(1, 4) { a_number(profile, rng) } else { held(rng) };
            let to = match rng.below(6) {
                0 => number,
                1 => held(rng),
                _ => a_number(profile, rng),
            };
            Call::Renumber(number, to)
        }
    }
}

/// A store of some greetings, made by puts, with gaps.
pub fn some_store(profile: &Profile, stores: &mut Stores, rng: &mut Prng) {
    stores.renew(rng.octets(profile.block));
    for _ in 0..4 + rng.below(40) {
        let number = 1 + rng.below(profile.numbers) as u32;
        let call = match rng.below(5) {
            0 => Call::Delete(number),
            _ => Call::Put(rng.below(2) as u32, number, rng.pick(&profile.pool).clone()),
        };
        stores.call(&call);
    }
}

/// The parts of a table in which a number is changed.
pub const PARTS: [&str; 5] = ["how many", "rows", "law, samples, marks", "marks", "anywhere"];

/// A number of a table changed at random, in a part of it.
pub fn change(part: &str, cells: &mut [u32], rng: &mut Prng) {
    let used = (cells[0] as usize).clamp(1, 32);
    let at = match part {
        "how many" => *rng.pick(&[0, MORE_ROWS]),
        "rows" => 1 + rng.below(3 * used),
        "law, samples, marks" => MORE_ROWS + 1 + rng.below(3 * used),
        "marks" => MARKS + rng.below((cells.len() - MARKS).min(40)),
        _ => rng.below(cells.len()),
    };
    let other = cells[rng.below(cells.len())];
    cells[at] = match rng.below(8) {
        0 => 0,
        1 => 1,
        2 => u32::MAX,
        3 => cells[at].wrapping_add(1),
        4 => cells[at].wrapping_sub(1),
        5 => other,
        6 => rng.below(40) as u32,
        _ => cells[at] ^ 1 << rng.below(32),
    };
}
