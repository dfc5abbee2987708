//! What settings hold, how the keeping of a mended greeting stopped, and
//! masters of 16 bits.

mod slow;
use second::gen::{self, Prng, LENGTHS};
use second::linear::{from_linear, to_linear};
use second::masters::{from_master, to_master};
use second::mend::{mend, mend_why};
use second::settings::{back, get, kept, read, save, wipe, State, FRESH};
use second::walk;

const SHORT: u64 = 1;
const PREFIX: u64 = 2;
const TOOL: u64 = 3;
const METHOD: u64 = 6;
const ROOM: u32 = 4;
const LENGTH: u32 = 10;
const LAW: u32 = 12;
const LONG: u32 = 13;
const TOTAL: u32 = 22;
const GONE: u32 = 24;

const MOST: usize = 1_048_576;

// ---------------------------------------------------------------- settings

/// A state with these rows at their places.
fn state_of(last: u32, rows: &[(usize, [u32; 5])]) -> State {
    let mut state = FRESH;
    state[0] = last;
    for &(place, row) in rows {
        state[1 + 5 * place..][..5].copy_from_slice(&row);
    }
    state
}

#[test]
fn settings_by_hand() {
    let mut state = FRESH;
    assert_eq!(kept(&state), [0; 8]);
    assert_eq!(get(&state, 0), (GONE, [0; 4]));
    assert_eq!(get(&state, 1), (GONE, [0; 4]));
    for revision in 1..=9 {
        let text = format!("law=1\nset=127\nblock=16384\ngreeting={revision}\n");
        assert_eq!(save(&mut state, text.as_bytes()), Ok(revision));
        assert_eq!(get(&state, revision), (0, [1, 127, 16_384, revision.into()]));
    }
    // The ninth pushed out the oldest.
    assert_eq!(kept(&state), [2, 3, 4, 5, 6, 7, 8, 9]);
    assert_eq!(get(&state, 1), (GONE, [0; 4]));
    assert_eq!(back(&mut state, 2), Ok(10));
    assert_eq!(kept(&state), [3, 4, 5, 6, 7, 8, 9, 10]);
    assert_eq!(get(&state, 10), (0, [1, 127, 16_384, 2]));
    assert_eq!(get(&state, 2), (GONE, [0; 4]));
    wipe(&mut state);
    assert_eq!(kept(&state), [0; 8]);
    assert_eq!(get(&state, 10), (GONE, [0; 4]));
    let most = u32::MAX;
    let other = b"law=0\nset=255\nblock=1048576\ngreeting=65535\n";
    assert_eq!(save(&mut state, other), Ok(11));
    assert_eq!(kept(&state), [11, 0, 0, 0, 0, 0, 0, 0]);
    assert_eq!(get(&state, 11), (0, [0, 255, 1_048_576, 65_535]));
    assert_eq!(get(&state, most), (GONE, [0; 4]));
}

/// Any 41 numbers: rows whose number is not 0, in their order, closed up; a
/// number in two rows is told twice, and got from the first.
#[test]
fn settings_of_any_rows() {
    let most = u32::MAX;
    let rows =
        [(0, [0, 9, 9, 9, 9]), (1, [7, 1, 2, 3, 4]), (3, [5, 0, 6, 7, 8]), (5, [7, most, 0, most, 1])];
    let state = state_of(40, &rows);
    assert_eq!(kept(&state), [7, 5, 7, 0, 0, 0, 0, 0]);
    assert_eq!(get(&state, 7), (0, [1, 2, 3, 4]));
    assert_eq!(get(&state, 5), (0, [0, 6, 7, 8]));
    assert_eq!(get(&state, 0), (GONE, [0; 4]));
    assert_eq!(get(&state, 40), (GONE, [0; 4]));
    // As they stand, out of their range too.
    let state = state_of(0, &[(7, [most, most, most, most, most])]);
    assert_eq!(kept(&state), [most.into(), 0, 0, 0, 0, 0, 0, 0]);
    assert_eq!(get(&state, most), (0, [most.into(); 4]));
    let same: Vec<(usize, [u32; 5])> = (0..8).map(|place| (place, [9, place as u32, 0, 0, 0])).collect();
    assert_eq!(kept(&state_of(1, &same)), [9; 8]);
    assert_eq!(get(&state_of(1, &same), 9), (0, [0; 4]));
}

#[test]
fn drawn_settings() {
    let mut rng = Prng::new(3907);
    let (mut gone, mut got) = (0u64, 0u64);
    for _ in 0..20_000 {
        let mut state = FRESH;
        for cell in &mut state {
            *cell = *rng.pick(&[0, 0, 1, 2, 3, 255, u32::MAX]);
        }
        let before = state;
        // By the cells alone.
        let numbers: Vec<u32> = (0..8).map(|row| state[1 + 5 * row]).collect();
        let mut told: Vec<u64> = numbers.iter().filter(|&&n| n != 0).map(|&n| n.into()).collect();
        told.resize(8, 0);
        assert_eq!(kept(&state)[..], told);
        for revision in [0, 1, 2, 3, 4, 255, u32::MAX] {
            let row = (0..8).find(|&row| revision != 0 && numbers[row] == revision);
            let expected = match row {
                Some(row) => (0, [2, 3, 4, 5].map(|at| u64::from(state[5 * row + at]))),
                None => (GONE, [0; 4]),
            };
            assert_eq!(get(&state, revision), expected);
            // The text has the same numbers.
            let [law, set, block, greeting] = expected.1;
            let text = format!("law={law}\nset={set}\nblock={block}\ngreeting={greeting}\n");
            let read = read(&state, revision);
            assert_eq!(read, if row.is_some() { Ok(text.into_bytes()) } else { Err(GONE) });
            assert_eq!(told.contains(&revision.into()) && revision != 0, row.is_some());
            *(if row.is_some() { &mut got } else { &mut gone }) += 1;
        }
        assert_eq!(state, before);
    }
    println!("compared: 20,000 lists of settings, revisions got {got}, gone {gone}");
}

// ------------------------------------------------------------------- mending

#[test]
fn how_the_keeping_stopped() {
    let why = |octets: &[u8], total: u64| {
        let (number, report) = mend_why(octets, 1, total);
        assert_eq!(number, 0);
        report
    };
    // The document's two.
    assert_eq!(why(&[0x41, 0x46], 40), [1, 1, 1, 0, PREFIX, 1, 0, 0]);
    assert_eq!(why(&[0x41, 0x40], 40), [1, 1, 1, 0, 0, 1, 0, 0]);
    // Below the total the same frame is read: it is cut.
    assert_eq!(why(&[0x41, 0x40], 80), [2, 1, 1, 40, SHORT, 1, 0, 8]);
    // At the total a frame is judged by its first octets alone.
    assert_eq!(why(&[0x41, 0x28], 40), [1, 1, 1, 0, SHORT, 1, 0, 8]);
    assert_eq!(why(&[0x41, 0x28, 0x00], 40), [1, 1, 1, 0, TOOL, 1, 8, 0]);
    assert_eq!(why(&[0x41, 0x28, 0x80], 40), [1, 1, 1, 0, 0, 1, 0, 0]);
    assert_eq!(why(&[0x41, 0x60], 40), [1, 1, 1, 0, TOOL, 1, 9, 0]);
    assert_eq!(why(&[0x41, 0x01], 40), [1, 1, 1, 0, PREFIX, 1, 0, 0]);
    // 86 F8 is METHOD, where there is room for its 80 samples; 02 is carried.
    assert_eq!(why(&[0x86, 0xF8], 40), [1, 0, 0, 40, 0, 0, 0, 0]);
    assert_eq!(why(&[0x86, 0xF8], 80), [1, 0, 0, 80, METHOD, 0, 0, 11]);
    assert_eq!(why(&[0x00, 0x86, 0xF8], 80), [2, 1, 1, 80, METHOD, 1, 0, 11]);
    assert_eq!(why(&[0x41, 0x02], 40), [1, 1, 1, 0, 0, 1, 0, 0]);
    assert_eq!(why(&[0x41, 0x02], 80), [2, 1, 1, 40, SHORT, 1, 0, 8]);
    // A frame that passes the total; pads at the total.
    assert_eq!(why(&[0x41, 0x81, 0x41], 80), [2, 1, 1, 40, 0, 1, 0, 0]);
    assert_eq!(why(&[0x41, 0x00, 0x41, 0x00], 40), [2, 2, 2, 0, 0, 2, 0, 0]);
    assert_eq!(why(&[0x00, 0x00, 0x46], 0), [2, 2, 2, 0, PREFIX, 2, 0, 0]);
    // To the end.
    assert_eq!(why(&[0x42, 0x56, 0x0F, 0x41], 120), [4, 3, 4, 0, 0, 4, 0, 0]);
    assert_eq!(why(&[], 0), [0; 8]);
    assert_eq!(why(&[], 600), [3, 0, 0, 600, 0, 0, 0, 0]);
    assert_eq!(why(&[], 1_000_000), [3_125, 0, 0, 1_000_000, 0, 0, 0, 0]);
    // 240 and 40, 160 and 40, 80 and 40.
    assert_eq!(why(&[0x46], 280), [2, 0, 0, 280, PREFIX, 0, 0, 0]);
    assert_eq!(why(&[0x46], 200), [2, 0, 0, 200, PREFIX, 0, 0, 0]);
    assert_eq!(why(&[0x46], 120), [2, 0, 0, 120, PREFIX, 0, 0, 0]);
}

#[test]
fn mending_refused() {
    let pads = vec![0; MOST + 1];
    let zeros = [0; 8];
    assert_eq!(mend_why(&pads, 2, 39), (LAW, zeros));
    assert_eq!(mend_why(&pads, 1, 39), (LONG, zeros));
    for total in [1, 39, 41, 1_000_001, 1_000_040, 1 << 32, u64::MAX - 15, u64::MAX] {
        assert_eq!(mend_why(&pads[1..], 0, total), (TOTAL, zeros), "{total}");
    }
    // LONG of the result; the stop is not told either.
    assert_eq!(mend_why(&pads[1..], 0, 40), (LONG, zeros));
    let mut damaged = pads[1..].to_vec();
    damaged[MOST - 1] = 0x46;
    let most = MOST as u64;
    let one = [most, most - 1, most - 1, 320, PREFIX, most - 1, 0, 0];
    assert_eq!(mend_why(&damaged, 1, 320), (0, one));
    assert_eq!(mend_why(&damaged, 1, 360), (LONG, zeros));
    assert_eq!(mend_why(&pads[1..], 1, 0), (0, [most, most, most, 0, 0, most, 0, 0]));
}

/// The first four are mend's report; the rest is how the walk with all tools
/// and room for the total stops.
#[test]
fn mending_told_and_done() {
    let mut rng = Prng::new(3908);
    let mut by_stop = [0u64; 10];
    let (mut out, mut room) = (vec![0; 20_000], vec![0; 20_000]);
    for _ in 0..60_000 {
        let law = rng.below(2) as u32;
        let (mut octets, mut samples) = (vec![], 0);
        for _ in 0..rng.below(9) {
            let form = gen::make_any_form(law, &mut rng);
            octets.extend(form.octets);
            samples += form.samples.len();
        }
        if rng.chance(2, 3) && !octets.is_empty() {
            octets = gen::damage_somehow(&octets, &mut rng);
        }
        let total = (samples + 40 * rng.below(12)).saturating_sub(40 * rng.below(24));
        let (number, [first @ .., stop, place, tool, bit]) = mend_why(&octets, law, total as u64);
        assert_eq!(number, 0);
        let done = mend(&octets, law, total as u64, &mut out).unwrap();
        let report = [done.octets, done.frames_kept, done.octets_kept, done.samples_filled];
        assert_eq!(first, report.map(|number| number as u64));
        assert_eq!(place, first[2]);
        let walked = walk(&octets, law, 255, &mut room[..total]);
        let ending = if walked.ending == ROOM { 0 } else { walked.ending };
        assert_eq!((stop, tool, bit), (ending.into(), walked.tool.into(), walked.bit as u64));
        // By the text: the next frame, in the room that is left.
        let left = total - walked.samples;
        if place as usize == octets.len() {
            assert_eq!(stop, 0);
        } else {
            let rest = &octets[place as usize..];
            let (next, _) = slow::read(rest, law, 255, &vec![0; left]);
            let ending = if next.ending == ROOM { 0 } else { next.ending };
            assert!(next.ending != 0);
            assert_eq!((stop, tool, bit), (ending.into(), next.tool.into(), next.bit as u64));
        }
        by_stop[stop as usize] += 1;
    }
    for stop in [0, 1, 2, 3, 5, 6, 7, 8, 9] {
        assert!(by_stop[stop] > 10, "{stop}: {by_stop:?}");
    }
    println!("compared: 60,000 mended greetings, by stop {by_stop:?}");
}

// ------------------------------------------------------------------- masters

fn master_of(octet: u8, law: u32) -> i16 {
    let mut out = [0; 40];
    assert_eq!(to_master(&[octet; 40], law, &mut out), 0);
    assert_eq!(out, [out[0]; 40]);
    out[0]
}

fn octet_of(master: i16, law: u32) -> u8 {
    let mut out = [0; 40];
    assert_eq!(from_master(&[master; 40], law, &mut out), 0);
    assert_eq!(out, [out[0]; 40]);
    out[0]
}

#[test]
fn masters_by_hand() {
    let out = |law, octets: &[u8]| -> Vec<i16> { octets.iter().map(|&o| master_of(o, law)).collect() };
    let back = |law, values: &[i16]| -> Vec<u8> { values.iter().map(|&v| octet_of(v, law)).collect() };
    // A: the zeros are 1 and -1, the greatest 4,032; eight times that.
    assert_eq!(out(0, &[0xD5, 0x55, 0xAA, 0x2A]), [8, -8, 32_256, -32_256]);
    // Mu: the zeros are 0, 1 is 2, the greatest 8,031; four times that.
    assert_eq!(out(1, &[0xFF, 0x7F, 0xFE, 0x7E, 0x80, 0x00]), [0, 0, 8, -8, 32_124, -32_124]);
    // The shift on the way in is arithmetic: down, also below 0.
    assert_eq!(
        back(0, &[0, 7, 8, 15, 16, -1, -8, -9, -16, -17]),
        [0xD5, 0xD5, 0xD5, 0xD5, 0xD4, 0x55, 0x55, 0x55, 0x55, 0x54]
    );
    assert_eq!(back(1, &[0, 3, 4, -1, -4, -5]), [0xFF, 0xFF, 0xFE, 0x7F, 0x7F, 0x7E]);
    assert_eq!(back(0, &[i16::MAX, i16::MIN, 32_256, -32_256]), [0xAA, 0x2A, 0xAA, 0x2A]);
    assert_eq!(back(1, &[i16::MAX, i16::MIN, 32_124, -32_124]), [0x80, 0x00, 0x80, 0x00]);
}

#[test]
fn masters_refused() {
    let (mut values, mut octets) = ([77; 39], [0xA7; 39]);
    for law in [2, 3, u32::MAX] {
        assert_eq!(to_master(&[0; 41], law, &mut values), LAW);
        assert_eq!(from_master(&[0; 41], law, &mut octets), LAW);
    }
    for law in [0, 1] {
        for length in [1, 39, 41, 79, 319, 321, 400] {
            assert_eq!(to_master(&vec![0; length], law, &mut []), LENGTH);
            assert_eq!(from_master(&vec![0; length], law, &mut []), LENGTH);
        }
        assert_eq!(to_master(&[0; 40], law, &mut values), ROOM);
        assert_eq!(from_master(&[0; 40], law, &mut octets), ROOM);
        assert_eq!(to_master(&[0; 320], law, &mut [0; 319]), ROOM);
        assert_eq!(to_master(&[], law, &mut []), 0);
        assert_eq!(from_master(&[], law, &mut []), 0);
        assert_eq!(from_master(&[], law, &mut octets), 0);
    }
    assert_eq!((values, octets), ([77; 39], [0xA7; 39]));
}

/// All octets and all masters of both laws, in frames of every length; past
/// the frame the output stays as lent.
#[test]
fn masters_are_linear_values_shifted() {
    let mut compared = 0u64;
    for (law, step) in [(0, 8), (1, 4)] {
        for octet in 0..=255u8 {
            let returned = if (law, octet) == (1, 0x7F) { 0xFF } else { octet };
            assert_eq!(octet_of(master_of(octet, law), law), returned);
            compared += 1;
        }
        let mut next = 0i32;
        while next < 65_536 {
            for length in LENGTHS {
                let masters: Vec<i16> = (next..next + length as i32).map(|at| at as i16).collect();
                next += length as i32;
                let scaled: Vec<i16> =
                    masters.iter().map(|&v| i32::from(v).div_euclid(step) as i16).collect();
                let (mut ours, mut theirs) = ([0xA7; 330], [0xA7; 330]);
                assert_eq!(from_master(&masters, law, &mut ours), 0);
                assert_eq!(from_linear(&scaled, law, &mut theirs), 0);
                assert_eq!(ours, theirs);
                let (mut master, mut linear) = ([77; 330], [77; 330]);
                assert_eq!(to_master(&ours[..length], law, &mut master), 0);
                assert_eq!(to_linear(&ours[..length], law, &mut linear), 0);
                for at in 0..330 {
                    let times = if at < length { step } else { 1 };
                    assert_eq!(i32::from(master[at]), times * i32::from(linear[at]));
                }
                compared += length as u64;
            }
        }
    }
    println!("compared: {compared} octets and masters of both laws");
}
