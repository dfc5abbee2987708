//! Marks inside a greeting and jumps to a sample: worked out by hand, the
//! readings K1 to K9 and J1 to J6, and every sample of drawn greetings.

use second::gen::{make_any_form, Prng};
use second::read_frame;
use second::store::{Jump, Mark, Store};
use second::table;

const LAW: u32 = 12;
const NUMBER: u32 = 15;
const TAKEN: u32 = 16;
const ABSENT: u32 = 17;
const BAD: u32 = 18;
const BEYOND: u32 = 21;
const TABLE: u32 = 26;

const A: u32 = 0;
const MU: u32 = 1;

fn fresh(size: usize) -> Store {
    Store::fresh(vec![0xEE; size])
}

/// A store of one greeting, number 1.
fn holding(octets: &[u8]) -> Store {
    let mut store = fresh(octets.len());
    store.put(MU, 1, octets).unwrap();
    store
}

/// Samples and marks of greeting 1.
fn said(octets: &[u8]) -> (usize, Vec<(usize, usize)>) {
    let greeting = holding(octets).greetings[0].clone();
    (greeting.samples, greeting.marks.iter().map(|mark| (mark.octets, mark.samples)).collect())
}

fn jumped(frame: usize, place: usize, within: usize, read: usize) -> Result<Jump, u32> {
    Ok(Jump { frame, place, within, read })
}

/// K1: a mark stands for a frame that is there.
#[test]
fn a_mark_for_every_64th_frame() {
    assert_eq!(said(&[0x41]), (40, vec![(0, 0)]));
    assert_eq!(said(&[0x41; 63]), (2_520, vec![(0, 0)]));
    assert_eq!(said(&[0x41; 64]), (2_560, vec![(0, 0)]));
    assert_eq!(said(&[0x41; 65]), (2_600, vec![(0, 0), (64, 2_560)]));
    assert_eq!(said(&[0x41; 128]), (5_120, vec![(0, 0), (64, 2_560)]));
    assert_eq!(said(&[0x41; 129]), (5_160, vec![(0, 0), (64, 2_560), (128, 5_120)]));
    // Frames of two octets and 320 samples.
    assert_eq!(said(&[0x33, 0xAA].repeat(65)), (20_800, vec![(0, 0), (128, 20_480)]));
}

/// K2: pads are frames.
#[test]
fn pads_are_counted() {
    assert_eq!(said(&[0; 64]), (0, vec![(0, 0)]));
    assert_eq!(said(&[0; 65]), (0, vec![(0, 0), (64, 0)]));
    let mut octets = vec![0; 63];
    octets.extend([0x41, 0x41]);
    assert_eq!(said(&octets), (80, vec![(0, 0), (64, 40)]));
    let (samples, marks) = said(&vec![0; 16_384]);
    assert_eq!((samples, marks.len(), marks[255]), (0, 256, (16_320, 0)));
}

/// K3: marks count from the greeting's start, so a move changes none; another
/// greeting's deletion neither.
#[test]
fn moved_greetings_keep_their_marks() {
    let mut store = fresh(300);
    store.put(A, 7, &[0; 100]).unwrap();
    store.put(A, 8, &[0x42; 70]).unwrap();
    store.put(MU, 9, &[0x41; 65]).unwrap();
    let before = store.greetings.clone();
    store.delete(7).unwrap();
    assert_eq!(store.put(MU, 3, &[0x31; 150]).map(|put| (put.start, put.moved)), Ok((135, 135)));
    for (now, then) in store.greetings.iter().zip(&before[1..]) {
        assert_eq!((now.number, now.law, now.samples, &now.marks), (then.number, then.law, then.samples, &then.marks));
        assert_eq!(now.start, then.start - 100);
    }
    assert_eq!(store.greetings[2].marks.len(), 3);
}

/// K4: LAW is told before all else that a put tells.
#[test]
fn a_put_refuses_the_law_first() {
    let mut store = fresh(10);
    store.put(A, 1, &[0x41]).unwrap();
    assert_eq!(store.put(2, 0, &[0x46]), Err(LAW));
    assert_eq!(store.put(u32::MAX, 1, &[]), Err(LAW));
    assert_eq!(store.put(0, 0, &[0x46]), Err(NUMBER));
    assert_eq!(store.put(1, 1, &[0x46]), Err(TAKEN));
    assert_eq!(store.put(0, 2, &[0x46]), Err(BAD));
    assert_eq!(store.text(), b"prompt=1\nstart=0\noctets=1\nlaw=0\nsamples=40\nmark=0,0\n");
}

/// The lines of a greeting of 66 octets 41, with these after `octets`.
fn lines(after: &str) -> Vec<u8> {
    format!("prompt=1\nstart=0\noctets=66\n{after}").into_bytes()
}

const GOOD: &str = "law=1\nsamples=2640\nmark=0,0\nmark=64,2560\n";
const LONG: &str = "1000000000000000000000000000000000000064";

/// K5: TABLE for what the lines alone tell, then BAD, then TABLE for what the
/// walk does not give.
#[test]
fn first_the_lines_then_the_walk_then_what_it_gives() {
    // One octet of this block is refused.
    let (whole, broken) = (vec![0x41; 66], [vec![0x41; 65], vec![0x46]].concat());
    let load = |text: &[u8], block: &[u8]| Store::load(text, block.to_vec()).map(|_| ()).err().unwrap_or(0);
    assert_eq!(load(&lines(GOOD), &whole), 0);
    assert_eq!(load(&lines(GOOD), &broken), BAD);
    assert_eq!(load(&lines(""), &whole), 0);
    // Told by the walk: K6, K7.
    for after in [
        "law=1\nsamples=2640\nmark=0,0\n".to_string(),
        "law=1\nsamples=2640\n".into(),
        "law=1\nsamples=2640\nmark=64,2560\n".into(),
        "law=1\nsamples=2640\nmark=64,2560\nmark=0,0\n".into(),
        "law=1\nsamples=2640\nmark=0,0\nmark=64,2560\nmark=65,2600\n".into(),
        "law=1\nsamples=2640\nmark=0,0\nmark=64,2560\nmark=64,2560\n".into(),
        "law=1\nsamples=2640\nmark=0,0\nmark=63,2520\n".into(),
        "law=1\nsamples=2640\nmark=0,0\nmark=64,2561\n".into(),
        "law=1\nsamples=2600\nmark=0,0\nmark=64,2560\n".into(),
        "law=1\nsamples=0\nmark=0,0\nmark=64,2560\n".into(),
        "law=1\nsamples=4294969936\nmark=0,0\nmark=64,2560\n".into(),
        format!("law=1\nsamples={LONG}\nmark=0,0\nmark=64,2560\n"),
        format!("law=1\nsamples=2640\nmark=0,0\nmark={LONG},2560\n"),
        format!("law=1\nsamples=2640\nmark=0,0\nmark=64,{LONG}\n"),
        "law=1\nsamples=2640\nmark=0,0\nmark=18446744073709551680,2560\n".into(),
    ] {
        assert_eq!(load(&lines(&after), &whole), TABLE, "{after}");
        assert_eq!(load(&lines(&after), &broken), BAD, "{after}");
    }
    // Told by the lines: K6, K8.
    for after in [
        "law=2\nsamples=2640\nmark=0,0\nmark=64,2560\n".to_string(),
        format!("law={LONG}\nsamples=2640\nmark=0,0\nmark=64,2560\n"),
        "law=4294967297\nsamples=2640\nmark=0,0\nmark=64,2560\n".into(),
        "law=01\nsamples=2640\nmark=0,0\nmark=64,2560\n".into(),
        "law=1\n".into(),
        "law=1\nmark=0,0\nmark=64,2560\n".into(),
        "samples=2640\nmark=0,0\nmark=64,2560\n".into(),
        "samples=2640\nlaw=1\nmark=0,0\nmark=64,2560\n".into(),
        "mark=0,0\nmark=64,2560\n".into(),
        "law=1\nsamples=2640\nmark=00,0\nmark=64,2560\n".into(),
        "law=1\nsamples=2640\nmark=0,00\nmark=64,2560\n".into(),
        "law=1\nsamples=2640\nmark=0\nmark=64,2560\n".into(),
        "law=1\nsamples=2640\nmark=0,\nmark=64,2560\n".into(),
        "law=1\nsamples=2640\nmark=,0\nmark=64,2560\n".into(),
        "law=1\nsamples=2640\nmark=0,0,0\nmark=64,2560\n".into(),
        "law=1\nsamples=2640\nmark=0, 0\nmark=64,2560\n".into(),
        "law=1\nsamples=2640\nmark=0;0\nmark=64,2560\n".into(),
        "law=1\nsamples=2640\nmarks=0,0\nmark=64,2560\n".into(),
        "law=1\nsamples=2640,0\nmark=0,0\nmark=64,2560\n".into(),
        "law=1\nsamples=2640\nmark=0,0\nmark=64,2560".into(),
        "law=1\nsamples=2640\nmark=0,0\nmark=64,2560\n\n".into(),
        "law=1\nsamples=2640\nmark=0,0\nsamples=2640\nmark=64,2560\n".into(),
    ] {
        assert_eq!(load(&lines(&after), &whole), TABLE, "{after}");
        assert_eq!(load(&lines(&after), &broken), TABLE, "{after}");
    }
}

/// K9: a table is all in R-6's lines or all in R-8's.
#[test]
fn mixed_lines() {
    let (early, late) = ("prompt=1\nstart=0\noctets=1\n", "prompt=2\nstart=1\noctets=1\nlaw=0\nsamples=40\nmark=0,0\n");
    let load = |text: &str| Store::load(text.as_bytes(), vec![0x41, 0x41]);
    assert_eq!(load(&(early.to_string() + late)), Err(TABLE));
    let turned = [late.replace("start=1", "start=0"), early.replace("start=0", "start=1")].concat();
    assert_eq!(load(&turned), Err(TABLE));
    // Told by the lines, and so before BAD.
    assert_eq!(Store::load(turned.as_bytes(), vec![0x46, 0x46]), Err(TABLE));
    assert_eq!(load(early).map(|store| store.greetings[0].law), Ok(MU));
    assert_eq!(load(late).map(|store| store.greetings[0].law), Ok(A));
    assert_eq!(load(early).unwrap().text(), b"prompt=1\nstart=0\noctets=1\nlaw=1\nsamples=40\nmark=0,0\n");
}

/// An empty greeting, and BAD of a later greeting before what an earlier one
/// says of itself.
#[test]
fn bad_over_the_whole_table() {
    let empty = "prompt=1\nstart=0\noctets=0\nlaw=1\nsamples=0\n";
    assert_eq!(Store::load(empty.as_bytes(), vec![0x41]), Err(BAD));
    let two = "prompt=1\nstart=0\noctets=1\nlaw=1\nsamples=41\nmark=0,0\n\
               prompt=2\nstart=1\noctets=1\nlaw=0\nsamples=40\nmark=0,0\n";
    assert_eq!(Store::load(two.as_bytes(), vec![0x41, 0x46]), Err(BAD));
    assert_eq!(Store::load(two.as_bytes(), vec![0x41, 0x41]), Err(TABLE));
}

#[test]
fn jumps_by_hand() {
    // 40 samples, a pad, 40, then 320 in two octets.
    let store = holding(&[0x41, 0x00, 0x42, 0x33, 0xAA]);
    assert_eq!(store.jump(1, 0), jumped(0, 0, 0, 1));
    assert_eq!(store.jump(1, 39), jumped(0, 0, 39, 1));
    assert_eq!(store.jump(1, 40), jumped(2, 2, 0, 3));
    assert_eq!(store.jump(1, 79), jumped(2, 2, 39, 3));
    assert_eq!(store.jump(1, 80), jumped(3, 3, 0, 4));
    assert_eq!(store.jump(1, 399), jumped(3, 3, 319, 4));
    assert_eq!(store.jump(1, 400), Err(BEYOND));
    assert_eq!(store.jump(1, u64::MAX), Err(BEYOND));
    assert_eq!(store.jump(1, 1 << 32), Err(BEYOND));
}

/// J1: of marks with equal samples the last, so at most 64 frames are read.
#[test]
fn jumps_over_pads() {
    // 200 pads, then one frame: marks at 0, 64, 128 and 192, all with 0 before.
    let mut octets = vec![0; 200];
    octets.push(0x41);
    let store = holding(&octets);
    assert_eq!(store.jump(1, 0), jumped(200, 200, 0, 9));
    // The last mark stands at the frame itself, and just before its samples.
    let store = holding(&[vec![0; 64], vec![0x41; 65]].concat());
    assert_eq!(store.jump(1, 0), jumped(64, 64, 0, 1));
    assert_eq!(store.jump(1, 2_559), jumped(127, 127, 39, 64));
    assert_eq!(store.jump(1, 2_560), jumped(128, 128, 0, 1));
    // A sample before a row of pads that marks stand in.
    let store = holding(&[vec![0x41], vec![0; 200], vec![0x41]].concat());
    assert_eq!(store.jump(1, 39), jumped(0, 0, 39, 1));
    assert_eq!(store.jump(1, 40), jumped(201, 201, 0, 10));
}

/// J2: the place counts from the greeting's start. J3: the refusals in order.
#[test]
fn where_and_when_a_jump_is_refused() {
    let mut store = fresh(20);
    store.put(MU, 5, &[0; 7]).unwrap();
    store.put(A, 6, &[0x42, 0x43, 0xAA]).unwrap();
    assert_eq!(store.jump(6, 45), jumped(1, 1, 5, 2));
    assert_eq!(store.jump(0, 0), Err(NUMBER));
    assert_eq!(store.jump(65_536, u64::MAX), Err(NUMBER));
    assert_eq!(store.jump(7, u64::MAX), Err(ABSENT));
    // A greeting of no samples has none to jump to.
    assert_eq!(store.jump(5, 0), Err(BEYOND));
    assert_eq!(store.jump(6, 80), Err(BEYOND));
}

/// J4 to J6: cells that no calls leave.
#[test]
fn jumps_by_false_marks() {
    let store = holding(&[0x41; 200]);
    let with = |samples: usize, marks: &[(usize, usize)]| {
        let mut store = store.clone();
        store.greetings[0].samples = samples;
        store.greetings[0].marks = marks.iter().map(|&(octets, samples)| Mark { octets, samples }).collect();
        store
    };
    // BEYOND by what is said; BAD where the greeting ends before it.
    assert_eq!(with(100, &[(0, 0)]).jump(1, 100), Err(BEYOND));
    assert_eq!(with(100, &[(0, 0)]).jump(1, 99), jumped(2, 2, 19, 3));
    assert_eq!(with(9_000, &[(0, 0), (64, 2_560), (128, 5_120), (192, 7_680)]).jump(1, 8_000), Err(BAD));
    // 64 frames don't reach it; no marks; marks past the end; a mark past the sample.
    assert_eq!(with(8_000, &[(0, 0)]).jump(1, 2_559), jumped(63, 63, 39, 64));
    assert_eq!(with(8_000, &[(0, 0)]).jump(1, 2_560), Err(BAD));
    assert_eq!(with(8_000, &[]).jump(1, 0), Err(BAD));
    assert_eq!(with(8_000, &[(200, 0)]).jump(1, 0), Err(BAD));
    assert_eq!(with(8_000, &[(199, 0)]).jump(1, 0), jumped(0, 199, 0, 1));
    assert_eq!(with(8_000, &[(4_294_967_295, 0)]).jump(1, 0), Err(BAD));
    assert_eq!(with(8_000, &[(0, 1)]).jump(1, 0), Err(BAD));
    assert_eq!(with(8_000, &[(0, 1)]).jump(1, 1), jumped(0, 0, 0, 1));
    // Marks that don't rise: the halving decides. Of five, the one in the
    // middle is asked first, then the first or the last but one.
    let marks = [(0, 0), (1, 0), (2, 50), (3, 0), (4, 0)];
    assert_eq!(with(8_000, &marks).jump(1, 10), jumped(64, 1, 10, 1));
    assert_eq!(with(8_000, &marks).jump(1, 50), jumped(64 * 4 + 1, 5, 10, 2));
    // A frame is read from the greeting's octets alone: these end inside it.
    let mut cut = fresh(10);
    cut.put(MU, 1, &[0x41, 0x43]).unwrap_err();
    cut.put(MU, 1, &[0x41, 0x43, 0xAA]).unwrap();
    cut.greetings[0].octets = 2;
    assert_eq!(cut.jump(1, 39), jumped(0, 0, 39, 1));
    assert_eq!(cut.jump(1, 40), Err(BAD));
}

/// Every sample of drawn greetings, beside a walk that keeps nothing but its
/// own counts.
#[test]
fn every_sample_of_drawn_greetings() {
    let mut rng = Prng::new(9);
    let mut greetings = 0;
    while greetings < 20 {
        let law = rng.below(2) as u32;
        let frames = 1 + rng.below(200);
        let octets: Vec<u8> = (0..frames)
            .flat_map(|_| match rng.below(3) {
                0 => vec![0; rng.below(100)],
                1 => vec![0x41],
                _ => make_any_form(law, &mut rng).octets,
            })
            .take(16_384)
            .collect();
        let mut store = fresh(16_384);
        // Those that are cut, as they would be too long, are not frames.
        if store.put(law, 9, &octets).is_err() {
            continue;
        }
        greetings += 1;
        let (mut at, mut frame, mut sample) = (0, 0, 0);
        while at < octets.len() {
            let read = read_frame(&octets[at..], law, 255, &mut [0; 320]);
            for within in 0..read.samples {
                assert_eq!(store.jump(9, sample), jumped(frame, at, within, frame % 64 + 1));
                sample += 1;
            }
            at += read.octets;
            frame += 1;
        }
        assert_eq!(store.jump(9, sample), Err(BEYOND));
    }
}

/// The table in numbers: what is written, and what stays.
#[test]
fn cells() {
    assert_eq!(table::cells(0), 258);
    assert_eq!(table::cells(63), 258);
    assert_eq!(table::cells(64), 260);
    assert_eq!(table::cells(16_384), 770);
    assert_eq!(table::cells(16_385), 770);
    assert_eq!(table::cells(16_448), 772);
    assert_eq!(table::cells(1_048_575), 33_024);
    assert_eq!(table::cells(1_048_576), 33_026);
    assert_eq!(table::cells(1_048_640), 33_026);
    assert_eq!(table::cells(u64::MAX), 33_026);
    let mut store = fresh(200);
    store.put(A, 7, &[0x41; 65]).unwrap();
    store.put(MU, 65_535, &[0, 0x31]).unwrap();
    let mut cells = [9; 270];
    table::close(&store, &mut cells);
    assert_eq!(cells[..8], [2, 7, 0, 65, 65_535, 65, 2, 9]);
    assert_eq!(cells[97..105], [2, 0, 2_600, 2, 1, 320, 1, 9]);
    assert_eq!(cells[194..201], [0, 0, 64, 2_560, 0, 0, 9]);
    assert_eq!(table::open(&store.block, &cells), Ok(store.clone()));
    // Deleted, the marks close up; what is past those in use stays.
    store.delete(7).unwrap();
    table::close(&store, &mut cells);
    assert_eq!(cells[..8], [1, 65_535, 65, 2, 65_535, 65, 2, 9]);
    assert_eq!(cells[97..105], [1, 1, 320, 1, 1, 320, 1, 9]);
    assert_eq!(cells[194..201], [0, 0, 64, 2_560, 0, 0, 9]);
    assert_eq!(table::open(&store.block, &cells), Ok(store));
}

/// What a lent table is refused for, and what it is not.
#[test]
fn cells_that_calls_do_not_leave() {
    let mut store = fresh(200);
    store.put(A, 7, &[0x41; 65]).unwrap();
    store.put(MU, 8, &[0, 0x31]).unwrap();
    let mut good = vec![0; 264];
    table::close(&store, &mut good);
    let with = |changes: &[(usize, u32)]| {
        let mut cells = good.clone();
        changes.iter().for_each(|&(at, number)| cells[at] = number);
        table::open(&store.block, &cells)
    };
    assert_eq!(with(&[]), Ok(store.clone()));
    assert_eq!(table::open(&store.block, &good[..263]), Err(TABLE));
    for refused in [
        &[(0, 1)][..],
        &[(0, 33)],
        &[(0, 33), (97, 33)],
        &[(97, 1)],
        &[(97, 3)],
        &[(97, u32::MAX)],
        &[(98, 2)],
        &[(98, u32::MAX)],
        &[(101, 2)],
        &[(100, 3)],
        &[(103, 2)],
        &[(103, u32::MAX)],
        &[(1, 0)],
        &[(4, 7)],
        &[(5, 64)],
        &[(6, 136)],
        &[(6, 0)],
        &[(0, 3), (97, 3)],
    ] {
        assert_eq!(with(refused), Err(TABLE), "{refused:?}");
    }
    for taken in [
        &[(0, 1), (97, 1)][..],
        &[(0, 0), (97, 0)],
        &[(98, 1)],
        &[(99, u32::MAX)],
        &[(100, 0)],
        &[(100, 1)],
        &[(103, 0)],
        &[(194, 77), (195, u32::MAX)],
        &[(7, 0), (104, u32::MAX), (200, 5)],
        &[(6, 64), (103, 2)],
    ] {
        assert!(with(taken).is_ok(), "{taken:?}");
    }
    // With one mark fewer of the first, the second's is the mark before its own.
    let shifted = with(&[(100, 1)]).unwrap();
    assert_eq!(shifted.greetings[1].marks, [Mark { octets: 64, samples: 2_560 }]);
    assert_eq!(shifted.jump(8, 0), Err(BAD));
}
