//! Longer greetings (document 02, R-11): the readings B1 to B10, and drawn
//! stores on both sides of 65,535 octets.

use second::gen::{damage_somehow, make_any_form, Prng};
use second::mend::mend;
use second::recording::{read_file, write_file, LOSS};
use second::saved::old_reads;
use second::store::{Greeting, Put, Store, MOST_BLOCK};
use second::{listing, table, walk};

const ROOM: u32 = 4;
const LONG: u32 = 13;
const BAD: u32 = 18;
const NOROOM: u32 = 20;
const TOTAL: u32 = 22;
const TABLE: u32 = 26;

const MU: u32 = 1;
const MOST: usize = 1_048_576;

/// A fresh store whose block holds pads.
fn fresh(size: usize) -> Store {
    Store::fresh(vec![0; size])
}

/// The refusal of a load into a block of so many pads, 0 for none.
fn load(text: &[u8], size: usize) -> u32 {
    Store::load(text, vec![0; size]).err().unwrap_or(0)
}

/// R-6's lines of greeting 1.
fn early(start: usize, octets: usize) -> String {
    format!("prompt=1\nstart={start}\noctets={octets}\n")
}

/// R-8's lines of greeting 1, which is nothing but pads.
fn late(start: usize, octets: usize) -> String {
    let marks = (0..octets).step_by(64).map(|at| format!("mark={at},0\n"));
    early(start, octets) + "law=1\nsamples=0\n" + &marks.collect::<String>()
}

/// B1: the walk's own limit.
#[test]
fn b1_walks() {
    let pads = vec![0; MOST + 1];
    let walked = walk(&pads[1..], MU, 127, &mut []);
    assert_eq!((walked.ending, walked.frames, walked.octets, walked.place), (0, MOST, MOST, MOST));
    let walked = walk(&pads, MU, 127, &mut []);
    assert_eq!((walked.ending, walked.frames, walked.octets, walked.place), (LONG, 0, 0, 0));
    // A refusal past the old limit, with its place.
    let mut stream = vec![0x00; 70_000];
    stream.extend([0x86, 0xF5]);
    let walked = walk(&stream, MU, 127, &mut [0; 80]);
    assert_eq!((walked.ending, walked.frames, walked.place, walked.bit), (9, 70_000, 70_000, 15));
    // More samples than a walk could give before.
    let mut out = vec![0; 320 * 65_537];
    let walked = walk(&[0x31; 65_537], 0, 2, &mut out);
    assert_eq!((walked.ending, walked.samples), (0, 20_971_840));
    assert!(out.iter().all(|&sample| sample == 0xD5));
}

/// B2: the listing's limit stays.
#[test]
fn b2_listings() {
    let mut input = vec![0; 65_536];
    input[0] = b'A';
    assert!(listing(&input).ends_with(b"stop=0 at=65535 tool=0 bit=0\nsamples=0\n"));
    input.push(0);
    assert_eq!(listing(&input), b"stop=13 at=0 tool=0 bit=0\n");
    assert_eq!(walk(&input[1..], 0, 127, &mut []).ending, 0);
}

/// B3: files of studios, read and written.
#[test]
fn b3_files() {
    let mut file = b"#!G7110M\n\0".to_vec();
    file.resize(10 + MOST, 0);
    let mut items = vec![1; MOST + 1];
    let report = read_file(&file, 127, &mut [], &mut items);
    assert_eq!((report.ending, report.items, report.octets), (0, MOST, MOST));
    assert_eq!((items[MOST - 1], items[MOST]), (0, 1));
    file.push(0);
    let report = read_file(&file, 127, &mut [], &mut items);
    assert_eq!((report.ending, report.law, report.items, report.octets), (LONG, 1, 0, 0));
    let losses = vec![LOSS; MOST + 1];
    let mut out = vec![0; 10 + MOST];
    assert_eq!(write_file(&[], &losses, MU, 127, &mut out), Err(LONG));
    assert_eq!(write_file(&[], &losses[1..], MU, 127, &mut out[1..]), Err(ROOM));
    assert_eq!(write_file(&[], &losses[1..], MU, 127, &mut out), Ok(10 + MOST));
    assert!(out[10..].iter().all(|&octet| octet == 0x01));
}

/// B4: mending, the greeting's limit and the result's.
#[test]
fn b4_mending() {
    let pads = vec![0; MOST + 1];
    let mut out = vec![0xA7; MOST];
    assert_eq!(mend(&pads, MU, 39, &mut out), Err(LONG));
    assert_eq!(mend(&pads[1..], MU, 39, &mut out), Err(TOTAL));
    assert_eq!(mend(&pads[1..], MU, 40, &mut out), Err(LONG));
    assert_eq!(mend(&pads[2..], MU, 320, &mut out[1..]), Err(ROOM));
    assert!(out.iter().all(|&octet| octet == 0xA7));
    let done = mend(&pads[2..], MU, 320, &mut out).unwrap();
    assert_eq!((done.octets, done.frames_kept, done.samples_filled), (MOST, MOST - 1, 320));
    assert_eq!((out[MOST - 2], out[MOST - 1]), (0x00, 0x31));
    // 3,125 frames of filling are the most.
    assert_eq!(mend(&pads[3_126..], MU, 1_000_000, &mut out).map(|done| done.octets), Ok(MOST));
    assert_eq!(mend(&pads[3_125..], MU, 1_000_000, &mut out), Err(LONG));
}

/// B5: the block's size, BAD before NOROOM.
#[test]
fn b5_blocks() {
    assert_eq!(MOST_BLOCK, MOST);
    assert_eq!(fresh(MOST + 9).size(), MOST);
    let mut store = Store::fresh(vec![0xEE; MOST + 9]);
    assert_eq!(store.put(MU, 1, &vec![0; MOST + 1]), Err(BAD));
    assert_eq!(store.put(MU, 1, &[0x41; 70_000]), Ok(Put { start: 0, moved: 0 }));
    assert_eq!(store.put(MU, 2, &vec![0; MOST]), Err(NOROOM));
    assert_eq!(store.put(MU, 2, &vec![0; MOST - 70_000]), Ok(Put { start: 70_000, moved: 0 }));
    assert_eq!(store.put(MU, 3, &[0]), Err(NOROOM));
    assert_eq!(store.get(2), Ok((70_000, MOST - 70_000)));
    assert_eq!(store.delete(1), Ok(()));
    store.put(MU, 3, &[0x42; 30_000]).unwrap();
    assert_eq!(store.delete(2), Ok(()));
    // Gaps of no octets before 3 and of all behind it.
    assert_eq!(store.put(MU, 4, &[0x41; 999_999]), Ok(Put { start: 30_000, moved: 0 }));
    assert_eq!(store.delete(3), Ok(()));
    assert_eq!(store.put(MU, 5, &[0; 48_577]), Ok(Put { start: 999_999, moved: 999_999 }));
    assert_eq!(store.jump(4, 2_621_440 + 7).map(|to| (to.frame, to.within, to.read)), Ok((65_536, 7, 1)));
    assert_eq!(store.jump(4, 39_999_959).map(|to| (to.place, to.within, to.read)), Ok((999_998, 39, 63)));
    assert_eq!(store.block[MOST..], [0xEE; 9]);
}

/// B6: when a saved table begins with `form=2`.
#[test]
fn b6_first_lines() {
    assert_eq!(fresh(65_535).text(), b"");
    assert_eq!(fresh(65_536).text(), b"form=2\n");
    assert_eq!(fresh(MOST + 1).text(), b"form=2\n");
    // Neither start nor octets can be above 65,535 in a smaller block.
    let mut store = fresh(65_535);
    store.put(MU, 1, &[0; 65_535]).unwrap();
    assert_eq!(store.text(), late(0, 65_535).into_bytes());
    let mut store = fresh(65_536);
    store.put(MU, 1, &[0]).unwrap();
    assert_eq!(store.text(), ("form=2\n".to_string() + &late(0, 1)).into_bytes());
    // The line is part of what room is asked for.
    let mut out = [0xA7; 8];
    assert_eq!(fresh(65_536).save(&mut out[..6]), Err(ROOM));
    assert_eq!(out, [0xA7; 8]);
    assert_eq!(fresh(65_536).save(&mut out), Ok(7));
    assert_eq!(out, *b"form=2\n\xA7");
}

/// B7: read with and without the line, also where it is not called for.
#[test]
fn b7_with_and_without() {
    for size in [10, 65_535, 65_536, MOST] {
        assert_eq!(load(b"", size), 0);
        assert_eq!(load(b"form=2\n", size), 0);
        assert_eq!(load(late(0, 10).as_bytes(), size), 0);
        assert_eq!(load(("form=2\n".to_string() + &late(0, 10)).as_bytes(), size), 0);
        assert_eq!(load(early(0, 10).as_bytes(), size), 0);
    }
    // What is left out is put back by the next save.
    let store = Store::load(early(3, 2).as_bytes(), vec![0; 65_536]).unwrap();
    assert_eq!(store.text(), ("form=2\n".to_string() + &late(3, 2)).into_bytes());
    let store = Store::load(b"form=2\n", vec![0; 10]).unwrap();
    assert_eq!(store.text(), b"");
}

/// B8: without the line, a start or octet count above 65,535 is TABLE. Where
/// the greeting ends is not asked.
#[test]
fn b8_large_numbers_without_the_line() {
    for (start, octets, without) in [
        (65_535, 1, 0),
        (65_536, 1, TABLE),
        (0, 65_535, 0),
        (0, 65_536, TABLE),
        (65_535, 65_535, 0),
        (65_535, 65_536, TABLE),
        (MOST - 1, 1, TABLE),
        (0, MOST, TABLE),
    ] {
        for lines in [early(start, octets), late(start, octets)] {
            assert_eq!(load(lines.as_bytes(), MOST), without, "{start} {octets}");
        }
        let with = "form=2\n".to_string() + &late(start, octets);
        assert_eq!(load(with.as_bytes(), MOST), 0, "{start} {octets}");
        // It is told by the lines, and so before BAD.
        let other = Store::load(late(start, octets).as_bytes(), vec![0x46; MOST]);
        assert_eq!(other, Err(if without == 0 { BAD } else { TABLE }));
        assert_eq!(Store::load(with.as_bytes(), vec![0x46; MOST]), Err(BAD));
    }
    // An empty greeting too, and with the line the block's end is asked.
    assert_eq!(load(early(65_536, 0).as_bytes(), MOST), TABLE);
    assert_eq!(load(early(65_535, 0).as_bytes(), MOST), BAD);
    for (start, octets, refusal) in [("1048576", "1", TABLE), ("1048576", "0", BAD), ("4295032832", "1", TABLE)] {
        let text = format!("form=2\nprompt=1\nstart={start}\noctets={octets}\nlaw=1\nsamples=0\nmark=0,0\n");
        assert_eq!(load(text.as_bytes(), MOST), refusal, "{start} {octets}");
    }
}

/// B9: what is no first line, or no table behind it.
#[test]
fn b9_other_first_lines() {
    let lines = late(0, 10);
    for first in [
        "form=1\n", "form=02\n", "form=3\n", "form=22\n", "form=2", "form=2\r\n", "form=2\n\n", "form=\n", "Form=2\n",
        " form=2\n", "form =2\n", "form=2 \n", "\nform=2\n", "form=2\nform=2\n", "form=2,0\n", "form=4294967298\n",
        "form=2\nform=3\n", "form\n", "form=+2\n",
    ] {
        for size in [10, MOST] {
            assert_eq!(load(first.as_bytes(), size), TABLE, "{first:?}");
            assert_eq!(load((first.to_string() + &lines).as_bytes(), size), TABLE, "{first:?}");
        }
    }
    assert_eq!(load((lines.clone() + "form=2\n").as_bytes(), 10), TABLE);
    // R-6's lines behind it, all of them or some.
    assert_eq!(load(("form=2\n".to_string() + &early(0, 10)).as_bytes(), 10), TABLE);
    let mixed = ["form=2\n", &lines, "prompt=2\nstart=10\noctets=1\n"].concat();
    assert_eq!(load(mixed.as_bytes(), 20), TABLE);
    // All of R-6's and R-8's own faults are still found behind it.
    for (prompt, law) in [(0, 1), (1, 2), (65_536, 0)] {
        let text = format!("form=2\nprompt={prompt}\nstart=0\noctets=1\nlaw={law}\nsamples=0\nmark=0,0\n");
        assert_eq!(Store::load(text.as_bytes(), vec![0x46]), Err(TABLE));
    }
    let wrong = "form=2\nprompt=1\nstart=0\noctets=1\nlaw=1\nsamples=1\nmark=0,0\n";
    assert_eq!(Store::load(wrong.as_bytes(), vec![0x46]), Err(BAD));
    assert_eq!(Store::load(wrong.as_bytes(), vec![0x00]), Err(TABLE));
}

/// B10: an old box refuses the line, and with it all behind it; it takes what
/// it took, and the new reader takes that too.
#[test]
fn b10_old_boxes() {
    let old = |text: &[u8], size: usize| old_reads(text, vec![0; size]).err().unwrap_or(0);
    assert_eq!(old(b"form=2\n", 16_384), TABLE);
    let mut rng = Prng::new(1110);
    let mut by_old = [0; 2];
    for _ in 0..2_000 {
        let store = drawn(&mut rng);
        let text = store.text();
        let line = store.size() > 65_535;
        let mut behind = text.strip_prefix(b"form=2\n").unwrap_or(&text).to_vec();
        if rng.flip() && !behind.is_empty() {
            behind = damage_somehow(&behind, &mut rng);
        }
        let with = [&b"form=2\n"[..], &behind].concat();
        assert_eq!(old_reads(&with, store.block.clone()), Err(TABLE));
        // An old block is 16,384 octets: nothing past them is shown.
        match old_reads(&behind, store.block.clone()) {
            Ok(read) => {
                assert!(read.greetings.iter().all(|g| g.start + g.octets <= 16_384));
                assert_eq!(Store::load(&behind, store.block.clone()), Ok(read));
            }
            Err(refusal) => assert!(refusal == TABLE || refusal == BAD),
        }
        assert_eq!(line, text.starts_with(b"form=2\n"));
        if !line && store.size() <= 16_384 {
            // Tool 11 came later: a greeting that has it is BAD there.
            let octets = |g: &Greeting| store.block[g.start..g.start + g.octets].to_vec();
            let known = |g: &Greeting| walk(&octets(g), MU, 127, &mut [0; 2_000]).ending == 0;
            let wanted = if store.greetings.iter().all(known) { Ok(store.clone()) } else { Err(BAD) };
            assert!(old_reads(&text, store.block.clone()) == wanted);
            by_old[usize::from(wanted.is_ok())] += 1;
        }
    }
    println!("tables refused and taken by an old box: {by_old:?}");
    assert!(by_old.iter().all(|&count| count > 50));
    assert_eq!(old(late(16_383, 1).as_bytes(), 20_000), 0);
    assert_eq!(old(late(16_384, 1).as_bytes(), 20_000), TABLE);
    assert_eq!(old(early(0, 16_384).as_bytes(), 16_384), 0);
}

/// A store of some greetings in a block of any of several sizes, some of them
/// deleted.
fn drawn(rng: &mut Prng) -> Store {
    let size = *rng.pick(&[100, 2_000, 16_384, 65_535, 65_536, 65_537, 200_000]);
    let mut store = fresh(size);
    for number in 1..=1 + rng.below(12) as u32 {
        let mut octets: Vec<u8> = (0..1 + rng.below(4)).flat_map(|_| make_any_form(MU, rng).octets).collect();
        if rng.chance(1, 4) {
            let pads = rng.below(size);
            octets.splice(0..0, vec![0; pads]);
        }
        let _ = store.put(MU, number, &octets);
    }
    for number in 1..=12 {
        if rng.chance(1, 3) {
            let _ = store.delete(number);
        }
    }
    store
}

/// What is saved is loaded, whole and through cells.
#[test]
fn saved_and_loaded() {
    let mut rng = Prng::new(1111);
    let mut lines = [0; 2];
    for _ in 0..400 {
        let store = drawn(&mut rng);
        let text = store.text();
        let large = |g: &Greeting| g.start > 65_535 || g.octets > 65_535;
        let asked = store.size() > 65_535 || store.greetings.iter().any(large);
        assert_eq!(text.starts_with(b"form=2\n"), asked);
        lines[usize::from(asked)] += 1;
        assert_eq!(Store::load(&text, store.block.clone()), Ok(store.clone()));
        let mut cells = vec![7; table::cells(store.size() as u64) as usize];
        table::close(&store, &mut cells);
        assert_eq!(table::open(&store.block, &cells), Ok(store));
    }
    println!("tables without and with form=2: {lines:?}");
    assert!(lines.iter().all(|&count| count > 50));
}

/// The most marks that a block can have: a greeting of 64 k + 1 pads has k + 1,
/// so 32 of them have 32 more than one for every 64 octets of the block, less
/// the one that their 32 odd octets cost. The table has cells for 16,416.
#[test]
fn the_most_marks() {
    let mut store = fresh(MOST);
    for number in 1..32 {
        store.put(MU, number, &[0]).unwrap();
    }
    store.put(MU, 32, &vec![0; MOST - 31]).unwrap();
    let marks: usize = store.greetings.iter().map(|g| g.marks.len()).sum();
    assert_eq!(marks, 31 + 16_384);
    let mut cells = vec![7; 33_026];
    table::close(&store, &mut cells);
    assert_eq!(cells[194 + 2 * marks..], [7, 7]);
    assert_eq!(table::open(&store.block, &cells), Ok(store.clone()));
    assert_eq!(table::open(&store.block, &cells[1..]), Err(TABLE));
    assert_eq!(Store::load(&store.text(), store.block.clone()), Ok(store.clone()));
    // As many where the small ones have 65 octets, two marks each.
    let mut store = fresh(MOST);
    for number in 1..32 {
        store.put(MU, number, &[0; 65]).unwrap();
    }
    store.put(MU, 32, &vec![0; MOST - 31 * 65]).unwrap();
    assert_eq!(store.greetings.iter().map(|g| g.marks.len()).sum::<usize>(), 62 + 16_353);
    assert_eq!(Store::load(&store.text(), store.block.clone()), Ok(store));
}
