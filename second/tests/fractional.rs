//! Fractional-bit frames (document 02, R-14): the vectors worked out by hand,
//! the readings D1 to D10, every first octet, every V and every set, and drawn
//! frames of all rows, lengths and laws.

mod slow;
use second::gen::{self, digit_form, digit_rows, sample_of, Kind, Prng, DIGIT_ROWS, LENGTHS};
use second::mend::mend;
use second::recording::{heading, read_file, LOSS};
use second::saved::old_reads;
use second::store::{Jump, Store};
use second::{listing, read_frame, settings, walk, write_frame, ReadReport};
use slow::*;
use std::collections::HashMap;

const BAD: u32 = 18;
const MU: u32 = 1;
const ALL: u32 = 255;

// ---------------------------------------------------------------- vectors

const NAMES: [&str; 14] = [
    "ok", "SHORT", "PREFIX", "TOOL", "ROOM", "CASE", "METHOD", "RUN", "PLACE", "ALIGN", "LENGTH", "SET", "LAW", "LONG",
];

/// Octets of `41`, `FF*40`, `7E7F*20`, `00..27`, in parts with commas between.
fn octets_of(list: &str) -> Vec<u8> {
    let hex = |text: &str| -> Vec<u8> {
        assert!(text.len() % 2 == 0, "{text}");
        (0..text.len()).step_by(2).map(|at| u8::from_str_radix(&text[at..at + 2], 16).unwrap()).collect()
    };
    let part = |part: &str| match (part.split_once(".."), part.split_once('*')) {
        (Some((from, to)), _) => (hex(from)[0]..=hex(to)[0]).collect(),
        (_, Some((text, count))) => hex(text).repeat(count.parse().unwrap()),
        _ => hex(part),
    };
    list.split(',').filter(|text| !text.is_empty()).flat_map(part).collect()
}

/// The octets of bits in groups with dots between, a group with `*` repeated.
fn octets_as(groups: &str) -> Vec<u8> {
    let group = |group: &str| match group.split_once('*') {
        Some((bits, count)) => bits.repeat(count.parse().unwrap()),
        None => group.to_string(),
    };
    let bits: String = groups.split('.').map(group).collect();
    assert!(bits.len() % 8 == 0, "{groups}");
    (0..bits.len()).step_by(8).map(|at| u8::from_str_radix(&bits[at..at + 8], 2).unwrap()).collect()
}

/// The words of one side of a vector.
struct Side<'a>(HashMap<&'a str, &'a str>);

impl<'a> Side<'a> {
    fn of(words: impl Iterator<Item = &'a str>) -> Side<'a> {
        Side(words.map(|word| word.split_once('=').unwrap()).collect())
    }

    fn number(&self, key: &str, or: usize) -> usize {
        self.0.get(key).map_or(or, |digits| digits.parse().unwrap())
    }

    fn octets(&self, key: &str) -> Vec<u8> {
        self.0.get(key).map_or(vec![], |list| octets_of(list))
    }
}

/// What a call reported, by the words of a vector, and its octets.
type Told = (u32, Vec<(&'static str, usize)>, Vec<u8>);

fn told_of_read(octets: &[u8], law: u32, set: u32, room: usize) -> Told {
    let mut out = vec![0xA7; room];
    let got = read_frame(octets, law, set, &mut out);
    assert!(out[got.samples..].iter().all(|&octet| octet == 0xA7));
    out.truncate(got.samples);
    let words = vec![("tool", got.tool as usize), ("used", got.octets), ("bits", got.bits), ("bit", got.bit)];
    (got.ending, words, out)
}

fn told_of_write(samples: &[u8], law: u32, set: u32, room: usize) -> Told {
    let mut out = vec![0xA7; room];
    let got = write_frame(samples, law, set, &mut out);
    assert!(out[got.octets..].iter().all(|&octet| octet == 0xA7));
    out.truncate(got.octets);
    (got.ending, vec![("tool", got.tool as usize), ("bits", got.bits)], out)
}

fn told_of_walk(octets: &[u8], law: u32, set: u32, room: usize) -> Told {
    let mut out = vec![0xA7; room];
    let got = walk(octets, law, set, &mut out);
    assert!(out[got.samples..].iter().all(|&octet| octet == 0xA7));
    out.truncate(got.samples);
    let counts = [("frames", got.frames), ("used", got.octets), ("place", got.place)];
    let words = counts.into_iter().chain([("tool", got.tool as usize), ("bit", got.bit)]).collect();
    (got.ending, words, out)
}

/// The vectors worked out by hand, in the notation of the others.
#[test]
fn vectors() {
    let mut names = HashMap::new();
    let mut by_call: HashMap<&str, usize> = HashMap::new();
    for line in include_str!("../../tests/vectors/fractional.txt").lines() {
        if line.is_empty() || line.starts_with('#') {
            continue;
        }
        let (given, wanted) = line.split_once(" -> ").unwrap();
        let mut words = given.split_whitespace();
        let (call, name) = (words.next().unwrap(), words.next().unwrap());
        assert_eq!(names.insert((call, name), ()), None, "{name} twice");
        *by_call.entry(call).or_default() += 1;
        let given = Side::of(words);
        if let Some(groups) = given.0.get("as") {
            assert_eq!(octets_as(groups), given.octets("octets"), "{line}");
        }
        if let Some(text) = wanted.strip_prefix("text ") {
            let listed = String::from_utf8(listing(&given.octets("octets"))).unwrap();
            assert_eq!(listed.replace('\n', "|"), text, "{line}");
            continue;
        }
        let (law, set) = (given.number("law", 1) as u32, given.number("set", 127) as u32);
        let (told, result) = match call {
            "read" => (told_of_read(&given.octets("octets"), law, set, given.number("room", 320)), "samples"),
            "write" => (told_of_write(&given.octets("samples"), law, set, given.number("room", 400)), "octets"),
            "walk" => (told_of_walk(&given.octets("octets"), law, set, given.number("room", 4_000)), "samples"),
            other => panic!("{other}"),
        };
        let mut words = wanted.split_whitespace();
        let ending = words.next().unwrap();
        let wanted = Side::of(words);
        assert_eq!(NAMES[told.0 as usize], ending, "{line}");
        for (key, number) in told.1 {
            assert_eq!(number, wanted.number(key, 0), "{key}: {line}");
        }
        assert_eq!(told.2, wanted.octets(result), "{line}");
        if let Some(groups) = wanted.0.get("as") {
            assert_eq!(octets_as(groups), told.2, "{line}");
        }
    }
    println!("vectors: {by_call:?}");
    assert!(by_call.values().sum::<usize>() >= 240);
}

// ---------------------------------------------------------------- readings

/// Reads with every tool, in room enough.
fn read(octets: &[u8]) -> (ReadReport, Vec<u8>) {
    let mut out = vec![0xA7; 320];
    let report = read_frame(octets, MU, ALL, &mut out);
    out.truncate(report.samples);
    (report, out)
}

fn accepted(samples: usize, octets: usize) -> ReadReport {
    ReadReport { ending: 0, samples, octets, bits: 8 * octets, tool: 11, bit: 0 }
}

/// What a set writes of mu-law signed numbers.
fn written(numbers: &[i32], set: u32) -> Vec<u8> {
    let samples: Vec<u8> = numbers.iter().map(|&number| sample_of(number, MU)).collect();
    let mut out = [0; 321];
    let report = write_frame(&samples, MU, set, &mut out);
    assert_eq!(report.ending, 0);
    out[..report.octets].to_vec()
}

/// The octet that each first octet from 02 on would have by the length's first
/// one and the row's place in the table: D1.
#[test]
fn d1_rows_and_first_octets() {
    let mut seen = 0;
    for (reduced, values, prefixes) in TABLE_7_28 {
        assert_eq!(values.len(), reduced);
        let row = DIGIT_ROWS.iter().position(|row| *row == values).unwrap();
        for (&prefix, length) in prefixes.iter().zip(LENGTHS) {
            assert_eq!(usize::from(prefix), usize::from(digit_rows(length).1) + row);
            seen += 1;
        }
        let lengths = LENGTHS.iter().filter(|&&length| row < digit_rows(length).0).count();
        assert_eq!(prefixes.len(), lengths);
    }
    assert_eq!(seen, 30);
}

/// D2: {0, 1} has two digits, though -1 "does not exist within a frame".
#[test]
fn d2_the_table_decides_on_0_and_1() {
    assert_eq!(read(&[0x02, 0x80, 0, 0, 0, 0]), (accepted(40, 6), [vec![0xFE], vec![0xFF; 39]].concat()));
}

/// D3: a frame's row is told by its least, its greatest and -1.
#[test]
fn d3_the_row_of_a_frame() {
    assert_eq!(written(&[-2, -1, 1, 1].repeat(10), ALL), [&[0x03][..], &[0x1F; 10]].concat());
    // Not one that would hold it too.
    assert_eq!(written(&[-1, 0, 1, 0].repeat(40), 129)[0], 0xC0);
    assert_eq!(written(&[-2, -1, 0, 0].repeat(60), 129)[0], 0x20);
    assert_eq!(written(&[-3, 0, 1, 0].repeat(20), 129)[0], 0x80);
    assert_eq!(written(&[1; 40], 129)[0], 0x40);
}

/// D4: the first sample is V's lowest digit, and V's highest bit comes first.
#[test]
fn d4_digits_and_bits() {
    // 1, then -2 four times: 2. -2 four times, then 1: 2 * 81 = 162 = A2.
    let numbers = [vec![1], vec![-2; 8], vec![1], vec![0; 30]].concat();
    assert_eq!(written(&numbers, ALL), [0x05, 0x02, 0xA2, 0x79, 0x79, 0x79, 0x79, 0x79, 0x79]);
}

/// D5: V not below R'^5 is PLACE at its first bit, judged when it is whole.
#[test]
fn d5_place() {
    let refused = |octets: &[u8]| read(octets).0;
    assert_eq!(refused(&[0x05, 0x79, 0xF3]), refused_read((PLACE, 0, 16)));
    assert_eq!(refused(&[0x05, 0x79, 0xF2]), refused_read((SHORT, 0, 24)));
    assert_eq!(refused(&[0x09, 0xC3, 0x50]), refused_read((PLACE, 0, 8)));
    assert_eq!(refused(&[0x09, 0xFF]), refused_read((SHORT, 0, 16)));
    assert_eq!(refused(&[0x0B, 0xF3, 0x00]), refused_read((PLACE, 0, 8)));
    assert_eq!(refused(&[0x0B, 0xFF]), refused_read((SHORT, 0, 16)));
}

/// D6: a frame need not have the values that tell its row.
#[test]
fn d6_forms_no_writer_makes() {
    assert_eq!(read(&[0x04, 0xFF, 0xFF, 0xFF, 0xFF, 0xFF]), (accepted(40, 6), vec![0xFF; 40]));
    assert_eq!(read(&[&[0x06][..], &[0x79; 8]].concat()), (accepted(40, 9), vec![0x7F; 40]));
}

/// D7: only sets without 128 give TOOL 11; sets above 255 are SET.
#[test]
fn d7_every_set() {
    let form = [0x02, 0x55, 0x55, 0x55, 0x55, 0x55];
    for set in 0..600 {
        let report = read_frame(&form, MU, set, &mut [0; 40]);
        match set {
            0..=127 => assert_eq!(report, refused_read((TOOL, 11, 0))),
            128..=255 => assert_eq!(report, accepted(40, 6)),
            _ => assert_eq!(report, refused_read((SET, 0, 0))),
        }
        for first in 0x02..=0x1F {
            let report = read_frame(&[first], MU, set, &mut []);
            let wanted = [(TOOL, 11, 0), (ROOM, 0, 0), (SET, 0, 0)][(set as usize / 128).min(2)];
            assert_eq!(report, refused_read(wanted), "{first:02X} {set}");
        }
        // The other tools are asked for as before.
        for (first, tool) in [(0x41, 2), (0x42, 3)] {
            let held = set >> (tool - 1) & 1 == 1;
            let report = read_frame(&[first], MU, set, &mut [0; 40]);
            let wanted = if set > 255 { SET } else if held { 0 } else { TOOL };
            assert_eq!(report.ending, wanted);
        }
        let wrote = write_frame(&[0xFF; 40], MU, set, &mut [0; 41]);
        assert_eq!(wrote.ending == SET, set > 255 || set % 2 == 0);
    }
    // 128 adds no other tool, be it 8, and none of the others adds tool 11.
    for (octets, tool) in [(&[0x28, 0x00][..], 8), (&[0x60], 9), (&[0xC8], 10), (&[0x45], 12), (&[0x4F], 13)] {
        for set in 0..=255 {
            assert_eq!(read_frame(octets, MU, set, &mut [0; 320]), refused_read((TOOL, tool, 0)));
        }
    }
}

/// D8: just before uncompressed, so behind value-location.
#[test]
fn d8_the_tie_order() {
    let tie = [[0, 1].repeat(32), vec![0; 16]].concat();
    let by_location = written(&tie, ALL);
    assert_eq!((by_location.len(), by_location[0]), (11, 0x86));
    let by_digits = written(&tie, ALL - 64);
    assert_eq!((by_digits.len(), by_digits[0]), (11, 0x0E));
}

/// D9: the store, mending, files and settings go to 255; the listing keeps
/// 127, and an old box has its old tools.
#[test]
fn d9_who_takes_it() {
    let greeting = [0x41, 0x02, 0x55, 0x55, 0x55, 0x55, 0x55, 0x00, 0x42];
    let mut store = Store::fresh(vec![0; 9]);
    assert!(store.put(MU, 7, &greeting).is_ok());
    let text = store.text();
    assert_eq!(text, b"prompt=7\nstart=0\noctets=9\nlaw=1\nsamples=120\nmark=0,0\n");
    assert_eq!(Store::load(&text, greeting.to_vec()), Ok(store.clone()));
    assert_eq!(old_reads(&text, greeting.to_vec()), Err(BAD));
    assert_eq!(store.jump(7, 41), Ok(Jump { frame: 1, place: 1, within: 1, read: 2 }));
    assert_eq!(store.jump(7, 81), Ok(Jump { frame: 3, place: 8, within: 1, read: 4 }));
    assert_eq!(Store::fresh(vec![0; 9]).put(MU, 7, &greeting[..5]), Err(BAD));
    assert_eq!(Store::fresh(vec![0; 9]).put(MU, 7, &[0x05, 0xF3, 0, 0, 0, 0, 0, 0, 0]), Err(BAD));

    let mut out = [0; 20];
    let done = mend(&greeting, MU, 120, &mut out).unwrap();
    assert_eq!((&out[..done.octets], done.frames_kept, done.samples_filled), (&greeting[..], 4, 0));
    let done = mend(&greeting[..6], MU, 120, &mut out).unwrap();
    assert_eq!((&out[..done.octets], done.frames_kept, done.samples_filled), (&[0x41, 0x81][..], 1, 80));

    // Of any tool: forty times 1, and forty times -2, are erasure frames.
    let body = [0x02, 0xFF, 0xFF, 0xFF, 0xFF, 0xFF, 0x04, 0, 0, 0, 0, 0, 0x02, 0xFF, 0xFF, 0xFF, 0xFF, 0xFE];
    let file = [&heading(MU)[..], &body].concat();
    let mut items = [0; 4];
    let report = read_file(&file, ALL, &mut [0; 80], &mut items);
    assert_eq!((report.ending, report.items, report.samples), (0, 3, 40));
    assert_eq!(items[..3], [LOSS + 40, LOSS + 40, 40]);
    let report = read_file(&file, 127, &mut [0; 80], &mut items);
    assert_eq!((report.ending, report.tool, report.items), (TOOL, 11, 0));
    assert_eq!(read_file(&file, 256, &mut [0; 80], &mut items).ending, SET);

    let mut state = settings::FRESH;
    assert_eq!(settings::save(&mut state, b"law=1\nset=255\nblock=1\ngreeting=0\n"), Ok(1));
    assert_eq!(settings::save(&mut state, b"law=1\nset=256\nblock=1\ngreeting=0\n"), Err(23));

    let input = [&b"M"[..], &greeting].concat();
    let listed = "law=1\nframe=0 at=0 samples=40 tool=2 octets=1 bits=8\nstop=3 at=1 tool=11 bit=0\nsamples=40\n";
    assert_eq!(listing(&input), listed.as_bytes());
}

/// D10: a form is written however few octets the tools that are not carried
/// might need.
#[test]
fn d10_six_octets_or_fewer() {
    assert_eq!(written(&[0, 1].repeat(20), ALL).len(), 6);
}

// ---------------------------------------------------------------- all of it

/// Every value of V at every place of every row that has one; at the longer
/// lengths at the first, the last and some places between.
#[test]
fn every_v() {
    let (mut good, mut bad) = (0u64, 0u64);
    for first in 0x02..=0x1Fu8 {
        let (row, length) = row_of(first);
        let base = DIGIT_ROWS[row].len();
        let width = match base {
            3 => 8,
            5 => 12,
            6 => 13,
            _ => continue,
        };
        let fives = length / 5;
        for place in (0..fives).filter(|place| fives == 8 || place % 5 == 0 || place + 1 == fives) {
            for v in 0..1usize << width {
                let mut bits = gen::BitString::default();
                bits.number(usize::from(first), 8);
                for at in 0..fives {
                    bits.number(if at == place { v } else { 0 }, width);
                }
                let (report, out) = read(&bits.octets());
                if v >= base.pow(5) {
                    assert_eq!(report, refused_read((PLACE, 0, 8 + width as usize * place)));
                    bad += 1;
                    continue;
                }
                assert_eq!(report, accepted(length, 1 + fives * width as usize / 8));
                let (mut digits, mut left) = (vec![0; length], v);
                for digit in &mut digits[5 * place..5 * place + 5] {
                    (*digit, left) = (left % base, left / base);
                }
                let wanted: Vec<u8> = digits.iter().map(|&digit| sample_of(DIGIT_ROWS[row][digit], MU)).collect();
                assert_eq!(out, wanted);
                good += 1;
            }
        }
    }
    println!("V accepted: {good}, refused: {bad}");
    assert!(good > 100_000 && bad > 10_000);
}

/// The row and the length of a first octet.
fn row_of(first: u8) -> (usize, usize) {
    let length = LENGTHS.into_iter().rfind(|&length| digit_rows(length).1 <= first).unwrap();
    (usize::from(first - digit_rows(length).1), length)
}

/// Every digit of every row at every length, as a frame of one value.
#[test]
fn every_digit() {
    for first in 0x02..=0x1Fu8 {
        let (row, length) = row_of(first);
        for (digit, &value) in DIGIT_ROWS[row].iter().enumerate() {
            for law in 0..2 {
                let form = digit_form(row, &vec![digit; length], law);
                assert_eq!(form.octets[0], first);
                let mut out = vec![0; length];
                let report = read_frame(&form.octets, law, 128, &mut out);
                assert_eq!(report, accepted(length, form.octets.len()));
                assert_eq!(out, vec![sample_of(value, law); length]);
            }
        }
    }
}

/// Good forms of any digits, whole, at every cut, and in every room.
#[test]
fn forms_cuts_and_rooms() {
    let mut rng = Prng::new(1401);
    let mut cuts = 0u64;
    for round in 0..1_500 {
        let law = rng.below(2) as u32;
        let length = LENGTHS[round % 5];
        let form = gen::make_form(11, length, law, &mut rng).unwrap();
        let behind = rng.below(9);
        let octets = [form.octets.clone(), rng.octets(behind)].concat();
        let mut out = vec![0x33; length + 3];
        let report = read_frame(&octets, law, 128 | rng.below(128) as u32, &mut out);
        assert_eq!(report, accepted(length, form.octets.len()));
        assert_eq!((&out[..length], &out[length..]), (&form.samples[..], &[0x33; 3][..]));
        for cut in 1..form.octets.len() {
            out.fill(0x33);
            let report = read_frame(&form.octets[..cut], law, ALL, &mut out);
            assert_eq!(report, refused_read((SHORT, 0, 8 * cut)));
            assert!(out.iter().all(|&octet| octet == 0x33));
            cuts += 1;
        }
        let room = rng.below(length);
        assert_eq!(read_frame(&octets, law, ALL, &mut out[..room]), refused_read((ROOM, 0, 0)));
    }
    println!("cuts: {cuts}");
}

/// One or more numbers of a good form made too large: the first of them is
/// told, whether the octets go on or end right behind it.
#[test]
fn the_first_number_that_no_digits_make() {
    let mut rng = Prng::new(1402);
    let mut tried = 0u64;
    for _ in 0..20_000 {
        let length = *rng.pick(&LENGTHS);
        let row = rng.below(digit_rows(length).0);
        let base = DIGIT_ROWS[row].len();
        let width = match base {
            3 => 8,
            5 => 12,
            6 => 13,
            _ => continue,
        };
        let bad: Vec<bool> = (0..length / 5).map(|_| rng.chance(1, 12)).collect();
        let Some(first) = bad.iter().position(|&bad| bad) else { continue };
        let mut bits = gen::BitString::default();
        bits.number(usize::from(digit_rows(length).1) + row, 8);
        let limit = base.pow(5);
        for &bad in &bad {
            let v = if bad { limit + rng.below((1 << width) - limit) } else { rng.below(limit) };
            bits.number(v, width);
        }
        let starts = 8 + first * width as usize;
        let octets = bits.octets();
        let whole = (starts + width as usize).div_ceil(8);
        for end in [octets.len(), whole] {
            let mut out = [0xA7; 320];
            let report = read_frame(&octets[..end], rng.below(2) as u32, ALL, &mut out);
            assert_eq!(report, refused_read((PLACE, 0, starts)));
            assert!(out.iter().all(|&octet| octet == 0xA7));
            tried += 1;
        }
        assert_eq!(read_frame(&octets[..whole - 1], MU, ALL, &mut [0; 320]), refused_read((SHORT, 0, 8 * (whole - 1))));
    }
    println!("numbers refused: {tried}");
    assert!(tried > 5_000);
}

/// Drawn frames of all rows, lengths and laws, with every odd set: written as
/// the text says, and read back.
#[test]
fn frames_of_every_row_come_back() {
    let mut rng = Prng::new(1403);
    let mut by_tool = [0u64; 12];
    for row in 0..12 {
        for length in LENGTHS {
            for law in 0..2 {
                for one_in in [1, 2, 5, 30] {
                    let samples = gen::make_frame(Kind::Digits { row, one_in }, length, law, &mut rng);
                    for set in (1..256).step_by(2) {
                        let mut form = [0xA7; 321];
                        let wrote = write_frame(&samples, law, set, &mut form);
                        if set % 16 == 1 || set == ALL {
                            let (theirs, after) = slow::write(&samples, law, set, &[0xA7; 321]);
                            assert_eq!((wrote, &form[..]), (theirs, &after[..]));
                        }
                        let mut out = vec![0; length];
                        let back = read_frame(&form[..wrote.octets], law, set, &mut out);
                        assert_eq!((back.ending, back.tool, back.bits), (0, wrote.tool, wrote.bits));
                        assert_eq!(out, samples);
                        by_tool[wrote.tool as usize] += 1;
                        // The tool applies exactly where the length has the row,
                        // and the value-location form is then not the shorter one.
                        let held = set >= 128 && row < digit_rows(length).0;
                        assert_eq!(wrote.tool == 11, held && wrote.tool != 7, "{row} {length} {set}");
                        assert!(wrote.tool != 1 || !held);
                    }
                }
            }
        }
    }
    println!("frames of tool 11's rows, by tool 0 to 11: {by_tool:?}");
    assert!([1, 7, 11].iter().all(|&tool| by_tool[tool] > 1_000));
}

/// R-5 over the wider sets: a larger set never costs octets.
#[test]
fn larger_sets_cost_nothing() {
    let mut rng = Prng::new(1404);
    let kinds = gen::all_kinds();
    for _ in 0..1_500 {
        let (length, law) = (*rng.pick(&LENGTHS), rng.below(2) as u32);
        let samples = gen::make_frame(*rng.pick(&kinds), length, law, &mut rng);
        let octets = |set: u32| write_frame(&samples, law, set, &mut [0; 321]).octets;
        for _ in 0..8 {
            let set = 1 | rng.below(256) as u32;
            let larger = set | rng.below(256) as u32;
            assert!(octets(larger) <= octets(set), "{set} {larger}");
        }
    }
}

/// The longest forms: tool 11's has 81 octets, and 402 stay the most that any
/// accepted frame has.
#[test]
fn the_longest_forms() {
    let most = (0x02..=0x1Fu8).map(|first| {
        let (row, length) = row_of(first);
        digit_form(row, &vec![0; length], MU).octets.len()
    });
    assert_eq!(most.max(), Some(81));
    let rice = gen::rice_form(&[true; 320], true, 9, MU);
    assert_eq!(read_frame(&rice.octets, MU, ALL, &mut [0; 320]).octets, 402);
}
