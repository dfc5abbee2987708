//! The bit that a refusal gives, from forms whose every code's start is known.

mod slow;
use second::gen::{self, BitString, Prng};
use second::{listing, read_frame, walk};
use slow::*;

/// Reads octets that are refused so, and gives the bit.
fn bit_of(octets: &[u8], ending: u32) -> usize {
    let report = read_frame(octets, 1, 255, &mut [0; 320]);
    assert_eq!(report.ending, ending, "{octets:02X?}");
    report.bit
}

/// Tool 6 for plus marked, up to the first run.
fn rice_start(length: usize, s: u32) -> BitString {
    let mut bits = BitString::default();
    bits.text(match length {
        40 => "01010",
        80 => "10010",
        160 => "11010",
        240 => "0010100",
        _ => "0011100",
    });
    bits.text(gen::s_code_texts(length)[s as usize - 1]);
    bits
}

/// Tool 7 up to the first method.
fn values_start(length: usize, case_and_flag: &str) -> BitString {
    let mut bits = BitString::default();
    bits.text(match length {
        80 => "10000110",
        160 => "11000110",
        240 => "00100101",
        _ => "00110101",
    });
    bits.text(case_and_flag);
    bits
}

/// Up to seven runs of up to four places; gives the places left.
fn some_runs(bits: &mut BitString, s: u32, places: usize, rng: &mut Prng) -> usize {
    let mut left = places;
    for _ in 0..rng.below(8) {
        let run = rng.below(5);
        bits.rice(s, run);
        left -= run + 1;
    }
    left
}

/// Tool 7 with case 1 and flag 1 up to -1's method: 1 is put by any method.
/// Gives the places left.
fn first_value(bits: &mut BitString, length: usize, rng: &mut Prng) -> usize {
    let method = *rng.pick(&[0usize, 1, 2, 3, 4, 5]);
    let taken = if method == 5 { 0 } else { rng.below(length - 8) };
    let row: Vec<bool> = (0..length).map(|place| place < taken).collect();
    bits.number(method, 3);
    match method {
        0 => bits.row(&row),
        5 => {}
        s => bits.runs(s as u32, &row),
    }
    length - taken
}

/// Puts a run that is too long, by its number or by its zeros, and more bits.
fn too_long(bits: &mut BitString, s: u32, length: usize, left: usize, rng: &mut Prng) {
    match rng.below(3) {
        0 => bits.rice(s, left + 1),
        1 => bits.rice(s, left + 1 + rng.below(200)),
        _ => bits.text(&"0".repeat(length + 1)),
    }
    let more = rng.below(20);
    bits.number(rng.below(1 << more), more as u32);
}

#[test]
fn run_gives_the_first_bit_of_its_code() {
    let mut rng = Prng::new(801);
    let (mut rice, mut values) = (0u64, 0u64);
    for _ in 0..400 {
        for length in gen::LENGTHS {
            for s in 1..=gen::s_code_texts(length).len() as u32 {
                let mut bits = rice_start(length, s);
                let left = some_runs(&mut bits, s, length, &mut rng);
                let code = bits.len();
                too_long(&mut bits, s, length, left, &mut rng);
                assert_eq!(bit_of(&bits.octets(), RUN), code);
                rice += 1;
            }
        }
        for length in [80, 160, 240, 320] {
            for s in 1..=4 {
                let mut bits = values_start(length, "011");
                let left = first_value(&mut bits, length, &mut rng);
                bits.number(s as usize, 3);
                let left = if left < 40 { left } else { some_runs(&mut bits, s, left, &mut rng) };
                let code = bits.len();
                too_long(&mut bits, s, length, left, &mut rng);
                assert_eq!(bit_of(&bits.octets(), RUN), code);
                values += 1;
            }
        }
    }
    println!("bits of RUN: {rice} in tool 6, {values} in tool 7");
}

#[test]
fn place_gives_the_first_bit_of_the_listed_place() {
    let mut rng = Prng::new(802);
    let (mut too_high, mut not_rising) = (0u64, 0u64);
    for _ in 0..8_000 {
        let length = *rng.pick(&[80, 160, 240, 320]);
        let mut bits = values_start(length, "011");
        let left = first_value(&mut bits, length, &mut rng);
        let width = (0..).find(|&width| 1usize << width >= left).unwrap();
        let count = 1 + rng.below(4);
        let good = rng.below(count);
        bits.text("111");
        bits.number(count - 1, 2);
        // At least eight places are left, so up to three good ones rise.
        (0..good).for_each(|place| bits.number(place + 1, width));
        let listed = bits.len();
        let bad = match rng.below(2) {
            0 if left < 1 << width => left + rng.below((1 << width) - left),
            _ if good > 0 => rng.below(good + 1),
            _ => continue,
        };
        if bad >= left {
            too_high += 1;
        } else {
            not_rising += 1;
        }
        bits.number(bad, width);
        assert_eq!(bit_of(&bits.octets(), PLACE), listed);
    }
    println!("bits of PLACE: {too_high} too high, {not_rising} not rising");
    assert!(too_high > 1_000 && not_rising > 1_000);
}

#[test]
fn method_gives_its_first_bit() {
    let mut rng = Prng::new(803);
    let mut compared = 0u64;
    for length in [80, 160, 240, 320] {
        for start in ["001", "000", "011", "010", "100", "111"] {
            let mut bits = values_start(length, start);
            if length < 240 && start < "010" {
                continue;
            }
            assert_eq!(bits.len(), 11);
            bits.text("110");
            assert_eq!(bit_of(&bits.octets(), METHOD), 11);
            compared += 1;
        }
        for _ in 0..1_000 {
            let mut bits = values_start(length, "011");
            first_value(&mut bits, length, &mut rng);
            let method = bits.len();
            bits.text("110");
            assert_eq!(bit_of(&bits.octets(), METHOD), method);
            compared += 1;
        }
    }
    println!("bits of METHOD: {compared}");
}

#[test]
fn case_gives_the_range_case_whatever_is_wrong_with_it() {
    let mut compared = 0u64;
    for length in [80, 160, 240, 320] {
        for (case, flag) in (0..4).flat_map(|case| [(case, 0), (case, 1)]) {
            let rows = gen::allowed_rows(length);
            if rows.iter().any(|row| (row.case, row.flag) == (case, flag)) {
                continue;
            }
            for rest in 0..32 {
                let mut bits = values_start(length, "");
                bits.number(case, 2);
                bits.number(flag, 1);
                bits.number(rest, 5);
                assert_eq!(bit_of(&bits.octets(), CASE), 8);
                compared += 1;
            }
        }
    }
    println!("bits of CASE: {compared}");
}

#[test]
fn align_gives_the_first_filling_bit_that_is_1() {
    let mut rng = Prng::new(804);
    let mut compared = 0u64;
    for _ in 0..4_000 {
        let length = *rng.pick(&gen::LENGTHS);
        let tool = 6 + rng.below(2) as u32;
        let Some(form) = gen::make_form(tool, length, 1, &mut rng) else { continue };
        let filling = 8 * form.octets.len() - form.bits;
        for wrong in 1..1u8 << filling {
            let mut octets = form.octets.clone();
            *octets.last_mut().unwrap() |= wrong;
            let all: Vec<bool> = octets
                .iter()
                .flat_map(|octet| (0..8).map(move |bit| octet << bit & 0x80 != 0))
                .collect();
            let first = (form.bits..all.len()).find(|&bit| all[bit]).unwrap();
            assert_eq!(bit_of(&octets, ALIGN), first);
            compared += 1;
        }
    }
    println!("bits of ALIGN: {compared}");
}

#[test]
fn short_gives_the_first_bit_that_is_not_there() {
    let mut rng = Prng::new(805);
    let mut compared = 0u64;
    for _ in 0..2_000 {
        let form = gen::make_any_form(1, &mut rng);
        for cut in 0..form.octets.len() {
            assert_eq!(bit_of(&form.octets[..cut], SHORT), 8 * cut);
            compared += 1;
        }
    }
    println!("bits of SHORT: {compared}");
}

/// PREFIX, TOOL and ROOM speak of the frame as a whole; LAW and SET of none.
#[test]
fn other_endings_give_0() {
    let mut compared = 0u64;
    for first in 0..=255u8 {
        for second in 0..=255u8 {
            for (law, set, room) in [(1, 127, 0), (0, 0, 320), (2, 127, 320), (1, 256, 320)] {
                let report = read_frame(&[first, second], law, set, &mut vec![0; room]);
                if [0, PREFIX, TOOL, ROOM, LAW, SET].contains(&report.ending) {
                    assert_eq!(report.bit, 0);
                    compared += 1;
                }
            }
        }
    }
    println!("calls with bit 0: {compared}");
}

/// A walk and the listing give the bit that the reader gives of the octets
/// from the refused frame on.
#[test]
fn a_walk_counts_from_the_refused_frame() {
    let mut rng = Prng::new(806);
    let mut by_ending = [0u64; 14];
    for _ in 0..20_000 {
        let (law, frames) = (rng.below(2), rng.below(6));
        let mut stream = vec![];
        // Tool 11 is in no listing.
        let mut forms = std::iter::repeat_with(|| gen::make_any_form(law as u32, &mut rng)).filter(|form| form.tool != 11);
        for form in forms.by_ref().take(frames) {
            stream.extend(form.octets);
        }
        let start = stream.len();
        let form = forms.next().unwrap();
        stream.extend(gen::damage_somehow(&form.octets, &mut rng));
        let single = read_frame(&stream[start..], law as u32, 127, &mut [0; 320]);
        if single.ending == 0 || start == stream.len() {
            continue;
        }
        let walked = walk(&stream, law as u32, 127, &mut [0; 7 * 320]);
        assert_eq!((walked.ending, walked.place), (single.ending, start));
        assert_eq!((walked.tool, walked.bit), (single.tool, single.bit));
        let mut input = vec![[b'A', b'M'][law]];
        input.extend(&stream);
        let text = String::from_utf8(listing(&input)).unwrap();
        let stop = text.lines().find(|line| line.starts_with("stop=")).unwrap();
        let (ending, tool, bit) = (single.ending, single.tool, single.bit);
        assert_eq!(stop, format!("stop={ending} at={start} tool={tool} bit={bit}"));
        by_ending[ending as usize] += 1;
    }
    println!("walks and listings with a bit, by ending 0 to 13: {by_ending:?}");
    for ending in [SHORT, PREFIX, TOOL, CASE, METHOD, RUN, PLACE, ALIGN] {
        assert!(by_ending[ending as usize] > 0);
    }
}
