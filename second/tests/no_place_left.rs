//! Value-location frames whose values take every place.

mod slow;
use second::gen::{self, BitString, Prng};
use second::{read_frame, ReadReport};
use slow::*;

const LENT: u8 = 0x3C;

/// How the first value takes all places but the few that are left to a list.
#[derive(Clone, Copy)]
enum Fill {
    Row,
    Runs(u32),
    List(usize),
}

const FILLS: [Fill; 9] = [
    Fill::Row,
    Fill::Runs(1),
    Fill::Runs(2),
    Fill::Runs(3),
    Fill::Runs(4),
    Fill::List(1),
    Fill::List(2),
    Fill::List(3),
    Fill::List(4),
];

fn read(octets: &[u8], law: u32, length: usize) -> (ReadReport, Vec<u8>) {
    let mut out = vec![LENT; length + 3];
    let report = read_frame(octets, law, 127, &mut out);
    (report, out)
}

fn opening(length: usize, row: &gen::Row) -> BitString {
    let mut bits = BitString::default();
    bits.text(match length {
        80 => "10000110",
        160 => "11000110",
        240 => "00100101",
        _ => "00110101",
    });
    bits.number(row.case, 2);
    bits.number(row.flag, 1);
    bits
}

fn no_more_than(width: u32, places: usize) -> bool {
    (0..places).all(|place| place >> width == 0)
}

/// Puts the values that take every place; gives the numbers and how many
/// values that took.
fn fill(bits: &mut BitString, how: Fill, length: usize, values: &[i32]) -> (Vec<i32>, usize) {
    let mut numbers = vec![values[0]; length];
    match how {
        Fill::Row => {
            bits.text("000");
            bits.row(&vec![true; length]);
            (numbers, 1)
        }
        Fill::Runs(s) => {
            bits.number(s as usize, 3);
            bits.runs(s, &vec![true; length]);
            (numbers, 1)
        }
        Fill::List(count) => {
            let left = length - count;
            bits.text("000");
            bits.row(&(0..length).map(|place| place < left).collect::<Vec<_>>());
            bits.text("111");
            bits.number(count - 1, 2);
            let width = [0, 0, 1, 2, 2][count];
            assert!(no_more_than(width, count));
            (0..count).for_each(|place| bits.number(place, width));
            numbers[left..].fill(values[1]);
            (numbers, 2)
        }
    }
}

/// Every length, law, row of two values or more, and way to take every place.
fn each_filled(mut found: impl FnMut(usize, u32, BitString, Vec<i32>, usize)) {
    for length in [80, 160, 240, 320] {
        for row in gen::allowed_rows(length).iter().filter(|row| row.values.len() > 1) {
            for how in FILLS {
                for law in 0..2 {
                    let mut bits = opening(length, row);
                    let (numbers, used) = fill(&mut bits, how, length, row.values);
                    found(length, law, bits, numbers, row.values.len() - used);
                }
            }
        }
    }
}

fn samples_of(numbers: &[i32], law: u32) -> Vec<u8> {
    numbers.iter().map(|&number| sample(number, law)).collect()
}

/// The whole form is accepted, and every cut of it is SHORT.
fn accepts(bits: &BitString, samples: &[u8], law: u32) -> u64 {
    let octets = bits.octets();
    let (report, out) = read(&octets, law, samples.len());
    assert_eq!((report.ending, report.bits, report.tool), (0, bits.len(), 7));
    assert_eq!((report.octets, report.samples), (octets.len(), samples.len()));
    assert_eq!(&out[..samples.len()], samples);
    assert!(out[samples.len()..].iter().all(|&o| o == LENT));
    for cut in 0..octets.len() {
        assert_eq!(read(&octets[..cut], law, samples.len()).0.ending, SHORT);
    }
    octets.len() as u64
}

#[test]
fn methods_000_to_101_read_no_more_bits_and_mean_none() {
    let (mut forms, mut cuts) = (0u64, 0u64);
    each_filled(|length, law, filled, numbers, to_come| {
        assert_eq!(numbers.len(), length);
        let samples = samples_of(&numbers, law);
        // All pairs of methods where two values are to come.
        for methods in 0..6usize.pow(to_come as u32) {
            let mut bits = filled.clone();
            (0..to_come).for_each(|index| bits.number(methods / 6usize.pow(index as u32) % 6, 3));
            cuts += accepts(&bits, &samples, law);
            forms += 1;
        }
    });
    println!("forms accepted without a zero: {forms}, cuts of them: {cuts}");
}

#[test]
fn method_110_is_method_and_111_is_place_after_its_two_bits() {
    let mut calls = 0u64;
    each_filled(|length, law, filled, _, to_come| {
        if to_come == 0 {
            return;
        }
        for (method, needs, ending, at) in [("110", 3, METHOD, 0), ("111", 5, PLACE, 5)] {
            for tail in 0..32usize {
                let mut bits = filled.clone();
                bits.text(method);
                bits.number(tail, 5);
                let octets = bits.octets();
                for cut in filled.len() / 8..=octets.len() {
                    let whole = 8 * cut >= filled.len() + needs;
                    let (report, out) = read(&octets[..cut], law, length);
                    let wanted = if whole { (ending, 0, filled.len() + at) } else { (SHORT, 0, 8 * cut) };
                    assert_eq!(report, refused_read(wanted));
                    assert!(out.iter().all(|&o| o == LENT));
                    calls += 1;
                }
            }
        }
    });
    println!("calls refused where no place is left: {calls}");
}

#[test]
fn a_last_value_may_take_every_place() {
    let (mut forms, mut cuts) = (0u64, 0u64);
    each_filled(|_, law, bits, numbers, to_come| {
        if to_come == 0 {
            cuts += accepts(&bits, &samples_of(&numbers, law), law);
            forms += 1;
        }
    });
    // Case 3 has a single value.
    for length in [80, 160, 240, 320] {
        let rows = gen::allowed_rows(length);
        let row = rows.iter().find(|row| row.case == 3).unwrap();
        for how in &FILLS[..5] {
            let mut bits = opening(length, row);
            let (numbers, _) = fill(&mut bits, *how, length, row.values);
            cuts += accepts(&bits, &samples_of(&numbers, 1), 1);
            forms += 1;
        }
    }
    println!("forms whose last value takes every place: {forms}, cuts of them: {cuts}");
}

#[test]
fn among_one_place_a_listed_place_has_no_bits() {
    let mut calls = 0u64;
    for length in [80, 160, 240, 320] {
        for row in gen::allowed_rows(length).iter().filter(|row| row.values.len() == 2) {
            let mut before = opening(length, row);
            before.text("000");
            before.row(&(0..length).map(|place| place != 7).collect::<Vec<_>>());
            before.text("111");
            let mut one = before.clone();
            one.text("00");
            let mut numbers = vec![row.values[0]; length];
            numbers[7] = row.values[1];
            calls += accepts(&one, &samples_of(&numbers, 0), 0);
            // A second place, of no bits either, can't rise.
            for count in ["01", "10", "11"] {
                let mut more = before.clone();
                more.text(count);
                let octets = more.octets();
                assert_eq!(read(&octets, 0, length).0, refused_read((PLACE, 0, more.len())));
                let short = &octets[..(before.len() + 1) / 8];
                assert_eq!(read(short, 0, length).0, refused_read((SHORT, 0, 8 * short.len())));
                calls += 2;
            }
        }
    }
    println!("calls among one place: {calls}");
}

#[test]
fn filled_starts_go_on_as_the_text_says() {
    let mut rng = Prng::new(701);
    let mut by_ending = [0u64; 14];
    for _ in 0..40_000 {
        let length = *rng.pick(&gen::LENGTHS[1..]);
        let law = rng.below(2) as u32;
        let mut bits = gen::filled_start(length, &mut rng);
        (0..rng.below(20)).for_each(|_| bits.number(rng.below(2), 1));
        let octets = bits.octets();
        let (ours, out) = read(&octets, law, length);
        let (theirs, after) = slow::read(&octets, law, 127, &vec![LENT; length + 3]);
        assert_eq!((ours, out), (theirs, after));
        by_ending[ours.ending as usize] += 1;
    }
    println!("filled starts compared, by ending 0 to 13: {by_ending:?}");
    for ending in [0, SHORT, METHOD, PLACE, ALIGN] {
        assert!(by_ending[ending as usize] > 1_000);
    }
}

#[test]
fn made_forms_leave_no_zero_often_enough() {
    let mut rng = Prng::new(702);
    let (mut forms, mut without) = (0u64, 0u64);
    for _ in 0..20_000 {
        let length = *rng.pick(&gen::LENGTHS[1..]);
        let form = gen::value_location_form(length, 1, &mut rng);
        let (report, out) = read(&form.octets, 1, length);
        assert_eq!((report.ending, report.bits), (0, form.bits));
        assert_eq!(&out[..length], form.samples);
        forms += 1;
        without += u64::from(!form.samples.contains(&0xFF));
    }
    println!("value-location forms: {forms}, without a zero: {without}");
    assert!(without > forms / 20);
}
