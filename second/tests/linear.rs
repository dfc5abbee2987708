//! Samples and linear values: all octets, all values, and frames of them.

mod slow;
use second::gen::{self, Prng};
use second::linear::{from_linear, linear_of, octet_of, to_linear};
use slow::{signed, LAW, LENGTH, ROOM};

const LAWS: [u32; 2] = [0, 1];
/// The values for which the returned one is promised to be near.
const PROMISED: [(i16, i16); 2] = [(-4096, 4095), (-8159, 8158)];

fn value(octet: u8, law: u32) -> i16 {
    linear_of(octet, law).unwrap()
}

fn octet(value: i16, law: u32) -> u8 {
    octet_of(value, law).unwrap()
}

fn all_octets() -> impl Iterator<Item = u8> {
    0..=255
}

fn all_values() -> impl Iterator<Item = i16> {
    i16::MIN..=i16::MAX
}

/// (6-2) and (6-4) in fractions, where nothing can be rounded unseen.
fn value_in_fractions(octet: u8, law: u32) -> f64 {
    let mask = [0x55, 0x7F][law as usize];
    let y = (octet ^ mask) & 0x7F;
    let (e, m) = (i32::from(y >> 4), f64::from(y & 0x0F));
    let size = match (law, e) {
        (0, 0) => (16.0 * m + 8.0) / 8.0,
        (0, _) => 2f64.powi(e - 1) * (16.0 * m + 8.0 + 256.0) / 8.0,
        _ => (2f64.powi(e) * (8.0 * m + 128.0 + 4.0) - 132.0) / 4.0,
    };
    if octet & 0x80 == 0x80 {
        size
    } else {
        -size
    }
}

/// m and e of (6-6) and (6-8) in fractions, m / 64 rounded down or not.
fn m_and_e(x: i16, law: u32, rounded: bool) -> (f64, f64) {
    let x = f64::from(x);
    let m = match (law, x >= 0.0) {
        (0, true) => x.min(4095.0),
        (0, false) => -x.max(-4096.0) - 1.0,
        (_, true) => (x + 33.0).min(8191.0),
        (_, false) => -(x - 33.0).max(-8192.0) - 1.0,
    };
    let part = if rounded { (m / 64.0).floor() } else { m / 64.0 };
    (m, (part + 1.0).log2().ceil())
}

/// (6-6) and (6-8) in fractions.
fn octet_in_fractions(x: i16, law: u32, rounded: bool) -> u8 {
    let (m, e) = m_and_e(x, law, rounded);
    let (rows, mask) = if law == 0 { (e, 0x55) } else { (e - 1.0, 0x7F) };
    let y = (16.0 * rows + (m / 2f64.powf(e + 1.0)).floor()) as i32 as u8 ^ mask;
    if x >= 0 {
        y ^ 0x80
    } else {
        y
    }
}

#[test]
fn every_octet_is_the_equations_value() {
    let mut compared = 0u64;
    for law in LAWS {
        for octet in all_octets() {
            assert_eq!(f64::from(value(octet, law)), value_in_fractions(octet, law));
            compared += 1;
        }
    }
    println!("octets compared: {compared}");
}

#[test]
fn every_value_is_the_equations_octet() {
    let mut compared = 0u64;
    for law in LAWS {
        for x in all_values() {
            assert_eq!(octet(x, law), octet_in_fractions(x, law, true), "law {law} value {x}");
            compared += 1;
        }
    }
    println!("values compared: {compared}");
}

/// Were m / 64 not rounded down first, not every octet would come back.
#[test]
fn the_logarithm_is_of_a_whole_number() {
    let (mut values, mut octets) = ([0u64; 2], [0u64; 2]);
    for law in LAWS {
        let index = law as usize;
        let unrounded = |x| octet_in_fractions(x, law, false);
        values[index] = all_values().filter(|&x| octet(x, law) != unrounded(x)).count() as u64;
        let lost = |given: &u8| unrounded(value(*given, law)) != *given;
        octets[index] = all_octets().filter(lost).count() as u64;
    }
    println!("values whose octet hangs on the rounding, A and mu: {values:?}");
    println!("octets that would not come back without it: {octets:?}");
    assert!(values.iter().chain(&octets).all(|&count| count > 1));
    assert_eq!((octet(65, 0), octet_in_fractions(65, 0, false)), (0xF5, 0xFD));
}

#[test]
fn every_octet_returns_but_minus_zero_of_mu() {
    let mut returned = 0u64;
    for law in LAWS {
        for given in all_octets() {
            let back = octet(value(given, law), law);
            let wanted = if (law, given) == (1, 0x7F) { 0xFF } else { given };
            assert_eq!(back, wanted);
            returned += u64::from(back == given);
        }
    }
    println!("octets that return to themselves: {returned} of 512");
    assert_eq!(returned, 511);
}

#[test]
fn values_rise_with_the_signed_number() {
    let mut pairs = 0u64;
    for law in LAWS {
        let mut octets: Vec<u8> = all_octets().collect();
        octets.sort_by_key(|&octet| signed(octet, law));
        for pair in octets.windows(2) {
            let (low, high) = (value(pair[0], law), value(pair[1], law));
            // The two zeros of mu are the only equals.
            assert!(low < high || (law, pair[0], pair[1]) == (1, 0x7F, 0xFF));
            pairs += 1;
        }
        for x in i16::MIN..i16::MAX {
            assert!(signed(octet(x, law), law) <= signed(octet(x + 1, law), law));
            pairs += 1;
        }
    }
    assert_eq!((value(0xAA, 0), value(0x2A, 0)), (4032, -4032));
    assert_eq!((value(0x80, 1), value(0x00, 1)), (8031, -8031));
    println!("neighbours in order: {pairs}");
}

#[test]
fn a_returned_value_is_within_two_to_e() {
    let (mut within, mut furthest) = ([0u64; 2], [0i32; 2]);
    for law in LAWS {
        let index = law as usize;
        let (least, greatest) = PROMISED[index];
        for x in least..=greatest {
            let (_, e) = m_and_e(x, law, true);
            let away = (i32::from(value(octet(x, law), law)) - i32::from(x)).abs();
            assert!(away <= 1 << e as i32, "law {law} value {x}");
            within[index] += 1;
            furthest[index] = furthest[index].max(away);
        }
    }
    println!("values within 2^e, A and mu: {within:?}, furthest: {furthest:?}");
    assert_eq!((within, furthest), ([8192, 16318], [64, 128]));
}

/// The bound holds one step above the promised values too, and no farther.
#[test]
fn outside_the_scale_the_bound_fails() {
    let away = |x: i16, law| (i32::from(value(octet(x, law), law)) - i32::from(x)).abs();
    assert_eq!((away(-4096, 0), away(-4097, 0)), (64, 65));
    assert_eq!((away(-8159, 1), away(-8160, 1)), (128, 129));
    assert_eq!((away(4095, 0), away(4096, 0), away(4097, 0)), (63, 64, 65));
    assert_eq!((away(8158, 1), away(8159, 1), away(8160, 1)), (127, 128, 129));
}

#[test]
fn values_outside_the_scale_are_clipped() {
    let mut clipped = 0u64;
    for (law, (least, greatest)) in [(0, (-4096, 4095)), (1, (-8159, 8158))] {
        for x in all_values().filter(|x| !(least..=greatest).contains(x)) {
            assert_eq!(octet(x, law), octet(x.clamp(least, greatest), law));
            clipped += 1;
        }
    }
    assert_eq!((octet(20_000, 0), octet(20_000, 1)), (0xAA, 0x80));
    assert_eq!((octet(-20_000, 0), octet(-20_000, 1)), (0x2A, 0x00));
    // As 16-bit values brought to scale they would be these.
    assert_eq!((octet(20_000 / 8, 0), octet(20_000 / 4, 1)), (0xA6, 0x8C));
    println!("values clipped: {clipped}");
}

#[test]
fn frames_are_turned_value_by_value() {
    let mut rng = Prng::new(901);
    let mut frames = 0u64;
    for length in [0, 40, 80, 160, 240, 320] {
        for law in LAWS {
            for past in [0, 1, 60] {
                let samples = rng.octets(length);
                let mut values = vec![0x1234i16; length + past];
                assert_eq!(to_linear(&samples, law, &mut values), 0);
                assert!(values[length..].iter().all(|&v| v == 0x1234));
                let made = values[..length].iter().zip(&samples);
                assert!(made.into_iter().all(|(&v, &s)| v == value(s, law)));

                let given: Vec<i16> = (0..length).map(|_| rng.next_u64() as i16).collect();
                let mut octets = vec![0x5A; length + past];
                assert_eq!(from_linear(&given, law, &mut octets), 0);
                assert!(octets[length..].iter().all(|&o| o == 0x5A));
                let made = octets[..length].iter().zip(&given);
                assert!(made.into_iter().all(|(&o, &x)| o == octet(x, law)));
                frames += 2;
            }
        }
    }
    println!("frames turned: {frames}");
}

#[test]
fn frames_come_back() {
    let mut rng = Prng::new(902);
    let kinds = gen::all_kinds();
    let mut frames = 0u64;
    for length in gen::LENGTHS {
        for law in LAWS {
            for &kind in &kinds {
                let samples = gen::make_frame(kind, length, law, &mut rng);
                let (mut values, mut back) = (vec![0; length], vec![0; length]);
                assert_eq!(to_linear(&samples, law, &mut values), 0);
                assert_eq!(from_linear(&values, law, &mut back), 0);
                let kept = |s: &u8| if (law, *s) == (1, 0x7F) { 0xFF } else { *s };
                assert_eq!(back, samples.iter().map(kept).collect::<Vec<u8>>());
                frames += 1;
            }
        }
    }
    println!("frames there and back: {frames}");
}

/// What both calls answer, with the output checked to be as lent.
fn refusals(length: usize, law: u32, room: usize) -> [u32; 2] {
    let (mut values, mut octets) = (vec![-77; room], vec![0xB2; room]);
    let ends = [
        to_linear(&vec![0x80; length], law, &mut values),
        from_linear(&vec![9; length], law, &mut octets),
    ];
    assert!(values.iter().all(|&v| v == -77) && octets.iter().all(|&o| o == 0xB2));
    ends
}

#[test]
fn law_then_length_then_room() {
    let mut calls = 0u64;
    let mut refused = |length: usize, law: u32, room: usize, wanted: u32| {
        assert_eq!(refusals(length, law, room), [wanted; 2], "{length} {law} {room}");
        calls += 2;
    };
    for length in 0..=400usize {
        let no_frame = ![0, 40, 80, 160, 240, 320].contains(&length);
        for room in [0, 1, length.saturating_sub(1), length, 500] {
            for law in [2, 3, 255, 256, u32::MAX] {
                refused(length, law, room, LAW);
            }
            for law in LAWS {
                if no_frame {
                    refused(length, law, room, LENGTH);
                } else if room < length {
                    refused(length, law, room, ROOM);
                }
            }
        }
    }
    for law in [2, u32::MAX] {
        assert_eq!((linear_of(0, law), octet_of(0, law)), (Err(LAW), Err(LAW)));
    }
    println!("refused calls: {calls}");
}
