//! Samples to linear values and back: the proved code, through the static library, against the second program, on every
//! input; then the promises on every input, lengths and rooms, and the order of the refusals.

use g7110::raw::{from_linear, to_linear};
use tests::say;

/// The lengths of a frame.
const LENGTHS: [usize; 6] = [0, 40, 80, 160, 240, 320];
const NO_LAWS: [u32; 5] = [2, 3, 256, 0x8000_0000, u32::MAX];
const LAW: u32 = 12;
const LENGTH: u32 = 10;
const ROOM: u32 = 4;
/// What the output holds before a call.
const LENT: [(u8, i16); 2] = [(0xA7, 0x5A5A), (0x58, -0x2B2C)];

/// All values of 16 bits, in frames of 320 and one of less; what fills the last one up is 0.
fn every_value() -> Vec<Vec<i16>> {
    let all: Vec<i16> = (i16::MIN..=i16::MAX).collect();
    let filled = |part: &[i16]| {
        let mut frame = part.to_vec();
        frame.resize(320, 0);
        frame
    };
    all.chunks(320).map(filled).collect()
}

/// The linear values of octets, by both, which must agree.
fn linear_by_both(octets: &[u8], law: u32) -> Vec<i16> {
    let (mut proved, mut second) = (vec![1; octets.len()], vec![2; octets.len()]);
    assert_eq!(to_linear(octets, law, &mut proved), 0);
    assert_eq!(second::linear::to_linear(octets, law, &mut second), 0);
    assert_eq!(proved, second, "law {law}");
    proved
}

/// The octets of linear values, by both, which must agree.
fn octets_by_both(linear: &[i16], law: u32) -> Vec<u8> {
    let (mut proved, mut second) = (vec![1; linear.len()], vec![2; linear.len()]);
    assert_eq!(from_linear(linear, law, &mut proved), 0);
    assert_eq!(second::linear::from_linear(linear, law, &mut second), 0);
    let differs = (0..linear.len()).find(|at| proved[*at] != second[*at]);
    assert_eq!(differs.map(|at| (linear[at], proved[at], second[at])), None, "law {law}");
    proved
}

/// The 256 octets of a law, in a frame of 320.
fn every_octet() -> Vec<u8> {
    (0..320).map(|at| (at % 256) as u8).collect()
}

#[test]
fn every_octet_and_every_value() {
    let (mut octets, mut values) = (0, 0);
    for law in 0..2 {
        linear_by_both(&every_octet(), law);
        octets += 256;
        for frame in every_value() {
            octets_by_both(&frame, law);
        }
        values += 65_536;
    }
    say(&format!("compared: linear: {octets} octets and {values} values of 16 bits, proved code and second program\n"));
    assert_eq!((octets, values), (512, 131_072));
}

/// The second program's single conversions are its conversions of frames.
#[test]
fn one_value_at_a_time() {
    for law in 0..2 {
        for octet in 0..=255 {
            let mut out = [0; 40];
            assert_eq!(to_linear(&[octet; 40], law, &mut out), 0);
            assert_eq!(second::linear::linear_of(octet, law), Ok(out[39]));
        }
        for value in (i16::MIN..=i16::MAX).step_by(37) {
            let mut out = [0; 40];
            assert_eq!(from_linear(&[value; 40], law, &mut out), 0);
            assert_eq!(second::linear::octet_of(value, law), Ok(out[39]));
        }
    }
}

/// "all 256 A-law octets return to themselves, all mu-law octets but 7F, which returns as FF"
#[test]
fn octets_return() {
    for law in 0..2 {
        let octets = every_octet();
        let back = octets_by_both(&linear_by_both(&octets, law), law);
        for (octet, back) in octets.iter().zip(back) {
            let wanted = if law == 1 && *octet == 0x7F { 0xFF } else { *octet };
            assert_eq!(back, wanted, "law {law}, octet {octet:02X}");
        }
    }
    say("compared: linear: 512 octets return\n");
}

/// Document 01's signed number of a sample.
fn signed_of(octet: u8, law: u32) -> i32 {
    let y = i32::from((octet ^ if law == 0 { 0x55 } else { 0x7F }) & 0x7F);
    if octet < 128 {
        -y - 1
    } else {
        y
    }
}

/// e of (6-6) and (6-8): the least e with m / 64 + 1 at most 2^e, m / 64 rounded down first.
fn bound(value: i16, law: u32) -> i32 {
    let value = i32::from(value);
    let size = if value < 0 { -value - 1 } else { value };
    let m = if law == 0 { size.min(4095) } else { (size + 33).min(8191) };
    (0..).map(|e| 1 << e).find(|power| m / 64 < *power).unwrap()
}

/// The bound in the stated ranges, reached for every e; one step below them it fails, and two above; and the order.
#[test]
fn values_return_near() {
    for (law, least, greatest, segments) in [(0, -4096, 4095, 7), (1, -8159, 8158, 8)] {
        let mut away = Vec::new();
        let mut last = None;
        for frame in every_value() {
            let octets = octets_by_both(&frame, law);
            let back = linear_by_both(&octets, law);
            let numbers = octets.iter().map(|octet| signed_of(*octet, law));
            for ((value, back), number) in frame.iter().zip(back).zip(numbers) {
                away.push((*value, (i32::from(back) - i32::from(*value)).abs()));
                if last.is_some_and(|(before, smaller)| before < *value && number < smaller) {
                    panic!("law {law}: {value} has a smaller signed number than the value before it");
                }
                last = Some((*value, number));
            }
        }
        let inside = away.iter().filter(|(value, _)| (least..=greatest).contains(value));
        let mut reached = std::collections::BTreeSet::new();
        for (value, far) in inside {
            assert!(*far <= bound(*value, law), "law {law}: {value} is {far} away");
            if *far == bound(*value, law) {
                reached.insert(*far);
            }
        }
        assert_eq!(reached, (0..segments).map(|e| 1 << e).collect(), "law {law}");
        let far = |value: i16| away.iter().find(|(given, _)| *given == value).unwrap().1;
        let most = 1 << (segments - 1);
        assert_eq!([far(least - 1), far(greatest + 1), far(greatest + 2)], [most + 1, most, most + 1], "law {law}");
        say(&format!(
            "compared: linear: law {law}, {} values return at most 2^e away, {segments} bounds reached\n",
            greatest as i32 - least as i32 + 1
        ));
    }
}

/// "other values are clipped as there"
#[test]
fn values_outside_are_clipped() {
    for (law, least, greatest) in [(0, -4096, 4095), (1, -8159, 8158)] {
        let ends = octets_by_both(&[[least; 20], [greatest; 20]].concat(), law);
        for frame in every_value() {
            let octets = octets_by_both(&frame, law);
            for (value, octet) in frame.iter().zip(octets) {
                assert!(*value >= least || octet == ends[0], "law {law}: {value}");
                assert!(*value <= greatest || octet == ends[20], "law {law}: {value}");
            }
        }
    }
}

/// A call on output that has a margin; gives the ending, and panics where more was written than it says.
fn asked(given: &[u8], law: u32, room: usize, turn: usize) -> [u32; 2] {
    let (octet, value) = LENT[turn % 2];
    let (mut values, mut octets) = (vec![value; room + 8], vec![octet; room + 8]);
    let (mut values_too, mut octets_too) = (values.clone(), octets.clone());
    let linear: Vec<i16> = given.iter().map(|octet| (i32::from(*octet) * 257 - 32_768) as i16).collect();
    let to = to_linear(given, law, &mut values[..room]);
    let from = from_linear(&linear, law, &mut octets[..room]);
    assert_eq!(to, second::linear::to_linear(given, law, &mut values_too[..room]));
    assert_eq!(from, second::linear::from_linear(&linear, law, &mut octets_too[..room]));
    assert_eq!((&values, &octets), (&values_too, &octets_too));
    let written = if to == 0 { given.len() } else { 0 };
    assert!(values[written..].iter().all(|left| *left == value), "law {law}, {} samples, room {room}", given.len());
    assert!(octets[written..].iter().all(|left| *left == octet), "law {law}, {} values, room {room}", given.len());
    [to, from]
}

/// Every length up to 321 with rooms about it: LAW, then LENGTH, then ROOM, and a refusal writes nothing.
#[test]
fn lengths_and_rooms() {
    let mut calls = 0;
    for length in 0..=321_usize {
        let given: Vec<u8> = (0..length).map(|at| (at * 37 % 256) as u8).collect();
        for room in [0, length.saturating_sub(1), length, length + 1, 400] {
            for law in [0, 1].into_iter().chain(NO_LAWS) {
                let wanted = match (law > 1, LENGTHS.contains(&length), length <= room) {
                    (true, _, _) => LAW,
                    (_, false, _) => LENGTH,
                    (_, _, false) => ROOM,
                    _ => 0,
                };
                assert_eq!(asked(&given, law, room, length + room), [wanted; 2], "law {law}, {length}, room {room}");
                calls += 2;
            }
        }
    }
    say(&format!("compared: linear: {calls} calls of 322 lengths, 5 rooms and 7 laws\n"));
}
