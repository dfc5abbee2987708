//! The calls that tell of frames, streams, files and masters: the proved code, through the static library, against the second program,
//! against the calls that they are told by (walk, read, a whole file, linear values), and against vectors worked out by hand.

use g7110::raw;
use second::gen::{damage_somehow, Prng};
use std::collections::BTreeMap;
use tests::file::{file, heading};
use tests::streams::Stream;
use tests::{ending, octets, say, share, tenths, ALL_TOOLS, MOST};

/// Streams, files and places that are drawn.
const STREAMS: usize = share(6_000);
const FILES: usize = share(3_000);
const MADE: usize = share(40_000);
/// Sets: none, each tool alone, those of before tool 11, all, and two that are none.
const SETS: [u32; 13] = [0, 1, 2, 4, 8, 16, 32, 64, 128, 127, 255, 256, u32::MAX];
const LENGTHS: [usize; 6] = [0, 40, 80, 160, 240, 320];
const HEAD: u32 = 14;

fn head(octets: &[u8], set: u32) -> (u32, [u64; 2]) {
    let mut report = [77; 2];
    (raw::head(octets, set, &mut report), report)
}

fn check(octets: &[u8], law: u32, set: u32) -> (u32, [u64; 5]) {
    let mut report = [77; 5];
    (raw::check(octets, law, set, &mut report), report)
}

fn file_head(octets: &[u8]) -> (u32, [u64; 2]) {
    let mut report = [77; 2];
    (raw::file_head(octets, &mut report), report)
}

fn file_next(octets: &[u8], at: u64, law: u32, set: u32, out: &mut [u8]) -> (u32, [u64; 6]) {
    let mut report = [77; 6];
    (raw::file_next(octets, at, law, set, out, &mut report), report)
}

/// One item by both, on output of two kinds; both must agree, also in what they leave of it.
fn next_by_both(octets: &[u8], at: u64, law: u32, set: u32, room: usize) -> (u32, [u64; 6], Vec<u8>) {
    let ask = |fill: u8| {
        let (mut proved, mut second) = (vec![fill; room], vec![fill; room]);
        let told = file_next(octets, at, law, set, &mut proved);
        assert_eq!(told, second::pieces::file_next(octets, at, law, set, &mut second), "at {at}, law {law}, set {set}");
        assert_eq!(proved, second, "at {at}, law {law}, set {set}");
        (told.0, told.1, proved)
    };
    let [one, other] = [0xA7, 0x58].map(ask);
    let kept = if one.0 == 0 && one.1[0] == 0 { one.1[1] as usize } else { 0 };
    assert!(one.2[kept..].iter().all(|left| *left == 0xA7) && other.2[kept..].iter().all(|left| *left == 0x58));
    assert_eq!((one.0, one.1, &one.2[..kept]), (other.0, other.1, &other.2[..kept]));
    (one.0, one.1, one.2[..kept].to_vec())
}

/// A vector's words, each of which is used.
struct Words<'a>(BTreeMap<&'a str, &'a str>);

impl<'a> Words<'a> {
    fn of(text: &'a str) -> Words<'a> {
        Words(text.split_whitespace().map(|word| word.split_once('=').expect(word)).collect())
    }

    fn number(&mut self, key: &str, left_out: u64) -> u64 {
        self.0.remove(key).map_or(left_out, |value| value.parse().expect(value))
    }

    fn small(&mut self, key: &str, left_out: u32) -> u32 {
        self.number(key, left_out.into()).try_into().unwrap()
    }

    fn numbers<const N: usize>(&mut self, keys: [&str; N]) -> [u64; N] {
        keys.map(|key| self.number(key, 0))
    }

    fn octets(&mut self, key: &str) -> Vec<u8> {
        let text = self.0.remove(key).unwrap_or("");
        let (before, list) = match (text.strip_prefix("A:"), text.strip_prefix("M:")) {
            (Some(list), _) => (heading(0).to_vec(), list),
            (_, Some(list)) => (heading(1).to_vec(), list),
            _ => (vec![], text),
        };
        [before, octets(list).unwrap()].concat()
    }

    fn values(&mut self, key: &str) -> Vec<i16> {
        values_of(self.0.remove(key).unwrap_or(""))
    }
}

/// Values with a comma between, each, or a list in brackets, with `*N` behind it or not.
fn values_of(text: &str) -> Vec<i16> {
    let (mut all, mut rest) = (vec![], text);
    while !rest.is_empty() {
        let (made, behind) = match rest.strip_prefix('(').and_then(|inner| inner.split_once(')')) {
            Some((inner, behind)) => (values_of(inner), behind),
            None => {
                let end = rest.find([',', '*']).unwrap_or(rest.len());
                (vec![rest[..end].parse().expect(rest)], &rest[end..])
            }
        };
        let (times, behind) = behind.split_once(',').unwrap_or((behind, ""));
        let times = times.strip_prefix('*').map_or(1, |digits| digits.parse().unwrap());
        all.extend(made.repeat(times));
        rest = behind;
    }
    all
}

/// Octets damaged in some way, where there are some.
fn damaged(octets: Vec<u8>, rng: &mut Prng) -> Vec<u8> {
    if octets.len() < 4 {
        octets
    } else {
        damage_somehow(&octets, rng)
    }
}

/// What is wanted stands at the output's start, and the rest is as lent.
fn left<T: Copy + PartialEq + std::fmt::Debug>(room: u64, fill: T, wanted: &[T], call: impl Fn(&mut [T])) {
    let mut out = vec![fill; room as usize];
    call(&mut out);
    assert_eq!(&out[..wanted.len()], wanted);
    assert!(out[wanted.len()..].iter().all(|rest| *rest == fill));
}

/// Whether the proved code gives what a line wants; no, where the line is of another call.
fn holds(kind: &str, given: &mut Words, number: u32, wanted: &mut Words) -> bool {
    match kind {
        "check" => {
            let told = check(&given.octets("octets"), given.small("law", 1), given.small("set", 127));
            assert_eq!(told, (number, wanted.numbers(["frames", "used", "samples", "tool", "bit"])));
        }
        "head" => {
            let told = head(&given.octets("octets"), given.small("set", 127));
            assert_eq!(told, (number, wanted.numbers(["tool", "samples"])));
        }
        "file-head" => {
            assert_eq!(file_head(&given.octets("octets")), (number, wanted.numbers(["law", "octets"])));
        }
        "file-next" => {
            let (body, at) = (given.octets("octets"), given.number("at", 0));
            let (law, set, room) = (given.small("law", 1), given.small("set", 127), given.number("room", 320));
            let report = wanted.numbers(["kind", "samples", "used", "tool", "bit", "next"]);
            left(room, 0xA7, &wanted.octets("out"), |out| {
                assert_eq!(file_next(&body, at, law, set, out), (number, report))
            });
        }
        "to-master" => {
            let (samples, law, room) = (given.octets("samples"), given.small("law", 1), given.number("room", 320));
            left(room, 77, &wanted.values("master"), |out| assert_eq!(raw::to_master(&samples, law, out), number));
        }
        "from-master" => {
            let (master, law, room) = (given.values("master"), given.small("law", 1), given.number("room", 320));
            left(room, 0xA7, &wanted.octets("samples"), |out| assert_eq!(raw::from_master(&master, law, out), number));
        }
        _ => return false,
    }
    true
}

#[test]
fn worked_out_by_hand() {
    let (mut ran, mut others) = (BTreeMap::new(), 0);
    let lines = include_str!("../vectors/told.txt").lines().filter(|line| !line.is_empty() && !line.starts_with('#'));
    for line in lines {
        let (asked, wanted) = line.split_once("->").expect(line);
        let mut words = asked.split_whitespace();
        let (kind, _) = (words.next().unwrap(), words.next().unwrap());
        let rest: Vec<&str> = words.collect();
        let rest = rest.join(" ");
        let (name, wanted) = wanted.trim().split_once(' ').unwrap_or((wanted.trim(), ""));
        let number = if name == "HEAD" { HEAD } else { ending(name).unwrap_or(0) };
        let (mut given, mut wanted) = (Words::of(&rest), Words::of(wanted));
        if holds(kind, &mut given, number, &mut wanted) {
            assert!(given.0.is_empty() && wanted.0.is_empty(), "{line}");
            *ran.entry(kind).or_insert(0) += 1;
        } else {
            others += 1;
        }
    }
    assert!(ran.len() == 6 && ran.values().all(|lines| *lines >= 4), "{ran:?}");
    let told: Vec<String> = ran.iter().map(|(kind, lines)| format!("{lines} {kind}")).collect();
    say(&format!("compared: told, vectors worked out by hand: {}; {others} of other calls\n", told.join(", ")));
}

#[test]
fn the_version() {
    assert_eq!((raw::version(), raw::version()), (second::version(), g7110::VERSION));
    say(&format!("compared: told, the version: {}\n", raw::version()));
}

/// All first octets alone and with all second ones, by the sets above; and by all sets with some second ones.
#[test]
fn every_head() {
    let mut heads = 0;
    let mut same = |octets: &[u8], set: u32| {
        assert_eq!(head(octets, set), second::head(octets, set), "{octets:02X?}, set {set}");
        heads += 1;
    };
    SETS.into_iter().for_each(|set| same(&[], set));
    for first in tenths(0..=255) {
        SETS.into_iter().for_each(|set| same(&[first], set));
        for second in 0..=255 {
            SETS.into_iter().for_each(|set| same(&[first, second], set));
        }
        for set in 0..=ALL_TOOLS {
            [0x00, 0x7F, 0x80, 0xFF].into_iter().for_each(|second| same(&[first, second, 0x5A], set));
        }
    }
    say(&format!("compared: told, heads: {heads}\n"));
}

/// Frames of drawn streams, whole and damaged: a frame that is accepted has the tool and the samples that its head tells.
#[test]
fn heads_and_readings() {
    let mut rng = Prng::new(3901);
    let (mut accepted, mut refused, mut behind) = (0, 0, 0);
    for turn in 0..STREAMS {
        let law = turn as u32 % 2;
        let stream = Stream::mixed(400, law, &mut rng);
        let octets = if rng.flip() { damaged(stream.octets.clone(), &mut rng) } else { stream.octets.clone() };
        let set = if rng.flip() { ALL_TOOLS } else { rng.below(256) as u32 };
        for at in stream.starts.iter().filter(|at| **at < octets.len()) {
            let (frame, mut out, mut report) = (&octets[*at..], [0; 320], [0; 5]);
            let told = head(frame, set);
            assert_eq!(told, second::head(frame, set));
            let number = raw::read(frame, law, set, &mut out, &mut report);
            if number == 0 {
                assert_eq!(told, (0, [report[3], report[0]]));
                accepted += 1;
            } else if told.0 != 0 {
                assert_eq!((told.0, told.1[0]), (number, report[3]));
                refused += 1;
            } else {
                assert!(![2, 3, 11].contains(&number), "{number}");
                behind += 1;
            }
        }
    }
    assert!(accepted > 1_000 && refused > 100 && behind > 100);
    say(&format!(
        "compared: told, heads and readings: {accepted} accepted, {refused} refused alike, {behind} refused behind\n"
    ));
}

/// Streams whole and damaged: the second program's check, and the walk with room never short.
#[test]
fn checks_and_walks() {
    let mut rng = Prng::new(3902);
    let (mut good, mut ended) = (0, 0);
    for turn in 0..STREAMS {
        let law = if rng.chance(1, 50) { rng.next_u64() as u32 } else { turn as u32 % 2 };
        let stream = Stream::mixed(rng.below(1_500), law.min(1), &mut rng);
        let octets = if rng.flip() { damaged(stream.octets, &mut rng) } else { stream.octets };
        let set = if rng.chance(2, 3) { ALL_TOOLS } else { rng.below(260) as u32 };
        let told = check(&octets, law, set);
        assert_eq!(told, second::check(&octets, law, set));
        let (mut out, mut report) = (vec![0; 320 * octets.len()], [0; 5]);
        assert_eq!(told, (raw::walk(&octets, law, set, &mut out, &mut report), report));
        *if told.0 == 0 { &mut good } else { &mut ended } += 1;
    }
    let mut long = 0;
    for (fill, length) in tenths([(0x31, MOST), (0x00, MOST), (0x00, MOST + 1), (0x41, MOST + 64)]) {
        let octets = vec![fill; length];
        let told = check(&octets, 1, ALL_TOOLS);
        assert_eq!(told, second::check(&octets, 1, ALL_TOOLS));
        assert_eq!(told.0, if length > MOST { 13 } else { 0 });
        long += 1;
    }
    assert!(good > 100 && ended > 100);
    say(&format!("compared: told, checks and walks: {good} kept whole, {ended} refused, {long} of the longest\n"));
}

/// What stands behind a heading: frames, pads, losses of both kinds, and damage now and then.
fn body(law: u32, rng: &mut Prng) -> Vec<u8> {
    let mut octets = vec![];
    for _ in 0..rng.below(8) {
        let erased = *rng.pick(if law == 0 { &[0xD4, 0x54] } else { &[0xFE, 0x7E] });
        match rng.below(5) {
            0 => octets.push(0x01),
            1 => octets.extend([*rng.pick(&[0x43, 0x83, 0xC3, 0x23, 0x33]), erased]),
            2 => octets.push(0x00),
            _ => octets.extend(Stream::mixed(rng.below(500), law, rng).octets),
        }
    }
    if rng.chance(1, 3) {
        damaged(octets, rng)
    } else {
        octets
    }
}

/// Files item by item, from 0 on, in one output of 320: the list and the sound of the whole reading, and its refusal at its place.
#[test]
fn item_by_item() {
    let mut rng = Prng::new(3903);
    let (mut items, mut losses, mut good, mut ended) = (0, 0, 0, 0);
    for turn in 0..FILES {
        let law = turn as u32 % 2;
        let body = body(law, &mut rng);
        let set = if rng.chance(2, 3) { ALL_TOOLS } else { rng.below(256) as u32 };
        let (mut out, mut list, mut read) = (vec![0; 320 * body.len()], vec![0; body.len()], [0; 6]);
        let number = raw::file_read(&file(law, &body), set, &mut out, &mut list, &mut read);
        assert_eq!(file_head(&file(law, &body)), (0, [u64::from(law), 10]));
        let (mut at, mut told, mut sound) = (0, vec![], vec![]);
        let last = loop {
            if at == body.len() as u64 {
                break (0, [0, 0, 0, 0, 0, at]);
            }
            let (number, report, samples) = next_by_both(&body, at, law, set, 320);
            if number != 0 {
                break (number, report);
            }
            let [kind, length, used, .., next] = report;
            assert_eq!(next, at + used);
            told.push((32_768 * kind + length) as u16);
            sound.extend(samples);
            (at, losses) = (next, losses + kind);
        };
        assert_eq!((last.0, last.1), (number, [0, 0, 0, read[4], read[5], read[2]]));
        assert_eq!((&told[..], &sound[..]), (&list[..read[1] as usize], &out[..read[3] as usize]));
        items += told.len();
        *if number == 0 { &mut good } else { &mut ended } += 1;
    }
    assert!(items > 1_000 && losses > 100 && good > 100 && ended > 100);
    say(&format!(
        "compared: told, item by item: {items} items, {losses} losses, {good} files whole, {ended} refused\n"
    ));
}

/// Any place, room, law and set: the second program's item.
#[test]
fn items_at_any_place() {
    let mut rng = Prng::new(3904);
    let mut endings = BTreeMap::new();
    for _ in 0..MADE {
        let law = if rng.chance(1, 40) { rng.below(5) as u32 } else { rng.below(2) as u32 };
        let body = body(law.min(1), &mut rng);
        let set = if rng.flip() { ALL_TOOLS } else { rng.below(300) as u32 };
        let at = match rng.below(12) {
            0 => rng.next_u64(),
            1 => u64::MAX - rng.below(3) as u64,
            2 => body.len() as u64 + rng.below(2) as u64,
            _ => rng.below(body.len() + 1) as u64,
        };
        let room = *rng.pick(&[0, 39, 40, 80, 160, 240, 319, 320, 400]);
        *endings.entry(next_by_both(&body, at, law, set, room).0).or_insert(0) += 1;
    }
    let mut long = 0;
    for (law, set, at) in tenths([(2, 256, 0), (1, 256, 5), (1, 255, 3), (0, 0, u64::MAX)]) {
        let number = next_by_both(&vec![0; MOST + 1], at, law, set, 320).0;
        assert_eq!(
            number,
            if law > 1 {
                12
            } else if set > 255 {
                11
            } else {
                13
            }
        );
        long += 1;
    }
    assert!([0, 1, 2, 3, 4, 11, 12].iter().all(|number| endings.contains_key(number)), "{endings:?}");
    say(&format!(
        "compared: told, items at any place: {MADE}, {long} of more than the longest; by ending {endings:?}\n"
    ));
}

/// Headings of both laws, each octet changed to each other one, and cut.
#[test]
fn headings() {
    let mut told = 0;
    for law in 0..2 {
        let whole = heading(law);
        for cut in 0..=whole.len() {
            assert_eq!(file_head(&whole[..cut]), second::pieces::file_head(&whole[..cut]));
            told += 1;
        }
        for at in 0..whole.len() {
            for octet in 0..=255 {
                let mut octets = file(law, &[0x46, 0x01]);
                octets[at] = octet;
                assert_eq!(file_head(&octets), second::pieces::file_head(&octets), "{octets:02X?}");
                told += 1;
            }
        }
    }
    say(&format!("compared: told, headings: {told}\n"));
}

/// Every octet and every value of 16 bits by both laws: the second program, and linear values with the shift; and back.
#[test]
fn masters() {
    let (mut octets, mut values) = (0, 0);
    let every: Vec<u8> = (0..320).map(|at| (at % 256) as u8).collect();
    for law in 0..2 {
        let shift = 3 - law;
        let (mut proved, mut second, mut linear, mut back) = ([1; 320], [2; 320], [3; 320], [4; 320]);
        assert_eq!(raw::to_master(&every, law, &mut proved), second::masters::to_master(&every, law, &mut second));
        assert_eq!(proved, second);
        assert_eq!(raw::to_linear(&every, law, &mut linear), 0);
        assert_eq!(proved, linear.map(|value: i16| value << shift));
        assert_eq!(raw::from_master(&proved, law, &mut back), 0);
        assert!(every.iter().zip(back).all(|(one, other)| *one == other || (law, *one, other) == (1, 0x7F, 0xFF)));
        octets += 256;
        let all: Vec<i16> = (i16::MIN..=i16::MAX).collect();
        for part in all.chunks(320) {
            let mut frame = [0; 320];
            frame[..part.len()].copy_from_slice(part);
            let (mut proved, mut second, mut linear) = ([1; 320], [2; 320], [3; 320]);
            assert_eq!(
                raw::from_master(&frame, law, &mut proved),
                second::masters::from_master(&frame, law, &mut second)
            );
            assert_eq!(proved, second, "law {law}");
            assert_eq!(raw::from_linear(&frame.map(|value| value >> shift), law, &mut linear), 0);
            assert_eq!(proved, linear);
            values += part.len();
        }
    }
    say(&format!("compared: told, masters: {octets} octets and {values} values\n"));
}

/// Laws, lengths and rooms: what is refused leaves the output as lent.
#[test]
fn masters_refused() {
    let mut calls = 0;
    for law in [0, 1, 2, 256, u32::MAX] {
        for length in (0..=330).chain([640, 65_536]) {
            for room in [0, 39, 40, 80, 160, 240, 319, 320, 400] {
                let (samples, master) = (vec![0x5A; length], vec![-12_345; length]);
                let (mut proved, mut second) = (vec![7; room], vec![7; room]);
                let number = raw::to_master(&samples, law, &mut proved);
                assert_eq!(number, second::masters::to_master(&samples, law, &mut second));
                assert_eq!(proved, second, "law {law}, {length} samples, room {room}");
                let (mut proved, mut second) = (vec![7; room], vec![7; room]);
                assert_eq!(raw::from_master(&master, law, &mut proved), number);
                assert_eq!(second::masters::from_master(&master, law, &mut second), number);
                assert_eq!(proved, second, "law {law}, {length} values, room {room}");
                let fits = law < 2 && LENGTHS.contains(&length) && length <= room;
                assert_eq!(number == 0, fits);
                calls += 2;
            }
        }
    }
    say(&format!("compared: told, masters by law, length and room: {calls} calls\n"));
}
