//! Calls that tell of frames: the version, a stream judged without room for
//! its samples, and what a frame's first octets say.

mod slow;
use second::gen::{self, Prng};
use second::{check, head, read_frame, version, walk};

const SHORT: u32 = 1;
const PREFIX: u32 = 2;
const TOOL: u32 = 3;
const ROOM: u32 = 4;
const METHOD: u32 = 6;
const SET: u32 = 11;
const LAW: u32 = 12;
const LONG: u32 = 13;

const MOST: usize = 1_048_576;
const WAITING: [u8; 4] = [0x28, 0x2A, 0x38, 0x3A];
const UNASSIGNED: [u8; 15] =
    [0x01, 0x46, 0x47, 0x85, 0x87, 0x88, 0x89, 0x8A, 0x8B, 0x8C, 0x8D, 0x8E, 0x8F, 0xC5, 0xC7];

fn of_repository(path: &str) -> String {
    std::fs::read_to_string(format!("{}/../{path}", env!("CARGO_MANIFEST_DIR"))).unwrap()
}

#[test]
fn the_version_is_the_headers() {
    let header = of_repository("include/g7110.h");
    let words: Vec<&str> = header.split_whitespace().collect();
    let said: Vec<&str> =
        words.windows(3).filter(|w| w[..2] == ["#define", "G7110_VERSION"]).map(|w| w[2]).collect();
    assert_eq!(said, [version().to_string()]);
}

#[test]
fn streams_judged_by_hand() {
    let all = |octets: &[u8]| check(octets, 1, 127);
    assert_eq!(all(&[]), (0, [0, 0, 0, 0, 0]));
    // The listing of document 01.
    assert_eq!(all(&[0x41, 0x00, 0x56, 0x0F]), (0, [3, 4, 80, 0, 0]));
    assert_eq!(all(&[0x41, 0x00, 0x56, 0x0F, 0x86]), (SHORT, [3, 4, 80, 0, 8]));
    assert_eq!(all(&[0x41, 0x46, 0x41]), (PREFIX, [1, 1, 40, 0, 0]));
    // The mark of a loss is refused as by the walk.
    assert_eq!(all(&[0x41, 0x01]), (PREFIX, [1, 1, 40, 0, 0]));
    assert_eq!(all(&[0x31, 0x28, 0x00]), (TOOL, [1, 1, 320, 8, 0]));
    assert_eq!(all(&[0x31, 0x28]), (SHORT, [1, 1, 320, 0, 8]));
    // The bit counts from the refused frame's start.
    assert_eq!(all(&[0x00, 0x86, 0xF8]), (METHOD, [1, 1, 0, 0, 11]));
    let eleven = [0x41, 0x02, 0x55, 0x55, 0x55, 0x55, 0x55];
    assert_eq!(all(&eleven), (TOOL, [1, 1, 40, 11, 0]));
    assert_eq!(check(&eleven, 1, 255), (0, [2, 7, 80, 0, 0]));
    assert_eq!(check(&[0x00, 0x00, 0x41], 1, 0), (TOOL, [2, 2, 0, 2, 0]));
}

#[test]
fn streams_refused_before_any_frame() {
    let pads = vec![0; MOST + 1];
    assert_eq!(check(&pads, 2, 256), (LAW, [0; 5]));
    assert_eq!(check(&pads, u32::MAX, 0), (LAW, [0; 5]));
    assert_eq!(check(&pads, 1, 256), (SET, [0; 5]));
    assert_eq!(check(&pads, 0, u32::MAX), (SET, [0; 5]));
    assert_eq!(check(&pads, 0, 0), (LONG, [0; 5]));
    assert_eq!(check(&[], 2, 0), (LAW, [0; 5]));
    assert_eq!(check(&[], 1, 256), (SET, [0; 5]));
    let most = MOST as u64;
    assert_eq!(check(&pads[1..], 0, 0), (0, [most, most, 0, 0, 0]));
    // More samples than any room that could be lent would have to hold.
    assert_eq!(check(&vec![0x31; MOST], 1, 2), (0, [most, most, 320 * most, 0, 0]));
}

/// All five numbers, and the ending, are the walk's with room enough.
#[test]
fn a_check_is_a_walk_with_room() {
    let mut rng = Prng::new(3901);
    let mut by_ending = [0u64; 14];
    let mut room = vec![0; 320 * 2_000];
    for turn in 0..80_000 {
        let law = if turn % 50 == 0 { rng.below(4) as u32 } else { rng.below(2) as u32 };
        let set = match rng.below(8) {
            0..=4 => 255,
            5 => 127,
            _ => rng.below(260) as u32,
        };
        let mut octets = vec![];
        for _ in 0..rng.below(10) {
            octets.extend(gen::make_any_form(law.min(1), &mut rng).octets);
        }
        if rng.flip() && !octets.is_empty() {
            octets = gen::damage_somehow(&octets, &mut rng);
        }
        let walked = walk(&octets, law, set, &mut room);
        let numbers = [walked.frames, walked.octets, walked.samples, walked.tool as usize, walked.bit];
        let expected = (walked.ending, numbers.map(|number| number as u64));
        assert_eq!(check(&octets, law, set), expected, "{octets:02X?}");
        assert_eq!(walked.place, walked.octets);
        by_ending[walked.ending as usize] += 1;
    }
    // ROOM and LENGTH can't arise, and LONG is above.
    for ending in [0, 1, 2, 3, 5, 6, 7, 8, 9, 11, 12] {
        assert!(by_ending[ending] > 10, "{ending}: {by_ending:?}");
    }
    assert_eq!((by_ending[4], by_ending[10], by_ending[13]), (0, 0, 0));
    println!("compared: 80,000 checks with walks, by ending {by_ending:?}");
}

#[test]
fn heads_by_hand() {
    // SET first; SHORT of no octets.
    assert_eq!(head(&[], 256), (SET, [0, 0]));
    assert_eq!(head(&[0x46], u32::MAX), (SET, [0, 0]));
    assert_eq!(head(&[0x28], 256), (SET, [0, 0]));
    assert_eq!(head(&[], 255), (SHORT, [0, 0]));
    assert_eq!(head(&[], 0), (SHORT, [0, 0]));
    // A pad needs no tool, and nothing behind it is looked at.
    for set in [0, 1, 127, 255] {
        assert_eq!(head(&[0x00], set), (0, [0, 0]));
        assert_eq!(head(&[0x00, 0x46], set), (0, [0, 0]));
    }
    // PREFIX (01 too), whatever the set.
    for first in UNASSIGNED {
        assert_eq!(head(&[first], 0), (PREFIX, [0, 0]));
        assert_eq!(head(&[first, 0x80, 0x00], 255), (PREFIX, [0, 0]));
    }
    // Alone SHORT, also where no tool is in the set.
    for first in WAITING {
        assert_eq!(head(&[first], 0), (SHORT, [0, 0]));
        assert_eq!(head(&[first], 255), (SHORT, [0, 0]));
        let samples = if first < 0x30 { 240 } else { 320 };
        assert_eq!(head(&[first, 0x7F], 255), (TOOL, [8, 0]));
        assert_eq!(head(&[first, 0x80], 255), (0, [6, samples]));
        assert_eq!(head(&[first, 0x80], 255 - 32), (TOOL, [6, 0]));
        assert_eq!(head(&[first, 0x00], 0), (TOOL, [8, 0]));
        // The next first octet is tool 6 whatever follows, also alone.
        assert_eq!(head(&[first + 1], 32), (0, [6, samples]));
        assert_eq!(head(&[first + 1, 0x00], 32), (0, [6, samples]));
    }
    // A cut body is no refusal.
    assert_eq!(head(&[0x40], 1), (0, [1, 40]));
    assert_eq!(head(&[0x30], 1), (0, [1, 320]));
    assert_eq!(head(&[0x43], 255), (0, [4, 40]));
    assert_eq!(head(&[0xC4, 0xFF], 255), (0, [5, 160]));
    assert_eq!(head(&[0x57], 255), (0, [6, 40]));
    assert_eq!(head(&[0x86], 127), (0, [7, 80]));
    assert_eq!(head(&[0x1F], 128), (0, [11, 320]));
    assert_eq!(head(&[0x02], 127), (TOOL, [11, 0]));
    // Nor is a body that is refused: CASE, METHOD, RUN, ALIGN, PLACE.
    assert_eq!(head(&[0x86, 0xDC], 127), (0, [7, 80]));
    assert_eq!(head(&[0x86, 0xF8], 127), (0, [7, 80]));
    assert_eq!(head(&[0x57, 0x19], 127), (0, [6, 40]));
    assert_eq!(head(&[0x86, 0xFC, 0x01], 127), (0, [7, 80]));
    assert_eq!(head(&[0x05, 0xF3], 255), (0, [11, 40]));
    // Tools that nobody carries, and one that the set lacks.
    assert_eq!(head(&[0x45], 255), (TOOL, [12, 0]));
    assert_eq!(head(&[0xFF], 255), (TOOL, [9, 0]));
    assert_eq!(head(&[0x41], 253), (TOOL, [2, 0]));
}

/// Every line of the list of first octets, which was made from the text.
#[test]
fn heads_are_the_list() {
    let list = of_repository("tests/vectors/first-octet.txt");
    let number = |word: &str| u64::from_str_radix(word, 16).unwrap();
    let span = |word: &str| match word.split_once("..") {
        Some((low, high)) => number(low)..=number(high),
        None => number(word)..=number(word),
    };
    let (mut compared, mut firsts) = (0u64, 0u64);
    for line in list.lines().filter(|line| line.starts_with("first ")) {
        let (given, wanted) = line.split_once(" -> ").unwrap();
        let mut words = given.split(' ').skip(1);
        let (octets, next) = (span(words.next().unwrap()), words.next());
        let value = |key: &str| {
            let found = wanted.split(' ').find_map(|word| word.strip_prefix(key));
            found.map(|digits| digits.parse::<u64>().unwrap())
        };
        let expected = match (value("tool="), value("length=")) {
            (None, _) => (PREFIX, [0, 0]),
            (Some(tool), Some(length)) => (0, [tool, length]),
            (Some(tool), None) => (TOOL, [tool, 0]),
        };
        for first in octets {
            for second in span(next.map_or("00..FF", |next| &next[5..])) {
                assert_eq!(head(&[first as u8, second as u8, 0x46], 255), expected, "{line}");
                compared += 1;
            }
            let alone = if next.is_some() { (SHORT, [0, 0]) } else { expected };
            assert_eq!(head(&[first as u8], 255), alone, "{line}");
            firsts += u64::from(!next.is_some_and(|next| next.ends_with("FF")));
        }
    }
    assert_eq!((compared, firsts), (65_536, 256));
    println!("compared: {compared} pairs of octets with the list");
}

/// What `read` says of the same octets, with room enough, tells what `head`
/// must: its refusals up to TOOL are read's, and past them the tool and the
/// length are those that read goes by.
fn agrees_with_read(octets: &[u8], law: u32, set: u32) -> u32 {
    let mut room = [0xA7; 321];
    let read = read_frame(octets, law, set, &mut room[..320]);
    let told = head(octets, set);
    let waiting = octets.is_empty() || (octets.len() == 1 && WAITING.contains(&octets[0]));
    match read.ending {
        0 => assert_eq!(told, (0, [u64::from(read.tool), read.samples as u64])),
        SET | PREFIX | TOOL => assert_eq!(told, (read.ending, [u64::from(read.tool), 0])),
        SHORT if waiting => assert_eq!(told, (SHORT, [0, 0])),
        _ => {
            let (ending, [tool, samples]) = told;
            assert_eq!(ending, 0, "{octets:02X?}");
            // One sample less is ROOM, just enough room is what it was.
            let fewer = read_frame(octets, law, set, &mut room[..samples as usize - 1]);
            let enough = read_frame(octets, law, set, &mut room[..samples as usize]);
            assert_eq!((fewer.ending, enough), (ROOM, read));
            let bit = if tool == 11 { 128 } else { 1 << (tool - 1) };
            let without = read_frame(octets, law, set & !bit, &mut room);
            assert_eq!((without.ending, u64::from(without.tool)), (TOOL, tool));
        }
    }
    read.ending
}

#[test]
fn heads_agree_with_read() {
    let mut rng = Prng::new(3902);
    let mut by_ending = [0u64; 14];
    for turn in 0..300_000 {
        let law = rng.below(2) as u32;
        let set = if rng.chance(3, 4) { 255 } else { rng.below(258) as u32 };
        let mut octets = match turn % 3 {
            0 => {
                let count = rng.below(6);
                rng.octets(count)
            }
            1 => gen::make_any_form(law, &mut rng).octets,
            _ => gen::damage_somehow(&gen::make_any_form(law, &mut rng).octets, &mut rng),
        };
        by_ending[agrees_with_read(&octets, law, set) as usize] += 1;
        // Nothing past the first two octets is looked at.
        let told = head(&octets, set);
        if octets.len() >= 2 {
            octets.truncate(2);
            assert_eq!(head(&octets, set), told);
            octets.extend(rng.octets(3));
            assert_eq!(head(&octets, set), told);
        }
    }
    for ending in [0, 1, 2, 3, 5, 6, 7, 8, 9, 11] {
        assert!(by_ending[ending] > 10, "{ending}: {by_ending:?}");
    }
    println!("compared: 300,000 heads with read, by its ending {by_ending:?}");
}

/// And all inputs of up to two octets, with every set of one tool.
#[test]
fn heads_of_all_short_inputs() {
    let mut compared = 0u64;
    for set in [0, 1, 2, 4, 8, 16, 32, 64, 127, 128, 255, 256] {
        agrees_with_read(&[], 1, set);
        for first in 0..=255 {
            agrees_with_read(&[first], 1, set);
            for second in 0..=255 {
                agrees_with_read(&[first, second], 0, set);
                compared += 1;
            }
            // By another reader, which shares no table with this one.
            let (by_text, _) = slow::read(&[first, 0x80], 1, set, &[0; 320]);
            let told = head(&[first, 0x80], set);
            if [SET, PREFIX, TOOL].contains(&by_text.ending) {
                assert_eq!(told, (by_text.ending, [u64::from(by_text.tool), 0]));
            } else {
                assert_eq!(told.0, 0);
            }
        }
    }
    println!("compared: {compared} inputs of two octets with read");
}
