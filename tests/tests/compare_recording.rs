//! The storage file of studios (document 02, R-1): the proved code, through the static library, against the second program,
//! and both against the frames of a file as the proved reader and writer have them one by one.

use second::gen::{all_kinds, damage_somehow, make_frame, sample_of, Kind, Prng};
use tests::digits::TABLE;
use tests::file::{
    erased, file, heading, script, Filed, Files, Holds, Line, Read, Write, HEAD, LAW, LENGTH, LONG, LOSS, LOST, ROOM,
    SET,
};
use tests::forms::{rows, LENGTHS, ROWS};
use tests::recordings::{cuts, recordings};
use tests::streams::{Stream, FIELDS};
use tests::{
    goes_on, in_tenth, odd_set, say, share, tenth, Codec, Proved, Second, Table, ALL_TOOLS, LISTED_TOOLS, MOST,
    MOST_LISTED,
};

/// What a cell of a table needs.
const NEED: usize = share(1_000);
/// The numbers of 0++ and 0--.
const SECONDS: [i32; 2] = [1, -2];
/// Lists that are written and read back.
const LISTS: usize = share(6_000);
/// Files that are damaged.
const DAMAGED: usize = 36_000;
/// Recordings that lose frames: all, or one sound in both laws.
const RECORDINGS: usize = tenth(12);

/// Vectors worked out by hand, on the back ends side by side.
#[test]
fn worked_out_by_hand() {
    let lines = script(include_str!("../vectors/file.txt")).unwrap();
    let mut filed = Filed::new(&Proved, &Second);
    let mut endings = [0; 2];
    for line in &lines {
        let ending = match line {
            Line::Read { name, octets, set, room, places, wanted, items, out } => {
                assert_eq!(filed.held(octets, *set, *room, *places), *wanted, "{name}");
                assert_eq!((&filed.items, &filed.out), (items, out), "{name}");
                wanted.ending
            }
            Line::Write { name, samples, items, law, set, room, wanted, out } => {
                assert_eq!(filed.write(samples, items, *law, *set, *room), *wanted, "{name}");
                assert_eq!(filed.out, *out, "{name}");
                wanted.ending
            }
        };
        endings[usize::from(ending != 0)] += 1;
    }
    filed.close();
    say(&format!("compared: file, vectors: {} accepted, {} refused\n", endings[0], endings[1]));
    assert!(endings[0] >= 30 && endings[1] >= 45, "{endings:?}");
}

#[test]
fn a_faulty_vector_is_refused() {
    for bad in [
        "read x octets=M:41",
        "reads x octets=M:41 -> ok",
        "read x octets=M:41 -> fine",
        "read x octets=M:41 -> ok place=1",
        "read x octets=B:41 -> ok",
        "write x items=x -> ok",
        "write x items=L40000 -> ok",
        "write x out=3 -> ok",
    ] {
        assert!(script(bad).is_err(), "{bad}");
    }
}

/// Every cut of a heading, every octet at each of its places, with every kind of set, before streams of every kind.
#[test]
fn headings() {
    let mut filed = Filed::new(&Proved, &Second);
    let mut rng = Prng::new(11);
    let (mut head, mut good) = (0, 0);
    let mut tried = |filed: &mut Filed, octets: &[u8]| {
        for set in [ALL_TOOLS, 0, 1, 127, 256, u32::MAX] {
            let told = filed.held(octets, set, 2_000, 40);
            head += usize::from(told.ending == HEAD);
            good += usize::from(told.ending == 0);
            if set > ALL_TOOLS && told != (Read { ending: SET, ..Read::default() }) {
                filed.differ("a set above 255", &format!("{told:?}"));
            }
        }
    };
    for law in 0..2 {
        for stream in [vec![], vec![0x41, 0x00, 0x01], Stream::mixed(200, law, &mut rng).octets] {
            let whole = file(law, &stream);
            for cut in 0..=10 {
                tried(&mut filed, &whole[..cut]);
                tried(&mut filed, &whole[cut..]);
            }
            for at in 0..10 {
                for octet in (0..=255).filter(|octet| in_tenth(usize::from(*octet) + at)) {
                    let mut other = whole.clone();
                    other[at] = octet;
                    tried(&mut filed, &other);
                    other = whole.clone();
                    other.insert(at, octet);
                    tried(&mut filed, &other);
                }
                let mut other = whole.clone();
                other.remove(at);
                tried(&mut filed, &other);
            }
            tried(&mut filed, &[&heading(law)[..], &whole].concat());
            tried(&mut filed, &whole.to_ascii_lowercase());
        }
    }
    filed.close();
    say(&format!("compared: file, headings: {head} HEAD, {good} accepted, {} calls\n", filed.calls));
    assert!(head > tenth(50_000) && good > tenth(100), "{head}, {good}");
}

/// The forms that can hold an erasure frame, and those of its numbers that a row has.
fn holders() -> Vec<(Holds, i32)> {
    let mut all = Vec::new();
    for number in SECONDS {
        all.extend([(Holds::Plain, number), (Holds::Constant, number)]);
        all.extend(ROWS.iter().filter(|row| row.values.contains(&number)).map(|row| (Holds::Row(*row), number)));
        all.extend(TABLE.iter().filter(|row| row.values.contains(&number)).map(|row| (Holds::Digits(row), number)));
    }
    all
}

/// Whether a length has such forms.
fn possible(holds: Holds, length: usize) -> bool {
    match holds {
        Holds::Row(row) => rows(length).iter().any(|other| (other.case, other.flag) == (row.case, row.flag)),
        Holds::Digits(row) => row.first(length).is_some(),
        _ => true,
    }
}

/// Erasure frames in every form that can hold them, both laws, and frames one sample away from them.
#[test]
fn erasure_frames() {
    let mut filed = Filed::new(&Proved, &Second);
    let names: Vec<String> = holders().iter().map(|(holds, number)| holds.name(*number)).collect();
    let mut losses = Table::new("file, erasure frames by form and length", &names, &LENGTHS, NEED);
    let mut frames = Table::new("file, frames one sample away, by form and length", &names, &LENGTHS, NEED);
    let mut rng = Prng::new(12);
    for (holds, number) in holders() {
        for length in LENGTHS {
            let name = holds.name(number);
            if !possible(holds, length) {
                losses.never(&name, length);
                frames.never(&name, length);
                continue;
            }
            for turn in 0..NEED {
                let law = (turn % 2) as u32;
                let form = holds.form(number, length, law, None, &mut rng);
                check_item(&mut filed, &form, law, LOSS + length as u16, &mut rng);
                losses.add(&name, length);
                // One sample is another: any in tools 1 and 4, the octet of the other sign among them, in tools 7 and 11 one that the row has.
                let others: Vec<i32> = match holds {
                    Holds::Row(row) => row.values.iter().copied().chain([0]).filter(|value| *value != number).collect(),
                    Holds::Digits(row) => row.values.iter().copied().filter(|value| *value != number).collect(),
                    Holds::Plain => vec![-1 - number, 0, -1, 2, -3, 127, -128],
                    Holds::Constant => vec![0, -1, 2, -3, 127, -128],
                };
                let other = *rng.pick(&others);
                let form = match holds {
                    Holds::Constant => holds.form(other, length, law, None, &mut rng),
                    _ => {
                        let at = *rng.pick(&[0, length - 1, rng.clone().below(length)]);
                        holds.form(number, length, law, Some((at, other)), &mut rng)
                    }
                };
                check_item(&mut filed, &form, law, length as u16, &mut rng);
                frames.add(&name, length);
            }
        }
    }
    // Constant frames of every octet.
    for law in 0..2 {
        for octet in 0..=255 {
            let lost = [sample_of(1, law), sample_of(-2, law)].contains(&octet);
            check_item(&mut filed, &[0x83, octet], law, if lost { LOSS + 80 } else { 80 }, &mut rng);
        }
    }
    losses.close();
    frames.close();
    filed.close();
    say(&format!("compared: file, erasure frames: {} calls\n", filed.calls));
}

/// Reads a frame as the only item or among others: it must be this item.
fn check_item(filed: &mut Filed, form: &[u8], law: u32, item: u16, rng: &mut Prng) {
    let before = *rng.pick(&[&[][..], &[0x41], &[0x00], &[LOST]]);
    let octets = file(law, &[before, form].concat());
    let told = filed.held(&octets, ALL_TOOLS, 400, 3);
    if told.ending != 0 || filed.items.last() != Some(&item) {
        let items = filed.items.clone();
        filed.differ(&format!("item {item}, law {law}"), &format!("{told:?}, {items:?}: {octets:02X?}"));
    }
}

/// A frame's samples: of any kind, or of 0++ or 0--, or one sample away from them.
fn some_frame(length: usize, law: u32, kinds: &[Kind], rng: &mut Prng) -> Vec<u8> {
    let mut samples = make_frame(*rng.pick(kinds), length, law, rng);
    if rng.chance(1, 4) {
        samples.fill(sample_of(*rng.pick(&SECONDS), law));
        if rng.flip() {
            let at = rng.below(length);
            samples[at] = sample_of(*rng.pick(&[0, -1, 1, -2, 2, -3]), law);
        }
    }
    samples
}

/// Where a loss stands in a list.
const PLACES: [&str; 5] = ["alone", "first", "last", "among frames", "in a row"];

/// Lists of frames, pads and losses with losses of each length at each place: written, and read back as the same list.
#[test]
fn lists_read_back() {
    let mut filed = Filed::new(&Proved, &Second);
    let lengths = [0, 40, 80, 160, 240, 320];
    let mut table = Table::new("file, losses by place and length (0 is not known)", &PLACES, &lengths, share(200));
    let kinds = all_kinds();
    let mut rng = Prng::new(13);
    let (mut nested, mut tool) = (0, 0);
    for turn in 0..LISTS {
        let (law, set) = ((turn % 2) as u32, odd_set(&mut rng));
        let (mut items, mut samples) = (Vec::new(), Vec::new());
        let draw = |items: &mut Vec<u16>, samples: &mut Vec<u8>, rng: &mut Prng| match rng.below(8) {
            0 => items.push(0),
            1 => items.push(LOSS),
            2 => items.push(LOSS + *rng.pick(&LENGTHS) as u16),
            _ => {
                let length = *rng.pick(&LENGTHS);
                samples.extend(some_frame(length, law, &kinds, rng));
                items.push(length as u16);
            }
        };
        let (place, length) = (PLACES[turn % 5], lengths[turn / 5 % 6] as u16);
        let (before, after) = match place {
            "alone" => (0, 0),
            "first" => (0, 1 + rng.below(8)),
            "last" => (1 + rng.below(8), 0),
            _ => (1 + rng.below(6), 1 + rng.below(6)),
        };
        (0..before).for_each(|_| draw(&mut items, &mut samples, &mut rng));
        let times = if place == "in a row" { 2 + rng.below(6) } else { 1 };
        items.extend(vec![LOSS + length; times]);
        (0..after).for_each(|_| draw(&mut items, &mut samples, &mut rng));
        let octets = filed.round(&samples, &items, law, set);
        table.add(place, length);

        // Every reader whose set holds all of the writer's reads the same; a smaller one may lack a tool.
        let larger = set | rng.below(256) as u32;
        let told = filed.held(&octets, larger, samples.len() + 320, items.len());
        nested += usize::from(told.ending == 0);
        if told.ending != 0 {
            filed.differ("a larger set", &format!("{told:?}: {octets:02X?}"));
        }
        let told = filed.held(&octets, set & rng.below(256) as u32, samples.len() + 320, items.len());
        tool += usize::from(told.ending == 3);
        beside_the_walk(&mut filed, &octets, law, set);
    }
    table.close();
    filed.close();
    say(&format!(
        "compared: file, lists: {LISTS} read back, {nested} by larger sets, {tool} TOOL, {} calls\n",
        filed.calls
    ));
    assert!(nested == LISTS && tool > share(1_000), "{nested}, {tool}");
}

/// A file without the octet 01 is its heading and then a stream: the walk has the same frames, those of 0++ or 0-- too, and
/// the same end. The walk refuses the octet 01 with PREFIX at its place.
fn beside_the_walk(filed: &mut Filed, octets: &[u8], law: u32, set: u32) {
    let body = &octets[10..];
    let mut samples = vec![0; 320 * body.len() + 320];
    let walked = Proved.walk(body, law, set, &mut samples);
    let told = filed.read(octets, set, samples.len(), body.len() + 1);
    let items = filed.items.clone();
    let (until, wanted) = match items.iter().position(|item| *item == LOSS) {
        Some(at) => (at, (2, 0, 0)),
        None => (items.len(), (told.ending, told.tool, told.bit)),
    };
    let lengths: usize = items[..until].iter().map(|item| usize::from(item % LOSS)).sum();
    let ended = (walked.ending, walked.tool, walked.bit);
    if ended != wanted || (walked.frames, walked.samples) != (until, lengths) {
        filed.differ("beside the walk", &format!("{walked:?}, {told:?}, {items:?}: {octets:02X?}"));
    }
    if let Some(at) = (until < items.len()).then_some(walked.octets) {
        if body[at] != LOST {
            filed.differ("beside the walk", &format!("{at} is not the octet 01: {octets:02X?}"));
        }
    }
}

/// Where frames of a recording are lost; in each some are lost besides.
const GAPS: [&str; 4] = ["first", "last", "in rows", "here and there"];

/// How many frames are lost from this one on, of so many; 0 where it is not lost.
fn lost(gap: &str, at: usize, frames: usize, rng: &mut Prng) -> usize {
    match gap {
        "first" if at == 0 => 1 + rng.below(3),
        "last" if at + 1 == frames => 1,
        "in rows" if rng.chance(1, 20) => 2 + rng.below(6),
        _ => usize::from(rng.chance(1, 12)),
    }
}

/// The recordings written as files with frames taken out, in each length of frame, kept on disk, and read back.
#[test]
fn recordings_with_losses() {
    let mut filed = Filed::new(&Proved, &Second);
    let mut rng = Prng::new(14);
    let mut table = Table::new("file, recordings by lost frames and length", &GAPS, &LENGTHS, RECORDINGS);
    let path = std::path::Path::new(env!("CARGO_TARGET_TMPDIR")).join("recording");
    let (mut frames, mut losses) = (0, 0);
    for recording in recordings().into_iter().take(RECORDINGS) {
        for (gap, length) in GAPS.iter().flat_map(|gap| LENGTHS.map(|length| (*gap, length))) {
            let most = 1_000 * length.min(40);
            let sound = &recording.sound[..recording.sound.len().min(most)];
            let cuts = cuts(sound.len(), length).0;
            let (mut items, mut samples, mut at, mut missing) = (Vec::new(), Vec::new(), 0, 0);
            for (turn, cut) in cuts.iter().copied().enumerate() {
                missing = if missing > 0 { missing } else { lost(gap, turn, cuts.len(), &mut rng) };
                if missing > 0 {
                    items.push(if rng.flip() { LOSS } else { LOSS + cut as u16 });
                    missing -= 1;
                } else {
                    items.push(cut as u16);
                    samples.extend(&sound[at..at + cut]);
                    frames += 1;
                }
                at += cut;
            }
            losses += items.iter().filter(|item| **item >= LOSS).count();
            std::fs::write(&path, filed.round(&samples, &items, recording.law, ALL_TOOLS)).unwrap();
            let octets = std::fs::read(&path).unwrap();
            let told = filed.held(&octets, ALL_TOOLS, samples.len() + 320, items.len());
            assert_eq!((told.ending, told.law, told.octets + 10), (0, recording.law, octets.len()));
            beside_the_walk(&mut filed, &octets, recording.law, ALL_TOOLS);
            table.add(gap, length);
        }
    }
    table.close();
    filed.close();
    say(&format!("compared: file, recordings: {frames} frames, {losses} losses\n"));
    assert!(losses > tenth(9_000), "{losses}");
}

/// Files damaged in each field and in any way, with octets 01 among the frames; and octets at random behind a heading.
#[test]
fn damaged_files() {
    let mut filed = Filed::new(&Proved, &Second);
    let mut rng = Prng::new(15);
    let mut fields: Vec<&str> = FIELDS.to_vec();
    fields.extend(["none", "in any way", "octets at random"]);
    let mut table = Table::new("file, damaged by field and ending", &fields, &["ok", "refused"], share(50));
    ["samples", "constant", "binary", "digits"].iter().for_each(|field| table.never(field, "refused"));
    ["code of S", "zeros", "method", "count", "filling"].iter().for_each(|field| table.needs(field, "ok", 0));
    table.never("none", "refused");
    table.needs("octets at random", "ok", share(20));
    // Few numbers of five samples are too great.
    table.needs("five samples", "refused", share(20));
    let mut turns = 0;
    while goes_on(turns, share(DAMAGED), DAMAGED, || table.faults().is_empty()) {
        let (law, field) = ((turns % 2) as u32, fields[turns / 2 % fields.len()]);
        turns += 1;
        let stream = Stream::mixed(10 + rng.below(400), law, &mut rng);
        let turned = |rng: &mut Prng| (0..20).find_map(|_| stream.turned(field, rng));
        let octets = match field {
            "none" => file(law, &stream.octets),
            "in any way" => damage_somehow(&file(law, &stream.octets), &mut rng),
            "octets at random" => {
                let count = rng.below(12);
                file(law, &rng.octets(count))
            }
            _ => match turned(&mut rng) {
                Some(octets) => file(law, &octets),
                None => continue,
            },
        };
        let octets = match (rng.below(4), field) {
            (0, _) => {
                // A mark between two frames.
                let at = if stream.starts.is_empty() { 0 } else { *rng.pick(&stream.starts) };
                let at = (10 + at).min(octets.len());
                [&octets[..at], &[LOST], &octets[at..]].concat()
            }
            _ => octets,
        };
        let told = filed.held(&octets, ALL_TOOLS, stream.samples() + 10_000, stream.forms.len() + 400);
        table.add(field, if told.ending == 0 { "ok" } else { "refused" });
        if told.ending != HEAD {
            beside_the_walk(&mut filed, &octets, told.law, ALL_TOOLS);
        }
    }
    table.close();
    filed.close();
    say(&format!("compared: file, damaged: {} calls\n", filed.calls));
}

/// Every room for samples and every number of places for items.
#[test]
fn every_room() {
    let mut filed = Filed::new(&Proved, &Second);
    let mut rng = Prng::new(16);
    let mut table =
        Table::new("file, rooms by what is short", &["samples", "items", "octets"], &["ROOM", "enough"], tenth(2_000));
    table.needs("items", "ROOM", tenth(200));
    for turn in 0..tenth(60) {
        let law = (turn % 2) as u32;
        let mut body = Vec::new();
        for _ in 0..1 + rng.below(6) {
            let form = Stream::mixed(200, law, &mut rng).octets;
            body.extend(rng.pick(&[form, vec![LOST], vec![0x43, sample_of(1, law)], vec![0]]));
        }
        let octets = file(law, &body);
        let all = filed.held(&octets, ALL_TOOLS, 100_000, 2_000);
        assert_eq!(all.ending, 0, "the file is good");
        for room in (0..all.samples + 330).step_by(1 + all.samples / 400) {
            let told = filed.held(&octets, ALL_TOOLS, room, 2_000);
            table.add("samples", if told.ending == ROOM { "ROOM" } else { "enough" });
        }
        for places in 0..all.items + 40 {
            let told = filed.held(&octets, ALL_TOOLS, 100_000, places);
            assert_eq!(told.ending == ROOM, places < all.items);
            table.add("items", if told.ending == ROOM { "ROOM" } else { "enough" });
        }
        let (items, samples) = (filed.items.clone(), filed.out.clone());
        let whole = filed.round(&samples, &items, law, ALL_TOOLS);
        for room in 0..whole.len() + 40 {
            let told = filed.write(&samples, &items, law, ALL_TOOLS, room);
            let wanted = if room < whole.len() { (ROOM, 0) } else { (0, whole.len()) };
            assert_eq!((told.ending, told.octets), wanted);
            table.add("octets", if told.ending == ROOM { "ROOM" } else { "enough" });
        }
    }
    table.close();
    filed.close();
    say(&format!("compared: file, every room: {} calls\n", filed.calls));
}

/// Files of about 1,048,576 octets behind the heading, read and written; LONG counts from the heading's end.
#[test]
fn around_the_longest() {
    let mut filed = Filed::new(&Proved, &Second);
    let (mut good, mut long) = (0, 0);
    // Ten octets more is a whole heading. Of a tenth the longest and one octet more are tried.
    let lengths = [MOST, MOST + 1, MOST - 1, MOST - 10, MOST + 10, MOST + 11];
    for turn in 0..tenth(12) {
        let (octets, (law, octet)) = (lengths[turn % 6], [(1, LOST), (0, 0x00)][(turn + turn / 6) % 2]);
        let given = file(law, &vec![octet; octets]);
        let told = filed.held(&given, ALL_TOOLS, 0, MOST + 20);
        let items = vec![if octet == LOST { LOSS } else { 0 }; octets];
        let wrote = filed.write(&[], &items, law, 1, MOST + 100);
        let ending = if octets > MOST { LONG } else { 0 };
        assert_eq!((told.ending, wrote.ending), (ending, ending), "{octets}");
        assert_eq!(filed.write(&[], &items, law, 1, 0).ending, if octets > MOST { LONG } else { ROOM });
        assert_eq!(wrote.octets, if octets > MOST { 0 } else { octets + 10 });
        if octets > MOST {
            assert_eq!(told, Read { ending: LONG, law, ..Read::default() });
            assert_eq!(filed.held(&given[1..], ALL_TOOLS, 0, 0).ending, HEAD);
            assert_eq!(filed.held(&given, 256, 0, 0).ending, SET);
            long += 2;
        } else {
            good += 2;
        }
    }
    // Frames of 320 as they are: 3,266 have 1,048,386 octets, and 190 marks more are just enough.
    let samples: Vec<u8> = Prng::new(17).octets(3_266 * 320);
    for marks in [190, 191, 188, 189, 192].into_iter().take(tenth(5) + 1) {
        let items = [vec![320; 3_266], vec![LOSS; marks]].concat();
        let wrote = filed.write(&samples, &items, 1, 1, MOST + 100);
        assert_eq!(wrote.ending, if marks > 190 { LONG } else { 0 }, "{marks}");
        *if marks > 190 { &mut long } else { &mut good } += 1;
    }
    filed.close();
    say(&format!("compared: file, around the longest: {good} accepted, {long} LONG\n"));
}

/// Every item of 16 bits; samples left over and missing; LAW, SET, LENGTH in their order.
#[test]
fn refusals_of_writing() {
    let mut filed = Filed::new(&Proved, &Second);
    let mut refused = [0; 3];
    let good = |item: u16| LENGTHS.iter().any(|length| *length == usize::from(item % LOSS)) || item % LOSS == 0;
    for item in (0..=u16::MAX).filter(|item| in_tenth(usize::from(*item))) {
        let samples = vec![0x55; if item < LOSS { usize::from(item) } else { 0 }];
        let told = filed.write(&samples, &[item], u32::from(item) % 2, ALL_TOOLS, 400);
        assert_eq!(told.ending, if good(item) { 0 } else { LENGTH }, "{item}");
        refused[0] += usize::from(!good(item));
    }
    let mut rng = Prng::new(18);
    for _ in 0..tenth(4_000) {
        let items: Vec<u16> =
            (0..rng.below(6)).map(|_| *rng.pick(&[0, 40, 80, 160, 240, 320, LOSS, LOSS + 40, LOSS + 320])).collect();
        let right: usize = items.iter().filter(|item| **item < LOSS).map(|item| usize::from(*item)).sum();
        let given = match rng.below(4) {
            0 => right + 1 + rng.below(100),
            1 => right.saturating_sub(1 + rng.below(100)),
            2 => right + 40,
            _ => right,
        };
        let samples = rng.octets(given);
        for law in [0, 1, 2, u32::MAX] {
            for set in [ALL_TOOLS, 127, 1, 126, 254, 257, 0] {
                let told = filed.write(&samples, &items, law, set, 3_000);
                let wanted = match (law > 1, set > ALL_TOOLS || set % 2 == 0, given == right) {
                    (true, ..) => LAW,
                    (_, true, _) => SET,
                    (_, _, false) => LENGTH,
                    _ => 0,
                };
                assert_eq!(told.ending, wanted);
                if wanted != 0 {
                    refused[(wanted - LENGTH) as usize] += 1;
                }
            }
        }
    }
    filed.close();
    let [length, set, law] = refused;
    say(&format!("compared: file, refusals of writing: LENGTH {length}, SET {set}, LAW {law}\n"));
    assert!(length > tenth(60_000) && set > tenth(10_000) && law > tenth(10_000));
}

/// The second program, wrong in one way.
#[derive(Clone, Copy, Debug, PartialEq)]
enum Fault {
    LossAsFrame,
    LossAsSilence,
    OneOtherIsALoss,
    MixedIsALoss,
    OnlyPlus,
    OtherLaw,
    OnlyConstant,
    PadIsALoss,
    LongFromTheStart,
    HeadBeforeSet,
    LongBeforeHead,
    AnyVersion,
    SmallLetters,
    ShortHeading,
    ItemLookedAt,
    LossWithoutRoom,
    LossWithoutTool,
    PlaceFromTheStart,
    LossSamplesCounted,
    MarkIsAPad,
    WritesMinus,
    WritesMarkForAll,
    LeftOverTaken,
    LossOf41,
    LengthBeforeSet,
    RoomBeforeLong,
    WritesThenRefuses,
    ItemsPastTheReport,
    NoVersionWritten,
    OldLimit,
    OneOctetMore,
    OldSets,
    Tool11NeverLost,
    Tool11WithSet127,
}

const FAULTS: [Fault; 34] = [
    Fault::LossAsFrame,
    Fault::LossAsSilence,
    Fault::OneOtherIsALoss,
    Fault::MixedIsALoss,
    Fault::OnlyPlus,
    Fault::OtherLaw,
    Fault::OnlyConstant,
    Fault::PadIsALoss,
    Fault::LongFromTheStart,
    Fault::HeadBeforeSet,
    Fault::LongBeforeHead,
    Fault::AnyVersion,
    Fault::SmallLetters,
    Fault::ShortHeading,
    Fault::ItemLookedAt,
    Fault::LossWithoutRoom,
    Fault::LossWithoutTool,
    Fault::PlaceFromTheStart,
    Fault::LossSamplesCounted,
    Fault::MarkIsAPad,
    Fault::WritesMinus,
    Fault::WritesMarkForAll,
    Fault::LeftOverTaken,
    Fault::LossOf41,
    Fault::LengthBeforeSet,
    Fault::RoomBeforeLong,
    Fault::WritesThenRefuses,
    Fault::ItemsPastTheReport,
    Fault::NoVersionWritten,
    Fault::OldLimit,
    Fault::OneOctetMore,
    Fault::OldSets,
    Fault::Tool11NeverLost,
    Fault::Tool11WithSet127,
];

struct Wrong(Fault);

impl Wrong {
    /// What is read in the place of the octets, or a refusal that comes too early.
    fn taken(&self, octets: &[u8], set: u32) -> Result<Vec<u8>, Read> {
        let mut given = octets.to_vec();
        let named = octets.starts_with(&heading(0)) || octets.starts_with(&heading(1));
        let refused = |ending: u32, law: u32| Err(Read { ending, law, ..Read::default() });
        match self.0 {
            Fault::LongFromTheStart if set <= ALL_TOOLS && named && octets.len() > MOST => {
                return refused(LONG, u32::from(octets[7] == b'M'));
            }
            // "LONG .. moves to the new limit".
            Fault::OldLimit if set <= ALL_TOOLS && named && octets.len() > MOST_LISTED + 10 => {
                return refused(LONG, u32::from(octets[7] == b'M'));
            }
            Fault::OneOctetMore if octets.len() == MOST + 11 => given.truncate(MOST + 10),
            Fault::HeadBeforeSet if !named => return refused(HEAD, 0),
            Fault::OldSets if set > LISTED_TOOLS => return refused(SET, 0),
            Fault::LongBeforeHead if set <= ALL_TOOLS && octets.len() > MOST + 10 && !named => return refused(LONG, 0),
            Fault::AnyVersion if octets.len() > 9 => given[9] = 0,
            Fault::SmallLetters if octets.len() > 9 => given[..10].make_ascii_uppercase(),
            Fault::ShortHeading if octets.len() == 9 && octets[..] == heading(1)[..9] => given.push(0),
            _ => {}
        }
        Ok(given)
    }

    /// A reading with the constant tool, or with more room for samples, where that changes it.
    fn wider(&self, octets: &[u8], set: u32, out: &mut [u8], items: &mut [u16]) -> Option<Read> {
        let fill = out.first().copied().unwrap_or(0);
        let mut more = vec![fill; out.len() + if self.0 == Fault::LossWithoutRoom { 320 } else { 0 }];
        let set = if self.0 == Fault::LossWithoutTool && set <= ALL_TOOLS { set | 8 } else { set };
        let mut list = items.to_vec();
        let read = Second.read_file(octets, set, &mut more, &mut list);
        if read.ending != 0 || read.samples > out.len() {
            return None;
        }
        out[..read.samples].copy_from_slice(&more[..read.samples]);
        items.copy_from_slice(&list);
        Some(read)
    }

    /// Frames that are taken for losses.
    fn frames_lost(&self, told: Read, out: &[u8], items: &mut [u16]) {
        let mut at = 0;
        for item in items[..told.items].iter_mut().filter(|item| **item < LOSS) {
            let frame = &out[at..at + usize::from(*item)];
            at += frame.len();
            let others =
                SECONDS.map(|number| frame.iter().filter(|sample| **sample != sample_of(number, told.law)).count());
            let mixed = others.iter().sum::<usize>() == frame.len();
            let taken = if self.0 == Fault::MixedIsALoss { mixed } else { others.contains(&1) };
            *item += if taken && !frame.is_empty() { LOSS } else { 0 };
        }
    }

    /// In a file of one frame, an erasure frame that is not known for one, or one of the other law.
    fn one_frame(&self, told: Read, octets: &[u8], items: &mut [u16]) {
        if told.items != 1 || told.ending != 0 {
            return;
        }
        let mut frame = [0; 320];
        let read = second::read_frame(&octets[10..], told.law, ALL_TOOLS, &mut frame);
        let frame = &frame[..read.samples];
        let other = match self.0 {
            Fault::OnlyPlus => frame.first() == Some(&sample_of(-2, told.law)),
            Fault::OtherLaw => erased(frame, 1 - told.law),
            Fault::Tool11NeverLost => read.tool == 11,
            _ => read.tool != 4,
        };
        if other && erased(frame, told.law) != (self.0 == Fault::OtherLaw) {
            items[0] ^= LOSS;
        }
    }

    /// A loss handed on as something else.
    fn loss_kept(&self, told: &mut Read, out: &mut [u8], items: &mut [u16]) {
        let Some(at) = (0..told.items).find(|at| items[*at] > LOSS) else { return };
        let length = usize::from(items[at] - LOSS);
        match self.0 {
            Fault::LossAsFrame => items[at] -= LOSS,
            Fault::LossAsSilence if told.samples + length <= out.len() => {
                items[at] -= LOSS;
                out[told.samples..told.samples + length].fill(sample_of(0, told.law));
                told.samples += length;
            }
            Fault::LossSamplesCounted => told.samples += length,
            _ => {}
        }
    }
}

impl Files for Wrong {
    fn read_file(&self, octets: &[u8], set: u32, out: &mut [u8], items: &mut [u16]) -> Read {
        let set = if self.0 == Fault::Tool11WithSet127 && set == LISTED_TOOLS { ALL_TOOLS } else { set };
        let given = match self.taken(octets, set) {
            Ok(given) => given,
            Err(refused) => return refused,
        };
        if let Fault::LossWithoutTool | Fault::LossWithoutRoom = self.0 {
            if let Some(read) = self.wider(&given, set, out, items) {
                return read;
            }
        }
        let mut told = Second.read_file(&given, set, out, items);
        let list = items.len();
        let mut turn = |from: u16, to: u16| {
            items[..told.items].iter_mut().filter(|item| **item == from).for_each(|item| *item = to)
        };
        match self.0 {
            Fault::LossAsFrame | Fault::LossAsSilence | Fault::LossSamplesCounted => {
                self.loss_kept(&mut told, out, items)
            }
            Fault::OneOtherIsALoss | Fault::MixedIsALoss => self.frames_lost(told, out, items),
            Fault::OnlyPlus | Fault::OtherLaw | Fault::OnlyConstant | Fault::Tool11NeverLost => {
                self.one_frame(told, octets, items)
            }
            Fault::PadIsALoss => turn(0, LOSS),
            Fault::MarkIsAPad => turn(LOSS, 0),
            Fault::ItemLookedAt if told.ending == ROOM && told.items == list => {
                let next = second::read_frame(&octets[10 + told.octets..], told.law, set, &mut [0; 320]);
                if next.ending > 0 && octets[10 + told.octets] != LOST {
                    (told.ending, told.tool, told.bit) = (next.ending, next.tool, next.bit);
                }
            }
            Fault::PlaceFromTheStart if told.ending > 0 && told.ending < 10 => told.octets += 10,
            Fault::ItemsPastTheReport if told.items < list => items[told.items] = 0,
            _ => {}
        }
        told
    }

    fn write_file(&self, samples: &[u8], items: &[u16], law: u32, set: u32, out: &mut [u8]) -> Write {
        let (mut given, mut list) = (samples.to_vec(), items.to_vec());
        let room = out.len();
        match self.0 {
            Fault::WritesMarkForAll => list.iter_mut().filter(|item| **item > LOSS).for_each(|item| *item = LOSS),
            Fault::LeftOverTaken => {
                let right: usize = items.iter().filter(|item| **item < LOSS).map(|item| usize::from(*item)).sum();
                given.truncate(right);
            }
            Fault::LossOf41 => list.iter_mut().filter(|item| **item == LOSS + 41).for_each(|item| *item = LOSS + 40),
            Fault::LengthBeforeSet if law < 2 && items.contains(&41) => return Write { ending: LENGTH, octets: 0 },
            Fault::RoomBeforeLong if law < 2 && set % 2 == 1 && set <= ALL_TOOLS && items.len() > room => {
                return Write { ending: ROOM, octets: 0 };
            }
            Fault::WritesThenRefuses if law < 2 && room >= 10 => out[..10].copy_from_slice(&heading(law)),
            _ => {}
        }
        let mut told = Second.write_file(&given, &list, law, set, out);
        if told.ending == 0 {
            match self.0 {
                Fault::WritesMinus if items.len() == 1 && items[0] > LOSS => out[told.octets - 1] ^= 0x80,
                Fault::NoVersionWritten => {
                    out.copy_within(10..told.octets, 9);
                    told.octets -= 1;
                }
                _ => {}
            }
        }
        told
    }
}

/// Drawn files, written, read and damaged, until something differs.
fn drawn_files(filed: &mut Filed, kinds: &[Kind]) {
    let mut rng = Prng::new(19);
    for turn in 0..3_000 {
        let law = (turn % 2) as u32;
        let (mut items, mut samples) = (Vec::new(), Vec::new());
        for _ in 0..1 + rng.below(3) {
            let length = *rng.pick(&LENGTHS);
            match rng.below(5) {
                0 => items.push(*rng.pick(&[LOSS, LOSS + length as u16])),
                1 => items.push(0),
                _ => {
                    samples.extend(some_frame(length, law, kinds, &mut rng));
                    items.push(length as u16);
                }
            }
        }
        filed.write(&samples, &items, law, ALL_TOOLS, 1_200);
        let octets = std::mem::take(&mut filed.out);
        let set = if turn % 9 == 0 { rng.below(300) as u32 } else { ALL_TOOLS };
        filed.read(&octets, set, samples.len() + rng.below(330), items.len() + rng.below(2));
        if octets.len() > 10 {
            let damaged = damage_somehow(&octets, &mut rng);
            filed.read(&damaged, ALL_TOOLS, 1_000, 2);
        }
        if filed.differences > 0 {
            return;
        }
    }
}

/// The comparison finds a back end that is wrong in one way: on the vectors, and on drawn files.
#[test]
fn a_wrong_back_end_is_found() {
    let kinds = all_kinds();
    let lines = script(include_str!("../vectors/file.txt")).unwrap();
    let (mut by_vectors, mut by_draws) = (0, 0);
    for fault in FAULTS {
        let wrong = Wrong(fault);
        let [mut vectors, mut draws] = [0, 1].map(|_| Filed::new(&wrong, &Second));
        for line in &lines {
            match line {
                Line::Read { octets, set, room, places, .. } => {
                    vectors.read(octets, *set, *room, *places);
                }
                Line::Write { samples, items, law, set, room, .. } => {
                    vectors.write(samples, items, *law, *set, *room);
                }
            }
            if vectors.differences > 0 {
                break;
            }
        }
        drawn_files(&mut draws, &kinds);
        by_vectors += usize::from(vectors.differences > 0);
        by_draws += usize::from(draws.differences > 0);
        assert!(vectors.differences + draws.differences > 0, "{fault:?} was not found");
    }
    let all = FAULTS.len();
    say(&format!(
        "compared: file, {all} wrong back ends: each one found, {by_vectors} by vectors, {by_draws} by drawn files\n"
    ));
}
