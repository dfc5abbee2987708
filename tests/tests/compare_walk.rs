//! Walking a stream: the proved code, through the static library, against the second program.

use second::gen::{damage_somehow, Prng};
use tests::faults;
use tests::forms::{pad, some_form, LENGTHS};
use tests::streams::{plain_frames, Stream, FIELDS};
use tests::{ending, say, share, tenth, tenths, Ask, Pair, Proved, Second, Table, Walk, ALL_TOOLS, ENDINGS, MOST};

/// The octets of the longest stream before document 02's R-11: to here every length is tried, and each table has streams.
const USUAL: usize = 65_535;
/// Streams wanted in a cell.
const WALKED: usize = share(1_000);
/// Streams wanted of those up to 65,535 octets, of pads alone, and of the longest, which are few, and none of a tenth.
const LONG: usize = share(20);
const LONGEST: usize = tenth(30) / 10;
/// Turns after which a cell that is still not full is taken to be one that can't be filled.
const MOST_TURNS: usize = 2_000;

fn ask(given: Vec<u8>, law: u32, room: usize) -> Ask {
    Ask { given, law, set: ALL_TOOLS, room }
}

/// Walks on both, and holds the answer against the one the stream was made for.
fn walk_as(pair: &mut Pair, ask: &Ask, wanted: Walk) {
    let got = pair.walk(ask);
    if got != wanted {
        pair.differ("made", ask, &format!("{got:?}, made for {wanted:?}"));
    }
}

/// One stream cut, or filled up with pads, to every length from 0 to 65,537.
#[test]
fn every_length() {
    let mut pair = Pair::new(&Proved, &Second);
    let stream = Stream::plain(USUAL, 1, &mut Prng::new(21));
    let mut whole = ask(stream.octets.clone(), 1, stream.samples() + 100);
    whole.given.resize(USUAL + 2, 0x00);
    let mut ends = 0;
    for length in tenths((0..=USUAL + 2).rev()) {
        whole.given.truncate(length);
        let got = pair.walk(&whole);
        ends += usize::from(got.ending == 0);
        if got.ending == ending("LONG").unwrap() || got.place > length {
            pair.differ("made", &whole, &format!("{got:?}"));
        }
    }
    let frames = stream.forms.len();
    assert_eq!(pair.calls, tenths(0..65_538).count());
    say(&format!(
        "compared: walk, every length of 0 to 65,537 octets, {frames} frames at most: {} calls, {ends} clean\n",
        pair.calls
    ));
    pair.close();
}

/// What a stream that is kept whole is told as.
fn kept(frames: usize, octets: usize, samples: usize) -> Walk {
    Walk { ending: 0, tool: 0, frames, octets, samples, place: octets, bit: 0 }
}

/// What is told of a stream that is refused before any frame.
fn refused(name: &str) -> Walk {
    Walk { ending: ending(name).unwrap(), tool: 0, frames: 0, octets: 0, samples: 0, place: 0, bit: 0 }
}

/// Streams of 1,048,576 octets and of some fewer, kept whole or refused at their last frame; of one octet more and of some: LONG.
#[test]
fn around_the_longest() {
    let mut pair = Pair::new(&Proved, &Second);
    let mut rng = Prng::new(28);
    let (mut good, mut ended, mut long) = (0, 0, 0);
    for law in tenths([1, 0]) {
        let mixed = Stream::mixed(60_000, law, &mut rng);
        let octets = [mixed.octets.clone(), plain_frames(3_000, &mut rng)].concat();
        let (frames, samples) = (mixed.forms.len() + 3_000, mixed.samples() + 320 * 3_000);
        for more in [-3, -1, 0, 1, 2, 64] {
            let length = (MOST as isize + more) as usize;
            // Frames, then pads; no room for the last frame; one that is not assigned; its first octet alone.
            let mut asked = ask(octets.clone(), law, samples);
            asked.given.resize(length, 0x00);
            let before = length - 1;
            let ends = kept(frames + before - octets.len(), before, samples);
            let stops = |name: &str, bit: usize| Walk { ending: ending(name).unwrap(), bit, ..ends };
            let all = kept(ends.frames + 1, length, samples);
            for (last, whole) in [(0x00, all), (0x40, stops("ROOM", 0)), (0x46, stops("PREFIX", 0))] {
                asked.given[before] = last;
                walk_as(&mut pair, &asked, if length > MOST { refused("LONG") } else { whole });
                *if length > MOST {
                    &mut long
                } else if whole.ending == 0 {
                    &mut good
                } else {
                    &mut ended
                } += 1;
            }
            asked.room += 320;
            asked.given[before] = 0x40;
            walk_as(&mut pair, &asked, if length > MOST { refused("LONG") } else { stops("SHORT", 8) });
            *if length > MOST { &mut long } else { &mut ended } += 1;
        }
    }
    // As many frames as there can be: pads, and 40 samples each.
    for (first, samples) in tenths([(0x00, 0), (0x42, 40)]) {
        let mut asked = ask(vec![first; MOST + 1], 1, MOST * samples);
        walk_as(&mut pair, &asked, refused("LONG"));
        asked.given.pop();
        walk_as(&mut pair, &asked, kept(MOST, MOST, MOST * samples));
        (good, long) = (good + 1, long + 1);
    }
    say(&format!(
        "compared: walk, around 1,048,576 octets: {good} kept whole, {ended} refused at the end, {long} LONG, {} calls\n",
        pair.calls
    ));
    pair.close();
}

/// Streams of every sort of frame, of pads, and of both, from short to the longest: all kept.
#[test]
fn accepted_streams() {
    let mut pair = Pair::new(&Proved, &Second);
    let mut rng = Prng::new(22);
    let columns = ["up to 100", "up to 2000", "up to 65535", "up to 1048576"];
    let mut table = Table::new("streams kept whole, by octets", &["mixed", "padded", "pads"], &columns, WALKED);
    columns.iter().for_each(|column| table.needs("pads", column, LONG));
    for row in ["mixed", "padded", "pads"] {
        table.needs(row, columns[2], LONG);
        // Pads alone stand in `around_the_longest`.
        let longest = if row == "pads" { 0 } else { LONGEST };
        table.needs(row, columns[3], longest);
        for (column, most, times) in [
            (columns[0], 100, WALKED),
            (columns[1], 2_000, WALKED),
            (columns[2], USUAL, LONG),
            (columns[3], MOST, longest),
        ] {
            for turn in 0..times {
                let law = turn as u32 % 2;
                let stream = Stream::of(most / 2 + rng.below(most / 2 + 1), || match row {
                    "mixed" => some_form(law, &mut rng),
                    "padded" if rng.flip() => some_form(law, &mut rng),
                    _ => pad(),
                });
                let (octets, frames) = (stream.octets.len(), stream.forms.len());
                let samples = stream.samples();
                walk_as(&mut pair, &ask(stream.octets, law, samples + rng.below(3)), kept(frames, octets, samples));
                if pair.output() != stream.forms.iter().flat_map(|form| form.samples.clone()).collect::<Vec<_>>() {
                    let said = ask(vec![], law, samples);
                    pair.differ("made", &said, "the samples are not those it was made of");
                }
                table.add(row, column);
            }
        }
    }
    table.close();
    pair.close();
}

/// A bit turned in every kind of place, of some frame of a stream; and what becomes of the rest.
#[test]
fn damaged_streams() {
    let mut pair = Pair::new(&Proved, &Second);
    let mut rng = Prng::new(23);
    let columns = ["kept whole", "refused"];
    let mut table = Table::new("streams with one bit turned, by place", &FIELDS, &columns, WALKED);
    // No bit of these can be refused: any value of theirs is a sample.
    ["samples", "constant", "binary", "digits"].iter().for_each(|field| table.never(field, "refused"));
    // A filling bit that is not 0 is always refused.
    table.never("filling", "kept whole");
    // After these most frames don't end where the next one starts.
    ["code of S", "zeros", "method", "count"].iter().for_each(|field| table.needs(field, "kept whole", share(10)));
    for _ in 0..MOST_TURNS {
        if table.faults().is_empty() {
            break;
        }
        for turn in 0..20 {
            let law = turn % 2;
            let most = 60 + rng.below(800);
            let stream = Stream::mixed(most, law, &mut rng);
            for field in FIELDS {
                for _ in 0..4 {
                    let Some(octets) = stream.turned(field, &mut rng) else { continue };
                    let got = pair.walk(&ask(octets, law, stream.samples() + 640));
                    table.add(field, columns[usize::from(got.ending != 0)]);
                }
            }
        }
    }
    table.close();
    pair.close();
}

/// Every refusal at a first frame and at a later one; the frames before it are kept.
#[test]
fn refused_streams() {
    let mut pair = Pair::new(&Proved, &Second);
    let mut rng = Prng::new(24);
    let columns = ["first frame", "later frame"];
    let mut table = Table::new("walks refused, by frame", &REFUSALS, &columns, WALKED);
    for turn in 0..20 * MOST_TURNS * REFUSALS.len() {
        if turn % 1_800 == 0 && table.faults().is_empty() {
            break;
        }
        let (law, name) = (turn as u32 % 2, REFUSALS[turn / 2 % REFUSALS.len()]);
        let most = if rng.flip() { 0 } else { 1 + rng.below(1_500) };
        let good = Stream::mixed(most, law, &mut rng);
        let Some((bad, bit)) = refused_octets(name, law, &mut rng) else { continue };
        let mut room = good.samples() + 700;
        if name == "ROOM" {
            room = good.samples() + rng.below(40);
        }
        let got = pair.walk(&ask([&good.octets[..], &bad].concat(), law, room));
        let kept = (got.frames, got.octets, got.place, got.samples, got.bit);
        let made = (good.forms.len(), good.octets.len(), good.octets.len(), good.samples(), bit);
        if got.ending != ending(name).unwrap() || kept != made {
            pair.differ("made", &ask(bad, law, room), &format!("{got:?}, made for {name} after {made:?}"));
        }
        table.add(name, columns[usize::from(got.frames > 0)]);
    }
    table.close();
    pair.close();
}

/// What refuses a frame of a walk.
const REFUSALS: [&str; 9] = ["SHORT", "PREFIX", "TOOL", "ROOM", "CASE", "METHOD", "RUN", "PLACE", "ALIGN"];

/// A frame with this refusal, to stand at a stream's end, and the bit that it gives, if the numbers drawn allow one.
fn refused_octets(name: &str, law: u32, rng: &mut Prng) -> Option<(Vec<u8>, usize)> {
    match name {
        "PREFIX" => Some((vec![*rng.pick(&[0x01, 0x46, 0x85, 0xC7, 0x8A]), rng.octet()], 0)),
        "TOOL" => Some((vec![*rng.pick(&[0x2C, 0x3F, 0x45, 0x48, 0x60, 0xC8, 0xFF, 0x50, 0x91]), rng.octet()], 0)),
        "SHORT" => {
            let mut octets = some_form(law, rng).octets();
            octets.pop();
            let bit = 8 * octets.len();
            (!octets.is_empty()).then_some((octets, bit))
        }
        "ROOM" => Some((vec![*rng.pick(&[0x41, 0x40, 0x86, 0x31, 0x56, 0x02, 0x1F]), 0x0F], 0)),
        _ => {
            let faults: Vec<_> = faults::all().into_iter().filter(|fault| fault.refusal() == name).collect();
            let (fault, length) = (*rng.pick(&faults), *rng.pick(&LENGTHS));
            let made = fault.possible(length).then(|| fault.make(length, rng)).flatten()?;
            Some((made.octets, made.bit))
        }
    }
}

/// Rooms that end at every octet of a stream's samples: the frames that fit are kept.
#[test]
fn every_room() {
    let mut pair = Pair::new(&Proved, &Second);
    let mut rng = Prng::new(25);
    let mut room_ends = 0;
    for turn in 0..tenth(12) as u32 {
        let law = turn % 2;
        let stream = Stream::mixed(900, law, &mut rng);
        for room in 0..stream.samples() + 3 {
            let got = pair.walk(&ask(stream.octets.clone(), law, room));
            room_ends += usize::from(got.ending == ending("ROOM").unwrap());
            let fits = got.samples <= room && (got.ending == 0) == (room >= stream.samples());
            if !fits {
                pair.differ("made", &ask(stream.octets.clone(), law, room), &format!("{got:?}"));
            }
        }
    }
    assert!(room_ends >= WALKED, "{room_ends} walks ended for room");
    say(&format!("compared: walk, every room: {} calls, {room_ends} ended for room\n", pair.calls));
    pair.close();
}

/// LAW, SET and LONG refuse before any frame, in that order; every set from 0 to 255 is taken.
#[test]
fn refused_before_any_frame() {
    let mut pair = Pair::new(&Proved, &Second);
    let mut rng = Prng::new(26);
    let mut table = Table::new("walks refused before any frame", &["LAW", "SET", "LONG"], &["calls"], WALKED);
    let mut long = ask(Stream::mixed(USUAL, 1, &mut rng).octets, 0, 40);
    for turn in 0..WALKED {
        let most = rng.below(600);
        let good = ask(Stream::mixed(most, 1, &mut rng).octets, 1, 3_000);
        long.given.resize(MOST + 1 + rng.below(3), 0x41);
        let asked = if turn % 8 == 0 { &mut long } else { &mut good.clone() };
        asked.set = *rng.pick(&[255, 256, u32::MAX]);
        asked.law = *rng.pick(&[2, 3, 0x8000_0000, u32::MAX]);
        walk_as(&mut pair, asked, refused("LAW"));
        table.add("LAW", "calls");
        (asked.law, asked.set) = (1, *rng.pick(&[256, 511, 0x8000_0000, u32::MAX]));
        walk_as(&mut pair, asked, refused("SET"));
        table.add("SET", "calls");
        (long.law, long.set) = (0, turn as u32 % 256);
        walk_as(&mut pair, &long, refused("LONG"));
        table.add("LONG", "calls");
        for law in [0, 1] {
            pair.walk(&Ask { set: turn as u32 % 256, law, ..good.clone() });
        }
    }
    table.close();
    pair.close();
}

/// Streams of no known answer: damaged in every way, and octets drawn at random.
#[test]
fn damaged_somehow_and_random() {
    let mut pair = Pair::new(&Proved, &Second);
    let mut rng = Prng::new(27);
    let mut endings = [0; 14];
    for turn in 0..share(40_000) as u32 {
        let law = turn % 2;
        let most = 1 + rng.below(if turn % 100 == 0 { 60_000 } else { 900 });
        let mut given = match turn % 5 {
            0 => rng.octets(most),
            _ => Stream::mixed(most, law, &mut rng).octets,
        };
        for _ in 0..1 + rng.below(3) {
            if !given.is_empty() {
                given = damage_somehow(&given, &mut rng);
            }
        }
        given.truncate(MOST);
        let room = *rng.pick(&[0, 300, 5_000, 5_000, 5_000]);
        let got = pair.walk(&ask(given, law, room));
        endings[got.ending as usize] += 1;
    }
    let counts: Vec<String> = (0..10).map(|n| format!("{} {}", ENDINGS[n], endings[n])).collect();
    say(&format!("compared: walk, damaged and random streams: {} calls ({})\n", pair.calls, counts.join(", ")));
    pair.close();
}
