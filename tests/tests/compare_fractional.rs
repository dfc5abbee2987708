//! Fractional-bit frames, tool 11 (document 02, R-14): the proved code, through the static library, against the second program, and
//! against forms put together from 001's table 7-28. Every number of five samples at every place, every row, length and law.

use second::gen::{make_frame, sample_of, Kind, Miss, Prng};
use tests::digits::{row_of, rows, some_numbers, Digits, TABLE, WAYS};
use tests::forms::{Field, Form, LENGTHS};
use tests::measure::numbers;
use tests::wrong::{Wrong, READING, WRITING};
use tests::{ending, in_tenth, odd_set, say, set_of, tenth, Ask, Codec, Pair, Proved, Read, Second, Table};
use tests::{ALL_TOOLS, LISTED_TOOLS};

/// Frames wanted in a cell.
const WANTED: usize = tenth(1_000);
/// Draws after which a cell that is still not full is taken to be one that can't be filled.
const MOST_DRAWS: usize = 400_000;

fn ask(given: Vec<u8>, law: u32) -> Ask {
    Ask { given, law, set: ALL_TOOLS, room: 320 }
}

fn refused(name: &str, tool: u32, bit: usize) -> Read {
    Read { ending: ending(name).unwrap(), tool, samples: 0, octets: 0, bits: 0, bit }
}

fn accepted(octets: usize, samples: usize) -> Read {
    Read { ending: 0, tool: 11, samples, octets, bits: 8 * octets, bit: 0 }
}

/// Reads on both, and holds the answer against the one that the frame was made for.
fn read_as(pair: &mut Pair, ask: &Ask, wanted: Read, samples: &[u8]) {
    let got = pair.read(ask);
    if got != wanted {
        pair.differ("made", ask, &format!("{got:?}, made for {wanted:?}"));
    } else if pair.output() != samples {
        pair.differ("made", ask, "the samples are not those it was made of");
    }
}

/// A row as a table names it.
fn cell(row: &Digits) -> String {
    row.name()
}

/// The names of rows of one kind.
fn names<'a>(of: impl Fn(&&'a Digits) -> bool) -> Vec<String> {
    TABLE.iter().filter(of).map(cell).collect()
}

/// The lengths that a row does not have stay empty.
fn keep_empty(table: &mut Table, of: impl Fn(&Digits) -> bool) {
    for row in TABLE.iter().filter(|row| of(row)) {
        LENGTHS.iter().filter(|n| row.first(**n).is_none()).for_each(|n| table.never(cell(row), n));
    }
}

/// A frame whose number at a place is this one, the others good; and octets after it.
fn with_number(row: &Digits, length: usize, place: usize, number: usize, rng: &mut Prng) -> (Vec<u8>, Vec<i32>) {
    let (mut bits, width) = (row.start(length).expect("a row of the length"), row.width().expect("five samples"));
    let mut values = Vec::new();
    for at in 0..length / 5 {
        // What stands behind a number that is refused may be anything.
        let other = if at > place && number >= row.numbers() { 1 << width } else { row.numbers() };
        let drawn = if at == place { number } else { rng.below(other) };
        bits.field(Field::Fives(at));
        bits.number(drawn, width);
        values.extend(row.five(drawn.min(row.numbers() - 1)));
    }
    (bits.octets(), values)
}

/// One number at one place under a law: whole, cut just behind it, and cut inside it or just before.
fn read_number(pair: &mut Pair, row: &Digits, length: usize, place: usize, number: usize, law: u32, rng: &mut Prng) {
    let (octets, values) = with_number(row, length, place, number, rng);
    let width = row.width().expect("five samples");
    let (start, end) = (8 + width * place, 8 + width * (place + 1));
    let good = number < row.numbers();
    let samples: Vec<u8> = values.iter().map(|value| sample_of(*value, law)).collect();
    let whole = match good {
        true => accepted(row.octets(length), length),
        false => refused("PLACE", 0, start),
    };
    let mut ask = ask(octets, law);
    read_as(pair, &ask, whole, if good { &samples } else { &[] });
    let needed = end.div_ceil(8);
    if needed < ask.given.len() || !good {
        ask.given.truncate(needed);
        let wanted = if good { refused("SHORT", 0, 8 * needed) } else { whole };
        // No octet has the end of a number and all of the next.
        read_as(pair, &ask, wanted, &[]);
    }
    ask.given.truncate(needed - 1);
    read_as(pair, &ask, refused("SHORT", 0, 8 * (needed - 1)), &[]);
}

/// Every V of 8, 12 and 13 bits, 256, 4,096 and 8,192 of them, at every place of a frame of every row and length, under both laws.
#[test]
fn every_number_at_every_place() {
    let (mut pair, mut rng) = (Pair::new(&Proved, &Second), Prng::new(141));
    let by_fives = |row: &Digits| row.width().is_some();
    let mut table = Table::new("tool 11, every number at every place", &names(|row| by_fives(row)), &LENGTHS, 1);
    keep_empty(&mut table, by_fives);
    let mut made = [0; 2];
    for length in LENGTHS {
        for row in rows(length).into_iter().filter(|row| by_fives(row)) {
            for place in 0..length / 5 {
                for number in 0..1 << row.width().unwrap() {
                    for law in [0, 1] {
                        if !in_tenth(number + place + 5 * law as usize) {
                            continue;
                        }
                        read_number(&mut pair, row, length, place, number, law, &mut rng);
                        table.add(cell(row), length);
                        made[usize::from(number >= row.numbers())] += 1;
                    }
                }
            }
        }
    }
    table.close();
    let [good, bad] = made;
    assert!(good + bad == tenth(503_808) || cfg!(feature = "tenth"), "{good} and {bad}");
    say(&format!("compared: tool 11, every number at every place: {good} taken, {bad} PLACE, {} calls\n", pair.calls));
    pair.close();
}

/// Every octet at every place of a frame whose samples have bits of their own: all are taken.
#[test]
fn every_octet_of_bits() {
    let (mut pair, mut rng) = (Pair::new(&Proved, &Second), Prng::new(142));
    let by_bits = |row: &Digits| row.width().is_none();
    let mut table = Table::new("tool 11, every octet of bits", &names(|row| by_bits(row)), &LENGTHS, 1);
    keep_empty(&mut table, by_bits);
    for length in LENGTHS {
        for row in rows(length).into_iter().filter(|row| by_bits(row)) {
            let (width, octets) = (row.base() / 2, row.octets(length));
            for place in 1..octets {
                for octet in (0..=255).filter(|octet| in_tenth(usize::from(*octet) + place)) {
                    let law = u32::from(rng.flip());
                    let mut given = rng.octets(octets);
                    (given[0], given[place]) = (row.first(length).unwrap(), octet);
                    let digit = |at: usize| {
                        let bit = 8 + at * width;
                        usize::from(given[bit / 8] >> (8 - width - bit % 8)) % row.base()
                    };
                    let samples: Vec<u8> = (0..length).map(|at| sample_of(row.values[digit(at)], law)).collect();
                    read_as(&mut pair, &ask(given, law), accepted(octets, length), &samples);
                    table.add(cell(row), length);
                }
            }
        }
    }
    table.close();
    say(&format!("compared: tool 11, every octet of bits: {} calls\n", pair.calls));
    pair.close();
}

/// A form read whole, with octets after it, in just room and in less, without its tool, and cut at every octet.
fn read_whole_and_cut(pair: &mut Pair, form: &Form, law: u32, rng: &mut Prng) {
    let octets = form.octets();
    let more = rng.below(4);
    let length = form.length();
    let good = Ask { given: [&octets[..], &rng.octets(more)].concat(), law, set: odd_set(rng) | 128, room: length };
    read_as(pair, &good, accepted(octets.len(), length), &form.samples);
    let less = Ask { room: rng.below(length), given: octets[..1 + rng.below(octets.len())].to_vec(), ..good.clone() };
    read_as(pair, &less, refused("ROOM", 0, 0), &[]);
    let lacks = Ask { set: rng.below(128) as u32, room: rng.below(400), ..less };
    read_as(pair, &lacks, refused("TOOL", 11, 0), &[]);
    let cut = 1 + rng.below(octets.len() - 1);
    read_as(pair, &Ask { given: octets[..cut].to_vec(), ..good }, refused("SHORT", 0, 8 * cut), &[]);
}

/// Every row, length and law, with samples as a writer has them and as none has: without the row's least, its greatest or -1, and of
/// one value.
#[test]
fn every_row_and_length() {
    let (mut pair, mut rng) = (Pair::new(&Proved, &Second), Prng::new(143));
    let mut all = Vec::new();
    for row in &TABLE {
        all.extend(WAYS.map(|way| (row, way, format!("{}, {way}", row.name()))));
    }
    let names: Vec<&String> = all.iter().map(|(.., name)| name).collect();
    let mut table = Table::new("tool 11 read, by row, what comes, and length", &names, &LENGTHS, WANTED);
    for (row, way, name) in &all {
        for length in LENGTHS {
            let never = row.first(length).is_none() || some_numbers(row, way, length, &mut rng).is_none();
            if never {
                table.never(name, length);
                continue;
            }
            for turn in 0..WANTED {
                let law = turn as u32 % 2;
                let values = some_numbers(row, way, length, &mut rng).expect("the row has such frames");
                let made = row_of(&values) == Some(*row);
                if made != (*way == "as written") {
                    let said = format!("{way}: row {:?}", row_of(&values));
                    pair.differ("made", &ask(vec![], law), &said);
                }
                let form = row.form(&values, law).expect("the length has the row");
                read_whole_and_cut(&mut pair, &form, law, &mut rng);
                table.add(name, length);
            }
        }
    }
    table.close();
    say(&format!("compared: tool 11 read, every row and length: {} calls\n", pair.calls));
    pair.close();
}

/// Every row's frame cut at every octet, under both laws: SHORT at the cut, with every set from 128 on.
#[test]
fn every_cut() {
    let (mut pair, mut rng) = (Pair::new(&Proved, &Second), Prng::new(144));
    for length in LENGTHS {
        for row in rows(length) {
            for law in [0, 1] {
                let values = some_numbers(row, WAYS[0], length, &mut rng).expect("every row is written");
                let form = row.form(&values, law).expect("the length has the row");
                let octets = form.octets();
                for cut in 1..octets.len() {
                    for set in (128..=ALL_TOOLS).filter(|set| in_tenth(*set as usize + cut)) {
                        let given = octets[..cut].to_vec();
                        read_as(&mut pair, &Ask { set, ..ask(given, law) }, refused("SHORT", 0, 8 * cut), &[]);
                    }
                }
            }
        }
    }
    say(&format!("compared: tool 11 read, cut at every octet: {} calls\n", pair.calls));
    pair.close();
}

/// The first octets 02 to 1F with every set, alone and before anything: TOOL 11 with those up to 127, ROOM without room for the
/// length's samples with the others, SET from 256 on.
#[test]
fn every_set_and_first_octet() {
    let (mut pair, mut rng) = (Pair::new(&Proved, &Second), Prng::new(145));
    let mut endings = [0; 3];
    for length in LENGTHS {
        for row in rows(length) {
            let first = row.first(length).expect("the length has the row");
            for set in (0..300).chain([383, 511, 0x8000_00FF, u32::MAX]) {
                for _ in 0..tenth(10) {
                    let more = rng.below(90);
                    let given = [&[first][..], &rng.octets(more)].concat();
                    let wanted = match set {
                        0..=LISTED_TOOLS => refused("TOOL", 11, 0),
                        0..=ALL_TOOLS => refused("ROOM", 0, 0),
                        _ => refused("SET", 0, 0),
                    };
                    endings[[3, 4, 11].iter().position(|known| *known == wanted.ending).unwrap()] += 1;
                    let asked = Ask { given, law: rng.below(2) as u32, set, room: rng.below(length) };
                    read_as(&mut pair, &asked, wanted, &[]);
                }
            }
        }
    }
    let [tool, room, set] = endings;
    say(&format!("compared: tool 11 read, every set: TOOL {tool}, ROOM {room}, SET {set}\n"));
    pair.close();
}

/// Writes a frame with tools 1 and 11: the form is the one put together here, or the frame has no row and stays as it is.
#[cfg(feature = "writer")]
fn written_as(pair: &mut Pair, values: &[i32], law: u32) -> Option<&'static Digits> {
    let samples: Vec<u8> = values.iter().map(|value| sample_of(*value, law)).collect();
    let (row, length) = (row_of(values), samples.len());
    let form = row.map_or([vec![first_of_plain(length)], samples.clone()].concat(), |row| {
        row.form(values, law).expect("the length has the row").octets()
    });
    let asked = Ask { given: samples, law, set: 1 | set_of(11), room: 321 };
    let wrote = pair.write(&asked);
    let tool = if row.is_some() { 11 } else { 1 };
    if (wrote.ending, wrote.tool, wrote.octets, wrote.bits) != (0, tool, form.len(), 8 * form.len())
        || pair.output() != form
    {
        pair.differ("made", &asked, &format!("{wrote:?}, made for tool {tool} in {} octets", form.len()));
    }
    row
}

fn first_of_plain(length: usize) -> u8 {
    match length {
        40 => 0x40,
        80 => 0x80,
        160 => 0xC0,
        240 => 0x20,
        _ => 0x30,
    }
}

/// Every row written at every length and law, with the rarest frames among them: each least, greatest and -1 once alone.
#[cfg(feature = "writer")]
#[test]
fn every_row_written() {
    let (mut pair, mut rng) = (Pair::new(&Proved, &Second), Prng::new(146));
    let all: Vec<String> = TABLE.iter().map(cell).chain(["no row".into()]).collect();
    let columns: Vec<String> = LENGTHS.iter().flat_map(|n| [format!("{n} A"), format!("{n} mu")]).collect();
    let mut table = Table::new("written with tools 1 and 11, by row, length and law", &all, &columns, WANTED);
    let column = |length: usize, law: u32| format!("{length} {}", ["A", "mu"][law as usize]);
    for length in LENGTHS {
        for law in [0, 1] {
            for row in TABLE.iter().filter(|row| row.first(length).is_none()) {
                table.never(cell(row), column(length, law));
            }
            for row in &TABLE {
                for _ in 0..WANTED {
                    // A row that this length does not have is written as it is, or in the row that its least and greatest have.
                    let values = some_numbers(row, WAYS[0], length, &mut rng).expect("every row is written");
                    let found = written_as(&mut pair, &values, law);
                    table.add(found.map_or("no row".into(), cell), column(length, law));
                }
            }
            for _ in 0..WANTED {
                let miss = *rng.pick(&[Miss::NoDigits, Miss::DigitsAndOneMore, Miss::NoZero, Miss::AlmostConstant]);
                let samples = make_frame(Kind::NearMiss(miss), length, law, &mut rng);
                let found = written_as(&mut pair, &numbers(&samples, law), law);
                table.add(found.map_or("no row".into(), cell), column(length, law));
            }
        }
    }
    // Of 40 samples every row is one, so frames of no row are near misses alone.
    table.needs("no row", "40 A", tenth(200));
    table.needs("no row", "40 mu", tenth(200));
    table.close();
    say(&format!("compared: tool 11 written, every row: {} calls\n", pair.calls));
    pair.close();
}

/// One value of a row, and one or two others once, at every place: what the writer sees is the least, the greatest and -1 alone.
#[cfg(feature = "writer")]
#[test]
fn every_place_of_a_rare_value() {
    let (mut pair, mut rng) = (Pair::new(&Proved, &Second), Prng::new(147));
    let mut found = [0; 2];
    for length in LENGTHS {
        for common in [0, 1, -1, -2] {
            for rare in -5..=3 {
                for place in (0..length).filter(|place| in_tenth(*place)) {
                    let mut values = vec![common; length];
                    values[place] = rare;
                    if rng.flip() {
                        values[rng.below(length)] = *rng.pick(&[-4, -3, -2, -1, 0, 1, 2]);
                    }
                    let row = written_as(&mut pair, &values, rng.below(2) as u32);
                    found[usize::from(row.is_some())] += 1;
                }
            }
        }
    }
    let [none, some] = found;
    assert!(none.min(some) >= WANTED, "{found:?}");
    say(&format!("compared: tool 11 written, a rare value at every place: {some} rows, {none} of none\n"));
    pair.close();
}

/// Draws until two back ends differ.
fn found_out(one: &dyn Codec, writes: bool) -> bool {
    let (mut pair, mut rng) = (Pair::new(one, &Second), Prng::new(148));
    for turn in 0..MOST_DRAWS {
        let (length, law) = (LENGTHS[turn % 5], turn as u32 / 5 % 2);
        let set = *rng.pick(&[ALL_TOOLS, LISTED_TOOLS, 128, 129, 191, 193]);
        if writes {
            let row = rng.below(12);
            let one_in = *rng.pick(&[1, 3, 4, 40]);
            let kind = if rng.chance(1, 8) { Kind::NearMiss(Miss::NoDigits) } else { Kind::Digits { row, one_in } };
            let given = make_frame(kind, length, law, &mut rng);
            pair.write(&Ask { given, law, set, room: 321 });
        } else {
            let row = *rng.pick(&rows(length));
            let place = rng.below(length / 5);
            let mut given = match row.width() {
                Some(width) => with_number(row, length, place, rng.below(1 << width), &mut rng).0,
                None => [&[row.first(length).unwrap()][..], &rng.octets(row.octets(length) - 1)].concat(),
            };
            if rng.chance(1, 4) {
                given.truncate(1 + rng.below(given.len()));
            }
            let room = if rng.chance(1, 8) { rng.below(length) } else { 320 };
            pair.read(&Ask { given, law, set, room });
        }
        if pair.differences > 0 {
            return true;
        }
    }
    false
}

/// Back ends that are wrong about tool 11 in one way each are found; the same with no fault is not.
#[test]
fn a_wrong_back_end_is_found() {
    for way in READING {
        assert!(found_out(&Wrong(way), false), "a back end that {way} was not found");
    }
    for way in WRITING {
        assert!(found_out(&Wrong(way), true), "a back end that {way} was not found");
    }
    let right = Wrong("is as it should be");
    let mut pair = Pair::new(&right, &Second);
    for first in 0x00..=0x20 {
        for next in [0x00, 0x79, 0xF2, 0xF3, 0xFF] {
            pair.read(&ask([&[first][..], &[next; 80]].concat(), 1));
        }
    }
    pair.close();
    say(&format!("compared: tool 11, {} wrong back ends: each one found\n", READING.len() + WRITING.len()));
}
