//! Writing one frame: the proved code, through the static library, against the second program. Every written frame is
//! read back by both, with the same set, and must be the samples again.

#![cfg(feature = "writer")]

use second::gen::{all_kinds, make_frame, Kind, Miss, Often, Pattern, Prng, DIGIT_ROWS};
use tests::forms::LENGTHS;
use tests::frames::{even_frame, few_frame, located_frame, near_tie_frame, scattered, SINGLE};
use tests::met::Met;
use tests::{
    ending, in_tenth, odd_set, say, share, Ask, Pair, Proved, Read, Second, Table, Write, ALL_TOOLS, LISTED_TOOLS,
    TOOLS,
};

/// Written frames wanted in a cell.
const WRITTEN: usize = share(1_000);
/// The greatest form.
const MOST: usize = 321;
/// Numbers that are no set of a writer.
const NO_SETS: [u32; 10] = [0, 2, 126, 128, 254, 256, 257, 0x8000_0001, 0x8000_0000, u32::MAX];
const NO_LAWS: [u32; 5] = [2, 3, 256, 0x8000_0000, u32::MAX];
/// Rounds of drawn frames after which a cell that is still not full is taken to be one that can't be filled.
const MOST_ROUNDS: usize = 1_000_000;

fn refused(name: &str) -> Write {
    Write { ending: ending(name).unwrap(), tool: 0, octets: 0, bits: 0 }
}

fn write_as(pair: &mut Pair, ask: &Ask, wanted: Write) {
    let got = pair.write(ask);
    if got != wanted {
        pair.differ("made", ask, &format!("{got:?}, made for {wanted:?}"));
    }
}

/// Writes a frame in most room, in just room and in less, reads it back, and gives the form.
fn write_and_read_back(pair: &mut Pair, frame: &[u8], law: u32, set: u32) -> (Write, Vec<u8>) {
    let ask = Ask { given: frame.to_vec(), law, set, room: MOST };
    let wrote = pair.write(&ask);
    let form = pair.output().to_vec();
    if wrote.ending != 0 || form.len() > frame.len() + 1 {
        pair.differ("write", &ask, &format!("{wrote:?}"));
    }
    write_as(pair, &Ask { room: wrote.octets, ..ask.clone() }, wrote);
    write_as(pair, &Ask { room: wrote.octets.saturating_sub(1), ..ask.clone() }, refused("ROOM"));
    let back = Ask { given: form.clone(), law, set, room: frame.len() };
    let read = pair.read(&back);
    let Write { tool, octets, bits, .. } = wrote;
    let wanted = Read { ending: 0, tool, samples: frame.len(), octets, bits, bit: 0 };
    if read != wanted || pair.output() != frame {
        pair.differ("read back", &back, &format!("{read:?}, wanted {wanted:?}"));
    }
    (wrote, form)
}

/// A row of the table of kinds.
fn kind_name(kind: Kind) -> String {
    match kind {
        Kind::TwoZeros(_) => "TwoZeros".into(),
        Kind::Range { case, .. } => format!("Range case {case}"),
        Kind::Digits { row, .. } => format!("Digits {:?}", DIGIT_ROWS[row]),
        Kind::NearMiss(miss) => format!("{miss:?}"),
        other => format!("{other:?}"),
    }
}

/// Every kind of frame at every length and law, with every tool and with another set in turn.
#[test]
fn every_kind_of_frame() {
    let mut pair = Pair::new(&Proved, &Second);
    let mut rng = Prng::new(11);
    let kinds = all_kinds();
    let mut names: Vec<String> = kinds.iter().copied().map(kind_name).collect();
    names.dedup();
    let columns: Vec<String> =
        LENGTHS.iter().flat_map(|length| [format!("{length} A"), format!("{length} mu")]).collect();
    let mut table = Table::new("frames written, by kind, length and law", &names, &columns, 3);
    for (turn, kind) in kinds.iter().enumerate() {
        // Of a tenth, too, no row may be empty.
        let first = turn == 0 || kind_name(kinds[turn - 1]) != kind_name(*kind);
        if !first && !in_tenth(turn) {
            continue;
        }
        for length in LENGTHS {
            for law in [0, 1] {
                let frame = make_frame(*kind, length, law, &mut rng);
                let other = 2 * ((turn * 7 + length) as u32 % 128) + 1;
                for set in [ALL_TOOLS, LISTED_TOOLS, other] {
                    write_and_read_back(&mut pair, &frame, law, set);
                    table.add(kind_name(*kind), format!("{length} {}", ["A", "mu"][law as usize]));
                }
            }
        }
    }
    table.close();
    say(&format!("compared: write, every kind of frame: {} calls\n", pair.calls));
    pair.close();
}

/// All 128 odd sets, with frames that each tool is for.
#[test]
fn every_odd_set() {
    let mut pair = Pair::new(&Proved, &Second);
    let mut rng = Prng::new(12);
    let few = Often::Times(3);
    let many = Often::OneIn(5);
    let mut kinds = vec![Kind::RandomOctets, Kind::Constant, Kind::AllPlus, Kind::AllMinus];
    kinds.extend([Pattern::Half, Pattern::Exactly(2), Pattern::Every(2), Pattern::AllButLast].map(Kind::TwoZeros));
    for case in 0..4 {
        kinds.push(Kind::Range { case, ones: few, minus_ones: few, minus_twos: few });
        kinds.push(Kind::Range { case, ones: many, minus_ones: many, minus_twos: many });
    }
    kinds.extend([Miss::ZeroAsCommon, Miss::DigitsAndOneMore].map(Kind::NearMiss));
    kinds.extend([0, 1, 3, 5, 7, 11].map(|row| Kind::Digits { row, one_in: 1 }));
    let mut table = Table::new("frames written, by tool and length, over all odd sets", &TOOLS, &LENGTHS, WRITTEN);
    table.never(7, 40);
    for kind in kinds {
        for length in LENGTHS {
            for law in [0, 1] {
                for _ in 0..share(16) {
                    let frame = make_frame(kind, length, law, &mut rng);
                    for set in (1..=ALL_TOOLS).step_by(2) {
                        let (wrote, _) = write_and_read_back(&mut pair, &frame, law, set);
                        table.add(wrote.tool, length);
                    }
                }
            }
        }
    }
    table.close();
    pair.close();
}

/// Drawn frames until every S, method, tie, ending and number of occurrences has been written often enough.
#[test]
fn every_s_method_and_tie() {
    let mut pair = Pair::new(&Proved, &Second);
    let mut rng = Prng::new(13);
    let kinds = all_kinds();
    let mut met = Met::new();
    for turn in 0..MOST_ROUNDS {
        if turn % share(10_000) == 0 && met.is_full() {
            break;
        }
        let (length, law) = (LENGTHS[turn % 5], turn as u32 / 5 % 2);
        let frame = match turn / 10 % 11 {
            0 => make_frame(*rng.pick(&kinds), length, law, &mut rng),
            1 => make_frame(Kind::TwoZeros(*rng.pick(Pattern::ALL)), length, law, &mut rng),
            2 => make_frame(Kind::TwoZeros(scattered(&mut rng)), length, law, &mut rng),
            3 => make_frame(*rng.pick(&SINGLE), length, law, &mut rng),
            4 | 5 => few_frame(length, law, &mut rng),
            6 => even_frame(length, law, &mut rng),
            7 => near_tie_frame(length, law, &mut rng),
            _ => located_frame(length, law, &mut rng),
        };
        let any = odd_set(&mut rng);
        let set = *rng.pick(&[ALL_TOOLS, LISTED_TOOLS, 33 | 64, 1 | 8 | 32 | 64, 1 | 16 | 32 | 64, any]);
        let (wrote, form) = write_and_read_back(&mut pair, &frame, law, set);
        met.note(wrote, &form, &frame, law, set);
    }
    say(&met.all().map(|table| table.text()).concat());
    let faults: Vec<String> = met.all().iter().flat_map(|table| table.faults()).collect();
    assert!(faults.is_empty(), "{}", faults.join("\n"));
    pair.close();
}

/// Every length from 0 to 700 and some far greater ones, with laws and sets out of range: LAW, SET, LENGTH, ROOM.
#[test]
fn refused_in_order() {
    let mut pair = Pair::new(&Proved, &Second);
    let mut rng = Prng::new(14);
    let rows = ["LAW", "SET", "LENGTH", "ROOM"];
    let mut table = Table::new("writing refused", &rows, &["calls"], WRITTEN);
    let lengths: Vec<usize> = (0..=700).chain([4_000, 65_535, 65_536, 65_576, 65_536 * 2 + 320]).collect();
    for length in lengths {
        let frame = if rng.flip() { rng.octets(length) } else { vec![0xFF; length] };
        let good = Ask { given: frame, law: rng.below(2) as u32, set: odd_set(&mut rng), room: MOST };
        let mut check = |row: &str, ask: Ask| {
            write_as(&mut pair, &ask, refused(row));
            table.add(row, "calls");
        };
        for law in NO_LAWS {
            check("LAW", Ask { law, set: *rng.pick(&NO_SETS), ..good.clone() });
        }
        for set in NO_SETS {
            check("SET", Ask { set, room: rng.below(MOST), ..good.clone() });
        }
        let is_length = length == 0 || LENGTHS.contains(&length);
        if is_length {
            (0..WRITTEN / 5).for_each(|_| check("ROOM", Ask { room: 0, ..good.clone() }));
        } else {
            check("LENGTH", Ask { room: rng.below(MOST), ..good.clone() });
            check("LENGTH", good.clone());
        }
    }
    table.close();
    pair.close();
}

/// Every room from 0 to 330 octets, with a form of each tool and with a frame of no samples.
#[test]
fn every_room() {
    let mut pair = Pair::new(&Proved, &Second);
    let mut rng = Prng::new(15);
    let few = Often::Times(3);
    let range = Kind::Range { case: 1, ones: few, minus_ones: few, minus_twos: few };
    let half = Kind::TwoZeros(Pattern::Half);
    let one = Kind::TwoZeros(Pattern::Exactly(1));
    let digits = Kind::Digits { row: 3, one_in: 1 };
    for kind in [Kind::RandomOctets, Kind::AllPlus, Kind::AllMinus, Kind::Constant, half, one, range, digits] {
        for length in [0].into_iter().chain(LENGTHS) {
            let frame = if length == 0 { vec![] } else { make_frame(kind, length, 1, &mut rng) };
            let ask = Ask { given: frame, law: 1, set: ALL_TOOLS, room: 330 };
            let wrote = pair.write(&ask);
            for room in 0..330 {
                let wanted = if room < wrote.octets { refused("ROOM") } else { wrote };
                write_as(&mut pair, &Ask { room, ..ask.clone() }, wanted);
            }
        }
    }
    say(&format!("compared: write, every room with every tool and length: {} calls\n", pair.calls));
    pair.close();
}
