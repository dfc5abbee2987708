//! Reading one frame: the proved code, through the static library, against the second program. Reports, output and
//! margins must be equal; where a frame was made to be accepted or refused, the answer must be that one too.

use second::gen::{damage_somehow, Prng};
use std::collections::BTreeMap;
use tests::faults::{self, short_place, short_places, Fault};
use tests::forms::{any_form, some_form, Form, LENGTHS};
use tests::{ending, say, set_of, share, tenths, Ask, Pair, Proved, Read, Second, Table, ALL_TOOLS, ENDINGS, TOOLS};

/// Numbers that are neither a law nor a set.
const OUT_OF_RANGE: [u32; 8] = [256, 257, 383, 511, 0x7FFF_FFFF, 0x8000_0000, 0x8000_0001, u32::MAX];
/// Accepted frames wanted of each tool and length.
const ACCEPTED: usize = share(10_000);
/// Refused frames wanted of each place that refuses.
const REFUSED: usize = share(1_000);
/// Turns after which a cell that is still not full is taken to be one that can't be filled.
const MOST_TURNS: usize = 1_000;

fn pair() -> Pair<'static> {
    Pair::new(&Proved, &Second)
}

fn ask(given: Vec<u8>) -> Ask {
    Ask { given, law: 1, set: ALL_TOOLS, room: 320 }
}

fn refused(name: &str, tool: u32) -> Read {
    refused_at(name, tool, 0)
}

fn refused_at(name: &str, tool: u32, bit: usize) -> Read {
    Read { ending: ending(name).unwrap(), tool, samples: 0, octets: 0, bits: 0, bit }
}

/// SHORT gives the first missing bit.
fn short(octets: &[u8]) -> Read {
    refused_at("SHORT", 0, 8 * octets.len())
}

/// Reads on both, and holds the answer against the one the frame was made for.
fn read_as(pair: &mut Pair, ask: &Ask, wanted: Read, samples: &[u8]) {
    let got = pair.read(ask);
    if got != wanted {
        pair.differ("made", ask, &format!("{got:?}, made for {wanted:?}"));
    } else if pair.output() != samples {
        pair.differ("made", ask, "the samples are not those it was made of");
    }
}

fn accepted(form: &Form) -> Read {
    let bits = form.bits.len();
    Read { ending: 0, tool: form.tool, samples: form.length(), octets: bits.div_ceil(8), bits, bit: 0 }
}

/// The endings of many calls, as one line.
fn close(what: &str, pair: &Pair, endings: &[usize; 14]) {
    let counts: Vec<String> =
        (0..14).filter(|n| endings[*n] > 0).map(|n| format!("{} {}", ENDINGS[n], endings[n])).collect();
    say(&format!("compared: {what}: {} calls ({})\n", pair.calls, counts.join(", ")));
    pair.close();
}

#[test]
fn all_inputs_of_up_to_two_octets() {
    let mut pair = pair();
    let mut endings = [0; 14];
    let mut inputs = vec![vec![]];
    inputs.extend((0..=255).map(|one| vec![one]));
    inputs.extend((0..=0xFFFFu16).map(|two| two.to_be_bytes().to_vec()));
    assert_eq!(inputs.len(), 65_793);
    for given in tenths(inputs) {
        for law in [0, 1, 2] {
            for (set, room) in [
                (255, 320),
                (127, 320),
                (255, 0),
                (255, 160),
                (0, 320),
                (0x55, 320),
                (0xAA, 239),
                (128, 320),
                (256, 320),
            ] {
                let got = pair.read(&Ask { given: given.clone(), law, set, room });
                endings[got.ending as usize] += 1;
            }
        }
    }
    close("read, all inputs of 0 to 2 octets", &pair, &endings);
}

/// 50 to 5F, 90 to 9F, D0 to DF, 28 to 2B and 38 to 3B begin tool 6 (or 8), 25, 35, 86 and C6 tool 7.
#[test]
fn all_three_octets_that_begin_tools_6_and_7() {
    let mut pair = pair();
    let mut endings = [0; 14];
    let rice = (0x50..=0x5F).chain(0x90..=0x9F).chain(0xD0..=0xDF).chain(0x28..=0x2B).chain(0x38..=0x3B);
    for first in rice.chain([0x25, 0x35, 0x86, 0xC6]) {
        let mut ask = ask(vec![first, 0, 0]);
        for rest in tenths(0..=0xFFFFu16) {
            ask.given[1..].copy_from_slice(&rest.to_be_bytes());
            ask.law = u32::from(rest.count_ones() % 2);
            let got = pair.read(&ask);
            endings[got.ending as usize] += 1;
        }
    }
    assert_eq!(pair.calls, 60 * tenths(0..65_536).count());
    close("read, all inputs of 3 octets that begin tools 6 and 7", &pair, &endings);
}

/// Forms of every tool and length, most of them such as no writer makes, alone and with octets after them, with every
/// set that has the tool and in rooms around N.
#[test]
fn accepted_frames() {
    let mut pair = pair();
    let mut rng = Prng::new(1);
    let mut table = Table::new("frames read, by tool and length", &TOOLS, &LENGTHS, ACCEPTED);
    table.never(7, 40);
    for tool in TOOLS {
        for length in LENGTHS {
            for turn in 0..ACCEPTED {
                let law = turn as u32 % 2;
                let Some(form) = any_form(tool, length, law, &mut rng) else { break };
                let set = turn as u32 / 2 % 256 | set_of(tool);
                let room = *rng.pick(&[length, length, length + 1, length + 40, 320.max(length), 700]);
                let mut given = form.octets();
                if turn % 3 > 0 {
                    let more = rng.below(9);
                    given.extend(rng.octets(more));
                }
                read_as(&mut pair, &Ask { given, law, set, room }, accepted(&form), &form.samples);
                table.add(tool, length);
            }
        }
    }
    table.close();
    pair.close();
}

/// Each refusal of a body at each place that raises it; cut before that place it is SHORT.
#[test]
fn refused_in_the_body() {
    let mut pair = pair();
    let mut rng = Prng::new(2);
    let name = |fault: Fault| format!("{} {}", fault.refusal(), fault.place());
    let names: Vec<String> = faults::all().into_iter().map(name).collect();
    let mut table = Table::new("refused in the body, by place and length", &names, &LENGTHS, REFUSED);
    for fault in faults::all() {
        for length in LENGTHS {
            if !fault.possible(length) {
                table.never(name(fault), length);
                continue;
            }
            while table.count(name(fault), length) < REFUSED {
                let Some(made) = fault.make(length, &mut rng) else { continue };
                let mut ask = ask(made.octets.clone());
                ask.law = rng.below(2) as u32;
                read_as(&mut pair, &ask, refused_at(made.refusal, 0, made.bit), &[]);
                table.add(name(fault), length);
                ask.given.truncate(made.needed());
                read_as(&mut pair, &ask, refused_at(made.refusal, 0, made.bit), &[]);
                ask.given.truncate(made.needed() - 1);
                read_as(&mut pair, &ask, short(&ask.given), &[]);
            }
        }
    }
    table.close();
    say(&format!(
        "compared: read, refused in the body, whole, cut behind the fault and before it: {} calls\n",
        pair.calls
    ));
    pair.close();
}

/// Good forms cut in every field.
#[test]
fn cut_in_every_field() {
    let mut pair = pair();
    let mut rng = Prng::new(3);
    let places = short_places();
    let names: Vec<String> = places.iter().map(|(place, _)| place.clone()).collect();
    let mut table = Table::new("SHORT, by place and length", &names, &LENGTHS, REFUSED);
    for (place, lengths) in &places {
        LENGTHS.iter().filter(|length| !lengths.contains(length)).for_each(|length| table.never(place, length));
    }
    for _ in 0..MOST_TURNS {
        if table.faults().is_empty() {
            break;
        }
        for (tool, times) in [(1, 5), (4, 5), (5, 5), (6, 20), (7, 200), (11, 20)] {
            for length in LENGTHS {
                for _ in 0..times {
                    let law = rng.below(2) as u32;
                    let Some(form) = any_form(tool, length, law, &mut rng) else { break };
                    cut_everywhere(&mut pair, &form, law, &mut table, &mut rng);
                }
            }
        }
    }
    table.close();
    pair.close();
}

/// Cuts a form once in each place where it can be cut. The octet that decides the tool stays.
fn cut_everywhere(pair: &mut Pair, form: &Form, law: u32, table: &mut Table, rng: &mut Prng) {
    let octets = form.octets();
    let decided = if matches!(octets[0], 0x28 | 0x2A | 0x38 | 0x3A) { 2 } else { 1 };
    let mut cuts: BTreeMap<String, Vec<usize>> = BTreeMap::new();
    for cut in decided..octets.len() {
        cuts.entry(short_place(form.tool, form.bits.field_at(8 * cut))).or_default().push(cut);
    }
    for (place, cuts) in cuts {
        let given = octets[..*rng.pick(&cuts)].to_vec();
        let wanted = short(&given);
        read_as(pair, &Ask { law, ..ask(given) }, wanted, &[]);
        table.add(place, form.length());
    }
}

/// What is refused before a body is looked at, with anything behind it.
#[test]
fn refused_before_the_body() {
    let mut pair = pair();
    let mut rng = Prng::new(4);
    let mut rows: Vec<String> = ["LAW", "SET", "SHORT no octets", "SHORT second octet"].map(String::from).to_vec();
    let unassigned: Vec<u8> = [0x01, 0x46, 0x47, 0x85, 0x87, 0xC5, 0xC7].into_iter().chain(0x88..=0x8F).collect();
    rows.extend(unassigned.iter().map(|octet| format!("PREFIX {octet:02X}")));
    rows.extend((1..=13).map(|tool| format!("TOOL {tool}")));
    rows.extend(TOOLS.map(|tool| format!("ROOM tool {tool}")));
    let mut table = Table::new("refused before the body", &rows, &["calls"], REFUSED);
    for turn in 0..REFUSED {
        let behind = rng.octets(turn % 7);
        let form = some_form(1, &mut rng);
        let mut good = ask([form.octets(), behind.clone()].concat());
        good.law = turn as u32 % 2;
        let set = turn as u32 % 256;

        let law = *rng.pick(&[2, 3, 4].into_iter().chain(OUT_OF_RANGE).collect::<Vec<_>>());
        let bad_set = *rng.pick(&OUT_OF_RANGE);
        let mut check = |row: &str, ask: Ask, wanted: Read| {
            read_as(&mut pair, &ask, wanted, &[]);
            table.add(row, "calls");
        };
        check("LAW", Ask { law, set: *rng.pick(&[set, bad_set]), ..good.clone() }, refused("LAW", 0));
        check("SET", Ask { set: bad_set, room: rng.below(400), ..good.clone() }, refused("SET", 0));
        check("SHORT no octets", Ask { given: vec![], set, room: rng.below(400), ..good.clone() }, refused("SHORT", 0));
        let undecided = vec![*rng.pick(&[0x28, 0x2A, 0x38, 0x3A])];
        let room = rng.below(400);
        check("SHORT second octet", Ask { given: undecided, set, room, ..good.clone() }, refused_at("SHORT", 0, 8));
        for octet in &unassigned {
            let given = [&[*octet], &behind[..]].concat();
            check(&format!("PREFIX {octet:02X}"), Ask { given, set, room, ..good.clone() }, refused("PREFIX", 0));
        }
    }
    for tool in 1..=13 {
        for turn in 0..REFUSED {
            let given = opening(tool, &mut rng);
            let set = turn as u32 % 256 & !set_of(tool);
            let ask = Ask { given, law: turn as u32 % 2, set, room: rng.below(400) };
            read_as(&mut pair, &ask, refused("TOOL", tool), &[]);
            table.add(format!("TOOL {tool}"), "calls");
        }
    }
    for tool in TOOLS {
        for turn in 0..REFUSED {
            let law = turn as u32 % 2;
            let length = if tool == 7 { LENGTHS[1 + turn % 4] } else { LENGTHS[turn % 5] };
            let form = any_form(tool, length, law, &mut rng).expect("the tool has this length");
            let room = *rng.pick(&[0, 1, form.length() / 2, form.length() - 2, form.length() - 1]);
            let mut given = form.octets();
            // ROOM stands before every check of a body: a cut or a fault in it changes nothing.
            let decided = 2.min(given.len());
            given.truncate(*rng.pick(&[decided, given.len()]));
            let set = set_of(tool) | rng.below(256) as u32;
            read_as(&mut pair, &Ask { given, law, set, room }, refused("ROOM", 0), &[]);
            table.add(format!("ROOM tool {tool}"), "calls");
        }
    }
    table.close();
    pair.close();
}

/// Octets that decide on a tool, and then anything.
fn opening(tool: u32, rng: &mut Prng) -> Vec<u8> {
    let (low, high) = (rng.below(4) as u8, rng.below(32) as u8);
    let long = *rng.pick(&[0x20, 0x30]);
    let first: Vec<u8> = match tool {
        8 => match rng.below(4) {
            0 => vec![long | 0x08 | rng.below(2) as u8 * 2, rng.octet() & 0x7F],
            _ => vec![*rng.pick(&[0x50, 0x58, 0x90, 0x98, 0xD0, 0xD8]) | rng.below(2) as u8],
        },
        9 => vec![*rng.pick(&[long | 0x0C | low, 0x60 | high, 0xA0 | high, 0xE0 | high])],
        10 => vec![*rng.pick(&[long | 0x06 | low & 1, 0xC8 | high & 7])],
        11 => vec![0x02 + rng.below(30) as u8],
        12 => vec![0x45],
        13 => vec![0x48 | high & 7],
        _ => loop {
            if let Some(form) = any_form(tool, *rng.pick(&LENGTHS), 1, rng) {
                break form.octets();
            }
        },
    };
    let more = rng.below(5);
    [first, rng.octets(more)].concat()
}

/// Every set from 0 to 255 with every tool, pads too; and every room from 0 to N + 40 with every tool and length.
#[test]
fn every_set_and_every_room() {
    let mut pair = pair();
    let mut rng = Prng::new(5);
    for tool in [0].into_iter().chain(TOOLS) {
        for length in LENGTHS {
            let Some(form) = any_form(tool, length, 1, &mut rng) else { continue };
            for set in 0..=258 {
                let wanted = match set {
                    256.. => refused("SET", 0),
                    _ if tool == 0 || set & set_of(tool) > 0 => accepted(&form),
                    _ => refused("TOOL", tool),
                };
                let samples = if wanted.ending == 0 { &form.samples[..] } else { &[] };
                read_as(&mut pair, &Ask { set, ..ask(form.octets()) }, wanted, samples);
            }
            for room in 0..length + 40 {
                let wanted = if room >= form.length() { accepted(&form) } else { refused("ROOM", 0) };
                let samples = if wanted.ending == 0 { &form.samples[..] } else { &[] };
                read_as(&mut pair, &Ask { room, ..ask(form.octets()) }, wanted, samples);
            }
        }
    }
    say(&format!("compared: read, every set and every room with every tool and length: {} calls\n", pair.calls));
    pair.close();
}

/// Octets of no known answer: forms with one thing changed, and octets drawn at random.
#[test]
fn damaged_and_random() {
    let mut pair = pair();
    let mut rng = Prng::new(6);
    let mut endings = [0; 14];
    for turn in 0..share(300_000) as u32 {
        let law = turn % 2;
        let given = match turn % 4 {
            0 => {
                let long = rng.below(60);
                rng.octets(long)
            }
            1 => {
                let long = rng.below(400);
                let mut octets = rng.octets(1 + long);
                octets[0] = *rng.pick(&[0x86, 0xC6, 0x25, 0x35, 0x56, 0x9A, 0xD6, 0x29, 0x05, 0x09, 0x0B, 0x1F]);
                octets
            }
            _ => damage_somehow(&some_form(law, &mut rng).octets(), &mut rng),
        };
        let got = pair.read(&Ask { given, law, set: ALL_TOOLS, room: *rng.pick(&[320, 320, 320, 240, 80]) });
        endings[got.ending as usize] += 1;
    }
    for name in ["ok", "SHORT", "PREFIX", "TOOL", "ROOM", "CASE", "METHOD", "RUN", "PLACE", "ALIGN"] {
        assert!(endings[ending(name).unwrap() as usize] >= REFUSED, "{name}: {endings:?}");
    }
    close("read, damaged and random octets", &pair, &endings);
}
