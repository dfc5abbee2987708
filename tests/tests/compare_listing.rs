//! The listing program that rt built against the second program's listing, octet for octet.

use second::gen::{damage_somehow, Prng};
use tests::faults;
use tests::forms::LENGTHS;
use tests::streams::Stream;
use tests::{Codec, Proved, Second, Table};

/// Inputs of each drawn kind.
const DRAWN: usize = 60;

const ROWS: [&str; 13] = [
    "empty",
    "one letter",
    "wrong letter",
    "wrong letter, too long",
    "65,535 octets",
    "65,536 octets and more",
    "pads only",
    "each first octet",
    "each refusal",
    "whole streams",
    "cut streams",
    "damaged streams",
    "random octets",
];

/// What was listed, and every input that two texts differ on.
struct Listed {
    table: Table,
    faults: Vec<String>,
}

impl Listed {
    fn check(&mut self, row: &str, input: &[u8]) {
        self.table.add(row, "inputs");
        let (got, wanted) = (Proved.listing(input).unwrap(), Second.listing(input).unwrap());
        if got == wanted {
            return;
        }
        let start: String = input.iter().take(60).map(|octet| format!("{octet:02X}")).collect();
        let differ = (0..).zip(got.split(|o| *o == 10)).zip(wanted.split(|o| *o == 10)).find(|((_, a), b)| a != b);
        let line = differ.map(|((at, got), wanted)| {
            format!("line {at}: {}, wanted {}", String::from_utf8_lossy(got), String::from_utf8_lossy(wanted))
        });
        let line = line.unwrap_or(format!("{} octets of text, wanted {}", got.len(), wanted.len()));
        self.faults.push(format!("{row}: {} octets, {start}: {line}", input.len()));
    }
}

fn with_letter(letter: u8, stream: &[u8]) -> Vec<u8> {
    [&[letter], stream].concat()
}

#[test]
fn the_programs_agree() {
    let mut rng = Prng::new(31);
    let mut table = Table::new("inputs listed", &ROWS, &["inputs"], DRAWN);
    for (row, need) in [("empty", 1), ("one letter", 2), ("wrong letter, too long", 2), ("pads only", 6)] {
        table.needs(row, "inputs", need);
    }
    table.needs("65,535 octets", "inputs", 10);
    table.needs("65,536 octets and more", "inputs", 6);
    table.needs("each first octet", "inputs", 512);
    let mut listed = Listed { table, faults: Vec::new() };
    few(&mut listed);
    long(&mut listed, &mut rng);
    refusals(&mut listed, &mut rng);
    for turn in 0..DRAWN {
        let (letter, law) = (b"AM"[turn % 2], turn as u32 % 2);
        let whole = drawn(turn, law, &mut rng);
        listed.check("whole streams", &with_letter(letter, &whole));
        let cut = rng.below(whole.len() + 1);
        listed.check("cut streams", &with_letter(letter, &whole[..cut]));
        let mut damaged = damage_somehow(&whole, &mut rng);
        damaged.truncate(65_535);
        listed.check("damaged streams", &with_letter(letter, &damaged));
        let long = rng.below(2_000);
        listed.check("random octets", &with_letter(letter, &rng.octets(long)));
    }
    listed.table.close();
    assert!(listed.faults.is_empty(), "{} differences\n{}", listed.faults.len(), listed.faults.join("\n"));
}

/// A stream of one octet or more, so that it can be damaged; every tenth is long, and one in four has frames of tool 11, at which
/// the listing stops.
fn drawn(turn: usize, law: u32, rng: &mut Prng) -> Vec<u8> {
    loop {
        let most = if turn % 10 == 0 { 65_535 } else { 1 + rng.below(3_000) };
        let octets = if turn % 4 == 3 { Stream::mixed(most, law, rng) } else { Stream::listed(most, law, rng) }.octets;
        if !octets.is_empty() {
            return octets;
        }
    }
}

/// No octet, one, and every first octet of a stream.
fn few(listed: &mut Listed) {
    listed.check("empty", &[]);
    listed.check("one letter", b"A");
    listed.check("one letter", b"M");
    for letter in (0..=255).filter(|letter| !b"AM".contains(letter)) {
        listed.check("wrong letter", &[letter, 0x41]);
    }
    for octet in 0..=255 {
        listed.check("each first octet", &[b'A', octet]);
        listed.check("each first octet", &[b'M', octet, 0x0F, 0x00]);
    }
}

/// Streams as long as they may be, and longer.
fn long(listed: &mut Listed, rng: &mut Prng) {
    for count in [1, 9, 10, 11, 1_000, 65_535] {
        listed.check("pads only", &with_letter(b'M', &vec![0x00; count]));
    }
    for first in [0x00, 0x41, 0x31, 0x22, 0x01] {
        for letter in *b"AM" {
            listed.check("65,535 octets", &with_letter(letter, &vec![first; 65_535]));
            for more in [65_536, 65_537, 1_048_576, 1_048_577] {
                listed.check("65,536 octets and more", &with_letter(letter, &vec![first; more]));
            }
        }
    }
    listed.check("wrong letter, too long", &vec![b'a'; 65_537]);
    listed.check("wrong letter, too long", &vec![0x00; 65_600]);
    // A frame that ends with the last octet, and one that is cut there.
    let mut stream = Stream::listed(65_000, 1, rng).octets;
    stream.resize(65_533, 0x00);
    listed.check("65,535 octets", &with_letter(b'M', &[&stream[..], &[0x56, 0x0F]].concat()));
    listed.check("65,535 octets", &with_letter(b'M', &[&stream[..], &[0x41, 0x28]].concat()));
}

/// Every fault of a body, after some good frames; those of tool 11 are TOOL here.
fn refusals(listed: &mut Listed, rng: &mut Prng) {
    for fault in faults::all() {
        for length in LENGTHS {
            let Some(made) = fault.possible(length).then(|| fault.make(length, rng)).flatten() else { continue };
            let before = Stream::listed(200, 0, rng).octets;
            listed.check("each refusal", &with_letter(b'A', &[before, made.octets].concat()));
        }
    }
}
