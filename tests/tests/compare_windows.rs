//! Runs read where windows of bits may go wrong: the proved code, through the static library, against the second program,
//! and both against what each code was made for.

use second::gen::Prng;
use tests::windows::{draw, Asked, Cut, Zeros, CUTS, ZEROS};
use tests::{ending, say, share, Ask, Pair, Proved, Read, Second, Table, ALL_TOOLS};

/// Codes wanted in a cell.
const CODES: usize = share(500);
/// Draws that must bring nothing for a cell that is kept empty.
const DRAWS: usize = share(300);
/// Draws after which a cell that is still not full is taken to be one that can't be filled.
const MOST_DRAWS: usize = 1_000_000;

fn row(start: usize, zeros: Zeros) -> String {
    format!("bit {start}, zeros {}", zeros.name())
}

/// Reads on both, and holds the answer against the one that the code was made for.
fn read_as(pair: &mut Pair, tool: u32, asked: Asked, law: u32) {
    let Asked { octets, refusal, bit, samples, bits } = asked;
    let wanted = match refusal {
        Some(name) => Read { ending: ending(name).unwrap(), tool: 0, samples: 0, octets: 0, bits: 0, bit },
        None => Read { ending: 0, tool, samples: samples.len(), octets: bits.div_ceil(8), bits, bit },
    };
    let ask = Ask { given: octets, law, set: ALL_TOOLS, room: 320 };
    let got = pair.read(&ask);
    if got != wanted {
        pair.differ("made", &ask, &format!("{got:?}, made for {wanted:?}"));
    } else if pair.output() != samples {
        pair.differ("made", &ask, "the samples are not those it was made of");
    }
}

/// Fills a cell, and says how full it is.
fn fill(pair: &mut Pair, tool: u32, start: usize, zeros: Zeros, cut: Cut, rng: &mut Prng) -> usize {
    let mut codes = 0;
    for _ in 0..MOST_DRAWS {
        let law = rng.below(2) as u32;
        if let Some(asked) = draw(tool, start, zeros, cut, law, rng) {
            read_as(pair, tool, asked, law);
            codes += 1;
        }
        if codes == CODES {
            break;
        }
    }
    codes
}

/// Every start, number of zeros and cut, in one tool.
fn every_cell(tool: u32, seed: u64) {
    let mut pair = Pair::new(&Proved, &Second);
    let mut rng = Prng::new(seed);
    let rows: Vec<String> = (0..8).flat_map(|start| ZEROS.map(|zeros| row(start, zeros))).collect();
    let title = format!("codes of runs in tool {tool}, by start and zeros, and where the octets end");
    let mut table = Table::new(&title, &rows, &CUTS.map(Cut::name), CODES);
    for start in 0..8 {
        for zeros in ZEROS {
            for cut in CUTS {
                if cut.possible(tool, start, zeros) {
                    let codes = fill(&mut pair, tool, start, zeros, cut, &mut rng);
                    table.add_many(row(start, zeros), cut.name(), codes);
                } else {
                    table.never(row(start, zeros), cut.name());
                }
            }
        }
    }
    table.close();
    say(&format!("compared: read, codes of runs in tool {tool} at every bit of an octet: {} calls\n", pair.calls));
    pair.close();
}

#[test]
fn tool_6() {
    every_cell(6, 41);
}

#[test]
fn tool_7() {
    every_cell(7, 42);
}

/// A cell that is said to be empty is: many draws bring nothing.
#[test]
fn empty_cells() {
    let mut rng = Prng::new(43);
    let mut cells = 0;
    for (tool, start) in [6, 7].into_iter().flat_map(|tool| (0..8).map(move |start| (tool, start))) {
        for zeros in ZEROS {
            for cut in CUTS.into_iter().filter(|cut| !cut.possible(tool, start, zeros)) {
                cells += 1;
                for _ in 0..DRAWS {
                    let drawn = draw(tool, start, zeros, cut, 1, &mut rng);
                    assert!(drawn.is_none(), "tool {tool}, {}, {}", row(start, zeros), cut.name());
                }
            }
        }
    }
    say(&format!("compared: codes of runs, cells that the rules keep empty: {cells}, {DRAWS} draws each\n"));
}
