//! Why this tool: frames worked out by hand, the readings Y1 to Y5, and the
//! writer's own choice on every kind of frame.

use second::gen::{all_kinds, make_frame, sample_of, Prng, LENGTHS};
use second::why::{lines, why, State, TOOLS};
use second::write_frame;

const MU: u32 = 1;

/// Mu-law samples of signed numbers.
fn frame(parts: &[(usize, i32)]) -> Vec<u8> {
    parts.iter().flat_map(|&(count, number)| vec![sample_of(number, MU); count]).collect()
}

/// The lines of a frame, each tool's as `state why octets`, then the winner.
fn said(samples: &[u8], set: u32) -> String {
    String::from_utf8(lines(&why(samples, MU, set).unwrap())).unwrap()
}

/// The whole text from short words: `out`, `no1`, or the octets. Tool 11 is
/// out; `text_with` has a word for it.
fn text(words: [&str; 7], winner: u8, by: &str) -> String {
    text_with(words, "out", winner, by)
}

fn text_with(words: [&str; 7], last: &str, winner: u8, by: &str) -> String {
    let mut text = String::new();
    for (tool, word) in (1..8).chain([11]).zip(words.into_iter().chain([last])) {
        let rest = match word.strip_prefix("no") {
            Some(condition) => format!("state=no why={condition} octets=0"),
            None if word == "out" => "state=out why=0 octets=0".to_string(),
            None => format!("state=fits why=0 octets={word}"),
        };
        text += &format!("tool={tool} {rest}\n");
    }
    text + &format!("winner={winner} by={by}\n")
}

#[test]
fn a_silent_frame_of_six_octets() {
    // P6. 20 runs of 1 with S = 1 are 40 bits; 5 of the prefix and 2 of S make 47.
    let samples = frame(&[(1, 0), (1, -1)]).repeat(20);
    assert_eq!(said(&samples, 127), text(["41", "no1", "no1", "no1", "6", "6", "no1"], 5, "tie"));
    assert_eq!(said(&samples, 111), text(["41", "no1", "no1", "no1", "out", "6", "no1"], 6, "octets"));
}

#[test]
fn the_line_of_the_text() {
    // P7: one run of 39, S = 3: 8 bits, 3 of its code, 5 of the prefix.
    let samples = frame(&[(39, 0), (1, -1)]);
    let whole = said(&samples, 127);
    assert_eq!(whole, text(["41", "no1", "no1", "no1", "6", "2", "no1"], 6, "octets"));
    assert_eq!(whole.lines().nth(5), Some("tool=6 state=fits why=0 octets=2"));
    assert!(whole.ends_with("\nwinner=6 by=octets\n"));
}

#[test]
fn plus_zeros() {
    // P8: one run of 40, S = 4: 2 zeros, a 1, 4 low bits, 4 of the code, 5.
    let samples = frame(&[(40, 0)]);
    assert_eq!(said(&samples, 127), text(["41", "1", "no1", "2", "6", "2", "no1"], 2, "octets"));
    assert_eq!(said(&samples, 33), text(["41", "out", "out", "out", "out", "2", "out"], 6, "octets"));
    assert_eq!(said(&samples, 41), text(["41", "out", "out", "2", "out", "2", "out"], 4, "tie"));
    assert_eq!(said(&samples, 5), text(["41", "out", "no1", "out", "out", "out", "out"], 1, "octets"));
    // 320 plus zeros: one run of 320, S = 7: 2 zeros, a 1, 7 low bits, 5 of the code, 7.
    let samples = frame(&[(320, 0)]);
    assert_eq!(said(&samples, 127), text(["321", "1", "no1", "2", "41", "3", "no2"], 2, "octets"));
}

#[test]
fn value_location() {
    // P10: 23 bits.
    let samples = frame(&[(1, 1), (79, 0)]);
    assert_eq!(said(&samples, 127), text(["81", "no1", "no1", "no1", "no1", "no1", "3"], 7, "octets"));
    // 1 at every other place, 0 as often: runs with S = 1 are 40 times 2 bits,
    // not above 80; 11 + 3 + 80 bits.
    let samples = frame(&[(1, 0), (1, 1)]).repeat(40);
    assert_eq!(said(&samples, 127), text(["81", "no1", "no1", "no1", "no1", "no1", "12"], 7, "octets"));
}

/// Tool 11: 6 octets for a row of two values at N = 40, where value-location
/// has none; and its one condition.
#[test]
fn fractional_bits() {
    let two = frame(&[(39, 0), (1, 1)]);
    assert_eq!(said(&two, 255), text_with(["41", "no1", "no1", "no1", "no1", "no1", "no1"], "6", 11, "octets"));
    assert_eq!(said(&two, 129), text_with(["41", "out", "out", "out", "out", "out", "out"], "6", 11, "octets"));
    assert_eq!(said(&two, 127), text_with(["41", "no1", "no1", "no1", "no1", "no1", "no1"], "out", 1, "octets"));
    let far = frame(&[(39, 0), (1, 3)]);
    assert_eq!(said(&far, 255), text_with(["41", "no1", "no1", "no1", "no1", "no1", "no1"], "no1", 1, "octets"));
    assert!(said(&two, 255).contains("tool=7 state=no why=1 octets=0\ntool=11 state=fits why=0 octets=6\nwinner=11 "));
    // 80 samples, 0 and 1 by turns: 11 + 3 + 80 bits by value-location, 8 + 80 by tool 11.
    let turns = frame(&[(1, 0), (1, 1)]).repeat(40);
    assert_eq!(said(&turns, 255), text_with(["81", "no1", "no1", "no1", "no1", "no1", "12"], "11", 11, "octets"));
    // 37 of 80 by turns, then 6 of 0: runs of 1 are 74 bits, the last run of 6
    // has 5, so value-location has 11 + 3 + 79 = 93 bits, 12 octets.
    // 33 by turns, then 14 of 0: 66 + 9 bits, so 89, 12 octets. 32 by turns and
    // 16: 64 + 10, so 88 bits, 11 octets: as many as tool 11, which comes later.
    let tie = [frame(&[(1, 0), (1, 1)]).repeat(32), frame(&[(16, 0)])].concat();
    assert_eq!(said(&tie, 255), text_with(["81", "no1", "no1", "no1", "no1", "no1", "11"], "11", 7, "tie"));
    assert_eq!(said(&[], 255), text_with(["no1"; 7], "no1", 0, "octets"));
    assert_eq!(said(&[], 133), text_with(["no1", "out", "no1", "out", "out", "out", "out"], "no1", 0, "octets"));
}

/// Y1: which condition of value-location fails, and which first.
#[test]
fn conditions_of_value_location() {
    let condition = |parts: &[(usize, i32)]| why(&frame(parts), MU, 65).unwrap().states[6];
    assert_eq!(condition(&[(39, 0), (1, 1)]), State::No(1));
    // -2 and 1 need 240: the row's N doesn't fit.
    assert_eq!(condition(&[(1, -2), (78, 0), (1, 1)]), State::No(2));
    assert_eq!(condition(&[(1, -2), (158, 0), (1, 1)]), State::No(2));
    assert!(matches!(condition(&[(1, -2), (238, 0), (1, 1)]), State::Fits(_)));
    // No row: all 0, -1 and 0, -2 and -1, 1 alone, 2.
    for parts in [&[(80, 0)][..], &[(79, 0), (1, -1)], &[(79, -2), (1, -1)], &[(80, 1)], &[(79, 0), (1, 2)]] {
        assert_eq!(condition(parts), State::No(2), "{parts:?}");
    }
    // 0 is less frequent than 1; as frequent.
    assert_eq!(condition(&[(39, 0), (41, 1)]), State::No(3));
    assert!(matches!(condition(&[(40, 0), (40, 1)]), State::Fits(_)));
    // -1 and 1 and no 0 at all.
    assert_eq!(condition(&[(40, -1), (40, 1)]), State::No(3));
    // Several fail: the first is told.
    assert_eq!(condition(&[(1, -2), (38, 0), (41, 1)]), State::No(2));
    assert_eq!(condition(&[(10, -2), (10, 0), (20, 1)]), State::No(1));
    assert_eq!(condition(&[(70, 7), (10, 0)]), State::No(2));
}

/// Y2: no samples.
#[test]
fn no_samples() {
    assert_eq!(said(&[], 127), text(["no1"; 7], 0, "octets"));
    assert_eq!(said(&[], 69), text(["no1", "out", "no1", "out", "out", "out", "no1"], 0, "octets"));
}

/// Y3: a tie is a tie of the winner; a tie of others doesn't count.
#[test]
fn ties_that_do_not_count() {
    // Constant and Rice both need 2, plus wins with 1.
    let found = why(&frame(&[(40, 0)]), MU, 127).unwrap();
    assert_eq!((found.states[3], found.states[5]), (State::Fits(2), State::Fits(2)));
    assert!(!found.by_tie);
    // Rice would need as few as constant, but is not in the set.
    assert!(!why(&frame(&[(40, 0)]), MU, 9).unwrap().by_tie);
}

/// Y4: the order of the refusals. There is no room to be short of.
#[test]
fn refusals() {
    assert_eq!(why(&[0; 39], 2, 0), Err(12));
    assert_eq!(why(&[0; 40], u32::MAX, 127), Err(12));
    assert_eq!(why(&[0; 39], 1, 0), Err(11));
    for set in [2, 126, 128, 254, 256, 257, 511, u32::MAX] {
        assert_eq!(why(&[0; 40], 1, set), Err(11), "{set}");
    }
    for length in [1, 39, 41, 120, 200, 319, 321, 640] {
        assert_eq!(why(&vec![0; length], 0, 127), Err(10), "{length}");
    }
}

/// Y5: every line ends in 0A, and no text is longer than its room.
#[test]
fn the_longest_text() {
    let samples = [frame(&[(160, 0)]), frame(&[(160, -1)])].concat();
    let longest = said(&samples, 255).len();
    assert!(longest <= 7 * 35 + 36 + 20 && said(&samples, 255).ends_with('\n'));
}

/// The winner is what the writer writes; a tool that fits needs what it needs
/// where only it and uncompressed are in the set.
#[test]
fn the_winner_is_what_the_writer_writes() {
    let mut rng = Prng::new(10);
    for kind in all_kinds() {
        for length in LENGTHS {
            for law in 0..2 {
                let samples = make_frame(kind, length, law, &mut rng);
                let set = 2 * rng.below(128) as u32 + 1;
                for set in [127, 255, set, 1] {
                    let found = why(&samples, law, set).unwrap();
                    let wrote = write_frame(&samples, law, set, &mut [0; 321]);
                    assert_eq!(u32::from(found.winner), wrote.tool, "{kind:?} {length} {law} {set}");
                    let place = TOOLS.iter().position(|&tool| tool == found.winner).unwrap();
                    let winner = found.states[place];
                    assert_eq!(winner, State::Fits(wrote.octets), "{kind:?} {length} {law} {set}");
                }
                for (index, state) in why(&samples, law, 255).unwrap().states.into_iter().enumerate() {
                    let wrote = write_frame(&samples, law, 1 | 1 << index, &mut [0; 321]);
                    match state {
                        State::Fits(octets) => assert_eq!(wrote.octets, octets),
                        _ => assert_eq!(wrote.tool, 1),
                    }
                }
            }
        }
    }
}
