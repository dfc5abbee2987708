//! The calls, as a program in Rust makes them. What they answer on all else is in tests/.

#![cfg(feature = "writer")]

use g7110::settings;
use g7110::{
    from_linear, read, to_linear, walk, why, write, Law, Read, Reasons, Refusal, Refused, State, Walk, Written,
    ALL_TOOLS, MAX_SAMPLES, MAX_STREAM, MAX_WRITTEN, WHY_TEXT,
};

const PLUS: u8 = 0xFF;
const MINUS: u8 = 0x7F;

/// The header's example.
#[test]
fn kept_and_got_back() {
    let samples: Vec<u8> = (0..160).map(|at| [PLUS, MINUS, 0xFE][at % 29 % 3]).collect();
    let mut kept = [0; MAX_WRITTEN];
    let mut sound = [0; MAX_SAMPLES];
    let wrote = write(&samples, Law::Mu, ALL_TOOLS, &mut kept).unwrap();
    let got = read(&kept[..wrote.octets], Law::Mu, ALL_TOOLS, &mut sound).unwrap();
    assert_eq!(got, Read { samples: 160, octets: wrote.octets, bits: wrote.bits, tool: wrote.tool });
    assert_eq!(sound[..160], samples);
    assert_eq!(sound[160..], [0; 160]);
}

#[test]
fn one_minus_zero_at_the_end() {
    let mut samples = [PLUS; 40];
    samples[39] = MINUS;
    let mut out = [0xA7; 4];
    assert_eq!(write(&samples, Law::Mu, ALL_TOOLS, &mut out), Ok(Written { octets: 2, bits: 16, tool: 6 }));
    assert_eq!(out, [0x56, 0x0F, 0xA7, 0xA7]);
}

/// Two values in turn, 40 times: tool 11 has a bit for each sample. Without it the frame stays as it is.
#[test]
fn a_frame_of_few_values() {
    let samples: [u8; 40] = std::array::from_fn(|at| [PLUS, 0xFE][at % 2]);
    let (mut out, mut sound) = ([0xA7; 42], [0; 40]);
    assert_eq!(write(&samples, Law::Mu, ALL_TOOLS, &mut out), Ok(Written { octets: 6, bits: 48, tool: 11 }));
    assert_eq!((&out[..6], out[6]), (&[0x02, 0x55, 0x55, 0x55, 0x55, 0x55][..], 0xA7));
    let got = Read { samples: 40, octets: 6, bits: 48, tool: 11 };
    assert_eq!(read(&out, Law::Mu, 128, &mut sound), Ok(got));
    assert_eq!(sound, samples);
    assert_eq!(write(&samples, Law::Mu, 127, &mut out), Ok(Written { octets: 41, bits: 328, tool: 1 }));
    let reasons = why(&samples, Law::Mu, ALL_TOOLS).unwrap();
    assert_eq!((reasons.winner, reasons.state(11), reasons.state(8)), (11, Some(State::Fits(6)), None));
    assert_eq!(why(&samples, Law::Mu, 127).unwrap().state(11), Some(State::Out));
}

#[test]
fn the_law_decides_the_samples() {
    let mut out = [0; 40];
    read(&[0x41], Law::A, ALL_TOOLS, &mut out).unwrap();
    assert_eq!(out, [0xD5; 40]);
    read(&[0x41], Law::Mu, ALL_TOOLS, &mut out).unwrap();
    assert_eq!(out, [PLUS; 40]);
}

#[test]
fn a_walk_keeps_what_stands_before_a_refusal() {
    let stream = [0x41, 0x00, 0x56, 0x0F, 0x86];
    let mut out = [0xA7; 160];
    let kept = Walk { frames: 3, octets: 4, samples: 80, refused: Some(Refused { why: Refusal::Short, bit: 8 }) };
    assert_eq!(walk(&stream, Law::Mu, ALL_TOOLS, &mut out), kept);
    assert_eq!(out[..79], [PLUS; 79]);
    assert_eq!(out[79], MINUS);
    assert_eq!(out[80..], [0xA7; 80]);
}

#[test]
fn nothing_is_lent() {
    assert_eq!(read(&[], Law::A, ALL_TOOLS, &mut []), Err(Refused { why: Refusal::Short, bit: 0 }));
    assert_eq!(read(&[0x00], Law::A, ALL_TOOLS, &mut []), Ok(Read { samples: 0, octets: 1, bits: 8, tool: 0 }));
    assert_eq!(write(&[], Law::A, ALL_TOOLS, &mut []), Err(Refusal::Room));
    assert_eq!(walk(&[], Law::A, 0, &mut []), Walk { frames: 0, octets: 0, samples: 0, refused: None });
}

#[test]
fn every_refusal_has_its_number() {
    let mut out = [0xA7; 320];
    let reads: [(&[u8], u32, Refusal, usize); 15] = [
        (&[0x28], 127, Refusal::Short, 8),
        (&[0x46], 127, Refusal::Prefix, 0),
        (&[0x28, 0x00], 127, Refusal::Tool(8), 0),
        (&[0x41], 0, Refusal::Tool(2), 0),
        (&[0x86, 0xDC], 127, Refusal::Case, 8),
        (&[0x86, 0xF8], 127, Refusal::Method, 11),
        (&[0x57, 0x19], 127, Refusal::Run, 9),
        (&[0x86, 0xFC, 0xFE], 127, Refusal::Place, 16),
        (&[0x86, 0xFC, 0x01], 127, Refusal::Align, 23),
        (&[0x02, 0x55], 127, Refusal::Tool(11), 0),
        (&[0x41], 128, Refusal::Tool(2), 0),
        (&[0x05, 0x79, 0xF3], 128, Refusal::Place, 16),
        (&[0x09, 0xFF], ALL_TOOLS, Refusal::Short, 16),
        (&[0x2C], ALL_TOOLS, Refusal::Tool(9), 0),
        (&[0x41], 256, Refusal::Set, 0),
    ];
    for (octets, set, why, bit) in reads {
        assert_eq!(read(octets, Law::Mu, set, &mut out), Err(Refused { why, bit }));
    }
    assert_eq!(read(&[0x31], Law::Mu, 127, &mut out[..319]), Err(Refused { why: Refusal::Room, bit: 0 }));
    assert_eq!(write(&[PLUS; 41], Law::Mu, 127, &mut out), Err(Refusal::Length));
    assert_eq!(write(&[PLUS; 40], Law::Mu, 126, &mut out), Err(Refusal::Set));
    let long = Some(Refused { why: Refusal::Long, bit: 0 });
    assert_eq!(walk(&vec![0; MAX_STREAM + 1], Law::Mu, 127, &mut out).refused, long);
    let whole = Walk { frames: MAX_STREAM, octets: MAX_STREAM, samples: 0, refused: None };
    assert_eq!(walk(&vec![0; MAX_STREAM], Law::Mu, 127, &mut out), whole);
    let mut report = [9; 5];
    assert_eq!(g7110::raw::read(&[0x41], 2, 127, &mut out, &mut report), Refusal::Law.number());
    assert_eq!(report, [0; 5], "a report is written in every case");
    assert_eq!(out, [0xA7; 320], "a refused call leaves the output as lent");
}

/// The scale is 001's own: 20,000 is clipped, and -1 is not plus zero.
#[test]
fn to_linear_and_back() {
    let samples: Vec<u8> = (0..160).map(|at| (at * 3 % 256) as u8).collect();
    let (mut linear, mut back) = ([0; 161], [0xA7; 161]);
    assert_eq!(to_linear(&samples, Law::A, &mut linear), Ok(()));
    assert_eq!(from_linear(&linear[..160], Law::A, &mut back), Ok(()));
    assert_eq!((&back[..160], back[160], linear[160]), (&samples[..], 0xA7, 0));
    let mut wide = [20_000; 40];
    wide[1] = -1;
    assert_eq!(from_linear(&wide, Law::A, &mut back), Ok(()));
    assert_eq!(back[..3], [0xAA, 0x55, 0xAA]);
    assert_eq!(from_linear(&wide, Law::Mu, &mut back), Ok(()));
    assert_eq!(back[..3], [0x80, MINUS, 0x80]);
}

#[test]
fn a_refused_conversion_writes_nothing() {
    let (mut linear, mut octets) = ([7; 40], [0xA7; 40]);
    assert_eq!(to_linear(&[PLUS; 41], Law::Mu, &mut linear), Err(Refusal::Length));
    assert_eq!(to_linear(&[PLUS; 80], Law::Mu, &mut linear), Err(Refusal::Room));
    assert_eq!(from_linear(&[0; 80], Law::Mu, &mut octets), Err(Refusal::Room));
    assert_eq!(g7110::raw::to_linear(&[PLUS; 41], 2, &mut linear), Refusal::Law.number());
    assert_eq!(g7110::raw::from_linear(&[0; 41], 2, &mut octets), Refusal::Law.number());
    assert_eq!((linear, octets), ([7; 40], [0xA7; 40]));
    assert_eq!(to_linear(&[], Law::A, &mut []), Ok(()));
}

/// A silent frame takes six octets where binary is the best that the set holds.
#[test]
fn why_six_octets() {
    use State::{Fits, Out};
    let reasons = Reasons { states: [Fits(41), Out, Out, Out, Fits(6), Out, Out, Out], winner: 5, tie: false };
    assert_eq!(why(&[PLUS; 40], Law::Mu, 17), Ok(reasons));
    let (mut text, mut report) = ([0xA7; WHY_TEXT], [9]);
    assert_eq!(g7110::raw::why(&[PLUS; 40], 1, 17, &mut text, &mut report), 0);
    let said = reasons.to_string();
    assert_eq!((report[0] as usize, &text[..said.len()]), (said.len(), said.as_bytes()));
    assert!(text[said.len()..].iter().all(|octet| *octet == 0xA7), "the rest stays as lent");
}

/// The winner and its octets are the writer's, for every odd set; a frame of no samples has tool 0.
#[test]
fn why_the_writer_takes_its_tool() {
    let mixed: Vec<u8> = (0..240).map(|at| [PLUS, PLUS, MINUS, 0xFE, 0x7E][at % 31 % 5]).collect();
    for samples in [&[PLUS; 40][..], &[MINUS; 160], &[0x12; 80], &mixed, &mixed[..80], &mixed[..40]] {
        for set in (1..=ALL_TOOLS).step_by(2) {
            let mut out = [0; MAX_WRITTEN];
            let wrote = write(samples, Law::Mu, set, &mut out).unwrap();
            let reasons = why(samples, Law::Mu, set).unwrap();
            assert_eq!(reasons.winner, wrote.tool);
            assert_eq!(reasons.state(wrote.tool), Some(State::Fits(wrote.octets)));
            for (state, at) in reasons.states.iter().zip(0..) {
                assert_eq!(*state == State::Out, set >> at & 1 == 0);
            }
        }
    }
    let none = why(&[], Law::A, 5).unwrap();
    assert_eq!((none.states[0], none.states[1], none.states[2]), (State::No(1), State::Out, State::No(1)));
    assert_eq!((none.winner, none.tie), (0, false));
}

#[test]
fn a_refused_why_says_nothing() {
    let (mut text, mut report) = ([0xA7; WHY_TEXT], [9]);
    for (len, law, set, number) in [(41, 2, 126, 12), (41, 1, 254, 11), (41, 1, 257, 11), (41, 1, 255, 10)] {
        assert_eq!(g7110::raw::why(&[PLUS; 320][..len], law, set, &mut text, &mut report), number);
        assert_eq!((report, text), ([0], [0xA7; WHY_TEXT]));
        report = [9];
    }
    assert_eq!(why(&[PLUS; 41], Law::Mu, 127), Err(Refusal::Length));
}

/// No state is shared: calls from several threads at once answer as one alone does.
#[test]
fn from_several_threads() {
    let threads: Vec<_> = (0..4)
        .map(|turn| {
            std::thread::spawn(move || {
                let samples = [if turn % 2 == 0 { PLUS } else { MINUS }; 320];
                for _ in 0..2_000 {
                    let (mut kept, mut sound) = ([0; MAX_WRITTEN], [0; MAX_SAMPLES]);
                    let wrote = write(&samples, Law::Mu, ALL_TOOLS, &mut kept).unwrap();
                    read(&kept[..wrote.octets], Law::Mu, ALL_TOOLS, &mut sound).unwrap();
                    assert_eq!(sound, samples);
                }
            })
        })
        .collect();
    threads.into_iter().for_each(|thread| thread.join().unwrap());
}

/// The header's second example: other settings tried, the old ones put back, and all of it wiped.
#[test]
fn settings_put_back_and_wiped() {
    let old = b"law=1\nset=255\nblock=16384\ngreeting=0\n";
    let mut state = settings::FRESH;
    let mut text = [0xA7; settings::SETTINGS_TEXT];
    assert_eq!(settings::read(&state, state[0], &mut text), Err(settings::Refusal::Gone));
    assert_eq!(settings::save(&mut state, old), Ok(1));
    assert_eq!(settings::save(&mut state, b"law=1\nset=1\nblock=65536\ngreeting=7\n"), Ok(2));
    assert_eq!(settings::back(&mut state, 1), Ok(3));
    assert_eq!(settings::read(&state, 3, &mut text), Ok(old.len()));
    assert_eq!(text[..old.len()], old[..]);
    assert_eq!(text[old.len()..], [0xA7; settings::SETTINGS_TEXT][old.len()..]);
    settings::wipe(&mut state);
    assert_eq!(state[0], 3, "the numbering runs on");
    assert_eq!(state[1..], [0; 40], "nothing of the last tenant is left");
    assert_eq!(settings::read(&state, 3, &mut text), Err(settings::Refusal::Gone));
    assert_eq!(settings::save(&mut state, old), Ok(4));
}

#[test]
fn settings_are_refused_and_unchanged() {
    let mut state = settings::FRESH;
    state[0] = u32::MAX;
    let lent = state;
    let good = b"law=0\nset=0\nblock=1\ngreeting=0\n";
    assert_eq!(settings::save(&mut state, &good[..good.len() - 1]), Err(settings::Refusal::Line));
    assert_eq!(settings::save(&mut state, &[]), Err(settings::Refusal::Line));
    let above = b"law=0\nset=256\nblock=1\ngreeting=0\n";
    assert_eq!(settings::save(&mut state, above), Err(settings::Refusal::Line));
    assert_eq!(settings::save(&mut state, good), Err(settings::Refusal::Spent));
    assert_eq!(settings::back(&mut state, 0), Err(settings::Refusal::Gone));
    assert_eq!(state, lent);
    let mut report = [9];
    assert_eq!(g7110::raw::settings_back(&mut state, 1, &mut report), settings::Refusal::Gone.number());
    assert_eq!(report, [0], "a report is written in every case");
}

/// The header's third example: a greeting mended, and what is refused leaves the output as lent.
#[test]
fn a_greeting_is_mended() {
    use g7110::mending::{mend, Mended, Refusal};
    let mut out = [0xA7; 8];
    let told = mend(&[0x41, 0x00, 0x56, 0x0F, 0x86], Law::Mu, 160, &mut out);
    assert_eq!(told, Ok(Mended { octets: 5, frames: 3, kept: 4, filled: 80 }));
    assert_eq!(out, [0x41, 0x00, 0x56, 0x0F, 0x81, 0xA7, 0xA7, 0xA7]);
    let mut out = [0xA7; 8];
    assert_eq!(mend(&[0x41, 0x00, 0x41, 0x00], Law::A, 40, &mut out), Ok(Mended { octets: 2, frames: 2, kept: 2, filled: 0 }));
    assert_eq!(out, [0x41, 0x00, 0xA7, 0xA7, 0xA7, 0xA7, 0xA7, 0xA7]);
    // A frame of tool 11 is kept, a cut one is not.
    let mut out = [0xA7; 8];
    let told = mend(&[0x02, 0x55, 0x55, 0x55, 0x55, 0x55, 0x05, 0x79], Law::Mu, 80, &mut out);
    assert_eq!(told, Ok(Mended { octets: 7, frames: 1, kept: 6, filled: 40 }));
    assert_eq!(out, [0x02, 0x55, 0x55, 0x55, 0x55, 0x55, 0x41, 0xA7]);
    let mut out = [0xA7; 1];
    assert_eq!(mend(&[], Law::A, 39, &mut out), Err(Refusal::Total));
    assert_eq!(mend(&[], Law::A, 1_000_040, &mut out), Err(Refusal::Total));
    assert_eq!(mend(&[], Law::A, 400, &mut out), Err(Refusal::Frame(g7110::Refusal::Room)));
    let pads = vec![0; MAX_STREAM + 1];
    assert_eq!(mend(&pads[1..], Law::A, 40, &mut out), Err(Refusal::Frame(g7110::Refusal::Long)));
    assert_eq!(mend(&pads, Law::A, 39, &mut out), Err(Refusal::Frame(g7110::Refusal::Long)));
    assert_eq!(mend(&pads[1..], Law::A, 39, &mut out), Err(Refusal::Total));
    assert_eq!(out, [0xA7]);
}

/// Greetings put with their law, saved and loaded; and what is refused.
#[test]
fn greetings_are_kept() {
    use g7110::saved::{load, save, MAX_TABLE};
    use g7110::store::{cells, delete, get, put, Got, Put, Refusal, MAX_BLOCK, MAX_CELLS};
    assert_eq!((cells(0), cells(64), cells(MAX_BLOCK), cells(usize::MAX)), (258, 260, MAX_CELLS, MAX_CELLS));
    let (mut block, mut table) = ([0xEE; 300], [0; 266]);
    assert_eq!(put(&mut block, &mut table, Law::A, 7, &[0, 0]), Ok(Put { start: 0, moved: 0 }));
    assert_eq!(put(&mut block, &mut table, Law::Mu, 8, &[0x41; 70]), Ok(Put { start: 2, moved: 0 }));
    assert_eq!(get(&block, &table, 8), Ok(Got { start: 2, octets: 70 }));
    assert_eq!(put(&mut block, &mut table, Law::A, 9, &[0x46]), Err(Refusal::Bad));
    assert_eq!(put(&mut block, &mut table, Law::A, 9, &[0x02, 0x55, 0x55, 0x55, 0x55]), Err(Refusal::Bad));
    assert_eq!(put(&mut block, &mut table, Law::A, 9, &[0x02, 0x55, 0x55, 0x55, 0x55, 0x55]), Ok(Put { start: 72, moved: 0 }));
    assert_eq!(delete(&block, &mut table, 9), Ok(()));
    let mut text = vec![0; MAX_TABLE];
    let octets = save(&block, &table, &mut text).unwrap();
    let lines = "prompt=7\nstart=0\noctets=2\nlaw=0\nsamples=0\nmark=0,0\n\
                 prompt=8\nstart=2\noctets=70\nlaw=1\nsamples=2800\nmark=0,0\nmark=64,2560\n";
    assert_eq!(text[..octets], *lines.as_bytes());
    let mut other = [u32::MAX; 266];
    assert_eq!(load(&text[..octets], &block, &mut other), Ok(()));
    assert_eq!(load(lines.replace("64,", "63,").as_bytes(), &block, &mut other), Err(Refusal::Table));
    assert_eq!(delete(&block, &mut other, 7), Ok(()));
    assert_eq!(load(b"prompt=1\nstart=2\noctets=1\n", &block, &mut other), Ok(()), "in R-6's lines");
    assert_eq!(get(&block, &other, 8), Err(Refusal::Absent));
    let mut report = [9; 2];
    let ending = g7110::raw::store_put(&mut block, &mut other, 2, 0, &[], &mut report);
    assert_eq!((ending, report), (g7110::Refusal::Law.number(), [0; 2]), "a report is written in every case");
}

/// A block of more than 65,535 octets, and a greeting of more: the table is saved with its first line, and loaded with it alone.
#[test]
fn longer_greetings_are_kept() {
    use g7110::saved::{load, save, MAX_TABLE};
    use g7110::store::{cells, get, put, Got, Put, Refusal, MAX_BLOCK};
    let frame = [&[0x30][..], &[0x55; 320]].concat();
    let greeting = frame.repeat(250);
    let mut block = vec![0xEE; MAX_BLOCK + 1];
    let mut table = vec![0; cells(block.len())];
    let mut text = vec![0; MAX_TABLE];
    assert_eq!(save(&block, &table, &mut text), Ok(7));
    assert_eq!(text[..7], *b"form=2\n");
    assert_eq!(put(&mut block, &mut table, Law::A, 1, &[0x41; 64]), Ok(Put { start: 0, moved: 0 }));
    assert_eq!(put(&mut block, &mut table, Law::A, 2, &greeting), Ok(Put { start: 64, moved: 0 }));
    assert_eq!(put(&mut block, &mut table, Law::A, 3, &vec![0; MAX_BLOCK + 1]), Err(Refusal::Bad));
    assert_eq!(put(&mut block, &mut table, Law::A, 3, &vec![0; MAX_BLOCK - 80_313]), Err(Refusal::NoRoom));
    let octets = save(&block, &table, &mut text).unwrap();
    let lines = "prompt=1\nstart=0\noctets=64\nlaw=0\nsamples=2560\nmark=0,0\n\
                 prompt=2\nstart=64\noctets=80250\nlaw=0\nsamples=80000\nmark=0,0\nmark=20544,20480\nmark=41088,40960\nmark=61632,61440\n";
    assert_eq!(text[..octets], *["form=2\n", lines].concat().as_bytes());
    let mut other = vec![u32::MAX; cells(block.len())];
    assert_eq!(load(lines.as_bytes(), &block, &mut other), Err(Refusal::Table));
    assert_eq!(load(&text[..octets], &block, &mut other), Ok(()));
    assert_eq!(get(&block, &other, 2), Ok(Got { start: 64, octets: 80_250 }));
    let early = b"form=2\nprompt=1\nstart=0\noctets=64\n";
    assert_eq!(load(early, &block, &mut other), Err(Refusal::Table), "no early box wrote it");
    assert_eq!(load(&early[7..], &block, &mut other), Ok(()));
}

/// A greeting jumped into; and what is refused.
#[test]
fn greetings_are_jumped_into() {
    use g7110::store::{jump, put, Jump, Put, Refusal};
    let (mut block, mut table) = ([0xEE; 300], [0; 266]);
    assert_eq!(put(&mut block, &mut table, Law::A, 7, &[0, 0]), Ok(Put { start: 0, moved: 0 }));
    assert_eq!(put(&mut block, &mut table, Law::Mu, 8, &[0x41; 70]), Ok(Put { start: 2, moved: 0 }));
    assert_eq!(jump(&block, &table, 8, 40), Ok(Jump { frame: 1, place: 1, within: 0, read: 2 }));
    assert_eq!(jump(&block, &table, 8, 2_559), Ok(Jump { frame: 63, place: 63, within: 39, read: 64 }));
    assert_eq!(jump(&block, &table, 8, 2_560), Ok(Jump { frame: 64, place: 64, within: 0, read: 1 }));
    assert_eq!(jump(&block, &table, 8, 2_800), Err(Refusal::Beyond));
    assert_eq!(jump(&block, &table, 7, 0), Err(Refusal::Beyond));
    assert_eq!(jump(&block, &table, 9, 0), Err(Refusal::Absent));
    assert_eq!(jump(&block, &table, 0, 0), Err(Refusal::Number));
    let mut report = [9; 4];
    assert_eq!(g7110::raw::store_jump(&block, &table, 2, 0, &mut report), Refusal::Absent.number());
    assert_eq!(report, [0; 4], "a report is written in every case");
}

/// Greetings moved one after another, and put behind them; and what is refused.
#[test]
fn greetings_close_up_by_moves() {
    use g7110::store::{get, move_step, moved, next, put, renumber, try_put, Got, Hop, Put, Refusal};
    let (mut block, mut table) = ([0xEE; 12], [0; 258]);
    for (number, octets, start) in
        [(7, &[0x41; 2][..], 0), (1, &[0], 2), (8, &[0x42; 3], 3), (2, &[0; 2], 6), (9, &[0x81], 8)]
    {
        assert_eq!(put(&mut block, &mut table, Law::Mu, number, octets), Ok(Put { start, moved: 0 }));
    }
    assert_eq!(next(&block, &table), Ok(None));
    g7110::store::delete(&block, &mut table, 1).unwrap();
    g7110::store::delete(&block, &mut table, 2).unwrap();
    let before = (block, table);
    assert_eq!(try_put(&block, &table, Law::A, 3, &[0xC1; 5]), Ok(Put { start: 6, moved: 4 }));
    assert_eq!(try_put(&block, &table, Law::A, 7, &[0xC1; 5]), Err(Refusal::Taken));
    assert_eq!(moved(&block, &mut table, 9, 5), Err(Refusal::Move));
    assert_eq!(moved(&block, &mut table, 8, 3), Err(Refusal::Move));
    assert_eq!(renumber(&block, &mut table, 8, 9), Err(Refusal::Taken));
    assert_eq!(move_step(&mut block, &mut [], &[0; 8]), Err(Refusal::Move));
    assert_eq!((block, table), before, "nothing is changed");
    // A spare of two octets: the move by one goes by way of it, in four steps, the move by three directly, in one.
    let (mut spare, mut record, mut steps) = ([0; 2], [0; 8], 0);
    while let Some(Hop { number, from, to, octets }) = next(&block, &table).unwrap() {
        moved(&block, &mut table, number, to).unwrap();
        record = [record[0], 1, from as u32, to as u32, octets as u32, 0, 0, 0];
        while record[1] != 0 {
            record = move_step(&mut block, &mut spare, &record).unwrap();
            steps += 1;
        }
    }
    assert_eq!((record, steps), ([0; 8], 5));
    assert_eq!(put(&mut block, &mut table, Law::A, 3, &[0xC1; 5]), Ok(Put { start: 6, moved: 0 }));
    assert_eq!(block, [0x41, 0x41, 0x42, 0x42, 0x42, 0x81, 0xC1, 0xC1, 0xC1, 0xC1, 0xC1, 0xEE]);
    assert_eq!(renumber(&block, &mut table, 3, 65_535), Ok(()));
    assert_eq!(
        (get(&block, &table, 65_535), get(&block, &table, 3)),
        (Ok(Got { start: 6, octets: 5 }), Err(Refusal::Absent))
    );
}

/// The header's example of a recording: a frame, a loss of 80 samples, a pad, a loss of unknown length, a frame.
#[test]
fn a_recording_is_written_and_read() {
    use g7110::recording::{read, write, Item, Recording, HEADING, LOSS, MAX_FILE};
    let samples = [[PLUS; 40], [MINUS; 40]].concat();
    let list = [40, LOSS + 80, 0, LOSS, 40];
    let mut file = vec![0xA7; MAX_FILE];
    let octets = write(&samples, &list, Law::Mu, ALL_TOOLS, &mut file).unwrap();
    assert_eq!(file[..HEADING], *b"#!G7110M\n\0");
    assert_eq!(file[HEADING..octets], [0x41, 0x83, 0xFE, 0x00, 0x01, 0x42]);
    assert!(file[octets..].iter().all(|octet| *octet == 0xA7), "the rest stays as lent");
    let (mut out, mut items) = ([0xA7; 200], [9; 8]);
    let told = read(&file[..octets], ALL_TOOLS, &mut out, &mut items);
    assert_eq!(told, Recording { law: Some(Law::Mu), items: 5, octets: 6, samples: 80, refused: None });
    assert_eq!((&items[..5], &items[5..]), (&list[..], &[9; 3][..]));
    assert_eq!((&out[..80], &out[80..]), (&samples[..], &[0xA7; 120][..]));
    let each = told.each(&items, &out);
    assert_eq!(each.len(), 5);
    let wanted =
        [Item::Frame(&[PLUS; 40]), Item::Lost(Some(80)), Item::Frame(&[]), Item::Lost(None), Item::Frame(&[MINUS; 40])];
    assert_eq!(each.collect::<Vec<_>>(), wanted);
}

/// A frame of 0++ or 0-- is an erasure frame, and read as a loss; one sample away it is a frame.
#[test]
fn an_erasure_frame_is_a_loss() {
    use g7110::recording::{read, write, Item};
    for (law, erased) in [(Law::Mu, [0xFE, 0x7E]), (Law::A, [0xD4, 0x54])] {
        for octet in erased {
            let (mut file, mut out, mut list) = ([0; 200], [0; 400], [0; 4]);
            let mut samples = [octet; 80];
            samples[79] ^= 1;
            let octets = write(&[[octet; 80], samples].concat(), &[80, 80], law, ALL_TOOLS, &mut file).unwrap();
            let told = read(&file[..octets], ALL_TOOLS, &mut out, &mut list);
            let items: Vec<Item> = told.each(&list, &out).collect();
            assert_eq!(items, [Item::Lost(Some(80)), Item::Frame(&samples)]);
        }
    }
}

/// A refused file keeps the items before it; a refused writing leaves the output as lent.
#[test]
fn a_recording_is_refused() {
    use g7110::recording::{read, write, Item, Recording, Refusal, Refused};
    let (mut out, mut list) = ([0xA7; 400], [9; 4]);
    let file = b"#!G7110A\n\0\x41\x01\x57\x19";
    let refused = |why, bit| Some(Refused { why, bit });
    let told = read(file, ALL_TOOLS, &mut out, &mut list);
    let run = refused(Refusal::Frame(g7110::Refusal::Run), 9);
    assert_eq!(told, Recording { law: Some(Law::A), items: 2, octets: 2, samples: 40, refused: run });
    assert_eq!(told.each(&list, &out).collect::<Vec<_>>(), [Item::Frame(&[0xD5; 40]), Item::Lost(None)]);
    let nothing = |law, refused| Recording { law, items: 0, octets: 0, samples: 0, refused };
    let head = nothing(None, refused(Refusal::Head, 0));
    assert_eq!(read(&file[..9], ALL_TOOLS, &mut out, &mut list), head);
    assert_eq!(read(&file.to_ascii_lowercase(), ALL_TOOLS, &mut out, &mut list), head);
    assert_eq!(Refusal::Head.number(), 14);
    let set = refused(Refusal::Frame(g7110::Refusal::Set), 0);
    assert_eq!(read(&file[..9], 256, &mut out, &mut list), nothing(None, set));
    let long = [&file[..10], &vec![0; MAX_STREAM + 1]].concat();
    let too_long = refused(Refusal::Frame(g7110::Refusal::Long), 0);
    assert_eq!(read(&long, ALL_TOOLS, &mut out, &mut list), nothing(Some(Law::A), too_long));
    let no_place = refused(Refusal::Frame(g7110::Refusal::Room), 0);
    assert_eq!(read(file, ALL_TOOLS, &mut out, &mut []), nothing(Some(Law::A), no_place));
    let (mut file, marks) = ([0xA7; 60], vec![0; MAX_STREAM + 1]);
    for (samples, list, set, why) in [
        (&[PLUS; 41][..], &[41][..], 127, g7110::Refusal::Length),
        (&[PLUS; 41], &[40], 127, g7110::Refusal::Length),
        (&[PLUS; 39], &[40], 126, g7110::Refusal::Set),
        (&[PLUS; 39], &[40], 127, g7110::Refusal::Length),
        (&[], &[0; 51], 127, g7110::Refusal::Room),
        (&[], &marks, 127, g7110::Refusal::Long),
    ] {
        assert_eq!(write(samples, list, Law::A, set, &mut file), Err(Refusal::Frame(why)));
        assert_eq!(file, [0xA7; 60]);
    }
    assert_eq!(write(&[], &[], Law::A, 1, &mut file), Ok(10));
}

/// A frame, a pad, a loss of unknown length, a loss of 40 samples, and an octet that is not assigned.
#[test]
fn what_is_told() {
    use g7110::recording::{self, Item, Next};
    let body = [0x41, 0x00, 0x01, 0x43, 0xFE, 0x46];
    assert_eq!(g7110::version(), g7110::VERSION);
    assert_eq!(g7110::head(&body, ALL_TOOLS), Ok(g7110::Head { tool: 2, samples: 40 }));
    assert_eq!(g7110::head(&[0x28, 0x00], ALL_TOOLS), Err(Refusal::Tool(8)));
    let refused = Some(Refused { why: Refusal::Prefix, bit: 0 });
    assert_eq!(g7110::check(&body, Law::Mu, ALL_TOOLS), Walk { frames: 2, octets: 2, samples: 40, refused });
    assert_eq!((recording::head(b"#!G7110M\n\0A"), recording::head(b"#!G7110M\n")), (Some(Law::Mu), None));
    let mut out = [0xA7; MAX_SAMPLES];
    let told = recording::next(&body, 0, Law::Mu, ALL_TOOLS, &mut out);
    assert_eq!(told, Ok(Next { item: Item::Frame(&[PLUS; 40]), octets: 1, tool: 2, place: 1 }));
    let told = recording::next(&body, 2, Law::Mu, 0, &mut []);
    assert_eq!(told, Ok(Next { item: Item::Lost(None), octets: 1, tool: 0, place: 3 }));
    let told = recording::next(&body, 3, Law::Mu, ALL_TOOLS, &mut out);
    assert_eq!(told, Ok(Next { item: Item::Lost(Some(40)), octets: 2, tool: 4, place: 5 }));
    let why = recording::Refusal::Frame(Refusal::Prefix);
    assert_eq!(recording::next(&body, 5, Law::Mu, ALL_TOOLS, &mut out), Err(recording::Refused { why, bit: 0 }));
    let (mut master, mut back) = ([7; 40], [0; 40]);
    assert_eq!(g7110::to_master(&[0x80; 40], Law::Mu, &mut master), Ok(()));
    assert_eq!(master, [32_124; 40]);
    assert_eq!(g7110::from_master(&master, Law::Mu, &mut back), Ok(()));
    assert_eq!(back, [0x80; 40]);
    assert_eq!(g7110::to_master(&[0x80; 80], Law::Mu, &mut master), Err(Refusal::Room));
}
