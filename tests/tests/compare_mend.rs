//! A damaged greeting mended (document 02, R-12): the proved code, through the static library, against the second program,
//! and each promise held against the proved walk.

use second::gen::Prng;
use tests::mend::{filling, script, Mend, Menders, Mends, TOTAL};
use tests::recordings::{packed, recordings};
use tests::streams::{plain_frames, Stream, FIELDS};
use tests::{say, share, tenth, tenths, Codec, Proved, Second, Table, ALL_TOOLS, LISTED_TOOLS, MOST, MOST_LISTED};

const ROOM: u32 = 4;
const LAW: u32 = 12;
const LONG: u32 = 13;
/// What a cell of a table needs.
const NEED: usize = share(1_000);
/// What a cell needs where whole recordings are mended.
const NEED_RECORDINGS: usize = share(200);
/// Where the total lies beside the greeting's own samples.
const TOTALS: [&str; 3] = ["below", "at", "above"];

/// Vectors worked out by hand, on the back ends side by side.
#[test]
fn worked_out_by_hand() {
    let lines = script(include_str!("../vectors/mend.txt")).unwrap();
    let mut menders = Menders::new(&Proved, &Second);
    let mut accepted = 0;
    for line in &lines {
        let got = menders.call(&line.given, line.law, line.total, line.room);
        assert_eq!(got, line.wanted, "{}", line.name);
        assert_eq!(menders.result, line.result, "{}", line.name);
        if got.ending == 0 {
            menders.mended(&line.given, line.law, line.total);
            accepted += 1;
        }
    }
    menders.close();
    say(&format!("compared: mend, vectors: {accepted} accepted, {} refused\n", lines.len() - accepted));
    assert!(accepted >= 35 && lines.len() - accepted >= 15);
}

#[test]
fn a_faulty_vector_is_refused() {
    for bad in [
        "mend x octets=41",
        "mende x -> LAW",
        "mend x -> fine",
        "mend x size=1 -> LAW",
        "mend x -> ok bits=1",
        "mend x -> LAW 1",
    ] {
        assert!(script(bad).is_err(), "{bad}");
    }
}

/// A total below, at or above so many samples; none where there is none below.
fn a_total(side: &str, samples: usize, rng: &mut Prng) -> Option<u64> {
    let samples = samples as u64;
    let steps = |most: u64, rng: &mut Prng| 40 * (1 + rng.below((most / 40).clamp(1, 100) as usize) as u64);
    match side {
        "below" if samples == 0 => None,
        "below" => Some(samples - steps(samples, rng).min(samples)),
        "at" => Some(samples),
        _ => Some(samples + steps(4_000, rng)),
    }
}

/// Streams with a bit turned in each kind of field, and whole ones; totals on each side.
#[test]
fn every_field() {
    let mut menders = Menders::new(&Proved, &Second);
    let mut rows: Vec<&str> = FIELDS.to_vec();
    rows.push("none");
    let mut table = Table::new("mend, streams by damaged field and total", &rows, &TOTALS, NEED);
    let (mut unchanged, mut rng) = (0, Prng::new(121));
    for field in rows {
        for side in TOTALS {
            let mut met = 0;
            while met < NEED {
                let law = (met % 2) as u32;
                let most = 20 + rng.below(500);
                let stream = Stream::mixed(most, law, &mut rng);
                let given = match field {
                    "none" => Some(stream.octets.clone()),
                    _ => (0..20).find_map(|_| stream.turned(field, &mut rng)),
                };
                let (Some(given), Some(total)) = (given, a_total(side, stream.samples(), &mut rng)) else { continue };
                let done = menders.mended(&given, law, total);
                if field == "none" && side == "at" {
                    assert_eq!(menders.result, given, "undamaged, of the right total");
                    assert_eq!((done.frames_kept, done.samples_filled), (stream.forms.len(), 0));
                    unchanged += 1;
                }
                table.add(field, side);
                met += 1;
            }
        }
    }
    table.close();
    menders.close();
    say(&format!("compared: mend, every field: {} calls, {unchanged} came back unchanged\n", menders.calls));
}

const DAMAGES: [&str; 6] = ["whole", "bits turned", "cut", "joined", "octets inserted", "octets left out"];

/// A recording's stream, damaged at a drawn place.
fn damaged(how: &str, stream: &[u8], other: &[u8], rng: &mut Prng) -> Vec<u8> {
    let at = rng.below(stream.len() + 1);
    let mut octets = stream.to_vec();
    match how {
        "whole" => {}
        "bits turned" => {
            for _ in 0..1 + rng.below(4) {
                octets[at.min(stream.len() - 1)] ^= 1 << rng.below(8);
            }
        }
        "cut" => octets.truncate(at),
        "joined" => {
            octets.truncate(at);
            octets.extend(&other[rng.below(other.len())..]);
        }
        "octets inserted" => {
            let count = 1 + rng.below(5);
            let more = if rng.flip() { rng.octets(count) } else { vec![0; count] };
            octets.splice(at..at, more);
        }
        _ => drop(octets.drain(at..(at + 1 + rng.below(5)).min(stream.len()))),
    }
    octets
}

/// The recordings in frames of every length, damaged in each way.
#[test]
fn damaged_recordings() {
    let mut menders = Menders::new(&Proved, &Second);
    let mut table = Table::new("mend, recordings by damage and total", &DAMAGES, &TOTALS, NEED_RECORDINGS);
    let mut rng = Prng::new(122);
    let mut streams = Vec::new();
    for recording in recordings() {
        for length in tests::forms::LENGTHS {
            let packed = packed(&Second, &recording.sound, recording.law, ALL_TOOLS, length, 30_000);
            streams.push((recording.law, packed));
        }
    }
    for how in DAMAGES {
        for side in TOTALS {
            for _ in 0..NEED_RECORDINGS {
                let (law, stream) = &streams[rng.below(streams.len())];
                let other = &streams[rng.below(streams.len())].1.octets;
                let given = damaged(how, &stream.octets, other, &mut rng);
                let total = a_total(side, stream.samples, &mut rng).expect("a recording has samples");
                let done = menders.mended(&given, *law, total);
                if how == "whole" && side == "at" {
                    assert_eq!((&menders.result, done.frames_kept), (&given, stream.frames));
                }
                table.add(how, side);
            }
        }
    }
    table.close();
    menders.close();
    say(&format!("compared: mend, recordings: {} streams, {} calls\n", streams.len(), menders.calls));
}

/// Every total to 4,000 and around 1,000,000; numbers that would come round; LAW and LONG before TOTAL.
#[test]
fn every_total() {
    let mut menders = Menders::new(&Proved, &Second);
    let stream = Stream::mixed(300, 1, &mut Prng::new(123));
    let far = [1u64 << 32, 1 << 33, 1 << 63, u64::MAX - 15].map(|round| round - round % 40);
    let far = far.into_iter().flat_map(|round| [round, round.saturating_add(40)]);
    let near = [0..4_000, 999_900..1_000_200];
    let (mut good, mut refused) = (0, 0);
    let long = vec![0; MOST + 1];
    for total in near.into_iter().flatten().chain(far) {
        if total % 40 == 0 && total <= 1_000_000 {
            menders.mended(&stream.octets, 1, total);
            good += 1;
        } else {
            menders.refused(&stream.octets, 0, total, 1_000, TOTAL);
            menders.refused(&stream.octets, 1, total, 0, TOTAL);
            menders.refused(&stream.octets, 2, total, 0, LAW);
            refused += 3;
        }
        if total % 40 == 0 || total % 40 == 39 {
            menders.refused(&long, 1, total, 0, LONG);
            menders.refused(&long, u32::MAX, total, 1_000, LAW);
            refused += 2;
        }
    }
    menders.close();
    say(&format!("compared: mend, every total: {good} mended, {refused} refused\n"));
    assert!(good == 103 && refused > 10_000, "{good}, {refused}");
}

/// Greetings and results of about 1,048,576 octets: which of the two is LONG, and that ROOM comes after.
#[test]
fn around_the_longest() {
    let mut menders = Menders::new(&Proved, &Second);
    let mut rng = Prng::new(124);
    let (mut good, mut long) = (0, 0);
    // 2,800 frames of 320 samples as they are, 898,800 octets: what takes most octets fastest.
    let plain = plain_frames(2_800, &mut rng);
    for turn in 0..share(60) {
        // Frames, then pads up to the wanted octets, some with an end that is refused.
        let octets = MOST - rng.below(12);
        let more = Stream::mixed(rng.below(400), 1, &mut rng);
        let mut given = [&plain[..], &more.octets].concat();
        let samples = 320 * 2_800 + more.samples();
        given.resize(octets, 0);
        if turn % 3 == 0 {
            *given.last_mut().unwrap() = 0x46;
        }
        let total = (samples + 40 * rng.below(40)) as u64;
        let kept = octets - usize::from(turn % 3 == 0);
        let needs = kept + filling(total as usize - samples).len();
        if needs > MOST {
            menders.refused(&given, 1, total, 0, LONG);
            menders.refused(&given, 1, total, MOST + 100, LONG);
            long += 2;
        } else {
            menders.refused(&given, 1, total, needs - 1, ROOM);
            let done = menders.mended(&given, 1, total);
            assert_eq!((done.octets, done.octets_kept), (needs, kept));
            good += 1;
        }
    }
    menders.close();
    say(&format!("compared: mend, around the longest: {good} mended, {long} LONG\n"));
    assert!(good > share(6) && long > share(6), "{good}, {long}");
}

/// Every room from none to more than enough.
#[test]
fn every_room() {
    let mut menders = Menders::new(&Proved, &Second);
    let mut rng = Prng::new(125);
    let (mut short, mut enough) = (0, 0);
    for turn in tenths(0..200) {
        let stream = Stream::mixed(20 + rng.below(100), 0, &mut rng);
        let given = match turn % 2 {
            0 => stream.octets.clone(),
            _ => damaged("bits turned", &[&stream.octets[..], &[0x41]].concat(), &[0], &mut rng),
        };
        let total = a_total(TOTALS[turn % 3], stream.samples().max(40), &mut rng).expect("samples");
        let needs = menders.mended(&given, 0, total).octets;
        for room in 0..needs + 3 {
            if room < needs {
                menders.refused(&given, 0, total, room, ROOM);
                short += 1;
            } else {
                assert_eq!(menders.call(&given, 0, total, room).octets, needs);
                enough += 1;
            }
        }
    }
    menders.close();
    say(&format!("compared: mend, every room: {short} ROOM, {enough} enough\n"));
    assert!(short > tenth(1_500));
}

/// The second program, wrong in one way.
#[derive(Clone, Copy, Debug)]
enum Fault {
    PassingKept,
    PassingSkipped,
    PadsDropped,
    PadsBehindKept,
    ShortFirst,
    MinusZeros,
    DamageSkipped,
    OnlyThirtyTwoThousand,
    RoomBeforeLong,
    TotalBeforeLong,
    LawLast,
    MillionRefused,
    MoreThanAMillion,
    TotalOf32Bits,
    PadsNotCounted,
    WritesThenRefuses,
    PastTheReport,
    FilledByTotal,
    OldLimit,
    OneOctetMore,
    OneOctetMoreMade,
    OldTools,
}

const FAULTS: [Fault; 22] = [
    Fault::PassingKept,
    Fault::PassingSkipped,
    Fault::PadsDropped,
    Fault::PadsBehindKept,
    Fault::ShortFirst,
    Fault::MinusZeros,
    Fault::DamageSkipped,
    Fault::OnlyThirtyTwoThousand,
    Fault::RoomBeforeLong,
    Fault::TotalBeforeLong,
    Fault::LawLast,
    Fault::MillionRefused,
    Fault::MoreThanAMillion,
    Fault::TotalOf32Bits,
    Fault::PadsNotCounted,
    Fault::WritesThenRefuses,
    Fault::PastTheReport,
    Fault::FilledByTotal,
    Fault::OldLimit,
    Fault::OneOctetMore,
    Fault::OneOctetMoreMade,
    Fault::OldTools,
];

struct Wrong(Fault);

impl Mends for Wrong {
    fn mend(&self, octets: &[u8], law: u32, total: u64, out: &mut [u8]) -> Mend {
        let mut given = octets.to_vec();
        match self.0 {
            Fault::RoomBeforeLong if law < 2 && octets.len() > out.len() => return Mend::refused(ROOM),
            Fault::TotalBeforeLong if law < 2 && total % 40 != 0 => return Mend::refused(TOTAL),
            Fault::LawLast if octets.len() > MOST => return Mend::refused(LONG),
            // "LONG, and with it demand 3, moves to the new limit".
            Fault::OldLimit if law < 2 && octets.len() > MOST_LISTED => return Mend::refused(LONG),
            Fault::OneOctetMore if octets.len() == MOST + 1 => given.truncate(MOST),
            Fault::OneOctetMoreMade if octets.len() == MOST && total == 40 => return self.mend(octets, law, 0, out),
            Fault::MillionRefused if law < 2 && octets.len() <= MOST && total == 1_000_000 => {
                return Mend::refused(TOTAL)
            }
            Fault::MoreThanAMillion if total == 1_000_040 => return self.mend(octets, law, 1_000_000, out),
            // The mend goes to set 255.
            Fault::OldTools if law < 2 => {
                let walked = Codec::walk(&Second, octets, law, LISTED_TOOLS, &mut vec![0; 320 * octets.len()]);
                given.truncate(if walked.tool == 11 { walked.place } else { given.len() });
            }
            Fault::TotalOf32Bits => return Second.mend(octets, law, total & 0xFFFF_FFFF, out),
            Fault::WritesThenRefuses => {
                let kept = octets.len().min(out.len()).min(1);
                out[..kept].copy_from_slice(&octets[..kept]);
            }
            Fault::DamageSkipped => given.retain(|octet| *octet != 0x46),
            Fault::OnlyThirtyTwoThousand if octets.len() > 32_768 => given.truncate(32_768),
            _ => {}
        }
        let mut done = Second.mend(&given, law, total, out);
        if done.ending != 0 {
            return done;
        }
        let (kept, end) = (done.octets_kept, done.octets);
        let next = second::read_frame(&given[kept..], law, ALL_TOOLS, &mut [0; 320]);
        match self.0 {
            Fault::PassingKept | Fault::PassingSkipped if next.ending == 0 && next.samples > 0 => {
                let fits = self.0 as u8 == Fault::PassingSkipped as u8;
                let octets = if fits { given[kept + next.octets..].to_vec() } else { given.clone() };
                let total = if fits { done.samples_filled as u64 } else { total + next.samples as u64 };
                let more = Second.mend(&octets, law, total, &mut vec![0; out.len()]);
                done.frames_kept += more.frames_kept;
            }
            Fault::PadsDropped if kept == end && kept > 0 && given[kept - 1] == 0 => {
                (done.octets, done.octets_kept, done.frames_kept) = (end - 1, kept - 1, done.frames_kept - 1);
                out[end - 1] = out[out.len() - 1];
            }
            Fault::PadsBehindKept if kept + 1 < given.len() && given[kept + 1] == 0 && end < out.len() => {
                out[end] = 0;
                done.octets += 1;
            }
            Fault::ShortFirst => out[kept..end].reverse(),
            Fault::MinusZeros => out[kept..end].iter_mut().for_each(|octet| *octet += 1),
            Fault::PadsNotCounted => {
                done.frames_kept -= given[..kept].iter().filter(|octet| **octet == 0).count().min(done.frames_kept)
            }
            Fault::PastTheReport if end < out.len() => out[end] = 0,
            Fault::FilledByTotal => done.samples_filled = total as usize,
            _ => {}
        }
        done
    }
}

/// The comparison finds a back end that is wrong in one way.
#[test]
fn a_wrong_back_end_is_found() {
    let lines = script(include_str!("../vectors/mend.txt")).unwrap();
    for fault in FAULTS {
        let wrong = Wrong(fault);
        let mut menders = Menders::new(&wrong, &Second);
        let mut rng = Prng::new(126);
        for line in &lines {
            menders.call(&line.given, line.law, line.total, line.room);
            if menders.differences > 0 {
                break;
            }
        }
        for turn in 0..2_000 {
            if menders.differences > 0 {
                break;
            }
            let stream = Stream::mixed(rng.below(300), 1, &mut rng);
            let given = damaged(DAMAGES[turn % 6], &[&stream.octets[..], &[0]].concat(), &[0x46, 0], &mut rng);
            let total = a_total(TOTALS[turn % 3], stream.samples().max(40), &mut rng).expect("samples");
            menders.call(&given, 1, total, if turn % 5 == 0 { rng.below(300) } else { 400 });
        }
        assert!(menders.differences > 0, "{fault:?} was not found in {} calls", menders.calls);
    }
    say(&format!("compared: mend, {} wrong back ends: each one found\n", FAULTS.len()));
}
