//! The windowed reader and the measuring writer against the slow ones.

mod slow;
use second::gen::{self, Prng};
use second::{read_frame, write_frame};

const ROOM: usize = 320;

struct Tally {
    endings: [u64; 14],
}

impl Tally {
    fn new() -> Tally {
        Tally { endings: [0; 14] }
    }

    /// Compares one read, reports and lent output alike.
    fn compare(&mut self, octets: &[u8], law: u32, set: u32, room: usize) {
        let lent: Vec<u8> = (0..room).map(|i| (i * 37 + 11) as u8).collect();
        let mut out = lent.clone();
        let ours = read_frame(octets, law, set, &mut out);
        let (theirs, after) = slow::read(octets, law, set, &lent);
        assert_eq!(ours, theirs, "law {law} set {set} room {room} {octets:02X?}");
        assert_eq!(out, after, "law {law} set {set} room {room} {octets:02X?}");
        self.endings[ours.ending as usize] += 1;
    }

    fn print(&self, what: &str) {
        let total: u64 = self.endings.iter().sum();
        println!("{what}: {total} reads compared, by ending 0 to 13: {:?}", self.endings);
    }
}

#[test]
fn every_one_and_two_octets() {
    let mut tally = Tally::new();
    for set in [127, 255] {
        for first in 0..=255u8 {
            tally.compare(&[first], 1, set, ROOM);
            for second in 0..=255u8 {
                tally.compare(&[first, second], 1, set, ROOM);
            }
        }
    }
    tally.print("all of one and two octets");
}

#[test]
fn every_three_octets_after_the_bit_tools() {
    let mut tally = Tally::new();
    let digits = [0x05u8, 0x09, 0x0B];
    for first in [0x57u8, 0x5B, 0x86, 0x96, 0xC6, 0xDE, 0x25, 0x2A, 0x35, 0x3B].into_iter().chain(digits) {
        for rest in 0..=0xFFFFu16 {
            let [second, third] = rest.to_be_bytes();
            tally.compare(&[first, second, third], 0, 255, ROOM);
        }
    }
    tally.print("three octets");
}

#[test]
fn good_forms_no_writer_would_choose() {
    let mut rng = Prng::new(101);
    let mut tally = Tally::new();
    let mut by_tool = [0u64; 12];
    for _ in 0..60_000 {
        let law = rng.below(2) as u32;
        let form = gen::make_any_form(law, &mut rng);
        let mut out = vec![0x33; 330];
        let after_it = rng.below(12);
        let mut octets = form.octets.clone();
        octets.extend(rng.octets(after_it));
        let report = read_frame(&octets, law, 255, &mut out);
        assert_eq!(report.ending, 0, "{form:02X?}");
        assert_eq!(report.tool, form.tool);
        assert_eq!(report.bits, form.bits);
        assert_eq!(report.octets, form.octets.len());
        assert_eq!(report.samples, form.samples.len());
        assert_eq!(&out[..report.samples], form.samples);
        assert!(out[report.samples..].iter().all(|&o| o == 0x33));
        tally.compare(&octets, law, 255, ROOM);
        by_tool[form.tool as usize] += 1;
    }
    println!("good forms by tool 0 to 11: {by_tool:?}");
    tally.print("good forms");
}

#[test]
fn every_cut_of_good_forms() {
    let mut rng = Prng::new(102);
    let mut tally = Tally::new();
    for _ in 0..1_500 {
        let law = rng.below(2) as u32;
        let form = gen::make_any_form(law, &mut rng);
        for cut in 0..form.octets.len() {
            tally.compare(&form.octets[..cut], law, 255, ROOM);
        }
    }
    tally.print("cut forms");
}

#[test]
fn damaged_forms() {
    let mut rng = Prng::new(103);
    let mut tally = Tally::new();
    for _ in 0..150_000 {
        let law = rng.below(2) as u32;
        let form = gen::make_any_form(law, &mut rng);
        let mut octets = gen::damage_somehow(&form.octets, &mut rng);
        if rng.chance(1, 3) && !octets.is_empty() {
            octets = gen::damage_somehow(&octets, &mut rng);
        }
        tally.compare(&octets, law, 255, ROOM);
    }
    tally.print("damaged forms");
}

#[test]
fn random_octets_after_every_first_octet() {
    let mut rng = Prng::new(104);
    let mut tally = Tally::new();
    for round in 0..400 {
        for first in 0..=255u8 {
            let density = 1 << rng.below(6);
            let mut octets = vec![first];
            let more = if round % 4 == 0 { rng.below(4) } else { rng.below(120) };
            for _ in 0..more {
                let octet = (0..8).fold(0, |o, _| o << 1 | u8::from(rng.chance(1, density)));
                octets.push(octet);
            }
            tally.compare(&octets, rng.below(2) as u32, 255, ROOM);
        }
    }
    tally.print("random octets");
}

#[test]
fn any_set_room_and_law() {
    let mut rng = Prng::new(105);
    let mut tally = Tally::new();
    for _ in 0..100_000 {
        let law = *rng.pick(&[0, 0, 1, 1, 0, 1, 2, 3, u32::MAX]);
        let form = gen::make_any_form(rng.below(2) as u32, &mut rng);
        let octets = if rng.flip() {
            form.octets
        } else {
            gen::damage_somehow(&form.octets, &mut rng)
        };
        let set = match rng.below(8) {
            0 => 256 + rng.below(600) as u32,
            1 => rng.next_u64() as u32,
            _ => rng.below(256) as u32,
        };
        let room = *rng.pick(&[0, 1, 39, 40, 41, 79, 80, 159, 160, 161, 239, 240, 319, 320, 321]);
        tally.compare(&octets, law, set, room);
    }
    tally.print("any set, room and law");
}

/// Compares one write, report and output alike; gives the tool.
fn compare_write(samples: &[u8], law: u32, set: u32) -> usize {
    let lent = vec![0x5A; 330];
    let mut out = lent.clone();
    let ours = write_frame(samples, law, set, &mut out);
    let (theirs, after) = slow::write(samples, law, set, &lent);
    assert_eq!(ours, theirs, "law {law} set {set} {samples:02X?}");
    assert_eq!(out, after, "law {law} set {set} {samples:02X?}");
    ours.tool as usize
}

#[test]
fn writer_makes_the_shortest_form_of_the_text() {
    let mut rng = Prng::new(106);
    let kinds = gen::all_kinds();
    let mut by_tool = [0u64; 12];
    for &kind in &kinds {
        for length in gen::LENGTHS {
            for law in 0..2 {
                let samples = gen::make_frame(kind, length, law, &mut rng);
                for set in [127, 255, 1 + 2 * rng.below(128) as u32, 1 + 2 * rng.below(128) as u32] {
                    by_tool[compare_write(&samples, law, set)] += 1;
                }
            }
        }
    }
    let patterns = gen::Pattern::ALL;
    for round in 0..60_000 {
        let kind = match round % 4 {
            0 => gen::Kind::NearMiss(*rng.pick(gen::Miss::ALL)),
            1 => *rng.pick(&kinds),
            _ => gen::Kind::TwoZeros(*rng.pick(patterns)),
        };
        let length = *rng.pick(&gen::LENGTHS);
        let law = rng.below(2) as u32;
        let samples = gen::make_frame(kind, length, law, &mut rng);
        let set = if rng.flip() { *rng.pick(&[127, 255]) } else { 1 + 2 * rng.below(128) as u32 };
        by_tool[compare_write(&samples, law, set)] += 1;
    }
    let written: u64 = by_tool.iter().sum();
    let methods: Vec<u64> =
        slow::METHODS.iter().map(|m| m.load(std::sync::atomic::Ordering::Relaxed)).collect();
    println!("forms compared: {written}, by tool 0 to 11: {by_tool:?}");
    println!("tool 7 methods called for, 000 to 111: {methods:?}");
    assert!([1, 2, 3, 4, 5, 6, 7, 11].iter().all(|&tool| by_tool[tool] > 0));
    assert!((0..8).all(|method| (methods[method] > 0) == (method != 6)));
}

#[test]
fn writer_room_is_exactly_the_form() {
    let mut rng = Prng::new(107);
    let kinds = gen::all_kinds();
    let mut tried = 0u64;
    for &kind in &kinds {
        let length = *rng.pick(&gen::LENGTHS);
        let law = rng.below(2) as u32;
        let samples = gen::make_frame(kind, length, law, &mut rng);
        let set = 1 + 2 * rng.below(128) as u32;
        let mut out = vec![0; 330];
        let needed = write_frame(&samples, law, set, &mut out).octets;
        for room in [0, 1, 2, needed - 1, needed, needed + 1, length, length + 1, length + 2] {
            let lent = vec![0xC3; room];
            let mut out = lent.clone();
            let ours = write_frame(&samples, law, set, &mut out);
            let (theirs, after) = slow::write(&samples, law, set, &lent);
            assert_eq!(ours, theirs);
            assert_eq!(out, after);
            assert_eq!(ours.ending == 0, room >= needed);
            tried += 1;
        }
    }
    println!("rooms tried: {tried}");
}
