//! Jumps into a greeting: near the end of a long one beside a walk to it, over greetings that grow, and what stepping over
//! a frame costs by its kind.

use crate::calls;
use crate::greetings::{greetings, Greeting, BLOCK};
use crate::store::{Both, NUMBER};
use crate::time::best;
use crate::{table, LONGEST};
use std::hint::black_box;

/// A store that holds one greeting, in a usual block or, if that is too small, in one that it fills.
fn holding(octets: &[u8]) -> Both {
    let mut both = Both::of(octets.len().max(BLOCK));
    both.put(NUMBER, octets);
    both
}

/// Nanoseconds of a jump, of a walk over the octets up to the end of the frame that it names, and of the second program's jump;
/// and the frames that were read.
fn times(both: &Both, sample: u64) -> ([f64; 3], usize) {
    let told = g7110::store::jump(&both.block, &both.table, NUMBER, sample).expect("the greeting has it");
    let other = both.second.jump(NUMBER, sample).expect("the greeting has it");
    assert_eq!((told.frame, told.place, told.within, told.read), (other.frame, other.place, other.within, other.read));
    let greeting = &both.second.greetings[0];
    let frame = second::read_frame(&both.block[told.place..greeting.octets], 1, crate::SET, &mut [0; 320]);
    let walked = &both.block[..told.place + frame.octets];
    let mut out = vec![0; greeting.samples + 320];
    let times = best([
        &mut || {
            black_box(calls::proved_jump(&both.block, black_box(&both.table), NUMBER, black_box(sample)));
        },
        &mut || {
            black_box(calls::proved_walk(black_box(walked), 1, crate::SET, &mut out));
        },
        &mut || {
            black_box(calls::second_jump(black_box(&both.second), NUMBER, black_box(sample)));
        },
    ]);
    (times, told.read)
}

/// A row: a jump beside the walk to it.
fn row(name: &str, frame: usize, both: &Both, sample: usize, wanted: &str) {
    let ([jump, walk, second], read) = times(both, sample as u64);
    print!("| {name} | {frame} | {read} | {jump:.0} | {walk:.0} | {:.1} | {wanted} |", walk / jump);
    println!(" {second:.0} | {:.2} |", second / jump);
}

fn head(title: &str, first: &str) {
    let times = "jump, ns | walk to it, ns | speed to the walk | wanted | second, ns | speed to second";
    table(title, &format!("| {first} | frame | frames read | {times} |"));
}

/// Near the end of 16,384 frames of one octet: from a mark itself, from halfway, and with all 64 frames read.
fn near_the_end() {
    head("The store: a jump near the end of 16,384 frames of one octet, beside a walk to it", "frames of");
    for (name, octet, samples) in [("40 samples", 0x41, 40), ("320 samples", 0x31, 320)] {
        let both = holding(&[octet; BLOCK]);
        for frame in [BLOCK - 64, BLOCK - 33, BLOCK - 1] {
            row(name, frame, &both, samples * frame, "50");
        }
    }
}

/// The last frame of greetings of more and more frames, 64 read each time: the cost must not grow with them.
fn growing() {
    head("The store: a jump to the last of so many frames, 40 samples each", "frames");
    for frames in [64, 256, 1_024, 4_096, BLOCK] {
        let both = holding(&vec![0x41; frames]);
        row(&frames.to_string(), frames - 1, &both, 40 * frames - 1, "-");
    }
}

/// What stepping over a frame costs: 64 of a kind are read, or as many as the greeting has.
fn skipping(Greeting { name, octets, samples, .. }: &Greeting) {
    let both = holding(octets);
    let marks = &both.second.greetings[0].marks;
    // Just before the second mark, if there is one; a greeting of pads has no sample to jump to.
    let Some(sample) = marks.get(1).map_or(*samples, |mark| mark.samples).checked_sub(1) else { return };
    let ([jump, walk, second], read) = times(&both, sample as u64);
    let each = [jump, walk, second].map(|time| format!("{:.1}", time / read as f64)).join(" | ");
    println!("| {name} | {read} | {jump:.0} | {each} |");
}

/// Longer greetings: jumps cost the same as in a usual block.
fn long_tables() {
    head("Longer greetings: a jump to the last of so many frames, 40 samples each", "frames");
    for frames in [BLOCK, 65_536, LONGEST] {
        let both = holding(&vec![0x41; frames]);
        row(&frames.to_string(), frames - 1, &both, 40 * frames - 1, "-");
    }
    head("Longer greetings: a jump into two minutes, beside a walk to it", "second");
    let two_minutes = Greeting::two_minutes();
    let both = holding(&two_minutes.octets);
    for second in [1, 30, 60, 90, 119] {
        let sample = 8_000 * second;
        let frame = both.second.jump(NUMBER, sample as u64).expect("it has two minutes").frame;
        row(&second.to_string(), frame, &both, sample, "-");
    }
}

pub fn tables() {
    near_the_end();
    growing();
    table(
        "The store: what stepping over a frame costs, by kind",
        "| greeting | frames read | jump, ns | a frame, ns | walk, a frame, ns | second, a frame, ns |",
    );
    greetings(BLOCK).iter().for_each(skipping);
    long_tables();
}
