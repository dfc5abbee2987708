//! A recording of a studio: a file read, beside the walk over the same frames, and written, beside the same frames one by one.

use crate::calls;
use crate::greetings::{greetings, head, row, Greeting};
use crate::time::best;
use crate::{table, SET, STREAM};
use second::recording::{heading, LOSS};
use std::hint::black_box;

/// Streams of one kind each, and one of erasure frames alone: constant frames of 0++, 160 samples each.
fn streams() -> Vec<Greeting> {
    let lost = [0xC3, 0xFE].repeat(STREAM / 2);
    greetings(STREAM).into_iter().chain([Greeting::of("erasure frames", 1, lost)]).collect()
}

fn file(greeting: &Greeting) -> Vec<u8> {
    [heading(greeting.law), greeting.octets.clone()].concat()
}

fn reading(greeting: &Greeting) {
    let Greeting { name, law, octets, samples } = greeting;
    let file = file(greeting);
    let [mut one, mut other, mut walked] = [0, 1, 2].map(|_| vec![0; samples + 320]);
    let [mut list, mut second_list] = [0, 1].map(|_| vec![0; octets.len()]);
    let times = best([
        &mut || {
            black_box(calls::proved_file_read(black_box(&file), SET, &mut one, &mut list));
        },
        &mut || {
            black_box(calls::proved_walk(black_box(octets), *law, SET, &mut walked));
        },
        &mut || {
            black_box(calls::second_file_read(black_box(&file), SET, &mut other, &mut second_list));
        },
    ]);
    assert!(one == other && list == second_list);
    row(name, octets.len(), times, "0.9");
}

/// The frames' samples, written one after another.
fn frame_by_frame(samples: &[u8], list: &[u16], law: u32, out: &mut [u8]) {
    let mut at = 0;
    for length in list.iter().map(|item| usize::from(item % LOSS)) {
        black_box(calls::proved_write(&samples[at..at + length], law, SET, out));
        at += length;
    }
}

fn writing(greeting: &Greeting) {
    let Greeting { name, law, octets, samples } = greeting;
    // What the walk has is written: an erasure frame is given as a frame.
    let mut sound = vec![0; *samples];
    second::walk(octets, *law, SET, &mut sound);
    let mut list = vec![0; octets.len()];
    let items = second::recording::read_file(&file(greeting), SET, &mut vec![0; samples + 320], &mut list).items;
    let list: Vec<u16> = list[..items].iter().map(|item| item % LOSS).collect();
    let [mut one, mut other, mut form] = [0, 1, 2].map(|_| vec![0; g7110::recording::MAX_FILE]);
    let times = best([
        &mut || {
            black_box(calls::proved_file_write(black_box(&sound), &list, *law, SET, &mut one));
        },
        &mut || frame_by_frame(black_box(&sound), &list, *law, &mut form),
        &mut || {
            black_box(calls::second_file_write(black_box(&sound), &list, *law, SET, &mut other));
        },
    ]);
    assert!(one == other);
    let [own, frames, second] = times;
    let (to_frames, to_second) = (own / frames, second / own);
    println!("| {name} | {items} | {own:.0} | {frames:.0} | {to_frames:.2} | {second:.0} | {to_second:.2} |");
}

pub fn tables() {
    let streams = streams();
    head("Reading a file, beside the walk over the same frames", "file");
    streams.iter().for_each(reading);
    table(
        "Writing a file, beside its frames one by one",
        "| file | items | write, ns | frame by frame, ns | time to that | second, ns | speed to second |",
    );
    streams.iter().for_each(writing);
}
