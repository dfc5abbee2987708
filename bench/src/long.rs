//! Longer greetings: a walk of 1,048,576 octets beside one of 65,535, an octet; then the store on its largest block, whose
//! usual one is in store.rs. Jumps are in jumps.rs.

use crate::calls;
use crate::greetings::{greetings, head, row, Greeting, BLOCK};
use crate::store::{closings, loading, short_calls, Both, Model, Proved, NUMBER};
use crate::time::best;
use crate::{table, LONGEST, SET, STREAM};
use std::hint::black_box;

/// Nanoseconds an octet of a walk by each, and of a copy of its samples.
fn walked(Greeting { law, octets, samples, .. }: &Greeting) -> [f64; 3] {
    let [mut one, mut other, mut third] = [0, 1, 2].map(|_| vec![0; samples + 320]);
    let source = vec![0x55; *samples];
    let times = best([
        &mut || {
            black_box(calls::proved_walk(black_box(octets), *law, SET, &mut one));
        },
        &mut || {
            black_box(calls::second_walk(black_box(octets), *law, SET, &mut other));
        },
        &mut || {
            third[..source.len()].copy_from_slice(black_box(&source));
            black_box(&mut third);
        },
    ]);
    times.map(|time| time / octets.len() as f64)
}

/// "a walk of 1,048,576 octets costs as much an octet as one of 65,535": the speed is wanted to be about 1.
fn walks() {
    let times = "65,535 octets, ns | 1,048,576 octets, ns | speed to the shorter | wanted";
    let others = "second, ns | second, ns | memcpy, ns | memcpy, ns";
    table("Longer greetings: walking, an octet", &format!("| greeting | {times} | {others} |"));
    for (short, long) in greetings(STREAM).iter().zip(&greetings(LONGEST)) {
        let [[proved, second, copy], [own, other, copied]] = [short, long].map(walked);
        print!("| {} | {proved:.2} | {own:.2} | {:.2} | 1.0 |", short.name, proved / own);
        println!(" {second:.2} | {other:.2} | {copy:.2} | {copied:.2} |");
    }
}

/// A put into a fresh block, beside the walk over the same octets.
fn putting(greeting: &Greeting) {
    let Greeting { name, law, octets, samples } = greeting;
    let both = Both::of(LONGEST);
    assert_eq!(both.clone().put(NUMBER, octets), 0);
    let (mut proved, mut model) = (Proved::of(&both), Model::of(&both));
    let mut out = vec![0; samples + 320];
    let times = best([
        &mut || proved.put(*law, octets),
        &mut || {
            black_box(calls::proved_walk(black_box(octets), *law, SET, &mut out));
        },
        &mut || model.put(*law, octets),
    ]);
    row(name, octets.len(), times, "-");
}

pub fn tables() {
    walks();
    head("Longer greetings: a put into a fresh block of 1,048,576 octets, beside the walk over the same octets", "put");
    greetings(BLOCK).iter().for_each(putting);
    greetings(LONGEST).iter().chain([&Greeting::two_minutes()]).for_each(putting);
    closings("Longer greetings: closing up 1,048,576 octets, beside memmove of the octets moved", LONGEST);
    short_calls("Longer greetings: short calls at 32 greetings of 32,768 octets", LONGEST);
    head("Longer greetings: loading, beside the walk", "load");
    greetings(LONGEST / 32).iter().for_each(|greeting| loading(LONGEST, 32, greeting));
    greetings(LONGEST).iter().chain([&Greeting::two_minutes()]).for_each(|greeting| loading(LONGEST, 1, greeting));
}
