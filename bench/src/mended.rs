//! A damaged greeting, mended, beside the walk over the same octets.

use crate::calls;
use crate::greetings::{greetings, head, row, Greeting, BLOCK};
use crate::time::best;
use std::hint::black_box;

/// Some of a greeting's octets, mended to the greeting's whole total.
fn mending(what: &str, Greeting { name, law, samples, .. }: &Greeting, octets: &[u8]) {
    let total = *samples as u64;
    let mut outs = [0, 1].map(|_| vec![0; g7110::MAX_STREAM]);
    let [one, other] = outs.each_mut();
    let mut out = vec![0; samples + 320];
    let times = best([
        &mut || {
            black_box(calls::proved_mend(black_box(octets), *law, total, one));
        },
        &mut || {
            black_box(calls::proved_walk(black_box(octets), *law, crate::SET, &mut out));
        },
        &mut || {
            black_box(calls::second_mend(black_box(octets), *law, total, other));
        },
    ]);
    assert_eq!(outs[0], outs[1]);
    row(&format!("{name}, {what}"), octets.len(), times, "0.9");
}

pub fn tables() {
    head("Mending, beside the walk over the same octets", "mend");
    for greeting in greetings(BLOCK) {
        mending("undamaged", &greeting, &greeting.octets);
        mending("cut", &greeting, &greeting.octets[..greeting.octets.len() / 2]);
    }
}
