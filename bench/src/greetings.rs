//! The greetings that are put, mended, recorded and walked: streams of one kind.

use crate::frames::{by_kind, recordings, Batch};
use crate::{table, written};

/// Octets of the block of a box without settings.
pub const BLOCK: usize = 16_384;

/// One row of a table: a stream, and what the walk finds in it.
pub struct Greeting {
    pub name: String,
    pub law: u32,
    pub octets: Vec<u8>,
    pub samples: usize,
}

impl Greeting {
    pub fn of(name: &str, law: u32, octets: Vec<u8>) -> Greeting {
        let mut out = vec![0; 320 * octets.len()];
        let walked = second::walk(&octets, law, crate::SET, &mut out);
        assert_eq!(walked.ending, 0);
        Greeting { name: name.into(), law, octets, samples: walked.samples }
    }

    /// Two minutes of a hotel's guide, in frames of 160 samples.
    pub fn two_minutes() -> Greeting {
        let path = concat!(env!("CARGO_MANIFEST_DIR"), "/../tests/data/recordings/long/hotel.ul8");
        let sound = std::fs::read(path).expect("it is shipped");
        let frames = sound.chunks_exact(160).map(<[u8]>::to_vec).collect();
        let batch = Batch { name: String::new(), law: 1, set: crate::SET, frames };
        Greeting::of("two minutes", 1, written(&batch).concat())
    }

    /// As many of the frames, over and over, as these octets hold.
    fn of_batch(batch: &Batch, most: usize) -> Greeting {
        let mut octets = Vec::new();
        for form in written(batch).iter().cycle() {
            if octets.len() + form.len() > most {
                break;
            }
            octets.extend(form);
        }
        Greeting::of(batch.name.split(" | ").next().unwrap_or_default(), batch.law, octets)
    }
}

const KINDS: [&str; 4] = ["Rice, 1 in 8 | 160", "values, listed | 160", "values, runs | 160", "uncompressed | 160"];
const RECORDINGS: [&str; 3] = ["greeting.al8 | 160", "message.ul8 | 160", "silence.ul8 | 160"];

/// Greetings of at most so many octets: pads and frames of one octet, then frames of 160 samples by kind and of recordings.
pub fn greetings(most: usize) -> Vec<Greeting> {
    let mut all =
        vec![Greeting::of("pads", 1, vec![0x00; most]), Greeting::of("plus zeros, 40 samples", 1, vec![0x41; most])];
    let batches = by_kind(&[160]).into_iter().chain(recordings());
    let named = |batch: &Batch| KINDS.iter().chain(&RECORDINGS).any(|name| *name == batch.name);
    all.extend(batches.filter(named).map(|batch| Greeting::of_batch(&batch, most)));
    all
}

/// A table of calls that walk: each beside the walk over the same octets.
pub fn head(title: &str, call: &str) {
    let columns = format!(
        "| greeting | octets | {call}, ns | walk, ns | speed to the walk | wanted | second, ns | speed to second |"
    );
    table(title, &columns);
}

/// One of its rows.
pub fn row(name: &str, octets: usize, [own, walk, second]: [f64; 3], wanted: &str) {
    let speeds = [walk, second].map(|other| format!("{:.2}", other / own));
    println!("| {name} | {octets} | {own:.0} | {walk:.0} | {} | {wanted} | {second:.0} | {} |", speeds[0], speeds[1]);
}
