//! Streams of frames, whole and damaged.

use crate::forms::{listed_form, plain_form, some_form, Field, Form};
use second::gen::Prng;

/// Frames one after another, with the place where each starts.
pub struct Stream {
    pub octets: Vec<u8>,
    pub forms: Vec<Form>,
    pub starts: Vec<usize>,
}

impl Stream {
    /// Frames that are drawn as long as the stream is not longer than so many octets.
    pub fn of(most: usize, mut draw: impl FnMut() -> Form) -> Stream {
        let mut stream = Stream { octets: Vec::new(), forms: Vec::new(), starts: Vec::new() };
        loop {
            let form = draw();
            let octets = form.octets();
            if stream.octets.len() + octets.len() > most {
                return stream;
            }
            stream.starts.push(stream.octets.len());
            stream.octets.extend(octets);
            stream.forms.push(form);
        }
    }

    /// Frames of every tool and length, in turn; some are pads.
    pub fn mixed(most: usize, law: u32, rng: &mut Prng) -> Stream {
        Stream::of(most, || some_form(law, rng))
    }

    /// The same without tool 11: frames that the listing program takes.
    pub fn listed(most: usize, law: u32, rng: &mut Prng) -> Stream {
        Stream::of(most, || listed_form(law, rng))
    }

    /// Mostly frames of 320 samples as they are, and so the octets that are walked fastest.
    pub fn plain(most: usize, law: u32, rng: &mut Prng) -> Stream {
        Stream::of(most, || if rng.chance(1, 3) { some_form(law, rng) } else { plain_form(320, rng) })
    }

    pub fn samples(&self) -> usize {
        self.forms.iter().map(Form::length).sum()
    }

    /// The stream with one bit of one field turned, if a frame of it has such a field.
    pub fn turned(&self, field: &str, rng: &mut Prng) -> Option<Vec<u8>> {
        let at = rng.below(self.forms.len().max(1));
        let form = self.forms.get(at)?;
        let bits: Vec<usize> =
            (0..8 * form.octets().len()).filter(|bit| field_name(form.bits.field_at(*bit)) == field).collect();
        if bits.is_empty() {
            return None;
        }
        let bit = 8 * self.starts[at] + rng.pick(&bits);
        let mut octets = self.octets.clone();
        octets[bit / 8] ^= 0x80 >> (bit % 8);
        Some(octets)
    }
}

/// So many frames of 320 samples as they are, 321 octets each: what a long stream is made of quickly.
pub fn plain_frames(frames: usize, rng: &mut Prng) -> Vec<u8> {
    (0..frames).flat_map(|_| [vec![0x30], rng.octets(320)].concat()).collect()
}

/// The kinds of place where a stream is damaged.
pub const FIELDS: [&str; 15] = [
    "prefix",
    "samples",
    "constant",
    "binary",
    "code of S",
    "zeros",
    "low bits",
    "range case",
    "method",
    "D bits",
    "count",
    "place",
    "digits",
    "five samples",
    "filling",
];

pub fn field_name(field: Field) -> &'static str {
    match field {
        Field::Prefix => FIELDS[0],
        Field::Samples => FIELDS[1],
        Field::Constant => FIELDS[2],
        Field::Binary => FIELDS[3],
        Field::SCode => FIELDS[4],
        Field::Zeros(_) => FIELDS[5],
        Field::Low => FIELDS[6],
        Field::Case => FIELDS[7],
        Field::Method(_) => FIELDS[8],
        Field::Row => FIELDS[9],
        Field::Count => FIELDS[10],
        Field::Place(_) => FIELDS[11],
        Field::Digits => FIELDS[12],
        Field::Fives(_) => FIELDS[13],
        Field::Filling => FIELDS[14],
    }
}
