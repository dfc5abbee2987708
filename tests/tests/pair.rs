//! The comparison itself: two back ends that differ in one way must be found out.

use tests::{Ask, Codec, Pair, Read, Second, Walk, Write};

/// The second program, wrong in one way.
struct Wrong(&'static str);

impl Codec for Wrong {
    fn name(&self) -> &str {
        self.0
    }

    fn read(&self, octets: &[u8], law: u32, set: u32, out: &mut [u8]) -> Read {
        let mut got = Second.read(octets, law, set, out);
        match self.0 {
            "another tool" => got.tool ^= 1,
            "another bit" => got.bit ^= 1,
            "another sample" if got.samples > 0 => out[got.samples - 1] ^= 1,
            "an octet past the samples" if got.samples < out.len() => out[got.samples] ^= 1,
            "the last octet" if got.samples < out.len() => out[out.len() - 1] ^= 1,
            "an octet though refused" if got.ending != 0 => out[0] ^= 1,
            _ => {}
        }
        got
    }

    fn write(&self, samples: &[u8], law: u32, set: u32, out: &mut [u8]) -> Write {
        let got = Second.write(samples, law, set, out);
        match self.0 {
            "bits" => Write { bits: got.bits + 1, ..got },
            _ => got,
        }
    }

    fn walk(&self, octets: &[u8], law: u32, set: u32, out: &mut [u8]) -> Walk {
        let got = Second.walk(octets, law, set, out);
        match self.0 {
            "the place" if got.ending != 0 => Walk { place: octets.len(), ..got },
            "a walk's bit" => Walk { bit: got.bit + 1, ..got },
            _ => got,
        }
    }
}

/// A few calls on both.
fn differences(one: &dyn Codec, other: &dyn Codec) -> usize {
    let mut pair = Pair::new(one, other);
    let ask = |given: &[u8]| Ask { given: given.to_vec(), law: 1, set: 127, room: 100 };
    pair.read(&ask(&[0x41]));
    pair.read(&ask(&[0x56, 0x0F]));
    pair.read(&ask(&[0x57, 0x19]));
    pair.write(&ask(&[0xFF; 40]));
    pair.walk(&ask(&[0x41, 0x00, 0x01, 0x41]));
    assert_eq!(pair.calls, 5);
    assert_eq!(pair.shown().len(), pair.differences);
    pair.differences
}

#[test]
fn each_difference_is_found() {
    for way in [
        "another tool",
        "another bit",
        "a walk's bit",
        "another sample",
        "an octet past the samples",
        "the last octet",
        "an octet though refused",
        "bits",
        "the place",
    ] {
        assert!(differences(&Wrong(way), &Second) > 0, "{way}");
        assert!(differences(&Second, &Wrong(way)) > 0, "{way}, the other way round");
    }
    assert_eq!(differences(&Wrong("nothing"), &Second), 0);
}

/// Two that are wrong in the same way are equal; but neither may touch what it does not report.
#[test]
fn both_wrong_alike() {
    for way in ["an octet past the samples", "the last octet", "an octet though refused"] {
        assert!(differences(&Wrong(way), &Wrong(way)) > 0, "{way}");
    }
}

#[test]
#[should_panic(expected = "1 differences")]
fn a_difference_fails() {
    let mut pair = Pair::new(&Wrong("bits"), &Second);
    pair.write(&Ask { given: vec![0xFF; 40], law: 1, set: 127, room: 100 });
    pair.close();
}
