//! The runner itself: back ends that are wrong in one way each, and every one must be found out.

use tests::wrong::{Wrong, READING, WRITING};
use tests::{check, vectors, Codec, Compared, Read, Second, Vector, Walk, Write, MOST, MOST_LISTED};

/// The second program, spoilt.
struct Spoilt(&'static str);

impl Codec for Spoilt {
    fn name(&self) -> &str {
        self.0
    }

    fn read(&self, octets: &[u8], law: u32, set: u32, out: &mut [u8]) -> Read {
        let mut got = Second.read(octets, law, set, out);
        match self.0 {
            "refuses everything" => {
                out.fill(0);
                return Read { ending: 1, tool: 0, samples: 0, octets: 0, bits: 0, bit: 8 * octets.len() };
            }
            "answers P1 always" => return Second.read(&[0x41], law, set, out),
            "counts filling bits" => got.bits = got.octets * 8,
            "writes past its samples" if got.samples < out.len() => out[got.samples] ^= 1,
            "clears what is past its samples" => out[got.samples..].fill(0),
            "writes though it refuses" if got.ending != 0 && !out.is_empty() => out[out.len() - 1] = 0,
            "names a tool though it refuses" if got.ending > 3 => got.tool = 7,
            "counts octets though it refuses" if got.ending == 9 => got.octets = octets.len(),
            "forgets the last sample" if got.samples > 0 => out[got.samples - 1] ^= 0x80,
            "needs no filling bits to be 0" if got.ending == 9 => return Read { ending: 0, ..got },
            "calls a cut frame RUN" if got.ending == 1 && octets.len() > 1 => got.ending = 7,
            "gives no bit" => got.bit = 0,
            "gives the last bit that is there" if got.ending == 1 => got.bit = got.bit.saturating_sub(1),
            "gives a bit of what is accepted" if got.ending == 0 => got.bit = got.bits,
            "gives the next bit for RUN" if got.ending == 7 => got.bit += 1,
            "gives the octet's last bit for ALIGN" if got.ending == 9 => got.bit |= 7,
            _ => {}
        }
        got
    }

    fn write(&self, samples: &[u8], law: u32, set: u32, out: &mut [u8]) -> Write {
        if self.0 == "writes tool 1 always" {
            return Second.write(samples, law, set & !254, out);
        }
        let mut got = Second.write(samples, law, set, out);
        match self.0 {
            "writes nothing" => return Write { ending: 0, tool: 0, octets: 0, bits: 0 },
            "writes past its octets" if got.octets < out.len() => out[got.octets] ^= 1,
            "reports another tool" if got.tool == 5 => got.tool = 6,
            _ => {}
        }
        got
    }

    fn walk(&self, octets: &[u8], law: u32, set: u32, out: &mut [u8]) -> Walk {
        if self.0 == "walks one octet more" && octets.len() == MOST + 1 {
            return Second.walk(&octets[1..], law, set, out);
        }
        let mut got = Second.walk(octets, law, set, out);
        match self.0 {
            "walks no more than is listed" if got.ending != 12 && got.ending != 11 && octets.len() > MOST_LISTED => {
                got.ending = 13
            }
            "writes past the kept samples" if got.samples < out.len() => out[got.samples] ^= 1,
            "gives the end as the place" => got.place = octets.len(),
            "counts no pads" => got.frames -= octets.iter().filter(|octet| **octet == 0).count().min(got.frames),
            "keeps nothing when it refuses" if got.ending != 0 => {
                return Walk { frames: 0, octets: 0, samples: 0, place: 0, ..got };
            }
            "counts the bit from the stream's start" if got.ending != 0 => got.bit += 8 * got.place,
            "reads its first frame and counts the rest" if got.samples > 40 => out[40..got.samples].fill(0xA7),
            _ => {}
        }
        got
    }

    fn listing(&self, input: &[u8]) -> Option<Vec<u8>> {
        if self.0 == "lists as much as it walks" && (2 + MOST_LISTED..=1 + MOST).contains(&input.len()) {
            return Second.listing(&input[..1 + MOST_LISTED]);
        }
        let mut text = Second.listing(input)?;
        if self.0 == "lists tool 11 as if it were read" {
            text = String::from_utf8(text).ok()?.replace("stop=3 at=1 tool=11", "stop=0 at=1 tool=0").into_bytes();
        }
        if self.0 == "ends its last line with no 0A" {
            text.pop();
        }
        Some(text)
    }
}

fn all_vectors() -> Vec<Vector> {
    let files = [
        include_str!("../vectors/usual.txt"),
        include_str!("../vectors/unusual.txt"),
        include_str!("../vectors/faulty.txt"),
        include_str!("../vectors/open-points.txt"),
        include_str!("../vectors/fractional.txt"),
    ];
    files.iter().flat_map(|text| vectors(text).unwrap()).collect()
}

/// What the first vector finds that finds something.
fn faults(codec: &dyn Codec, vectors: &[Vector]) -> Vec<String> {
    let mut compared = Compared::default();
    for vector in vectors {
        check(codec, vector, &mut compared);
        if !compared.faults.is_empty() {
            break;
        }
    }
    compared.faults
}

#[test]
fn every_spoilt_back_end_is_found_out() {
    let vectors = all_vectors();
    for way in [
        "refuses everything",
        "answers P1 always",
        "counts filling bits",
        "writes past its samples",
        "clears what is past its samples",
        "writes though it refuses",
        "names a tool though it refuses",
        "counts octets though it refuses",
        "forgets the last sample",
        "needs no filling bits to be 0",
        "calls a cut frame RUN",
        "gives no bit",
        "gives the last bit that is there",
        "gives a bit of what is accepted",
        "gives the next bit for RUN",
        "gives the octet's last bit for ALIGN",
        "counts the bit from the stream's start",
        "writes tool 1 always",
        "writes nothing",
        "writes past its octets",
        "reports another tool",
        "writes past the kept samples",
        "gives the end as the place",
        "counts no pads",
        "keeps nothing when it refuses",
        "reads its first frame and counts the rest",
        "ends its last line with no 0A",
        "walks one octet more",
        "walks no more than is listed",
        "lists as much as it walks",
        "lists tool 11 as if it were read",
    ] {
        assert!(!faults(&Spoilt(way), &vectors).is_empty(), "a back end that {way} was not found out");
    }
}

/// Those that are wrong about tool 11, by the vectors alone.
#[test]
fn every_wrong_tool_11_is_found_out() {
    let vectors = all_vectors();
    for way in READING.into_iter().chain(WRITING) {
        assert!(!faults(&Wrong(way), &vectors).is_empty(), "a back end that {way} was not found out");
    }
    assert_eq!(faults(&Wrong("is as it should be"), &vectors), Vec::<String>::new());
}

#[test]
fn a_back_end_that_is_not_spoilt_is_let_through() {
    assert_eq!(faults(&Spoilt("is as it should be"), &all_vectors()), Vec::<String>::new());
}
