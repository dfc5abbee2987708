//! The shipped recordings, and a sound cut into frames as `pack` cuts it.

use crate::forms::LENGTHS;
use crate::Codec;
use std::path::{Path, PathBuf};

/// A sound under its law; the name has the file's ending.
pub struct Recording {
    pub name: String,
    pub law: u32,
    pub sound: Vec<u8>,
}

/// tests/data/recordings.
pub fn folder() -> PathBuf {
    Path::new(env!("CARGO_MANIFEST_DIR")).join("data/recordings")
}

/// The law that the ending of a raw file says.
pub fn law_of(path: &Path) -> Option<u32> {
    match path.extension()?.to_str()? {
        "ul8" | "mu8" | "mu" => Some(1),
        "al8" | "al" => Some(0),
        _ => None,
    }
}

/// All of them, by name.
pub fn recordings() -> Vec<Recording> {
    let mut paths: Vec<PathBuf> =
        std::fs::read_dir(folder()).expect("the recordings are shipped").map(|file| file.unwrap().path()).collect();
    paths.sort();
    let recording = |path: &PathBuf| {
        let name = path.file_name()?.to_str()?.to_string();
        Some(Recording { name, law: law_of(path)?, sound: std::fs::read(path).ok()? })
    };
    paths.iter().filter_map(recording).collect()
}

/// The two minutes of a hotel (document 02, R-11), as shipped, under mu-law; and under A-law by document 02's conversions, brought
/// from 14 bits to 13.
pub fn two_minutes() -> [Recording; 2] {
    let sound = std::fs::read(folder().join(TWO_MINUTES)).expect("it is shipped");
    let to_a = |octet: &u8| {
        let linear = second::linear::linear_of(*octet, 1).expect("a law");
        second::linear::octet_of(linear >> 1, 0).expect("a law")
    };
    let other = sound.iter().map(to_a).collect();
    let name = |ending: &str| format!("hotel.{ending}");
    [Recording { name: name("ul8"), law: 1, sound }, Recording { name: name("al8"), law: 0, sound: other }]
}

/// Its name in [`folder`]. It is not among [`recordings`]: it is longer than all of them together.
pub const TWO_MINUTES: &str = "long/hotel.ul8";

/// The lengths of the frames of so many samples: each the largest that is at most `most` and at most what is left. Also
/// gives how many samples at the end no length fits.
pub fn cuts(samples: usize, most: usize) -> (Vec<usize>, usize) {
    let mut left = samples;
    let mut lengths = Vec::new();
    while let Some(length) = LENGTHS.into_iter().rev().find(|length| *length <= most.min(left)) {
        lengths.push(length);
        left -= length;
    }
    (lengths, left)
}

/// A sound as frames, one after the other.
#[derive(Default)]
pub struct Packed {
    pub octets: Vec<u8>,
    pub frames: usize,
    /// The samples in them.
    pub samples: usize,
}

/// The frames of a sound, as many as are in `most` octets.
pub fn packed(codec: &dyn Codec, sound: &[u8], law: u32, set: u32, length: usize, most: usize) -> Packed {
    let mut packed = Packed::default();
    let mut form = [0; 321];
    for cut in cuts(sound.len(), length).0 {
        let frame = &sound[packed.samples..packed.samples + cut];
        let wrote = codec.write(frame, law, set, &mut form);
        assert_eq!(wrote.ending, 0, "law {law}, set {set}, {cut} samples at {}", packed.samples);
        if packed.octets.len() + wrote.octets > most {
            return packed;
        }
        packed.octets.extend(&form[..wrote.octets]);
        packed.frames += 1;
        packed.samples += cut;
    }
    packed
}

#[cfg(test)]
mod tests {
    use super::cuts;

    #[test]
    fn the_end_is_split_into_the_largest_lengths() {
        assert_eq!(cuts(0, 160), (vec![], 0));
        assert_eq!(cuts(39, 160), (vec![], 39));
        assert_eq!(cuts(441, 160), (vec![160, 160, 80, 40], 1));
        assert_eq!(cuts(320 + 280, 320), (vec![320, 240, 40], 0));
        assert_eq!(cuts(320 + 200, 320), (vec![320, 160, 40], 0));
        assert_eq!(cuts(200, 240), (vec![160, 40], 0));
        assert_eq!(cuts(120, 40), (vec![40, 40, 40], 0));
    }
}
