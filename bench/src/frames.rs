//! The frames that are timed, by kind.

use crate::{ALL_TOOLS, SET};
use second::gen::{digit_rows, make_frame, Kind, Often, Pattern, Prng};
use std::path::{Path, PathBuf};

/// Frames of a kind.
pub const FRAMES: usize = 128;

/// One row of a table: frames of one law and, but for mixed ones, of one length.
pub struct Batch {
    pub name: String,
    pub law: u32,
    pub set: u32,
    pub frames: Vec<Vec<u8>>,
}

impl Batch {
    /// Whether the frames are mostly runs, so that the loop by bits stands beside the windows.
    pub fn has_runs(&self) -> bool {
        self.name.starts_with("Rice") || self.name.starts_with("values, runs")
    }
}

const fn values(case: usize, often: Often) -> Kind {
    Kind::Range { case, ones: often, minus_ones: often, minus_twos: often }
}

/// The kinds of one length; value-location has no frames of 40 samples.
const KINDS: [(&str, Kind); 9] = [
    ("plus zero", Kind::AllPlus),
    ("constant", Kind::Constant),
    ("binary", Kind::TwoZeros(Pattern::Half)),
    ("Rice, 1 in 8", Kind::TwoZeros(Pattern::Scattered { part: 1, whole: 8 })),
    ("Rice, 1 in 60", Kind::TwoZeros(Pattern::Scattered { part: 1, whole: 60 })),
    ("values, listed", values(1, Often::Times(2))),
    ("values, runs", values(1, Often::OneIn(12))),
    ("values, binary", values(1, Often::OneIn(3))),
    ("uncompressed", Kind::RandomOctets),
];

/// Frames of every kind and of these lengths.
pub fn by_kind(lengths: &[usize]) -> Vec<Batch> {
    let mut rng = Prng::new(1);
    let mut batches = Vec::new();
    for (name, kind) in KINDS {
        for length in lengths {
            if name.starts_with("values") && *length == 40 {
                continue;
            }
            let frames = (0..FRAMES).map(|_| make_frame(kind, *length, 1, &mut rng)).collect();
            batches.push(Batch { name: format!("{name} | {length}"), law: 1, set: SET, frames });
        }
    }
    batches
}

/// Rows of tool 11 (document 02, R-14) by how many values they have; of five and six there are frames of 40 samples alone.
const FEW: [(&str, usize); 5] =
    [("two values", 0), ("three values", 3), ("four values", 1), ("five values", 7), ("six values", 9)];

/// Frames that are written by tool 11, each value as often as another.
pub fn few_values(lengths: &[usize]) -> Vec<Batch> {
    let mut rng = Prng::new(4);
    let mut batches = Vec::new();
    for (name, row) in FEW {
        for length in lengths.iter().filter(|length| row < digit_rows(**length).0) {
            let kind = Kind::Digits { row, one_in: 1 };
            let frames = (0..FRAMES).map(|_| make_frame(kind, *length, 1, &mut rng)).collect();
            batches.push(Batch { name: format!("{name} | {length}"), law: 1, set: ALL_TOOLS, frames });
        }
    }
    batches
}

/// Frames of any octets, for both laws: what is converted.
pub fn any_octets(lengths: &[usize]) -> Vec<Batch> {
    let mut rng = Prng::new(3);
    let mut batches = Vec::new();
    for (law, name) in ["A", "mu"].iter().enumerate() {
        for length in lengths {
            let frames = (0..FRAMES).map(|_| make_frame(Kind::RandomOctets, *length, law as u32, &mut rng)).collect();
            batches.push(Batch { name: format!("{name} | {length}"), law: law as u32, set: SET, frames });
        }
    }
    batches
}

/// All kinds and all lengths in turn.
pub fn mixed() -> Batch {
    let mut rng = Prng::new(2);
    let frames = (0..FRAMES)
        .map(|turn| {
            let length = [40, 80, 160, 240, 320][turn % 5];
            make_frame(KINDS[turn * 7 % KINDS.len()].1, length, 1, &mut rng)
        })
        .collect();
    Batch { name: "mixed | all".into(), law: 1, set: SET, frames }
}

/// The law that the name of a file of samples says.
fn law_of(path: &Path) -> Option<u32> {
    match path.extension()?.to_str()? {
        "ul8" | "mu8" | "mu" => Some(1),
        "al8" | "al" => Some(0),
        _ => None,
    }
}

/// The recordings of tests/data/recordings, in frames of 160 samples.
pub fn recordings() -> Vec<Batch> {
    let folder = Path::new(env!("CARGO_MANIFEST_DIR")).join("../tests/data/recordings");
    let mut paths: Vec<PathBuf> =
        std::fs::read_dir(folder).expect("the recordings are shipped").flatten().map(|file| file.path()).collect();
    paths.sort();
    let batch = |path: &PathBuf| {
        let octets = std::fs::read(path).ok()?;
        let frames: Vec<Vec<u8>> = octets.chunks_exact(160).map(<[u8]>::to_vec).collect();
        let name = format!("{} | 160", path.file_name()?.to_str()?);
        (!frames.is_empty()).then_some(Batch { name, law: law_of(path)?, set: SET, frames })
    };
    paths.iter().filter_map(batch).collect()
}
