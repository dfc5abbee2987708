//! Published test signals: a folder with raw files and, beside each, its G.711.0 stream. Each stream is read by two
//! back ends and held against the raw file; the raw file is then written again in frames of the same lengths.
//!
//! Another writer may choose other tools, so octets that differ when written again are told and are no mismatch. A frame
//! of a tool that is not carried is refused with TOOL; where the next one starts is then not known, and the rest of that
//! stream is not compared.

use crate::recordings::law_of;
use crate::{ending, Ask, Codec, Pair, ALL_TOOLS, ENDINGS};
use std::fmt;
use std::path::{Path, PathBuf};

const SET: u32 = ALL_TOOLS;
/// More octets than a frame needs to be read or refused.
const MOST_FRAME: usize = 1_024;

/// A raw file and its stream.
#[derive(Clone, Debug, PartialEq, Eq)]
pub struct Signal {
    pub raw: PathBuf,
    pub stream: PathBuf,
    pub law: u32,
}

/// How a comparison ended.
#[derive(Clone, Debug, PartialEq, Eq)]
pub enum End {
    /// All of the raw file came out of all of the stream.
    Equal,
    /// All was equal up to a frame of a tool that is not carried.
    NotCarried {
        at: usize,
        tool: u32,
    },
    Mismatch(String),
}

/// What was found of one signal.
pub struct Found {
    pub name: String,
    pub end: End,
    /// Frames read, with their samples and octets.
    pub frames: usize,
    pub samples: usize,
    pub octets: usize,
    /// Frames that come out with the same octets when they are written again.
    pub same: usize,
    /// Octets of the frames written again.
    pub written: usize,
}

impl fmt::Display for Found {
    fn fmt(&self, f: &mut fmt::Formatter) -> fmt::Result {
        let Found { name, end, frames, samples, octets, same, written } = self;
        match end {
            End::Equal => write!(f, "{name}: equal")?,
            End::NotCarried { at, tool } => write!(f, "{name}: equal up to octet {at}: TOOL, tool {tool}")?,
            End::Mismatch(why) => write!(f, "{name}: MISMATCH: {why}")?,
        }
        write!(f, "; read {frames} frames, {samples} samples, {octets} octets")?;
        write!(f, "; written again {same} frames the same, {} other, {written} octets", frames - same)
    }
}

/// All pairs of a folder and the folders in it, by name, and the files that have no partner.
pub fn signals(folder: &Path) -> std::io::Result<(Vec<Signal>, Vec<PathBuf>)> {
    let mut files = Vec::new();
    files_of(folder, &mut files)?;
    files.sort();
    let (mut signals, mut alone) = (Vec::new(), Vec::new());
    let law = |path: &Path, law: fn(&Path) -> Option<u32>| law(&path.with_extension(ending_of(path)));
    let streams: Vec<_> = files.iter().filter_map(|path| Some((path, law(path, stream_law)?))).collect();
    let raws: Vec<_> = files.iter().filter_map(|path| Some((path, law(path, law_of)?))).collect();
    let pairs = |raw: &(&PathBuf, u32), stream: &(&PathBuf, u32)| {
        raw.1 == stream.1 && raw.0.with_extension("") == stream.0.with_extension("")
    };
    for stream in &streams {
        match raws.iter().find(|raw| pairs(raw, stream)) {
            Some(raw) => signals.push(Signal { raw: raw.0.clone(), stream: stream.0.clone(), law: stream.1 }),
            None => alone.push(stream.0.clone()),
        }
    }
    let lonely = raws.iter().filter(|raw| !streams.iter().any(|stream| pairs(raw, stream)));
    alone.extend(lonely.map(|raw| raw.0.clone()));
    Ok((signals, alone))
}

fn files_of(folder: &Path, files: &mut Vec<PathBuf>) -> std::io::Result<()> {
    for entry in std::fs::read_dir(folder)? {
        let path = entry?.path();
        match path.is_dir() {
            true => files_of(&path, files)?,
            false => files.push(path),
        }
    }
    Ok(())
}

/// The ending in small letters.
fn ending_of(path: &Path) -> String {
    path.extension().map(|ending| ending.to_string_lossy().to_lowercase()).unwrap_or_default()
}

/// The law that the ending of a stream's file says.
fn stream_law(path: &Path) -> Option<u32> {
    match path.extension()?.to_str()? {
        "lcm" => Some(1),
        "lca" => Some(0),
        _ => None,
    }
}

/// Compares one signal.
pub fn compare(one: &dyn Codec, other: &dyn Codec, name: &str, raw: &[u8], stream: &[u8], law: u32) -> Found {
    let mut pair = Pair::new(one, other);
    let mut found =
        Found { name: name.to_string(), end: End::Equal, frames: 0, samples: 0, octets: 0, same: 0, written: 0 };
    while found.octets < stream.len() {
        if let Err(end) = found.frame(&mut pair, raw, stream, law) {
            found.end = end;
            return found;
        }
    }
    if found.samples < raw.len() {
        let said = format!("the stream ends after {} samples, the raw file has {}", found.samples, raw.len());
        found.end = End::Mismatch(said);
    }
    found
}

impl Found {
    /// The next frame: read, held against the raw file, written again.
    fn frame(&mut self, pair: &mut Pair, raw: &[u8], stream: &[u8], law: u32) -> Result<(), End> {
        let (at, first) = (self.octets, self.samples);
        let most = stream.len().min(at + MOST_FRAME);
        let got = pair.read(&Ask { given: stream[at..most].to_vec(), law, set: SET, room: 320 });
        both_agree(pair, at)?;
        if got.ending == ending("TOOL").expect("a name of document 01") {
            return Err(End::NotCarried { at, tool: got.tool });
        }
        if got.ending != 0 {
            return Err(End::Mismatch(format!("{} at octet {at}", ENDINGS[got.ending as usize])));
        }
        let wanted = &raw[first..raw.len().min(first + got.samples)];
        let sound = pair.output();
        if let Some(place) = (0..wanted.len()).find(|place| sound[*place] != wanted[*place]) {
            let (sample, is, should) = (first + place, sound[place], wanted[place]);
            let said = format!("sample {sample} is {is:02X}, wanted {should:02X}, in the frame at octet {at}");
            return Err(End::Mismatch(said));
        }
        if wanted.len() < got.samples {
            let said = format!("the raw file ends after {} samples, in the frame at octet {at}", raw.len());
            return Err(End::Mismatch(said));
        }
        let wrote = pair.write(&Ask { given: wanted.to_vec(), law, set: SET, room: 321 });
        both_agree(pair, at)?;
        self.same += usize::from(pair.output() == &stream[at..at + got.octets]);
        self.written += wrote.octets;
        self.frames += 1;
        self.octets += got.octets;
        self.samples += got.samples;
        Ok(())
    }
}

/// A difference of the two back ends is a mismatch.
fn both_agree(pair: &Pair, at: usize) -> Result<(), End> {
    match pair.differences {
        0 => Ok(()),
        _ => Err(End::Mismatch(format!("the programs differ on the frame at octet {at}: {}", pair.last()))),
    }
}
