//! The bench tools `pack`, `unpack`, `why` and `mend`, run through tools/status, and what they should do, worked out with
//! the second program.

use crate::program::{built, line, repository, run, words};
use crate::recordings::{cuts, packed, Packed};
use crate::{Codec, Second, ALL_TOOLS, ENDINGS, LISTED_TOOLS, MOST};
use std::path::{Path, PathBuf};
use std::process::Command;

/// How a tool ends that was called wrongly, that found another sound than the master's, that found losses, and that had
/// trouble with a file.
pub const USAGE: u32 = 64;
pub const DIFFERS: u32 = 65;
pub const LOST: u32 = 66;
pub const FILES: u32 = 74;

/// The sets of tools that are not told one: `pack` and `why` have what boxes of before R-14 read, `unpack` reads all.
pub const PACKED_WITH: u32 = LISTED_TOOLS;
pub const READ_WITH: u32 = ALL_TOOLS;

/// The last line: `stop=N at=P tool=T`, and of `unpack` and `mend` ` bit=B` behind it.
#[derive(Clone, Copy, Debug, PartialEq, Eq)]
pub struct Stop {
    pub number: u32,
    pub at: usize,
    pub tool: u32,
    pub bit: usize,
}

impl Stop {
    /// One that finds no fault with a bit.
    pub fn new(number: u32, at: usize, tool: u32) -> Stop {
        Stop { number, at, tool, bit: 0 }
    }

    /// A line that is just this, with a bit or without.
    fn of(text: &str, has_bit: bool) -> Option<Stop> {
        let mut fields = text.split(' ');
        let mut number = |name: &str| fields.next()?.strip_prefix(name)?.parse::<usize>().ok();
        let (stop, at, tool) = (number("stop=")?, number("at=")?, number("tool=")?);
        let (bit, last) = match has_bit {
            true => number("bit=").map(|bit| (bit, format!(" bit={bit}")))?,
            false => (0, String::new()),
        };
        let whole = text == format!("stop={stop} at={at} tool={tool}{last}");
        whole.then_some(Stop { number: stop as u32, at, tool: tool as u32, bit })
    }
}

/// What a run left.
pub struct Ran {
    pub line: String,
    pub status: i32,
    pub out: Vec<u8>,
    pub err: String,
}

impl Ran {
    pub fn stop(&self) -> Stop {
        let last = self.err.lines().last().unwrap_or("");
        let whole = self.err.ends_with('\n');
        let has_bit = ["unpack", "mend"].iter().any(|name| self.line.starts_with(name));
        Stop::of(last, has_bit).filter(|_| whole).unwrap_or_else(|| panic!("{}: no last line\n{}", self.line, self.err))
    }

    /// A number that a line before the last says.
    pub fn said(&self, name: &str) -> Option<usize> {
        let lines = self.err.lines().filter(|line| !line.starts_with("stop="));
        let mut fields = lines.flat_map(str::split_whitespace);
        fields.find_map(|field| field.strip_prefix(name)?.strip_prefix('=')?.parse().ok())
    }

    /// Fails unless the run ended so. The exit status is the number; a refusal is told by its name.
    pub fn ends(&self, wanted: Stop) -> &Ran {
        assert_eq!(self.stop(), wanted, "{}\n{}", self.line, self.err);
        assert_eq!(self.status, wanted.number as i32, "{}: the status\n{}", self.line, self.err);
        let name = ENDINGS.get(wanted.number as usize).filter(|_| wanted.number > 0);
        let told = name.map_or(true, |name| self.err.lines().rev().skip(1).any(|line| line.contains(name)));
        assert!(told, "{}: the name is not told\n{}", self.line, self.err);
        let message = wanted.number == 0 || self.err.lines().count() > 1;
        assert!(message, "{}: no message\n{}", self.line, self.err);
        self
    }

    /// Fails unless a line says this.
    pub fn says(&self, text: &str) -> &Ran {
        assert!(self.err.contains(text), "{}: wanted {text:?}\n{}", self.line, self.err);
        self
    }

    /// Fails unless the summary has these numbers.
    pub fn sums(&self, frames: usize, samples: usize, octets: usize) -> &Ran {
        let said = ["frames", "samples", "octets"].map(|name| self.said(name));
        assert_eq!(said, [frames, samples, octets].map(Some), "{}\n{}", self.line, self.err);
        self
    }

    /// Fails unless standard output has just these octets.
    pub fn writes(&self, wanted: &[u8]) -> &Ran {
        same(&self.line, &self.out, wanted);
        self
    }
}

/// Fails unless two lists of octets are equal, and says where they are not.
pub fn same(what: &str, got: &[u8], wanted: &[u8]) {
    if let Some(at) = (0..got.len().max(wanted.len())).find(|at| got.get(*at) != wanted.get(*at)) {
        panic!(
            "{what}: octet {at} of {} is {:02X?}, wanted {:02X?} of {}",
            got.len(),
            got.get(at),
            wanted.get(at),
            wanted.len()
        );
    }
}

/// A folder to work in, empty at first.
pub struct Room {
    pub folder: PathBuf,
    pub runs: usize,
}

impl Room {
    pub fn new(temporary: &str, name: &str) -> Room {
        let folder = Path::new(temporary).join("tools").join(name);
        let _ = std::fs::remove_dir_all(&folder);
        std::fs::create_dir_all(&folder).expect("a folder can be made");
        Room { folder, runs: 0 }
    }

    pub fn put(&self, name: &str, octets: &[u8]) {
        std::fs::write(self.folder.join(name), octets).expect("a file can be made");
    }

    pub fn take(&self, name: &str) -> Vec<u8> {
        std::fs::read(self.folder.join(name)).unwrap_or_else(|fault| panic!("{name}: {fault}"))
    }

    pub fn has(&self, name: &str) -> bool {
        self.folder.join(name).exists()
    }

    /// The names of all files, in order.
    pub fn names(&self) -> Vec<String> {
        let files = std::fs::read_dir(&self.folder).expect("the folder is there");
        let mut names: Vec<String> = files.map(|file| file.unwrap().file_name().into_string().unwrap()).collect();
        names.sort();
        names
    }

    /// Runs a tool here, through tools/status. The words are parted by blanks.
    pub fn run(&mut self, name: &str, args: &str, input: &[u8]) -> Ran {
        self.run_words(name, &args.split_whitespace().collect::<Vec<_>>(), input)
    }

    pub fn run_words(&mut self, name: &str, args: &[&str], input: &[u8]) -> Ran {
        self.runs += 1;
        let mut command = Command::new(repository().join("tools/status"));
        command.args(words(&built(name))).args(args).current_dir(&self.folder);
        let ended = run(command, input);
        Ran {
            line: line(&[&[name], args].concat()),
            status: ended.status.code().unwrap_or(-1),
            out: ended.stdout,
            err: String::from_utf8_lossy(&ended.stderr).into_owned(),
        }
    }

    /// Runs a tool with so many KiB of stack, by the system's limit and by the emulator's: its last line, if it came to its
    /// end.
    pub fn with_a_stack_of(&mut self, kib: usize, name: &str, args: &[&str]) -> Option<String> {
        self.runs += 1;
        let mut command = Command::new("sh");
        command.args(["-c", &format!("ulimit -c 0 && ulimit -s {kib} && exec \"$@\""), "sh"]);
        command.args(words(&built(name))).args(args).current_dir(&self.folder);
        command.env("QEMU_STACK_SIZE", (1_024 * kib).to_string());
        let ended = run(command, &[]);
        let said = String::from_utf8_lossy(&ended.stderr).into_owned();
        said.lines().last().filter(|_| ended.status.success()).map(str::to_string)
    }
}

/// The letter of a law's option, and the ending of its raw files and streams.
pub fn law_words(law: u32) -> (&'static str, &'static str, &'static str) {
    [("-a", "al8", "lca"), ("-u", "ul8", "lcm")][law as usize]
}

pub fn plus_zero(law: u32) -> u8 {
    [0xD5, 0xFF][law as usize]
}

/// What `pack` should do with a sound.
pub struct PackWanted {
    pub stop: Stop,
    pub stream: Packed,
    pub filled: usize,
}

/// With `fill`, plus zeros are added up to the next multiple of 40, and the sound is then cut with them. Without it, octets
/// that no length fits are LENGTH where they begin. A stream that would be too long is LONG, with the sound that fits.
pub fn pack_wanted(sound: &[u8], law: u32, set: u32, length: usize, fill: bool) -> PackWanted {
    let mut whole = sound.to_vec();
    if fill {
        whole.resize(sound.len().next_multiple_of(40), plus_zero(law));
    }
    let fits = whole.len() - cuts(whole.len(), length).1;
    let stream = packed(&Second, &whole, law, set, length, MOST);
    let stop = match stream.samples {
        samples if samples < fits => Stop::new(13, samples, 0),
        _ if fits < whole.len() => Stop::new(10, fits, 0),
        _ => Stop::new(0, whole.len(), 0),
    };
    PackWanted { stop, stream, filled: whole.len() - sound.len() }
}

/// What `unpack` should do with a stream: its last line, the frames, and the sound.
pub struct UnpackWanted {
    pub stop: Stop,
    pub frames: usize,
    pub sound: Vec<u8>,
}

pub fn unpack_wanted(stream: &[u8], law: u32, set: u32) -> UnpackWanted {
    let mut sound = vec![0; 320 * stream.len().min(MOST)];
    let got = Second.walk(stream, law, set, &mut sound);
    sound.truncate(got.samples);
    let stop = Stop { number: got.ending, at: got.place, tool: got.tool, bit: got.bit };
    UnpackWanted { stop, frames: got.frames, sound }
}

/// Octets that `unpack` reads at a time.
pub const WINDOW: usize = 131_072;

/// Where its windows begin in a stream, or in a recording's items: each with the last frame that begins in the one before,
/// or at its end.
pub fn windows(starts: &[usize], octets: usize) -> Vec<usize> {
    let mut windows = vec![0];
    loop {
        let end = windows[windows.len() - 1] + WINDOW;
        if octets <= end {
            return windows;
        }
        windows.push(starts[starts.partition_point(|start| *start <= end) - 1]);
    }
}

/// What `unpack -c` should say: where the sound and the master part, if that is in the frames kept; else how the stream
/// ended; else whether the master goes on.
pub fn verify_wanted(stream: &[u8], law: u32, set: u32, master: &[u8]) -> Stop {
    let UnpackWanted { stop, sound, .. } = unpack_wanted(stream, law, set);
    match (0..sound.len()).find(|at| master.get(*at) != sound.get(*at)) {
        Some(at) => Stop::new(DIFFERS, at, 0),
        None if stop.number == 0 && master.len() > sound.len() => Stop::new(DIFFERS, sound.len(), 0),
        None => stop,
    }
}

/// What `why` should do with a sound: the text, and how it ends.
pub struct WhyWanted {
    pub stop: Stop,
    /// The lines of each frame, `frame=K at=P` first.
    pub frames: Vec<String>,
}

/// The frames are those of `pack`, however long the sound is. Octets that no length fits are LENGTH where they begin, after
/// the lines of the frames before them.
pub fn why_wanted(sound: &[u8], law: u32, set: u32, length: usize) -> WhyWanted {
    let (mut at, mut frames) = (0, Vec::new());
    let (lengths, left) = cuts(sound.len(), length);
    for (number, cut) in lengths.into_iter().enumerate() {
        let why = second::why::why(&sound[at..at + cut], law, set).expect("law, set and length are right");
        let lines = String::from_utf8(second::why::lines(&why)).expect("lines are text");
        frames.push(format!("frame={number} at={at}\n{lines}"));
        at += cut;
    }
    WhyWanted { stop: Stop::new(if left > 0 { 10 } else { 0 }, at, 0), frames }
}

/// What `mend` should do with a stream: all that it says, and the file.
pub struct MendWanted {
    pub stop: Stop,
    pub said: String,
    /// The refusal that the walk of what is kept stopped with, 0 where it came to the end.
    pub walk: u32,
    pub result: Vec<u8>,
}

/// Of a total that is not refused. The walk has as much room as the total.
pub fn mend_wanted(stream: &[u8], law: u32, total: usize) -> MendWanted {
    let mut result = vec![0; MOST];
    let done = second::mend::mend(stream, law, total as u64, &mut result).expect("stream and total are right");
    result.truncate(done.octets);
    let walk = Second.walk(stream, law, ALL_TOOLS, &mut vec![0; total]);
    assert_eq!((walk.frames, walk.place), (done.frames_kept, done.octets_kept), "the walk keeps what is kept");
    let stopped = match walk.ending {
        0 => String::new(),
        number => {
            let name = ENDINGS[number as usize];
            format!("mend: the walk stopped: {name} at octet {}, bit {}\n", walk.place, walk.bit)
        }
    };
    let said = format!(
        "{stopped}frames={} kept={} filled={}\nwalk={} at={} tool={} bit={}\nstop=0 at={} tool=0 bit=0\n",
        done.frames_kept,
        done.octets_kept,
        done.samples_filled,
        walk.ending,
        walk.place,
        walk.tool,
        walk.bit,
        done.octets
    );
    MendWanted { stop: Stop::new(0, done.octets, 0), said, walk: walk.ending, result }
}
