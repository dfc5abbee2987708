//! Runs vectors on a back end and compares all that comes back: the report, the output, and what stands around it.
//! Beside each vector its neighbours are run: calls whose answers follow from the vector's by the rules of document 01.

use crate::vectors::{Ask, Call, First, Settled, Vector};
use crate::{ending, set_of, Codec, Read, Walk, Write, ALL_TOOLS, ENDINGS, LISTED_TOOLS};
use std::fmt::{Debug, Display};
use std::panic::{catch_unwind, AssertUnwindSafe};

/// Each call is made on two outputs, filled with these; no octet is both, so none can be left out unseen.
const FILLS: [u8; 2] = [0xA7, 0x58];
/// Octets before and after the room that is lent. They belong to the caller.
const MARGIN: usize = 64;
/// The greatest octets of a form, and so the room that any writer has enough of.
const MOST_FORM: usize = 321;
/// The laws' masks are 55 and 7F: samples that differ by this are the same signed number under the two laws.
const MASKS: u8 = 0x55 ^ 0x7F;

/// What was compared, and every difference that was found.
#[derive(Default)]
pub struct Compared {
    pub reads: usize,
    pub writes: usize,
    pub walks: usize,
    pub lists: usize,
    /// Lines for a call that the back end does not have.
    pub left_out: usize,
    /// Calls of vectors and of their neighbours, each made once for each fill.
    pub calls: usize,
    pub faults: Vec<String>,
}

impl Compared {
    pub fn vectors(&self) -> usize {
        self.reads + self.writes + self.walks + self.lists
    }
}

impl Display for Compared {
    fn fmt(&self, f: &mut std::fmt::Formatter) -> std::fmt::Result {
        let Compared { reads, writes, walks, lists, left_out, calls, .. } = self;
        write!(
            f,
            "{} vectors (read {reads}, write {writes}, walk {walks}, list {lists}), {calls} calls",
            self.vectors()
        )?;
        match left_out {
            0 => Ok(()),
            n => write!(f, ", {n} left out"),
        }
    }
}

/// Runs one vector and its neighbours.
pub fn check(codec: &dyn Codec, vector: &Vector, compared: &mut Compared) {
    let mut bench = Bench { codec, name: &vector.name, compared };
    match &vector.call {
        Call::Read(ask, wanted, samples) => {
            bench.compared.reads += 1;
            bench.read("read", ask, *wanted, samples);
            bench.beside_read(ask, *wanted, samples);
        }
        Call::Write(..) if !codec.writes() => bench.compared.left_out += 1,
        Call::Write(ask, wanted, octets) => {
            bench.compared.writes += 1;
            bench.write("write", ask, *wanted, octets);
            bench.beside_write(ask, *wanted, octets);
        }
        Call::Walk(ask, wanted, samples) => {
            bench.compared.walks += 1;
            bench.walk("walk", ask, *wanted, samples);
        }
        Call::List(input, text) => bench.list(input, text),
    }
}

/// Runs the 256 first octets, through answers that show tool and length; each must be there.
pub fn check_firsts(codec: &dyn Codec, firsts: &[First], compared: &mut Compared) {
    let mut seen = [0usize; 256];
    for first in firsts {
        let name = format!("first {:02X}", first.octet);
        let mut bench = Bench { codec, name: &name, compared };
        let all: Vec<u8> = (0..=255).collect();
        let nexts = first.next.as_ref().unwrap_or(&all);
        seen[first.octet as usize] += nexts.len();
        let alone = Ask { given: vec![first.octet], law: 1, set: 0, room: 0 };
        match first.next {
            Some(_) => bench.read("alone", &alone, short(1), &[]),
            None => bench.first(&alone, first.settled),
        }
        for next in nexts {
            bench.first(&Ask { given: vec![first.octet, *next], ..alone.clone() }, first.settled);
        }
        bench.compared.reads += 1;
    }
    for (octet, nexts) in seen.iter().enumerate() {
        if *nexts != 256 {
            compared.faults.push(format!("first {octet:02X}: {nexts} second octets stand in the file, not 256"));
        }
    }
}

/// A report of the reader with nothing in it: PREFIX, TOOL and ROOM give bit 0.
fn refused(name: &str, tool: u32) -> Read {
    Read { ending: ending(name).expect("a name of document 01"), tool, samples: 0, octets: 0, bits: 0, bit: 0 }
}

/// SHORT of so many octets: it gives the first missing bit.
fn short(octets: usize) -> Read {
    Read { bit: 8 * octets, ..refused("SHORT", 0) }
}

/// Whether the body of a tool's frame has samples as they are: uncompressed and constant.
fn has_samples(tool: u32) -> bool {
    tool == 1 || tool == 4
}

fn masked(list: &[u8], mask: u8) -> Vec<u8> {
    list.iter().map(|octet| octet ^ mask).collect()
}

struct Bench<'a> {
    codec: &'a dyn Codec,
    name: &'a str,
    compared: &'a mut Compared,
}

impl Bench<'_> {
    fn read(&mut self, what: &str, ask: &Ask, wanted: Read, samples: &[u8]) {
        let codec = self.codec;
        self.call(what, ask.room, wanted, samples, |out| codec.read(&ask.given, ask.law, ask.set, out));
    }

    fn write(&mut self, what: &str, ask: &Ask, wanted: Write, octets: &[u8]) {
        let codec = self.codec;
        self.call(what, ask.room, wanted, octets, |out| codec.write(&ask.given, ask.law, ask.set, out));
    }

    fn walk(&mut self, what: &str, ask: &Ask, wanted: Walk, samples: &[u8]) {
        let codec = self.codec;
        self.call(what, ask.room, wanted, samples, |out| codec.walk(&ask.given, ask.law, ask.set, out));
    }

    fn list(&mut self, input: &[u8], text: &[u8]) {
        let Some(got) = self.codec.listing(input) else {
            self.compared.left_out += 1;
            return;
        };
        self.compared.lists += 1;
        self.compared.calls += 1;
        if got != text {
            let (got, text) = (String::from_utf8_lossy(&got), String::from_utf8_lossy(text));
            self.fault("list", &format!("wanted {text:?}, got {got:?}"));
        }
    }

    /// Makes a call on output that is lent twice, each time filled with another octet: the report must be the
    /// wanted one, `start` must stand at the output's start, and all else, the margins too, must be as lent.
    fn call<T: PartialEq + Debug>(
        &mut self,
        what: &str,
        room: usize,
        wanted: T,
        start: &[u8],
        call: impl Fn(&mut [u8]) -> T,
    ) {
        for fill in FILLS {
            self.compared.calls += 1;
            let mut lent = vec![fill; MARGIN + room + MARGIN];
            let got = catch_unwind(AssertUnwindSafe(|| call(&mut lent[MARGIN..MARGIN + room])));
            if got.as_ref().ok() != Some(&wanted) {
                let got = got.map_or("a panic".into(), |got| format!("{got:?}"));
                self.fault(what, &format!("wanted {wanted:?}, got {got}"));
                return;
            }
            let mut stands = vec![fill; MARGIN];
            stands.extend(start);
            stands.resize(lent.len().max(stands.len()), fill);
            if let Some(at) = (0..stands.len()).find(|at| lent.get(*at) != stands.get(*at)) {
                let at_start = at as isize - MARGIN as isize;
                let (wanted, got) = (stands[at], lent.get(at));
                self.fault(
                    what,
                    &format!("output octet {at_start} (lent as {fill:02X}) is {got:02X?}, wanted {wanted:02X}"),
                );
                return;
            }
        }
    }

    fn fault(&mut self, what: &str, fault: &str) {
        let fault = fault.replace("ending: 0,", "ending: 0 (ok),");
        let fault = (1..ENDINGS.len())
            .fold(fault, |fault, n| fault.replace(&format!("ending: {n},"), &format!("ending: {n} ({}),", ENDINGS[n])));
        self.compared.faults.push(format!("{} ({what}, {}): {fault}", self.name, self.codec.name()));
    }

    /// Of an accepted frame every cut is SHORT at the cut, what follows changes nothing, N - 1 octets of room are too few, the
    /// set needs its tool, a walk over its octets has one frame, and under the other law it has the same signed
    /// numbers (tools 1 and 4: the same samples). A refusal that is not SHORT stands whatever follows and under
    /// either law, and a walk that starts there is refused in the same words at place 0. Tool 11 in the set changes no
    /// answer but its own.
    fn beside_read(&mut self, ask: &Ask, wanted: Read, samples: &[u8]) {
        if ask.law <= 1 {
            let mask = if has_samples(wanted.tool) { 0 } else { MASKS };
            let other = Ask { law: 1 - ask.law, ..ask.clone() };
            self.read("under the other law", &other, wanted, &masked(samples, mask));
        }
        let more = Ask { given: [&ask.given[..], &[0x01, 0x86, 0xFF, 0x00]].concat(), ..ask.clone() };
        if wanted.ending != ending("SHORT").unwrap() {
            self.read("with more octets", &more, wanted, samples);
        }
        if ask.set <= LISTED_TOOLS && wanted.tool != 11 {
            let set = ask.set | set_of(11);
            self.read("with tool 11 in the set", &Ask { set, ..ask.clone() }, wanted, samples);
        }
        if ask.given.is_empty() {
            return;
        }
        if wanted.ending != 0 {
            let Read { ending, tool, bit, .. } = wanted;
            let walk = Walk { ending, tool, frames: 0, octets: 0, samples: 0, place: 0, bit };
            self.walk("as a walk", ask, walk, &[]);
            return;
        }
        let used = wanted.octets;
        for cut in 0..used {
            let ask = Ask { given: ask.given[..cut].to_vec(), ..ask.clone() };
            self.read(&format!("cut to {cut} octets"), &ask, short(cut), &[]);
        }
        let alone = Ask { given: ask.given[..used].to_vec(), ..ask.clone() };
        let walk = Walk { ending: 0, tool: 0, frames: 1, octets: used, samples: samples.len(), place: used, bit: 0 };
        self.walk("as a walk", &alone, walk, samples);
        if wanted.tool > 0 {
            self.read("in less room", &Ask { room: samples.len() - 1, ..ask.clone() }, refused("ROOM", 0), &[]);
            let set = ask.set & !set_of(wanted.tool);
            self.read("without its tool", &Ask { set, ..ask.clone() }, refused("TOOL", wanted.tool), &[]);
        }
    }

    /// The same signed numbers are written alike under the other law (tools 1 and 4 have the samples themselves). A
    /// written frame reads back, with the same set, as the samples it was made of; its octets are just room enough.
    fn beside_write(&mut self, ask: &Ask, wanted: Write, octets: &[u8]) {
        if ask.law <= 1 {
            let mask = if has_samples(wanted.tool) { MASKS } else { 0 };
            let mut form = masked(octets, mask);
            form.splice(..form.len().min(1), octets.first().copied());
            let other = Ask { law: 1 - ask.law, given: masked(&ask.given, MASKS), ..ask.clone() };
            self.write("under the other law", &other, wanted, &form);
        }
        if wanted.ending != 0 {
            return;
        }
        let back = Ask { given: octets.to_vec(), room: ask.given.len(), ..ask.clone() };
        let (samples, octets_used) = (ask.given.len(), octets.len());
        let read = Read { ending: 0, tool: wanted.tool, samples, octets: octets_used, bits: wanted.bits, bit: 0 };
        self.read("read back", &back, read, &ask.given);
        self.beside_read(&back, read, &ask.given);
        self.write("in just room", &Ask { room: octets.len(), ..ask.clone() }, wanted, octets);
        self.write("in most room", &Ask { room: MOST_FORM, ..ask.clone() }, wanted, octets);
        let room = Write { ending: ending("ROOM").unwrap(), tool: 0, octets: 0, bits: 0 };
        self.write("in less room", &Ask { room: octets.len() - 1, ..ask.clone() }, room, &[]);
    }

    /// With set 0 a first octet shows its tool, with all others too; and with its own alone a carried one shows its length by ROOM.
    fn first(&mut self, ask: &Ask, settled: Settled) {
        let empty = Read { ending: 0, tool: 0, samples: 0, octets: 1, bits: 8, bit: 0 };
        match settled {
            Settled::Carried { tool: 0, .. } => self.read("as a pad", ask, empty, &[]),
            Settled::Unassigned => self.read("unassigned", ask, refused("PREFIX", 0), &[]),
            Settled::Tool(tool) => {
                self.read("not carried", ask, refused("TOOL", tool), &[]);
                self.read("not carried, all tools", &Ask { set: ALL_TOOLS, ..ask.clone() }, refused("TOOL", tool), &[]);
            }
            Settled::Carried { tool, length } => {
                self.read("not in the set", ask, refused("TOOL", tool), &[]);
                let set = set_of(tool);
                let others = Ask { set: ALL_TOOLS & !set, ..ask.clone() };
                self.read("all others in the set", &others, refused("TOOL", tool), &[]);
                let less = Ask { set, room: length - 1, ..ask.clone() };
                self.read("in less room", &less, refused("ROOM", 0), &[]);
                let mut out = vec![0; length];
                let got = self.codec.read(&ask.given, 1, set, &mut out).ending;
                self.compared.calls += 1;
                if ["PREFIX", "TOOL", "ROOM"].iter().any(|name| ending(name) == Some(got)) {
                    self.fault("in room", &format!("{length} octets are room enough, got {}", ENDINGS[got as usize]));
                }
            }
        }
    }
}
