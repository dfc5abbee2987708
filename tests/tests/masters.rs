//! The bench tools on masters of linear values: `-l`, raw 16-bit values, and `-w`, a WAV file of them. What a master should
//! become is worked out with the second program and the shift of docs/DECISIONS.md, 39.

use second::linear::{linear_of, octet_of};
use tests::recordings::recordings;
use tests::say;
use tests::tools::{law_words, pack_wanted, same, Room, Stop, FILES, PACKED_WITH, USAGE};

fn room(name: &str) -> Room {
    Room::new(env!("CARGO_TARGET_TMPDIR"), &format!("masters-{name}"))
}

fn tell(what: &str, room: &Room) {
    say(&format!("compared: masters, {what}: {} runs\n", room.runs));
}

/// What a value of the law's scale is shifted by to have 16 bits.
fn shift(law: u32) -> u32 {
    [3, 2][law as usize]
}

/// The samples of a master of 16-bit values.
fn samples_of(values: &[i16], law: u32) -> Vec<u8> {
    values.iter().map(|value| octet_of(value >> shift(law), law).unwrap()).collect()
}

/// The master of samples.
fn values_of(samples: &[u8], law: u32) -> Vec<i16> {
    samples.iter().map(|octet| linear_of(*octet, law).unwrap() << shift(law)).collect()
}

fn octets_of(values: &[i16]) -> Vec<u8> {
    values.iter().flat_map(|value| value.to_le_bytes()).collect()
}

/// A chunk of a WAV file, filled up to an even number of octets.
fn chunk(name: &[u8; 4], octets: &[u8]) -> Vec<u8> {
    let mut chunk = [&name[..], &(octets.len() as u32).to_le_bytes(), octets].concat();
    chunk.resize(chunk.len().next_multiple_of(2), 0);
    chunk
}

/// What a WAV file says of its sound.
#[derive(Clone, Copy)]
struct Format {
    format: u16,
    channels: u16,
    rate: u32,
    bits: u16,
}

const MASTER: Format = Format { format: 1, channels: 1, rate: 8_000, bits: 16 };

impl Format {
    fn octets(self) -> Vec<u8> {
        let frame = self.channels * self.bits.div_ceil(8);
        let words = [self.format.to_le_bytes(), self.channels.to_le_bytes()].concat();
        let rates = [self.rate.to_le_bytes(), (self.rate * u32::from(frame)).to_le_bytes()].concat();
        [words, rates, frame.to_le_bytes().to_vec(), self.bits.to_le_bytes().to_vec()].concat()
    }
}

fn riff(chunks: &[Vec<u8>]) -> Vec<u8> {
    let all = [b"WAVE".to_vec(), chunks.concat()].concat();
    [&b"RIFF"[..], &(all.len() as u32).to_le_bytes(), &all].concat()
}

fn wav(values: &[i16]) -> Vec<u8> {
    riff(&[chunk(b"fmt ", &MASTER.octets()), chunk(b"data", &octets_of(values))])
}

/// All values of 16 bits, by both laws, in both forms.
#[test]
fn every_value() {
    let mut room = room("values");
    let values: Vec<i16> = (0..=65_535_u16).map(|value| value as i16).chain([0; 24]).collect();
    for law in 0..2 {
        let sound = samples_of(&values, law);
        let wanted = pack_wanted(&sound, law, PACKED_WITH, 160, false);
        let (option, _, _) = law_words(law);
        for (form, master) in [("-l", octets_of(&values)), ("-w", wav(&values))] {
            let ran = room.run("pack", &format!("{option} {form}"), &master);
            ran.ends(wanted.stop).writes(&wanted.stream.octets);
        }
        assert_eq!(wanted.stop, Stop::new(0, values.len(), 0), "all of them fit");
    }
    tell("every value of 16 bits packed", &room);
}

/// Every recording to a WAV file and to a raw master, and from there again: octet for octet, but for 7F of mu as FF.
#[test]
fn every_recording_through_a_master() {
    let mut room = room("recordings");
    for recording in recordings() {
        let stream = pack_wanted(&recording.sound, recording.law, PACKED_WITH, 160, true).stream.octets;
        let sound = room.run("unpack", law_words(recording.law).0, &stream).out;
        let (option, _, _) = law_words(recording.law);
        let values = values_of(&sound, recording.law);
        for (form, master) in [("-l", octets_of(&values)), ("-w", wav(&values))] {
            let ran = room.run("unpack", &format!("{option} {form}"), &stream);
            ran.ends(Stop::new(0, stream.len(), 0));
            same(&ran.line, &ran.out, &master);
            let mut back = sound.clone();
            let minus = |octet: &mut u8| *octet = if recording.law == 1 && *octet == 0x7F { 0xFF } else { *octet };
            back.iter_mut().for_each(minus);
            let wanted = pack_wanted(&back, recording.law, PACKED_WITH, 160, false);
            let ran = room.run("pack", &format!("{option} {form}"), &master);
            ran.ends(wanted.stop).writes(&wanted.stream.octets);
        }
    }
    tell("every recording to a master and back", &room);
}

/// Frames before a refusal are written, and the heading counts them.
#[test]
fn a_stream_that_is_refused() {
    let mut room = room("refused");
    let ran = room.run("unpack", "-u -w", &[0x41, 0x00, 0x56, 0x0F, 0x86]);
    let sound = [vec![0xFF; 79], vec![0x7F]].concat();
    ran.ends(Stop { bit: 8, ..Stop::new(1, 4, 0) }).writes(&wav(&values_of(&sound, 1)));
    let ran = room.run("unpack", "-a -w", &[]);
    ran.ends(Stop::new(0, 0, 0)).writes(&wav(&[]));
    tell("a stream that is refused, and an empty one", &room);
}

/// Other chunks are skipped, those after the sound too, and a longer format is read to its 16th octet.
#[test]
fn other_chunks() {
    let mut room = room("chunks");
    let values: Vec<i16> = (0..160).map(|at| (at * 331 - 25_000) as i16).collect();
    let wanted = pack_wanted(&samples_of(&values, 1), 1, PACKED_WITH, 160, false);
    let format = chunk(b"fmt ", &MASTER.octets());
    let long = chunk(b"fmt ", &[MASTER.octets(), vec![2, 0, 9, 9]].concat());
    let data = chunk(b"data", &octets_of(&values));
    let list = chunk(b"LIST", b"INFOISFT\x05\0\0\0Lavf5\0");
    let odd = chunk(b"odd ", &[7; 33]);
    let files = [
        riff(&[format.clone(), data.clone()]),
        riff(&[long, data.clone()]),
        riff(&[list.clone(), format.clone(), odd.clone(), data.clone(), list.clone()]),
        riff(&[odd.clone(), odd.clone(), format.clone(), list, data.clone(), odd]),
        riff(&[chunk(b"bext", &vec![0xA7; 40_001]), format.clone(), data.clone()]),
        riff(&[vec![chunk(b"junk", &[1]); 30].concat(), format, data]),
    ];
    for file in &files {
        room.run("pack", "-u -w", file).ends(wanted.stop).writes(&wanted.stream.octets);
    }
    tell("other chunks", &room);
}

/// Anything else than PCM of 16 bits, mono, at 8,000 Hz is refused with what it is; nothing is written.
#[test]
fn refused_wav_files() {
    let mut room = room("faults");
    let sound = chunk(b"data", &octets_of(&[0; 160]));
    let with = |format: Format| riff(&[chunk(b"fmt ", &format.octets()), sound.clone()]);
    let good = wav(&[5; 160]);
    let cut = |octets: usize| good[..octets].to_vec();
    let format = chunk(b"fmt ", &MASTER.octets());
    let mut other = good.clone();
    other[8] = b'w';
    let faults: Vec<(Vec<u8>, &str)> = vec![
        (Vec::new(), "heading"),
        (vec![0; 12], "no WAV file"),
        (b"RIFX".iter().chain(&good[4..]).copied().collect(), "no WAV file"),
        (other, "no WAV file"),
        (with(Format { format: 3, ..MASTER }), "format 3"),
        (with(Format { format: 7, ..MASTER }), "format 7"),
        (with(Format { format: 0xFFFE, ..MASTER }), "format 65534"),
        (with(Format { channels: 2, ..MASTER }), "2 channels"),
        (with(Format { channels: 0, ..MASTER }), "0 channels"),
        (with(Format { rate: 44_100, ..MASTER }), "44100 samples a second"),
        (with(Format { rate: 8_001, ..MASTER }), "8001 samples a second"),
        (with(Format { bits: 8, ..MASTER }), "8 bits"),
        (with(Format { bits: 24, ..MASTER }), "24 bits"),
        (riff(&[chunk(b"fmt ", &MASTER.octets()[..14]), sound.clone()]), "14 octets"),
        (riff(&[sound.clone()]), "no format"),
        (riff(&[format.clone(), chunk(b"data", &[0; 81])]), "81 octets"),
        (riff(&[vec![chunk(b"junk", &[1, 2]); 32].concat(), format.clone(), sound.clone()]), "32 chunks"),
        (riff(&[chunk(b"junk", &vec![0; 70_000]), format, sound]), "heading"),
        (cut(43), "heading"),
        (cut(20), "heading"),
        (cut(363), "ends inside its sound"),
        (cut(204), "ends inside its sound"),
        (cut(44), "ends inside its sound"),
    ];
    for (file, said) in &faults {
        let ran = room.run("pack", "-a -w", file);
        ran.ends(Stop::new(FILES, 0, 0)).says(said).writes(&[]);
    }
    room.run("pack", "-a -l", &[1, 2, 3]).ends(Stop::new(FILES, 0, 0)).says("ends inside its sound").writes(&[]);
    tell("faulty WAV files", &room);
}

/// `-l` and `-w` with what does not go with them.
#[test]
fn called_wrongly() {
    let mut room = room("wrongly");
    room.put("stream.lcm", &[0x41]);
    room.put("master", &[0xFF; 40]);
    for line in ["-l stream.lcm", "-w stream.lcm", "-w -c master stream.lcm out", "-l -c master stream.lcm"] {
        room.run("unpack", line, &[]).ends(Stop::new(USAGE, 0, 0));
    }
    assert_eq!(room.names(), ["master", "stream.lcm"]);
    room.run("unpack", "-w stream.lcm out.wav", &[]).ends(Stop::new(0, 1, 0));
    same("out.wav", &room.take("out.wav"), &wav(&[0; 40]));
    tell("called wrongly", &room);
}
