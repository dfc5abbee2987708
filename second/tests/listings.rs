//! The listing program's text.

mod slow;
use second::gen::{self, Prng};
use second::listing;
use std::ffi::OsString;
use std::fmt::Write as _;
use std::io::Write as _;
use std::process::{Command, Stdio};

const EXAMPLE: &str = "law=1
frame=0 at=0 samples=40 tool=2 octets=1 bits=8
frame=1 at=1 samples=0 tool=0 octets=1 bits=8
frame=2 at=2 samples=40 tool=6 octets=2 bits=16
stop=1 at=4 tool=0 bit=8
samples=80
";

fn text(input: &[u8]) -> String {
    String::from_utf8(listing(input)).unwrap()
}

/// The text by the slow reader.
fn slow_text(input: &[u8]) -> String {
    let law = match input.first() {
        Some(b'A') => 0,
        Some(b'M') => 1,
        _ => return "stop=12 at=0 tool=0 bit=0\n".to_string(),
    };
    let stream = &input[1..];
    if stream.len() > 65_535 {
        return "stop=13 at=0 tool=0 bit=0\n".to_string();
    }
    let mut text = format!("law={law}\n");
    let (mut at, mut samples, mut index) = (0, 0, 0);
    let (mut stop, mut tool, mut bit) = (0, 0, 0);
    while at < stream.len() {
        let (r, _) = slow::read(&stream[at..], law, 127, &[0; 320]);
        if r.ending != 0 {
            (stop, tool, bit) = (r.ending, r.tool, r.bit);
            break;
        }
        writeln!(
            text,
            "frame={index} at={at} samples={} tool={} octets={} bits={}",
            r.samples, r.tool, r.octets, r.bits
        )
        .unwrap();
        index += 1;
        at += r.octets;
        samples += r.samples;
    }
    writeln!(text, "stop={stop} at={at} tool={tool} bit={bit}\nsamples={samples}").unwrap();
    text
}

#[test]
fn the_example() {
    assert_eq!(text(&[b'M', 0x41, 0x00, 0x56, 0x0F, 0x86]), EXAMPLE);
}

#[test]
fn the_program_prints_the_example() {
    // Where the tests are for x86-64 and the machine is not, RUN_WITH names what runs them.
    let with = std::env::var_os("RUN_WITH").filter(|with| cfg!(target_arch = "x86_64") && !with.is_empty());
    let words: Vec<OsString> = with.into_iter().chain([env!("CARGO_BIN_EXE_second-listing").into()]).collect();
    let mut program = Command::new(&words[0])
        .args(&words[1..])
        .stdin(Stdio::piped())
        .stdout(Stdio::piped())
        .spawn()
        .unwrap();
    program.stdin.take().unwrap().write_all(&[b'M', 0x41, 0x00, 0x56, 0x0F, 0x86]).unwrap();
    let output = program.wait_with_output().unwrap();
    assert!(output.status.success());
    assert_eq!(output.stdout, EXAMPLE.as_bytes());
}

#[test]
fn other_first_octets_and_long_streams() {
    assert_eq!(text(&[]), "stop=12 at=0 tool=0 bit=0\n");
    for first in (0..=255u8).filter(|f| ![b'A', b'M'].contains(f)) {
        assert_eq!(text(&[first, 0x41]), "stop=12 at=0 tool=0 bit=0\n");
    }
    // Another first octet is told before a long stream is.
    assert_eq!(text(&vec![0; 70_000]), "stop=12 at=0 tool=0 bit=0\n");
    let mut input = vec![0; 65_537];
    input[0] = b'A';
    assert_eq!(text(&input), "stop=13 at=0 tool=0 bit=0\n");
    input.pop();
    let whole = text(&input);
    assert!(whole.starts_with("law=0\nframe=0 at=0 samples=0 tool=0 octets=1 bits=8\n"));
    assert!(whole.ends_with(
        "frame=65534 at=65534 samples=0 tool=0 octets=1 bits=8\nstop=0 at=65535 tool=0 bit=0\nsamples=0\n"
    ));
    // The most samples a stream can hold.
    input[1..].fill(0x31);
    assert!(text(&input).ends_with("stop=0 at=65535 tool=0 bit=0\nsamples=20971200\n"));
}

#[test]
fn clean_ends_and_tools() {
    assert_eq!(text(b"A"), "law=0\nstop=0 at=0 tool=0 bit=0\nsamples=0\n");
    assert_eq!(text(&[b'A', 0x28, 0x00]), "law=0\nstop=3 at=0 tool=8 bit=0\nsamples=0\n");
    assert_eq!(
        text(&[b'A', 0x00, 0xFF]),
        "law=0\nframe=0 at=0 samples=0 tool=0 octets=1 bits=8\nstop=3 at=1 tool=9 bit=0\nsamples=0\n"
    );
}

#[test]
fn many_streams() {
    let mut rng = Prng::new(601);
    let (mut listings, mut lines) = (0u64, 0u64);
    for _ in 0..4_000 {
        let law = rng.below(2);
        let mut input = vec![[b'A', b'M'][law]];
        for _ in 0..rng.below(30) {
            input.extend(gen::make_any_form(law as u32, &mut rng).octets);
        }
        if rng.flip() {
            input = gen::damage_somehow(&input, &mut rng);
        }
        let ours = text(&input);
        assert_eq!(ours, slow_text(&input));
        listings += 1;
        lines += ours.lines().count() as u64;
    }
    println!("listings compared: {listings}, lines: {lines}");
}
