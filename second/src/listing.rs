//! The listing program's text.

use crate::law::Law;
use crate::read::{check, read_one, Frame};
use crate::refusal::Refusal;
use crate::MOST_SAMPLES;

/// The tools that are listed, and the longest stream: fewer of both than a
/// walk takes.
const LISTED_TOOLS: u32 = 127;
const MOST_LISTED: usize = 65_535;

/// The whole output for the whole standard input, the letter included.
pub fn listing(input: &[u8]) -> Vec<u8> {
    let mut text = Text::default();
    match open(input) {
        Ok((number, law, stream)) => list_stream(&mut text, number, law, stream),
        Err(refusal) => text.stop(Err(refusal), 0),
    }
    text.octets
}

/// The law by its letter, and the stream, if it is not too long.
fn open(input: &[u8]) -> Result<(u32, Law, &[u8]), Refusal> {
    let (letter, stream) = input.split_first().ok_or(Refusal::Law)?;
    let number = match letter {
        b'A' => 0,
        b'M' => 1,
        _ => return Err(Refusal::Law),
    };
    let law = check(number, LISTED_TOOLS)?;
    if stream.len() > MOST_LISTED {
        return Err(Refusal::Long);
    }
    Ok((number, law, stream))
}

fn list_stream(text: &mut Text, number: u32, law: Law, stream: &[u8]) {
    text.fields(&[("law=", number as usize)]);
    // One frame's room, used over and over: the samples are only counted.
    let mut room = [0; MOST_SAMPLES];
    let (mut frames, mut at, mut samples) = (0, 0, 0);
    let end = loop {
        if at == stream.len() {
            break Ok(());
        }
        match read_one(&stream[at..], law, LISTED_TOOLS, &mut room) {
            Ok(frame) => {
                text.frame(frames, at, frame);
                frames += 1;
                at += frame.octets();
                samples += frame.samples;
            }
            Err(refusal) => break Err(refusal),
        }
    };
    text.stop(end, at);
    text.fields(&[("samples=", samples)]);
}

#[derive(Default)]
struct Text {
    octets: Vec<u8>,
}

impl Text {
    fn frame(&mut self, index: usize, at: usize, frame: Frame) {
        self.fields(&[
            ("frame=", index),
            (" at=", at),
            (" samples=", frame.samples),
            (" tool=", usize::from(frame.tool)),
            (" octets=", frame.octets()),
            (" bits=", frame.bits),
        ]);
    }

    fn stop(&mut self, end: Result<(), Refusal>, at: usize) {
        let (number, tool, bit) = match end {
            Ok(()) => (0, 0, 0),
            Err(refusal) => (refusal.number(), refusal.tool(), refusal.bit()),
        };
        self.fields(&[
            ("stop=", number as usize),
            (" at=", at),
            (" tool=", tool as usize),
            (" bit=", bit),
        ]);
    }

    /// One line of names and numbers.
    fn fields(&mut self, fields: &[(&str, usize)]) {
        for (name, number) in fields {
            self.octets.extend_from_slice(name.as_bytes());
            self.number(*number);
        }
        self.octets.push(b'\n');
    }

    fn number(&mut self, mut number: usize) {
        let mut digits = [0; 20];
        let mut first = digits.len();
        loop {
            first -= 1;
            digits[first] = b'0' + (number % 10) as u8;
            number /= 10;
            if number == 0 {
                break;
            }
        }
        self.octets.extend_from_slice(&digits[first..]);
    }
}
