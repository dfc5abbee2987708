//! The listing, by the second program and by the program that rt built, on streams whose text is too long for a line of
//! a vector file.

use std::fmt::Write;
use tests::{Codec, Proved, Second};

/// The text, which is the same by both.
fn listed(input: &[u8]) -> String {
    let text = Second.listing(input).expect("the second program lists");
    assert!(Proved.listing(input).as_ref() == Some(&text), "the two programs print other texts");
    String::from_utf8(text).expect("the text is ASCII")
}

/// The example of document 01; `make run` holds the program itself against the same file.
#[test]
fn the_example() {
    let wanted = include_str!("../data/listing-example.txt");
    assert_eq!(listed(&[b'M', 0x41, 0x00, 0x56, 0x0F, 0x86]), wanted);
}

#[test]
fn as_many_octets_as_a_stream_may_have() {
    let mut wanted = String::from("law=0\n");
    for at in 0..65_535 {
        writeln!(wanted, "frame={at} at={at} samples=0 tool=0 octets=1 bits=8").unwrap();
    }
    wanted += "stop=0 at=65535 tool=0 bit=0\nsamples=0\n";
    let mut input = vec![0x00; 65_536];
    input[0] = b'A';
    assert!(listed(&input) == wanted, "65,535 pads");
    input.push(0x00);
    assert_eq!(listed(&input), "stop=13 at=0 tool=0 bit=0\n");
}

/// The greatest number of samples: 65,535 octets of 31, 320 plus zeros each. Room is never short.
#[test]
fn as_many_samples_as_a_stream_may_have() {
    let mut wanted = String::from("law=1\n");
    for at in 0..65_535 {
        writeln!(wanted, "frame={at} at={at} samples=320 tool=2 octets=1 bits=8").unwrap();
    }
    wanted += "stop=0 at=65535 tool=0 bit=0\nsamples=20971200\n";
    let mut input = vec![0x31; 65_536];
    input[0] = b'M';
    assert!(listed(&input) == wanted, "65,535 frames of 320 samples");
}

/// A frame that ends with the last octet that a stream may have, and one that is cut there.
#[test]
fn a_frame_at_the_very_end() {
    let mut input = vec![0x00; 65_536];
    input[0] = b'M';
    input[65_534] = 0x56;
    input[65_535] = 0x0F;
    let text = listed(&input);
    assert!(text.ends_with(
        "\nframe=65533 at=65533 samples=40 tool=6 octets=2 bits=16\nstop=0 at=65535 tool=0 bit=0\nsamples=40\n"
    ));
    input[65_535] = 0x28;
    input[65_534] = 0x41;
    let text = listed(&input);
    assert!(text.ends_with(
        "\nframe=65533 at=65533 samples=40 tool=2 octets=1 bits=8\nstop=1 at=65534 tool=0 bit=8\nsamples=40\n"
    ));
}
