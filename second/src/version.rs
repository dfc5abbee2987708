//! The version of the calls.

/// The header itself, so that no second number is kept here.
const HEADER: &str = include_str!("../../include/g7110.h");

/// The header's G7110_VERSION.
pub fn version() -> u32 {
    let defined = HEADER.lines().find_map(|line| line.strip_prefix("#define G7110_VERSION "));
    let number = defined.and_then(|rest| rest.split_whitespace().next());
    number.and_then(|digits| digits.parse().ok()).expect("the header says its version")
}
