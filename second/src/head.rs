//! What the first octets of a frame say.

use crate::first_octet::decide;
use crate::law::{check_reader_set, holds};
use crate::refusal::Refusal;

/// Tool, samples of the frame at the start, from its first one or two octets;
/// a pad is 0, 0; nothing past them is looked at. Before them 0, or the number
/// of the refusal: SET, SHORT, PREFIX, TOOL (the report is the tool, 0).
pub fn head(octets: &[u8], set: u32) -> (u32, [u64; 2]) {
    match head_of(octets, set) {
        Ok((tool, samples)) => (0, [u64::from(tool), u64::from(samples)]),
        Err(refusal) => (refusal.number(), [u64::from(refusal.tool()), 0]),
    }
}

fn head_of(octets: &[u8], set: u32) -> Result<(u8, u16), Refusal> {
    check_reader_set(set)?;
    let opening = decide(&octets[..octets.len().min(2)])?;
    if !holds(set, opening.tool) {
        return Err(Refusal::Tool(opening.tool));
    }
    Ok((opening.tool, opening.samples))
}
