//! A store's table saved as text, and loaded: document 02, R-6, R-8 and R-11. The header has the text's form.

use crate::raw;
use crate::store::Refusal;

/// Octets that a table saved has at most, if calls left it: 7 for the first line `form=2`, lines of 66 octets for each of 32
/// greetings, and of 23 for each of 16,416 marks.
pub const MAX_TABLE: usize = 379_687;

/// Writes the table's text at the start of the output; gives its octets.
pub fn save(block: &[u8], table: &[u32], out: &mut [u8]) -> Result<usize, Refusal> {
    let mut report = [0];
    match raw::store_save(block, table, out, &mut report) {
        0 => Ok(report[0] as usize),
        ending => Err(Refusal::of(ending)),
    }
}

/// Loads a table's text, with its block: in R-8's lines, with R-11's first line or without it, or all in R-6's, whose greetings
/// are then of mu-law. Whatever the table held does not matter; only its length does.
pub fn load(text: &[u8], block: &[u8], table: &mut [u32]) -> Result<(), Refusal> {
    match raw::store_load(text, block, table) {
        0 => Ok(()),
        ending => Err(Refusal::of(ending)),
    }
}
