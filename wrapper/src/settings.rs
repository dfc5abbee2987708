//! A box's last eight settings, saved, put back, read and wiped: document 02, R-13. The header has the text's form.

use crate::raw;
use std::fmt;

/// The last number given, then eight revisions of five numbers: number, law, set, block, greeting. All content is a state.
pub type State = [u32; SETTINGS];

/// Numbers of a box's settings.
pub const SETTINGS: usize = 41;

/// The state of a box that nothing was saved in.
pub const FRESH: State = [0; SETTINGS];

/// Octets that a text is lent. It has at most 67 of them.
pub const SETTINGS_TEXT: usize = 80;

/// Octets of a block where a box has no settings.
pub const NO_SETTINGS_BLOCK: u32 = 16_384;

/// Why a call was refused. Then nothing was changed.
#[derive(Clone, Copy, Debug, PartialEq, Eq)]
pub enum Refusal {
    /// The text is not of the form, or a value is out of its range.
    Line,
    /// The revision is not kept.
    Gone,
    /// The number would pass 4,294,967,295.
    Spent,
}

impl Refusal {
    /// The refusal of an ending that is not 0.
    fn of(ending: u32) -> Refusal {
        match ending {
            23 => Refusal::Line,
            24 => Refusal::Gone,
            25 => Refusal::Spent,
            _ => unreachable!("the header has no ending {ending} of these calls"),
        }
    }

    /// The number in the header.
    pub fn number(self) -> u32 {
        match self {
            Refusal::Line => 23,
            Refusal::Gone => 24,
            Refusal::Spent => 25,
        }
    }
}

impl fmt::Display for Refusal {
    fn fmt(&self, f: &mut fmt::Formatter) -> fmt::Result {
        f.write_str(match self {
            Refusal::Line => "the text is not four lines of settings, or a value is out of its range",
            Refusal::Gone => "the revision is not kept",
            Refusal::Spent => "no number is left for a new revision",
        })
    }
}

impl std::error::Error for Refusal {}

/// What an accepted call tells, or its refusal.
fn told(ending: u32, report: [u64; 1]) -> Result<u64, Refusal> {
    match ending {
        0 => Ok(report[0]),
        _ => Err(Refusal::of(ending)),
    }
}

/// Saves the settings that a text says; gives the new revision's number.
pub fn save(state: &mut State, text: &[u8]) -> Result<u32, Refusal> {
    let mut report = [0];
    let ending = raw::settings_save(state, text, &mut report);
    told(ending, report).map(|revision| revision as u32)
}

/// Saves the values of a kept revision under a new number, which it gives.
pub fn back(state: &mut State, revision: u32) -> Result<u32, Refusal> {
    let mut report = [0];
    let ending = raw::settings_back(state, revision, &mut report);
    told(ending, report).map(|revision| revision as u32)
}

/// A kept revision's text, at the start of what is lent; gives its octets.
pub fn read(state: &State, revision: u32, text: &mut [u8; SETTINGS_TEXT]) -> Result<usize, Refusal> {
    let mut report = [0];
    let ending = raw::settings_read(state, revision, text, &mut report);
    told(ending, report).map(|octets| octets as usize)
}

/// A revision's values, as they stand.
#[derive(Clone, Copy, Debug, PartialEq, Eq)]
pub struct Values {
    pub law: u32,
    pub set: u32,
    pub block: u32,
    pub greeting: u32,
}

/// A kept revision's values.
pub fn get(state: &State, revision: u32) -> Result<Values, Refusal> {
    let mut report = [0; 4];
    match raw::settings_get(state, revision, &mut report) {
        0 => {
            let [law, set, block, greeting] = report.map(|number| number as u32);
            Ok(Values { law, set, block, greeting })
        }
        ending => Err(Refusal::of(ending)),
    }
}

/// The numbers of the kept revisions, the oldest first, then 0.
pub fn kept(state: &State) -> [u32; 8] {
    let mut report = [0; 8];
    raw::settings_kept(state, &mut report);
    report.map(|number| number as u32)
}

/// Empties the list for the next tenant. The numbering runs on.
pub fn wipe(state: &mut State) {
    raw::settings_wipe(state);
}
