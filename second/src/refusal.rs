//! The thirteen numbered refusals, and the bit that some of them point at.

/// Bits are counted from 0 at the frame's start.
#[derive(Clone, Copy, Debug, PartialEq, Eq)]
pub(crate) enum Refusal {
    /// The first missing bit.
    Short { bit: usize },
    Prefix,
    /// The tool that is not carried, or not in the set.
    Tool(u8),
    Room,
    /// The first bit of the range case, whatever of its row is not allowed.
    Case { bit: usize },
    /// The first bit of the method.
    Method { bit: usize },
    /// The first bit of the run's code.
    Run { bit: usize },
    /// The first bit of the listed place, or where it would be if it has none.
    Place { bit: usize },
    /// The first filling bit that is 1.
    Align { bit: usize },
    Length,
    Set,
    Law,
    Long,
}

impl Refusal {
    /// SHORT of a frame that is given all of `octets`. They are there whole,
    /// so the first missing bit is the one behind them.
    pub fn short(octets: &[u8]) -> Refusal {
        Refusal::Short { bit: 8 * octets.len() }
    }

    pub fn number(self) -> u32 {
        match self {
            Refusal::Short { .. } => 1,
            Refusal::Prefix => 2,
            Refusal::Tool(_) => 3,
            Refusal::Room => 4,
            Refusal::Case { .. } => 5,
            Refusal::Method { .. } => 6,
            Refusal::Run { .. } => 7,
            Refusal::Place { .. } => 8,
            Refusal::Align { .. } => 9,
            Refusal::Length => 10,
            Refusal::Set => 11,
            Refusal::Law => 12,
            Refusal::Long => 13,
        }
    }

    /// The tool a report gives beside the number: only TOOL names one.
    pub fn tool(self) -> u32 {
        match self {
            Refusal::Tool(tool) => u32::from(tool),
            _ => 0,
        }
    }

    /// The bit a report gives beside the number: the frame's first for PREFIX,
    /// TOOL and ROOM, which judge it as a whole; none, also told as 0, for
    /// what is wrong with the call.
    pub fn bit(self) -> usize {
        match self {
            Refusal::Short { bit }
            | Refusal::Case { bit }
            | Refusal::Method { bit }
            | Refusal::Run { bit }
            | Refusal::Place { bit }
            | Refusal::Align { bit } => bit,
            Refusal::Prefix | Refusal::Tool(_) | Refusal::Room => 0,
            Refusal::Length | Refusal::Set | Refusal::Law | Refusal::Long => 0,
        }
    }
}
