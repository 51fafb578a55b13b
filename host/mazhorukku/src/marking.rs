//! Expectations, and what Mark answers.

use crate::limits::RECORD_LENGTH;
use crate::run::Run;

/// In this lane this net is to have this level at every time from `from` to `to`, both included.
#[derive(Clone, Copy, Debug, PartialEq, Eq, Hash)]
pub struct Expectation {
    /// The net.
    pub net: u16,
    /// The lane, below 64.
    pub lane: u8,
    /// The level.
    pub level: bool,
    /// The first time of the span.
    pub from: u32,
    /// The last time of the span, at least `from`; it may lie beyond the last frame.
    pub to: u32,
}

impl Expectation {
    /// Its record: net, lane, level, from, to.
    #[must_use]
    pub fn to_bytes(self) -> [u8; RECORD_LENGTH] {
        let mut record = [0; RECORD_LENGTH];
        record[..2].copy_from_slice(&self.net.to_le_bytes());
        record[2] = self.lane;
        record[3] = u8::from(self.level);
        record[4..8].copy_from_slice(&self.from.to_le_bytes());
        record[8..].copy_from_slice(&self.to.to_le_bytes());
        record
    }
}

/// Whether a circuit met what was expected of it.
#[derive(Clone, Copy, Debug, PartialEq, Eq, Hash)]
pub enum Verdict {
    /// All expectations are met, as those of an empty list are.
    AllMet,
    /// Some expectation is not met.
    Unmet {
        /// The position of the first one, from 0.
        position: usize,
        /// The first frame of its net that breaks it: one with the other level that lasts over some time of the span.
        frame: usize,
    },
}

impl From<[u64; 3]> for Verdict {
    fn from(verdict: [u64; 3]) -> Verdict {
        match verdict {
            [0, position, frame] => Verdict::Unmet { position: position as usize, frame: frame as usize },
            _ => Verdict::AllMet,
        }
    }
}

/// A circuit that was marked: the verdict, and the run that it is about.
#[derive(Clone, Debug, PartialEq, Eq)]
pub struct Marking {
    /// The verdict.
    pub verdict: Verdict,
    /// The run.
    pub run: Run,
}
