//! Refusals: the number of a question, and its text.

use std::error::Error;
use std::fmt;

/// Why a call refused: the first of its questions that was answered "no".
///
/// ```
/// use mazhorukku::{read, Refusal};
///
/// let refusal = read(&[1, 1]).unwrap_err();
/// assert_eq!(refusal, Refusal::FileLength);
/// assert_eq!(refusal.number(), 1);
/// assert_eq!(refusal.to_string(), "refused 1: Has the circuit file 4 bytes or more?");
/// ```
#[derive(Clone, Copy, Debug, PartialEq, Eq, Hash)]
pub enum Refusal {
    /// 1: the file is too short for its two counts.
    FileLength = 1,
    /// 2: too many inputs, or none; or a file of the former edition.
    Inputs = 2,
    /// 3: too many gates.
    Gates = 3,
    /// 4: not every gate has its pair of offset and length.
    Pairs = 4,
    /// 5: the pairs do not lie end to end, or do not fill the file.
    Records = 5,
    /// 6: no such kind.
    Kind = 6,
    /// 7: a delay out of its range.
    Delay = 7,
    /// 8: a record's length, or a number of fan-ins that its kind cannot have.
    FaninCount = 8,
    /// 9: a gate reads its own net or a later one.
    Fanin = 9,
    /// 10: areas of other lengths than the call takes.
    Areas = 10,
    /// 11: another number of words than there are inputs and changes.
    Words = 11,
    /// 12: an expectation that says nothing of this circuit.
    Expectation = 12,
    /// 13: too many frames for any caller.
    TooManyFrames = 13,
    /// 14: parts of two lengths, of none, or of more than 64.
    Parts = 14,
    /// 15: times that do not rise from 0.
    Times = 15,
    /// 16: no such lane.
    Lane = 16,
    /// 20: change counts or change times against their rules.
    Changes = 20,
    /// 22: too many frames for this caller, or a limit that makes no sense.
    OverLimit = 22,
    /// 23: a delay that the former edition has no place for.
    DelayTooLong = 23,
    /// 100: too many expectations, or bytes that are no whole number of records.
    NoRecords = 100,
}

impl Refusal {
    /// All of them, by number.
    pub const ALL: [Refusal; 20] = [
        Refusal::FileLength,
        Refusal::Inputs,
        Refusal::Gates,
        Refusal::Pairs,
        Refusal::Records,
        Refusal::Kind,
        Refusal::Delay,
        Refusal::FaninCount,
        Refusal::Fanin,
        Refusal::Areas,
        Refusal::Words,
        Refusal::Expectation,
        Refusal::TooManyFrames,
        Refusal::Parts,
        Refusal::Times,
        Refusal::Lane,
        Refusal::Changes,
        Refusal::OverLimit,
        Refusal::DelayTooLong,
        Refusal::NoRecords,
    ];

    /// The papers' number.
    #[must_use]
    pub fn number(self) -> u32 {
        self as u32
    }

    /// The refusal with this number, if there is one.
    #[must_use]
    pub fn from_number(number: u32) -> Option<Refusal> {
        Refusal::ALL.into_iter().find(|refusal| refusal.number() == number)
    }

    /// The question that was answered "no". What is asked of a file of the former edition stands in brackets.
    #[must_use]
    pub fn question(self) -> &'static str {
        match self {
            Refusal::FileLength => "Has the circuit file 4 bytes or more?",
            Refusal::Inputs => "Do bytes 0 and 1 hold I + 256 (I), for an I from 1 to 32?",
            Refusal::Gates => "Is G from 0 to 128?",
            Refusal::Pairs => "Are there 4 + 4G bytes or more?",
            Refusal::Records => "Do the records fill the rest of the file, one behind the other, each of 5 (3) bytes or more?",
            Refusal::Kind => "Is the kind 0 to 7?",
            Refusal::Delay => "Is d from 1 to 60,000 (63) and di from 0 to 60,000 (63)?",
            Refusal::FaninCount => "Is the record's length 5 + 2M (3 + 2M), for an M that the kind may have?",
            Refusal::Fanin => "Is every net that the gate reads below its own?",
            Refusal::Areas => "Have the areas exactly the lengths that the call asks for?",
            Refusal::Words => "Are there I before words, and as many after words as change times?",
            Refusal::Expectation => {
                "Has each expectation a net of the circuit, a lane below 64, from at most to, level 0 or 1?"
            }
            Refusal::TooManyFrames => "Has every net at most 64 frames, and have all together at most 2,048?",
            Refusal::Parts => "Are the parts of times and values equally long, 1 to 64?",
            Refusal::Times => "Do the times start at 0 and strictly rise?",
            Refusal::Lane => "Is the lane below 64?",
            Refusal::Changes => {
                "Are there I change counts from 0 to 8, as many times as they add up to, from 1 to 255 and rising within each input?"
            }
            Refusal::OverLimit => "Is the limit from 1 to 2,048, and have all nets together at most so many frames?",
            Refusal::DelayTooLong => "Is no delay above 63?",
            Refusal::NoRecords => "Are the bytes of the expectations a whole number of records, at most 1,024?",
        }
    }
}

impl fmt::Display for Refusal {
    fn fmt(&self, f: &mut fmt::Formatter<'_>) -> fmt::Result {
        write!(f, "refused {}: {}", self.number(), self.question())
    }
}

impl Error for Refusal {}

/// A call's answer: 0, or the number of a question. The calls answer no other numbers.
pub(crate) fn accepted(answer: u32) -> Result<(), Refusal> {
    if answer == 0 {
        return Ok(());
    }
    Err(Refusal::from_number(answer).unwrap_or_else(|| unreachable!("no question has the number {answer}")))
}
