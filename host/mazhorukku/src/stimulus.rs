//! What drives the inputs.

use crate::sys;

/// When the inputs change, and to which levels. Bit L of a word is the level in lane L.
///
/// Like a circuit it is checked by the calls: that it has all inputs of the circuit (11), and that each changes at most 8
/// times, at rising times from 1 to 255 (20).
///
/// ```
/// use mazhorukku::Stimulus;
///
/// // input 0 is 1 in lane 0 from 10 to 13; input 1 stays at 1 in all lanes
/// let stimulus = Stimulus::new().input(0, &[(10, 1), (13, 0)]).input(u64::MAX, &[]);
/// assert_eq!(stimulus.inputs(), 2);
/// ```
#[derive(Clone, Debug, Default, PartialEq, Eq, Hash)]
pub struct Stimulus {
    counts: Vec<u8>,
    changes: Vec<u32>,
    before: Vec<u64>,
    after: Vec<u64>,
}

impl Stimulus {
    /// A stimulus without inputs.
    #[must_use]
    pub fn new() -> Stimulus {
        Stimulus::default()
    }

    /// Each input changes once, at time 1: its levels at time 0, and those from 1 on.
    #[must_use]
    pub fn once(words: &[(u64, u64)]) -> Stimulus {
        words.iter().fold(Stimulus::new(), |stimulus, &(before, after)| stimulus.input(before, &[(1, after)]))
    }

    /// Adds the next input: its levels until its first change, and for each change its time and the levels from then on.
    #[must_use]
    pub fn input(mut self, before: u64, changes: &[(u32, u64)]) -> Stimulus {
        // A count that has no place in a byte is refused as 255 is.
        self.counts.push(u8::try_from(changes.len()).unwrap_or(u8::MAX));
        self.before.push(before);
        self.changes.extend(changes.iter().map(|change| change.0));
        self.after.extend(changes.iter().map(|change| change.1));
        self
    }

    /// The number of inputs.
    #[must_use]
    pub fn inputs(&self) -> usize {
        self.counts.len()
    }

    pub(crate) fn counts(&self) -> &[u8] {
        &self.counts
    }

    pub(crate) fn changes(&self) -> &[u32] {
        &self.changes
    }

    pub(crate) fn words(&self) -> sys::Words<'_> {
        sys::Words { before: &self.before, after: &self.after }
    }
}
