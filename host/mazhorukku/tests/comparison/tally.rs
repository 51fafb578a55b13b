//! How often each call gave each answer.

use std::collections::BTreeMap;
use std::fmt;

/// Every call with the answers that it can give.
const ANSWERS: [(&str, &[&str]); 11] = [
    ("read", &["0", "1", "2", "3", "4", "5", "6", "7", "8", "9"]),
    ("plan", &["0", "1", "2", "3", "4", "5", "6", "7", "8", "9", "10", "20", "13", "22"]),
    ("run", &["0", "1", "2", "3", "4", "5", "6", "7", "8", "9", "10", "11", "20", "13", "22"]),
    ("size", &["0", "1", "2", "3", "4", "5", "6", "7", "8", "9", "20", "13", "22"]),
    ("run_fitted", &["0", "1", "2", "3", "4", "5", "6", "7", "8", "9", "11", "20", "13", "22", "10"]),
    ("mark", &["all met", "unmet", "100", "1", "2", "3", "4", "5", "6", "7", "8", "9", "10", "11", "20", "12", "13", "22"]),
    ("level", &["0", "14", "15", "16"]),
    ("count", &["0", "14", "15", "16"]),
    ("newer", &["0", "1", "2", "3", "4", "5", "6", "7", "8", "9", "10"]),
    ("older", &["0", "1", "2", "3", "4", "5", "6", "7", "8", "9", "10", "23"]),
    ("other", &["0", "1", "2", "3", "4", "5", "6", "7", "8", "9", "10", "23"]),
];

#[derive(Default)]
pub struct Tally {
    answers: BTreeMap<(&'static str, String), u64>,
    /// The greatest totals of an accepted run: frames, fan-in entries, last time.
    greatest: [u32; 3],
}

impl Tally {
    pub fn count(&mut self, call: &'static str, answer: u32) {
        self.count_as(call, &answer.to_string());
    }

    pub fn count_as(&mut self, call: &'static str, answer: &str) {
        *self.answers.entry((call, answer.to_string())).or_default() += 1;
    }

    fn of(&self, call: &'static str, answer: &str) -> u64 {
        self.answers.get(&(call, answer.to_string())).copied().unwrap_or(0)
    }

    pub fn note_totals(&mut self, totals: [u32; 3]) {
        for (greatest, total) in self.greatest.iter_mut().zip(totals) {
            *greatest = total.max(*greatest);
        }
    }

    pub fn calls(&self) -> u64 {
        self.answers.values().sum()
    }

    /// Answers that a call can give and never gave.
    pub fn missing(&self) -> Vec<String> {
        let all = ANSWERS.iter().flat_map(|(call, answers)| answers.iter().map(move |answer| (*call, *answer)));
        all.filter(|(call, answer)| self.of(call, answer) == 0).map(|(call, answer)| format!("{call} {answer}")).collect()
    }
}

/// A line for each call, `answer: how often`, and how large the runs were.
impl fmt::Display for Tally {
    fn fmt(&self, f: &mut fmt::Formatter<'_>) -> fmt::Result {
        for (call, answers) in ANSWERS {
            let counted: Vec<String> = answers.iter().map(|answer| format!("{answer}: {}", self.of(call, answer))).collect();
            writeln!(f, "{call:10}  {}", counted.join(", "))?;
        }
        let [frames, fanins, last] = self.greatest;
        writeln!(f, "the largest runs: {frames} frames, {fanins} fan-in entries, last time {last}")
    }
}
