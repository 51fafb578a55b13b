//! The time-by-time machine in one lane. It knows no frames.
//!
//! For an input, out(t) is the level of the latest change not after t, else the level before. For a gate, raw(t) is its
//! function of the fan-ins' out at t - d, or at 0 if t < d; out(0) = raw(0); and for t from 1 on out(t) = raw(t) if raw is
//! equal at every time from t to t + di, else out(t - 1).
//!
//! Times go up to millions, so a level over time is kept as a wave, and the rule is asked only at times at which its answer can
//! be another than just before. `literal` asks it at every time.

use super::{Circuit, Gate};

/// A level over time: the level at 0, and the times at which it turns to the other one.
#[derive(Clone, Debug, PartialEq, Eq)]
pub struct Wave {
    pub first: bool,
    pub turns: Vec<u32>,
}

impl Wave {
    fn new(first: bool) -> Wave {
        Wave { first, turns: Vec::new() }
    }

    /// The level becomes this one.
    fn push(&mut self, time: u32, level: bool) {
        if self.last() != level {
            self.turns.push(time);
        }
    }

    /// The level at the end.
    fn last(&self) -> bool {
        self.first ^ (self.turns.len() % 2 == 1)
    }

    pub fn at(&self, time: u32) -> bool {
        let turned = self.turns.partition_point(|&turn| turn <= time);
        self.first ^ (turned % 2 == 1)
    }

    /// The first time of a span, both ends included, at which the level is another than this one.
    pub fn first_other(&self, level: bool, from: u32, to: u32) -> Option<u32> {
        if self.at(from) != level {
            return Some(from);
        }
        let next = self.turns.partition_point(|&turn| turn <= from);
        self.turns.get(next).copied().filter(|&turn| turn <= to)
    }
}

/// The function of a gate's entries.
pub fn function(kind: u8, entries: impl Iterator<Item = bool>) -> bool {
    let (mut ones, mut zeros) = (0, 0);
    entries.for_each(|entry| if entry { ones += 1 } else { zeros += 1 });
    match kind {
        0 => ones == 1,
        1 => zeros == 1,
        2 => zeros == 0,
        3 => zeros > 0,
        4 => ones > 0,
        5 => ones == 0,
        6 => ones % 2 == 1,
        7 => ones % 2 == 0,
        _ => unreachable!("the reader refuses other kinds"),
    }
}

/// The words of the inputs, by input: the one before, and for each change its time and its word.
pub struct Drive {
    pub before: u64,
    pub changes: Vec<(u32, u64)>,
}

pub fn bit(word: u64, lane: u8) -> bool {
    word.to_le_bytes()[usize::from(lane / 8)] & 1 << (lane % 8) != 0
}

/// The waves of all nets in a lane.
pub fn waves(circuit: &Circuit, drives: &[Drive], lane: u8) -> Vec<Wave> {
    let mut waves: Vec<Wave> = drives.iter().map(|drive| input(drive, lane)).collect();
    for gate in &circuit.gates {
        let wave = out(&raw(gate, &waves), gate.inertial);
        waves.push(wave);
    }
    waves
}

fn input(drive: &Drive, lane: u8) -> Wave {
    let mut wave = Wave::new(bit(drive.before, lane));
    drive.changes.iter().for_each(|&(time, word)| wave.push(time, bit(word, lane)));
    wave
}

/// raw(t) can turn only d after a turn of a fan-in.
fn raw(gate: &Gate, waves: &[Wave]) -> Wave {
    let fanins = || gate.fanins.iter().map(|&fanin| &waves[fanin]);
    let mut asked: Vec<u32> = fanins().flat_map(|wave| wave.turns.iter().copied()).collect();
    asked.sort_unstable();
    asked.dedup();
    let mut raw = Wave::new(function(gate.kind, fanins().map(|wave| wave.first)));
    for time in asked {
        raw.push(time + gate.delay, function(gate.kind, fanins().map(|wave| wave.at(time))));
    }
    raw
}

/// If raw is the same from t to t + di, and was so at t - 1 too, then out had this level at t - 1: so it can turn only where
/// raw does.
fn out(raw: &Wave, inertial: u32) -> Wave {
    let mut out = Wave::new(raw.first);
    for &time in &raw.turns {
        let level = raw.at(time);
        if raw.first_other(level, time, time + inertial).is_none() {
            out.push(time, level);
        }
    }
    out
}
