//! When nets can change: question 20, potential times as sets, question 13, and the indices.

use std::collections::BTreeSet;
use std::ops::Bound::{Excluded, Included};

use super::{ask, Circuit, Gate, No};

pub type Times = BTreeSet<u32>;

/// The change times of each input, from the two lists: question 20.
pub fn changes_of(inputs: usize, counts: &[u8], changes: &[u32]) -> Result<Vec<Vec<u32>>, No> {
    ask(counts.len() == inputs, 20)?;
    ask(counts.iter().all(|&count| count <= 8), 20)?;
    ask(counts.iter().map(|&count| usize::from(count)).sum::<usize>() == changes.len(), 20)?;
    let mut rest = changes.iter().copied();
    let own: Vec<Vec<u32>> = counts.iter().map(|&count| rest.by_ref().take(count.into()).collect()).collect();
    for times in &own {
        ask(times.iter().all(|time| (1..=255).contains(time)), 20)?;
        ask(times.windows(2).all(|two| two[0] < two[1]), 20)?;
    }
    Ok(own)
}

/// The potential times of each net, 0 among them: question 13.
pub fn potential_times(circuit: &Circuit, changes: &[Vec<u32>]) -> Result<Vec<Times>, No> {
    let mut nets: Vec<Times> = changes.iter().map(|times| times.iter().copied().chain([0]).collect()).collect();
    for gate in &circuit.gates {
        nets.push(gate_times(gate, &nets));
        // Later gates add frames only, so there is no need to go on.
        ask(are_few(&nets), 13)?;
    }
    Ok(nets)
}

/// 0, and d after each non-zero time of a fan-in.
fn gate_times(gate: &Gate, nets: &[Times]) -> Times {
    let times = gate.fanins.iter().flat_map(|&fanin| &nets[fanin]);
    times.filter(|&&time| time != 0).map(|&time| time + gate.delay).chain([0]).collect()
}

fn are_few(nets: &[Times]) -> bool {
    let counts = nets.iter().map(|times| times.len());
    counts.clone().all(|count| count <= 64) && counts.sum::<usize>() <= 2048
}

/// How many later times are at most so much after this one.
pub fn inertial_index(times: &Times, time: u32, inertial: u32) -> u16 {
    times.range((Excluded(time), Included(time + inertial))).count() as u16
}

/// The last frame of a fan-in that decides what the gate does at a time: 0 at time 0.
pub fn fanin_index(times: &Times, time: u32, delay: u32) -> u16 {
    match time {
        0 => 0,
        _ => frame_at(times, time - delay) as u16,
    }
}

/// The frame of a time: the last that has begun by then.
pub fn frame_at(times: &Times, time: u32) -> usize {
    times.range(..=time).count() - 1
}
