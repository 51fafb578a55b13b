//! The time-by-time machine, word for word, at every time up to an end. It is slow: for small circuits with small delays, to
//! hold `machine` against.

use super::machine::{bit, function, Drive};
use super::Circuit;

/// How many levels would have to be looked at.
pub fn cost(circuit: &Circuit, until: u32) -> u64 {
    let needs = needs(circuit, until);
    let gates = circuit.gates.iter().zip(&needs[circuit.inputs..]);
    gates.map(|(gate, need)| u64::from(need + gate.inertial) * u64::from(1 + gate.inertial)).sum()
}

/// The last time up to which out has to be known, net by net: a gate reads its fan-ins d before, and di ahead.
fn needs(circuit: &Circuit, until: u32) -> Vec<u32> {
    let mut needs = vec![until; circuit.nets()];
    for (j, gate) in circuit.gates.iter().enumerate().rev() {
        let need = (needs[circuit.inputs + j] + gate.inertial).saturating_sub(gate.delay);
        gate.fanins.iter().for_each(|&fanin| needs[fanin] = needs[fanin].max(need));
    }
    needs
}

/// out of every net in a lane, at every time up to the end and some beyond.
pub fn levels(circuit: &Circuit, drives: &[Drive], lane: u8, until: u32) -> Vec<Vec<bool>> {
    let needs = needs(circuit, until);
    let mut nets: Vec<Vec<bool>> = Vec::new();
    for (drive, &need) in drives.iter().zip(&needs) {
        nets.push((0..=need).map(|time| bit(word_at(drive, time), lane)).collect());
    }
    for gate in &circuit.gates {
        let need = needs[nets.len()];
        let raw = |time: u32| {
            let earlier = time.saturating_sub(gate.delay) as usize;
            function(gate.kind, gate.fanins.iter().map(|&fanin| nets[fanin][earlier]))
        };
        let raw: Vec<bool> = (0..=need + gate.inertial).map(raw).collect();
        let mut out = vec![raw[0]];
        for time in 1..=need as usize {
            let equal = raw[time..=time + gate.inertial as usize].iter().all(|&level| level == raw[time]);
            out.push(if equal { raw[time] } else { out[time - 1] });
        }
        nets.push(out);
    }
    nets
}

fn word_at(drive: &Drive, time: u32) -> u64 {
    let latest = drive.changes.iter().rfind(|change| change.0 <= time);
    latest.map_or(drive.before, |change| change.1)
}
