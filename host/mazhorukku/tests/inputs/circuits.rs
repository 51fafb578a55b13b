//! Random circuits with the change times of their inputs.

use crate::inputs::random::Random;
use crate::reference::{Circuit, Gate};

pub struct Design {
    pub circuit: Circuit,
    pub changes: Vec<Vec<u32>>,
}

/// How a random circuit is made.
struct Manner {
    /// How often out of a hundred.
    share: usize,
    inputs: (usize, usize),
    gates: (usize, usize),
    /// How often an input changes at most, and when last.
    changes: (usize, u32),
    /// Delays are multiples of this unit, up to so many, so that times meet or just miss.
    unit: u32,
    steps: u32,
    /// How many of the nets before it a gate may read.
    reach: usize,
    entries: usize,
}

const MANNERS: [Manner; 9] = [
    // a few gates, as in a first exercise
    Manner { share: 30, inputs: (1, 3), gates: (0, 6), changes: (2, 12), unit: 1, steps: 4, reach: 99, entries: 4 },
    // levels that change often
    Manner { share: 22, inputs: (1, 6), gates: (3, 24), changes: (1, 3), unit: 1, steps: 3, reach: 6, entries: 3 },
    // bursts, far apart and close together
    Manner { share: 8, inputs: (1, 4), gates: (1, 10), changes: (8, 255), unit: 1, steps: 20, reach: 5, entries: 3 },
    Manner { share: 8, inputs: (1, 4), gates: (2, 16), changes: (8, 20), unit: 1, steps: 3, reach: 5, entries: 3 },
    // picoseconds: times that meet or just miss, and any delays
    Manner { share: 10, inputs: (1, 5), gates: (1, 20), changes: (2, 3), unit: 9_999, steps: 6, reach: 6, entries: 4 },
    Manner { share: 7, inputs: (1, 5), gates: (1, 14), changes: (3, 255), unit: 1, steps: 60_000, reach: 8, entries: 4 },
    // large ones
    Manner { share: 4, inputs: (20, 32), gates: (90, 128), changes: (1, 1), unit: 1, steps: 1, reach: 40, entries: 8 },
    Manner { share: 3, inputs: (1, 32), gates: (1, 128), changes: (1, 2), unit: 7, steps: 2, reach: 200, entries: 8 },
    // a chain, whose last time can be the last that there is
    Manner { share: 3, inputs: (1, 2), gates: (100, 128), changes: (3, 255), unit: 60_000, steps: 1, reach: 1, entries: 8 },
];

pub fn design(random: &mut Random) -> Design {
    let mut at = random.below(100);
    for manner in &MANNERS {
        if at < manner.share {
            return made(random, manner);
        }
        at -= manner.share;
    }
    match at {
        0 | 1 => comb(random),
        _ => filled(random),
    }
}

fn made(random: &mut Random, manner: &Manner) -> Design {
    let inputs = random.from(manner.inputs.0, manner.inputs.1);
    let gates = random.from(manner.gates.0, manner.gates.1);
    let gates = (inputs..inputs + gates).map(|net| gate(random, manner, net)).collect();
    let changes = (0..inputs).map(|_| rising(random, manner.changes.0, manner.changes.1)).collect();
    Design { circuit: Circuit { inputs, gates }, changes }
}

fn gate(random: &mut Random, manner: &Manner, net: usize) -> Gate {
    let kind = random.below(8) as u8;
    let entries = if kind < 2 { 1 } else { random.from(2, manner.entries) };
    let first = net.saturating_sub(manner.reach);
    let fanins = (0..entries).map(|_| random.from(first, net - 1)).collect();
    let delay = near(random, manner, 1).max(1);
    let inertial = if random.percent(40) { 0 } else { near(random, manner, 0) };
    Gate { kind, delay, inertial, fanins }
}

/// A multiple of the manner's unit, or one more or less.
fn near(random: &mut Random, manner: &Manner, least: u32) -> u32 {
    let delay = manner.unit * random.time(least, manner.steps);
    let delay = if random.percent(20) { delay + random.time(0, 2) } else { delay + 1 };
    delay.saturating_sub(1).min(60_000)
}

/// Up to so many times, strictly rising from 1 on.
fn rising(random: &mut Random, most: usize, last: u32) -> Vec<u32> {
    let mut times: Vec<u32> = (0..random.from(0, most)).map(|_| random.time(1, last)).collect();
    times.sort_unstable();
    times.dedup();
    times
}

/// A net with 62 to 65 frames: copies of an input that changes 8 times, each by 8 steps later than the one before, merged; the
/// last copy may be too early by a few steps.
fn comb(random: &mut Random) -> Design {
    let step = random.time(1, 31);
    let overlap = random.time(0, 3);
    let mut gates = Vec::new();
    for copy in 0..8 {
        let early = if copy == 7 { overlap } else { 0 };
        let delay = step * (8 * copy + 1 - early);
        gates.push(Gate { kind: random.below(2) as u8, delay, inertial: 0, fanins: vec![0] });
    }
    let inertial = random.pick(&[0, step - 1, step, 3 * step]);
    gates.push(Gate { kind: random.from(2, 7) as u8, delay: 1, inertial, fanins: (2..10).collect() });
    let changes = vec![(1..=8).map(|k| step * k).collect(), Vec::new()];
    Design { circuit: Circuit { inputs: 2, gates }, changes }
}

/// Some 2,048 frames in all: a comb, and copies of its nets of 64, 9 and 1 frames.
fn filled(random: &mut Random) -> Design {
    let mut design = comb(random);
    design.circuit.gates[7].delay = design.changes[0][0] * 56; // 64 frames
    let mut rest = random.from(2046, 2050) - (9 + 1 + 8 * 9 + 64);
    let least = random.pick(&[2, 8]);
    for (net, frames) in [(10, 64), (0, 9), (1, 1)] {
        while rest >= frames {
            design.circuit.gates.push(copy(random, net, least));
            rest -= frames;
        }
    }
    design
}

/// A gate that reads one net, perhaps several times.
fn copy(random: &mut Random, net: usize, least: usize) -> Gate {
    let kind = random.from(if least == 8 { 2 } else { 0 }, 7) as u8;
    let entries = if kind < 2 { 1 } else { random.from(least, 8) };
    let (delay, inertial) = (random.time(1, 60_000), random.time(0, 40));
    Gate { kind, delay, inertial, fanins: vec![net; entries] }
}
