//! Random and damaged inputs. A case depends on the seed and its own number alone.

pub mod circuits;
pub mod damage;
pub mod expectations;
pub mod random;

use crate::reference::file::{write, FORMER, PRESENT};
use crate::reference::judge::{Judge, Lengths, Task, FULL};
use crate::reference::Circuit;
use circuits::{design, Design};
use random::Random;

/// What the calls are handed in one case.
#[derive(Debug)]
pub struct Case {
    pub task: Task,
    /// The lengths of the areas for Plan, Run and Mark.
    pub full: Lengths,
    /// The lengths of the areas for the fitted Run.
    pub fitted: Lengths,
    pub expectations: Vec<u8>,
    /// A file of the former edition.
    pub former: Vec<u8>,
    pub converter_length: usize,
    pub looks: Vec<Look>,
}

pub fn case(random: &mut Random) -> Case {
    let design = design(random);
    let sound = task(random, &design);
    let judge = Judge::new(&sound);
    let limit = limit(random, &judge);
    let mut case = Case {
        task: Task { limit, ..sound.clone() },
        full: FULL,
        fitted: if judge.nets().is_ok() { judge.fitting() } else { FULL },
        expectations: expectations::list(random, &judge),
        former: former(random, &design.circuit),
        converter_length: 4096,
        looks: (0..3).map(|_| look(random)).collect(),
    };
    let faults = random.pick(&[0, 0, 0, 0, 0, 1, 1, 1, 1, 2]);
    (0..faults).for_each(|_| hurt(random, &mut case, &design.circuit));
    case
}

fn task(random: &mut Random, design: &Design) -> Task {
    let changes: Vec<u32> = design.changes.concat();
    Task {
        file: write(PRESENT, &design.circuit),
        counts: design.changes.iter().map(|times| times.len() as u8).collect(),
        before: words(random, design.circuit.inputs),
        after: words(random, changes.len()),
        changes,
        limit: 2048,
    }
}

/// Words of which some are alike in many lanes.
fn words(random: &mut Random, count: usize) -> Vec<u64> {
    (0..count)
        .map(|_| match random.below(6) {
            0 => 0,
            1 => u64::MAX,
            2 => random.word() & random.word() & random.word(),
            _ => random.word(),
        })
        .collect()
}

/// The full limit, one about the frame total, or one that makes no sense.
fn limit(random: &mut Random, judge: &Judge) -> u16 {
    let total = judge.nets().map_or(1000, |nets| nets.iter().map(|times| times.len()).sum::<usize>()) as u16;
    match random.below(16) {
        0 => total - 1,
        1 => total,
        2 => total + 1,
        3 => random.pick(&[0, 1, 2047, 2049, 65_535]),
        4 => random.pick(&[256, 2048 - 256]),
        5 => random.below(65_536) as u16,
        _ => 2048,
    }
}

/// The circuit in the former edition, with delays that have a place there; sometimes damaged.
fn former(random: &mut Random, circuit: &Circuit) -> Vec<u8> {
    let mut circuit = circuit.clone();
    for gate in &mut circuit.gates {
        gate.delay = 1 + gate.delay % 63;
        gate.inertial %= 64;
    }
    match random.below(10) {
        0..=3 => damage::file(random, FORMER, &circuit),
        4 => write(PRESENT, &circuit),
        _ => write(FORMER, &circuit),
    }
}

/// Damages one of the things that are handed in.
fn hurt(random: &mut Random, case: &mut Case, circuit: &Circuit) {
    match random.below(20) {
        0..=7 => case.task.file = damage::file(random, PRESENT, circuit),
        8 => case.task.file = write(FORMER, circuit),
        9..=11 => damage::changes(random, &mut case.task),
        12..=13 => damage::words(random, &mut case.task),
        14..=15 => damage::lengths(random, &mut case.full),
        16 => damage::lengths(random, &mut case.fitted),
        17 => {
            let mut length = [case.converter_length];
            damage::lengths(random, &mut length);
            case.converter_length = length[0];
        }
        _ => expectations::hurt(random, &mut case.expectations, circuit.nets()),
    }
}

/// Times and values of a net that no run need have made, a lane and a time.
#[derive(Debug)]
pub struct Look {
    pub times: Vec<u32>,
    pub values: Vec<u64>,
    pub lane: u8,
    pub time: u32,
}

fn look(random: &mut Random) -> Look {
    let frames = random.pick(&[1, 2, 3, 5, 9, 63, 64]);
    let step = random.pick(&[1, 4, 60_000, 67_000_000]);
    let mut times = vec![0];
    while times.len() < frames {
        times.push(times[times.len() - 1] + random.time(1, step));
    }
    let mut values = words(random, frames);
    if random.percent(40) {
        damage::parts(random, &mut times, &mut values);
    }
    let time = time_near(random, &times);
    Look { time, lane: lane(random), times, values }
}

/// A lane, seldom one that there is not.
pub fn lane(random: &mut Random) -> u8 {
    match random.below(12) {
        0 => random.pick(&[64, 65, 127, 128, 255]),
        1 => random.pick(&[0, 31, 32, 63]),
        _ => random.below(64) as u8,
    }
}

/// About one of these times, or anywhere.
pub fn time_near(random: &mut Random, times: &[u32]) -> u32 {
    match random.below(6) {
        0 => random.word() as u32,
        1 => u32::MAX,
        _ if times.is_empty() => 0,
        _ => random.pick(times).wrapping_add(random.pick(&[0, 0, 1, u32::MAX])),
    }
}
