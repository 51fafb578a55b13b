//! Damage: files, lists and lengths that are wrong in some place.

use crate::inputs::random::Random;
use crate::reference::file::{assemble, record, write, Edition};
use crate::reference::judge::Task;
use crate::reference::{Circuit, Gate};

/// A file of the circuit, in an edition, with a fault or two.
pub fn file(random: &mut Random, edition: Edition, circuit: &Circuit) -> Vec<u8> {
    let mut circuit = circuit.clone();
    match random.below(20) {
        0..=10 => {
            spoil(random, edition, &mut circuit);
            if random.percent(20) {
                spoil(random, edition, &mut circuit);
            }
            write(edition, &circuit)
        }
        11..=12 => odd_records(random, edition, &circuit),
        13 => (0..random.below(40)).map(|_| random.below(4) as u8).collect(),
        14 if random.percent(10) => long(random, edition),
        _ => {
            let mut file = write(edition, &circuit);
            scratch(random, &mut file);
            file
        }
    }
}

/// Makes the circuit one that the reader refuses, in most cases.
fn spoil(random: &mut Random, edition: Edition, circuit: &mut Circuit) {
    if circuit.gates.is_empty() || random.percent(15) {
        match random.below(3) {
            0 => crowd(random, circuit),
            _ => circuit.inputs = random.pick(&[0, 33, 34, 255, 256, 288, 65_000]),
        }
        return;
    }
    let place = random.below(circuit.gates.len());
    let net = circuit.inputs + place;
    let too_long = random.pick(if edition.delay_bytes == 1 { &[64, 255] } else { &[60_001, 65_535] });
    let gate = &mut circuit.gates[place];
    match random.below(10) {
        0..=1 => gate.kind = random.from(8, 255) as u8,
        2 => gate.delay = 0,
        3 => gate.delay = too_long,
        4 => gate.inertial = too_long,
        5 => gate.kind = random.below(8) as u8,
        6 => gate.fanins.truncate(random.below(3)),
        7 => gate.fanins.resize(random.from(2, 10), 0),
        _ => {
            gate.fanins.pop();
            let place = random.from(0, gate.fanins.len());
            gate.fanins.insert(place, random.pick(&[net, net, net + 1, 65_535]));
        }
    }
}

/// Too many gates, or just as many as are allowed.
fn crowd(random: &mut Random, circuit: &mut Circuit) {
    let one = Gate { kind: 0, delay: 1, inertial: 0, fanins: vec![0] };
    let gates = random.pick(&[128, 129, 130, 200, 257]);
    circuit.gates.resize(gates, one);
}

/// True pairs, but a record that has a byte more, or too few.
fn odd_records(random: &mut Random, edition: Edition, circuit: &Circuit) -> Vec<u8> {
    let mut records: Vec<Vec<u8>> = circuit.gates.iter().map(|gate| record(edition, gate)).collect();
    if !records.is_empty() {
        let place = random.below(records.len());
        match random.below(3) {
            0 => records[place].push(0),
            1 => records[place].truncate(random.below(7)),
            _ => records[place].extend([0; 20]),
        }
    }
    assemble(edition.added + circuit.inputs, &records)
}

/// One record as long as two bytes can say, so that it ends beyond 65,535; or two, of which the second begins where two bytes
/// would have come round.
fn long(random: &mut Random, edition: Edition) -> Vec<u8> {
    let inputs = [1, (edition.added / 256) as u8];
    let end = random.pick(&[65_543, 65_542, 65_544]);
    let (pairs, length): (&[u8], usize) = match random.below(2) {
        0 => (&[1, 0, 8, 0, 255, 255], end),
        _ => (&[2, 0, 12, 0, 255, 255, 11, 0, 9, 0], 20),
    };
    let mut file = [&inputs[..], pairs, &[2, 1]].concat();
    file.resize(length, 0);
    file
}

/// Bytes cut off, changed, added or left out.
fn scratch(random: &mut Random, file: &mut Vec<u8>) {
    let place = random.below(file.len());
    let near = random.below(file.len().min(12));
    match random.below(9) {
        0 => file.truncate(place),
        1 => file.truncate(random.below(5)),
        2 => file[place] = random.below(256) as u8,
        3 => file[place] ^= 1 << random.below(8),
        4 => file[near] = file[near].wrapping_add(random.pick(&[1, 255])),
        5 => file.insert(place, random.below(256) as u8),
        6 => drop(file.remove(place)),
        7 => file.extend((0..random.from(1, 3)).map(|_| 0)),
        _ => file[random.pick(&[0, 1, 2, 3])] = random.below(256) as u8,
    }
}

/// Change counts or change times against their rules.
pub fn changes(random: &mut Random, task: &mut Task) {
    let inputs = task.counts.len().max(1);
    let input = random.below(inputs);
    match random.below(8) {
        0 => task.counts.push(random.pick(&[0, 0, 1])),
        1 => drop(task.counts.pop()),
        2 => bump(&mut task.counts, input, random.pick(&[1, 9, 255])),
        3 => task.changes.push(random.time(0, 300)),
        4 => drop(task.changes.pop()),
        5 => nine(task),
        _ => wrong_time(random, task),
    }
    if random.percent(80) {
        task.after.resize(task.changes.len(), 5);
    }
}

fn bump(counts: &mut [u8], input: usize, by: u8) {
    if let Some(count) = counts.get_mut(input) {
        *count = count.saturating_add(by);
    }
}

/// Nine rising times of the last input.
fn nine(task: &mut Task) {
    if let Some(count) = task.counts.pop() {
        task.changes.truncate(task.changes.len().saturating_sub(count.into()));
        task.counts.push(9);
        task.changes.extend(1..=9);
    }
}

fn wrong_time(random: &mut Random, task: &mut Task) {
    if task.changes.is_empty() {
        return;
    }
    let place = random.below(task.changes.len());
    let other = random.below(task.changes.len());
    match random.below(4) {
        0 => task.changes[place] = random.pick(&[0, 256, 257, 65_537, u32::MAX]),
        1 => task.changes[place] = task.changes[other],
        2 => task.changes.swap(place, other),
        _ => task.changes[place] = random.time(0, 256),
    }
}

/// A word too many or too few, or none.
pub fn words(random: &mut Random, task: &mut Task) {
    match random.below(6) {
        0 => task.before.push(1),
        1 => drop(task.before.pop()),
        2 | 3 => task.after.push(1),
        4 => drop(task.after.pop()),
        _ => task.before.clear(),
    }
}

/// One length, or each, that is not the one asked for.
pub fn lengths<const N: usize>(random: &mut Random, lengths: &mut [usize; N]) {
    let place = random.below(N);
    let length = &mut lengths[place];
    match random.below(8) {
        0..=2 => *length += 1,
        3..=4 => *length = length.saturating_sub(1),
        5 => *length = 0,
        6 => *length = random.below(2 * *length + 4),
        _ => lengths.iter_mut().for_each(|length| *length = random.below(*length + 4)),
    }
}

/// Times and values of a net with a fault.
pub fn parts(random: &mut Random, times: &mut Vec<u32>, values: &mut Vec<u64>) {
    let place = random.below(times.len());
    match random.below(8) {
        0 => drop(times.pop()),
        1 => values.push(3),
        2 => {
            times.clear();
            values.clear();
        }
        3 => {
            let last = times[times.len() - 1];
            let length = random.from(65, 70);
            times.extend((1..).map(|more| last.saturating_add(more)).take(length.saturating_sub(times.len())));
            values.resize(times.len(), 1);
        }
        4 => times[0] = random.pick(&[1, u32::MAX]),
        5 => times[place] = times[place.saturating_sub(1)],
        6 => times.swap(0, place),
        _ => times[place] = random.time(0, 3),
    }
}
