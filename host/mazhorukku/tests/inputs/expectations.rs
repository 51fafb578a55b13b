//! Lists of expectations, as bytes.

use crate::inputs::random::Random;
use crate::inputs::time_near;
use crate::reference::judge::Judge;

#[derive(Clone, Copy)]
struct Record {
    net: usize,
    lane: u8,
    level: u8,
    from: u32,
    to: u32,
}

impl Record {
    fn bytes(self) -> Vec<u8> {
        let mut bytes = (self.net as u16).to_le_bytes().to_vec();
        bytes.extend([self.lane, self.level]);
        bytes.extend(self.from.to_le_bytes());
        bytes.extend(self.to.to_le_bytes());
        bytes
    }
}

/// A list that suits the circuit, and of which all or most are met.
pub fn list(random: &mut Random, judge: &Judge) -> Vec<u8> {
    let length = match random.below(60) {
        0 => 1024,
        1..=9 => 0,
        10..=19 => random.below(60),
        _ => random.from(1, 6),
    };
    let faulty = random.percent(50);
    (0..length).flat_map(|_| record(random, judge, faulty).bytes()).collect()
}

fn record(random: &mut Random, judge: &Judge, faulty: bool) -> Record {
    let Ok(nets) = judge.nets() else {
        return Record { net: 0, lane: 0, level: 0, from: 0, to: 9 };
    };
    let (net, lane) = (random.below(nets.len()), random.below(64) as u8);
    let times: Vec<u32> = nets[net].iter().copied().collect();
    let wave = &judge.waves()[usize::from(lane)][net];
    let (one, two) = (time_near(random, &times), time_near(random, &times));
    let (from, mut to) = (one.min(two), one.max(two));
    let level = wave.at(from);
    if faulty && random.percent(20) {
        let level = u8::from(level ^ random.percent(50));
        return Record { net, lane, level, from, to };
    }
    // up to the last time before the level turns
    if let Some(turn) = wave.first_other(level, from, to) {
        to = turn - 1;
    }
    Record { net, lane, level: u8::from(level), from, to }
}

/// Bytes that are no records, too many of them, or a record that says nothing of the circuit.
pub fn hurt(random: &mut Random, list: &mut Vec<u8>, nets: usize) {
    match random.below(10) {
        0 => list.push(0),
        1 => drop(list.pop()),
        2 => list.resize(11, 0),
        3 => list.resize(12 * random.pick(&[1025, 1026, 3000]), 0),
        4 => list.resize(12 * 1024 + random.from(1, 11), 0),
        _ => wrong_record(random, list, nets),
    }
}

fn wrong_record(random: &mut Random, list: &mut Vec<u8>, nets: usize) {
    let mut record = Record { net: 0, lane: 0, level: 0, from: 7, to: 7 };
    match random.below(7) {
        0 => record.net = nets,
        1 => record.net = random.pick(&[nets + 256, 65_535]),
        2 => record.lane = random.pick(&[64, 255]),
        3 => record.level = random.pick(&[2, 255]),
        4 => record.to = 6,
        5 => (record.from, record.to) = (65_536, 65_535),
        _ => record.from = u32::MAX,
    }
    let place = 12 * random.below(list.len() / 12 + 1);
    list.splice(place..place, record.bytes());
}
