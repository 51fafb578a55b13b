//! The circuit file in its two editions: questions 1 to 9, and writing.

use super::{ask, Circuit, Gate, No};

/// What tells the editions apart.
#[derive(Clone, Copy, Debug)]
pub struct Edition {
    /// What bytes 0 and 1 hold besides I.
    pub added: usize,
    /// Bytes of a delay.
    pub delay_bytes: usize,
    /// The greatest delay.
    pub most_delay: u32,
}

pub const PRESENT: Edition = Edition { added: 256, delay_bytes: 2, most_delay: 60_000 };
pub const FORMER: Edition = Edition { added: 0, delay_bytes: 1, most_delay: 63 };

/// The number of some bytes, the lowest first.
fn number(bytes: &[u8]) -> usize {
    bytes.iter().rev().fold(0, |high, &byte| 256 * high + usize::from(byte))
}

fn two_bytes(number: usize) -> [u8; 2] {
    [(number % 256) as u8, (number / 256 % 256) as u8]
}

pub fn read(edition: Edition, file: &[u8]) -> Result<Circuit, No> {
    ask(file.len() >= 4, 1)?;
    let stated = number(&file[..2]);
    ask(stated > edition.added && stated <= edition.added + 32, 2)?;
    let inputs = stated - edition.added;
    let count = number(&file[2..4]);
    ask(count <= 128, 3)?;
    let records = records(edition, file, count)?;
    let mut gates = Vec::new();
    for record in records {
        gates.push(gate(edition, record, inputs + gates.len())?);
    }
    Ok(Circuit { inputs, gates })
}

/// The records, by their pairs: questions 4 and 5.
fn records(edition: Edition, file: &[u8], count: usize) -> Result<Vec<&[u8]>, No> {
    let head = 4 + 4 * count;
    ask(file.len() >= head, 4)?;
    let mut end = head;
    let mut spans = Vec::new();
    for pair in file[4..head].chunks(4) {
        let (offset, length) = (number(&pair[..2]), number(&pair[2..]));
        ask(offset == end, 5)?;
        ask(length > 2 * edition.delay_bytes, 5)?;
        end = offset + length;
        spans.push(offset..end);
    }
    ask(end == file.len(), 5)?;
    Ok(spans.into_iter().map(|span| &file[span]).collect())
}

/// The gate that drives a net, from its record: questions 6 to 9.
fn gate(edition: Edition, record: &[u8], net: usize) -> Result<Gate, No> {
    let (kind, rest) = (record[0], &record[1..]);
    let (delay, rest) = rest.split_at(edition.delay_bytes);
    let (inertial, list) = rest.split_at(edition.delay_bytes);
    let (delay, inertial) = (number(delay) as u32, number(inertial) as u32);
    ask(kind <= 7, 6)?;
    ask(delay >= 1 && delay.max(inertial) <= edition.most_delay, 7)?;
    ask(list.len() % 2 == 0 && takes(kind, list.len() / 2), 8)?;
    let fanins: Vec<usize> = list.chunks(2).map(number).collect();
    ask(fanins.iter().all(|&fanin| fanin < net), 9)?;
    Ok(Gate { kind, delay, inertial, fanins })
}

/// May a gate of this kind have so many entries?
fn takes(kind: u8, entries: usize) -> bool {
    match kind {
        0 | 1 => entries == 1,
        _ => (2..=8).contains(&entries),
    }
}

/// The file of a circuit. What has no place in its bytes loses its high part, so any numbers can be written.
pub fn write(edition: Edition, circuit: &Circuit) -> Vec<u8> {
    let records: Vec<Vec<u8>> = circuit.gates.iter().map(|gate| record(edition, gate)).collect();
    assemble(edition.added + circuit.inputs, &records)
}

pub fn record(edition: Edition, gate: &Gate) -> Vec<u8> {
    let delays = [gate.delay, gate.inertial];
    let delays = delays.iter().flat_map(|delay| delay.to_le_bytes().into_iter().take(edition.delay_bytes));
    let fanins = gate.fanins.iter().flat_map(|&fanin| two_bytes(fanin));
    [gate.kind].into_iter().chain(delays).chain(fanins).collect()
}

/// A file of these records, with true pairs.
pub fn assemble(stated_inputs: usize, records: &[Vec<u8>]) -> Vec<u8> {
    let mut offset = 4 + 4 * records.len();
    let mut file = [two_bytes(stated_inputs), two_bytes(records.len())].concat();
    for record in records {
        file.extend(two_bytes(offset));
        file.extend(two_bytes(record.len()));
        offset += record.len();
    }
    file.extend(records.concat());
    file
}
