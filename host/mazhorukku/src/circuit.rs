//! Circuits, and the file that holds one.

use crate::refusal::{accepted, Refusal};
use crate::sys;

/// The kind of a gate. Entries of the fan-in list are counted, not nets: a net that stands there twice counts twice.
#[derive(Clone, Copy, Debug, PartialEq, Eq, Hash)]
pub enum Kind {
    /// The level of its one entry.
    Buf = 0,
    /// The other level than that of its one entry.
    Not = 1,
    /// 1 when all entries are 1.
    And = 2,
    /// 1 when some entry is 0.
    Nand = 3,
    /// 1 when some entry is 1.
    Or = 4,
    /// 1 when all entries are 0.
    Nor = 5,
    /// 1 when an odd number of entries are 1.
    Xor = 6,
    /// 1 when an even number of entries are 1, or none.
    Xnor = 7,
}

impl Kind {
    /// All kinds, each at the place that is its number.
    pub const ALL: [Kind; 8] = [Kind::Buf, Kind::Not, Kind::And, Kind::Nand, Kind::Or, Kind::Nor, Kind::Xor, Kind::Xnor];

    /// The number that stands in a gate's record.
    #[must_use]
    pub fn number(self) -> u8 {
        self as u8
    }

    /// The kind with this number, if there is one.
    #[must_use]
    pub fn from_number(number: u8) -> Option<Kind> {
        Kind::ALL.get(usize::from(number)).copied()
    }
}

/// A gate: its kind, its delays, and the nets that it reads.
#[derive(Clone, Debug, PartialEq, Eq, Hash)]
pub struct Gate {
    /// The kind.
    pub kind: Kind,
    /// The transport delay, from 1 on.
    pub delay: u16,
    /// The inertial delay: a pulse as short as that is swallowed.
    pub inertial: u16,
    /// The nets that it reads, its fan-ins.
    pub fanins: Vec<u16>,
}

/// A circuit that is put together gate by gate. Inputs are nets 0 to I - 1, and each gate drives the next net.
///
/// It is checked when a call reads its file, and not before: what makes no sense, such as 33 inputs or a gate that reads its
/// own net, can be put together, and the proved reader refuses it.
///
/// ```
/// use mazhorukku::{Circuit, Kind};
///
/// let mut pulse_former = Circuit::new(1);
/// let not_a = pulse_former.gate(Kind::Not, 2, 0, &[0]);
/// let pulse = pulse_former.gate(Kind::And, 1, 1, &[0, not_a]);
/// assert_eq!(pulse, 2);
///
/// let file = pulse_former.to_bytes();
/// assert_eq!(Circuit::from_bytes(&file), Ok(pulse_former));
/// ```
#[derive(Clone, Debug, PartialEq, Eq, Hash)]
pub struct Circuit {
    inputs: u16,
    gates: Vec<Gate>,
}

impl Circuit {
    /// A circuit with so many inputs and no gates.
    #[must_use]
    pub fn new(inputs: u16) -> Circuit {
        Circuit { inputs, gates: Vec::new() }
    }

    /// Adds a gate and answers the net that it drives.
    pub fn gate(&mut self, kind: Kind, delay: u16, inertial: u16, fanins: &[u16]) -> u16 {
        let net = self.inputs.saturating_add(two_bytes(self.gates.len()));
        let fanins = fanins.to_vec();
        self.gates.push(Gate { kind, delay, inertial, fanins });
        net
    }

    /// The number of inputs.
    #[must_use]
    pub fn inputs(&self) -> u16 {
        self.inputs
    }

    /// The gates, in the order of the nets that they drive.
    #[must_use]
    pub fn gates(&self) -> &[Gate] {
        &self.gates
    }

    /// The circuit file. A number that has no place in its two bytes stands there as 65,535, and the reader refuses such a
    /// file: it takes no circuit that is nearly so large.
    #[must_use]
    pub fn to_bytes(&self) -> Vec<u8> {
        let mut offset = 4 + 4 * self.gates.len();
        let mut file = Vec::new();
        put(&mut file, self.inputs.saturating_add(EDITION));
        put(&mut file, two_bytes(self.gates.len()));
        for gate in &self.gates {
            let length = RECORD_HEAD + 2 * gate.fanins.len();
            put(&mut file, two_bytes(offset));
            put(&mut file, two_bytes(length));
            offset += length;
        }
        for gate in &self.gates {
            file.push(gate.kind.number());
            put(&mut file, gate.delay);
            put(&mut file, gate.inertial);
            gate.fanins.iter().for_each(|&net| put(&mut file, net));
        }
        file
    }

    /// The circuit that a file holds. Whether it holds one is asked of the proved reader.
    ///
    /// # Errors
    /// The reader's first "no", 1 to 9.
    pub fn from_bytes(file: &[u8]) -> Result<Circuit, Refusal> {
        let InputsAndGates { inputs, gates } = read(file)?;
        let gates = (0..usize::from(gates)).map(|j| gate_at(file, j)).collect();
        Ok(Circuit { inputs, gates })
    }
}

/// What bytes 0 and 1 hold besides the number of inputs.
const EDITION: u16 = 256;

/// Bytes of a record before its fan-in list.
const RECORD_HEAD: usize = 5;

fn two_bytes(number: usize) -> u16 {
    u16::try_from(number).unwrap_or(u16::MAX)
}

fn put(file: &mut Vec<u8>, number: u16) {
    file.extend(number.to_le_bytes());
}

fn number_at(file: &[u8], at: usize) -> u16 {
    u16::from_le_bytes([file[at], file[at + 1]])
}

/// Gate j of a file that the reader accepted, so the record is there and its kind is a kind.
fn gate_at(file: &[u8], j: usize) -> Gate {
    let at = usize::from(number_at(file, 4 + 4 * j));
    let end = at + usize::from(number_at(file, 6 + 4 * j));
    Gate {
        kind: Kind::from_number(file[at]).expect("question 6 was answered yes"),
        delay: number_at(file, at + 1),
        inertial: number_at(file, at + 3),
        fanins: (at + RECORD_HEAD..end).step_by(2).map(|entry| number_at(file, entry)).collect(),
    }
}

/// What the reader answers for a file that it accepts.
#[derive(Clone, Copy, Debug, PartialEq, Eq, Hash)]
pub struct InputsAndGates {
    /// I, the number of inputs.
    pub inputs: u16,
    /// G, the number of gates.
    pub gates: u16,
}

impl InputsAndGates {
    /// I + G, the number of nets.
    #[must_use]
    pub fn nets(self) -> usize {
        usize::from(self.inputs) + usize::from(self.gates)
    }
}

/// Reads a circuit file, which may be any bytes.
///
/// # Errors
/// The first "no" of 1 to 9.
pub fn read(file: &[u8]) -> Result<InputsAndGates, Refusal> {
    let mut nets = [0; 2];
    accepted(sys::read(file, &mut nets))?;
    let [inputs, gates] = nets.map(|number| u16::try_from(number).expect("at most 128"));
    Ok(InputsAndGates { inputs, gates })
}
