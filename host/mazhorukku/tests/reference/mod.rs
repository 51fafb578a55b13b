//! A second simulator, to judge the proved calls by. It goes by the papers and has nothing of the calls: circuits are lists of
//! gates, potential times are sets, and each lane is simulated by itself, with plain levels, by the time-by-time machine.
//!
//! `file` reads and writes circuit files, `times` works out potential times and indices, `machine` the levels, and `judge` has
//! each call: its answer, its numbers, and what it leaves in its areas. `literal` is the machine again, at every single time.

pub mod file;
pub mod judge;
pub mod literal;
pub mod machine;
pub mod times;

/// A gate, with numbers that need not make sense.
#[derive(Clone, Debug, PartialEq, Eq)]
pub struct Gate {
    pub kind: u8,
    pub delay: u32,
    pub inertial: u32,
    pub fanins: Vec<usize>,
}

#[derive(Clone, Debug, PartialEq, Eq)]
pub struct Circuit {
    pub inputs: usize,
    pub gates: Vec<Gate>,
}

impl Circuit {
    pub fn nets(&self) -> usize {
        self.inputs + self.gates.len()
    }
}

/// The number of a question that was answered "no".
pub type No = u32;

/// Goes on if the question is answered "yes".
pub fn ask(yes: bool, number: No) -> Result<(), No> {
    if yes {
        Ok(())
    } else {
        Err(number)
    }
}
