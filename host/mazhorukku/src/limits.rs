//! The papers' numbers.

/// Inputs of a circuit, at most.
pub const MOST_INPUTS: usize = 32;
/// Gates of a circuit, at most.
pub const MOST_GATES: usize = 128;
/// Nets of a circuit, at most: inputs and gates.
pub const MOST_NETS: usize = MOST_INPUTS + MOST_GATES;
/// Entries of a gate's fan-in list, at most.
pub const MOST_FANINS: usize = 8;
/// The greatest transport delay and the greatest inertial delay.
pub const MOST_DELAY: u16 = 60_000;
/// The same in a file of the former edition.
pub const FORMER_DELAY: u16 = 63;
/// Bytes of the longest circuit file that is accepted.
pub const MOST_FILE: usize = 3204;

/// Lanes of a word.
pub const LANES: u8 = 64;
/// Changes of an input, at most.
pub const MOST_CHANGES: usize = 8;
/// The last time at which an input may change; the first is 1.
pub const LAST_CHANGE: u32 = 255;
/// Frames of a net, at most.
pub const MOST_FRAMES: usize = 64;
/// Frames of all nets together, at most, and the greatest limit: that of the full course.
pub const MOST_LIMIT: u16 = 2048;

/// Length of the directory, of the areas that hold any circuit.
pub const DIRECTORY_LENGTH: usize = 2 * MOST_NETS;
/// Length of the times.
pub const TIMES_LENGTH: usize = 2048;
/// Length of the inertial indices.
pub const INERTIAL_LENGTH: usize = 2048;
/// Length of the fan-in indices.
pub const FANINS_LENGTH: usize = 16_384;
/// Length of the values.
pub const VALUES_LENGTH: usize = 2048;
/// Bytes of a converter's area.
pub const CONVERTER_LENGTH: usize = 4096;

/// Bytes of an expectation's record.
pub const RECORD_LENGTH: usize = 12;
/// Expectations in a list, at most.
pub const MOST_RECORDS: usize = 1024;
