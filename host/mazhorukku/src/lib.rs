//! Safe calls of Mazhorukku, a proved hazard simulator for digital circuits.
//!
//! A circuit of up to 32 inputs and 128 gates, each with a transport delay and an inertial delay, is simulated in 64 lanes at
//! once. Everything that is answered comes from the proved calls in the archive that `host/archives.sh` makes; this crate
//! lends them slices. It proves nothing itself, and is tested against another simulator (`tests/differential.rs`).
//!
//! - A [`Circuit`] is put together gate by gate, and becomes a circuit file. A file may also come from anywhere: any bytes can
//!   be handed in, and what is no circuit is refused.
//! - A [`Stimulus`] says when the inputs change, and to which levels.
//! - A [`Task`] is a file with a stimulus and a limit on the frames. It can be measured, planned, run and marked.
//! - A [`Run`] has the nets, and each [`Net`] its times, words, levels and counts of changes.
//! - A [`Refusal`] is the first question that was answered "no".
//! - [`newer`], [`older`] and [`other`] turn a circuit file into the other edition.
//! - [`raw`] has the calls themselves, on slices of any lengths: for who keeps areas of their own.
//!
//! ```
//! use mazhorukku::{Circuit, Kind, Refusal, Stimulus, Task};
//!
//! // f = a s + b s' with a = b = 1, while s falls at time 1: f should stay at 1
//! let mut multiplexer = Circuit::new(3);
//! let not_s = multiplexer.gate(Kind::Not, 2, 0, &[2]);
//! let a_s = multiplexer.gate(Kind::And, 3, 0, &[0, 2]);
//! let b_not_s = multiplexer.gate(Kind::And, 3, 0, &[1, not_s]);
//! let f = multiplexer.gate(Kind::Or, 2, 0, &[a_s, b_not_s]);
//!
//! let file = multiplexer.to_bytes();
//! let stimulus = Stimulus::once(&[(1, 1), (1, 1), (1, 0)]);
//! let run = Task::new(&file, &stimulus).run()?;
//! let net = run.net(f).unwrap();
//! assert_eq!(net.count(0)?, 2); // a hazard:
//! let sight = net.level(0, 7)?;
//! assert_eq!((sight.level, sight.begin, sight.end), (false, 6, Some(8)));
//! # Ok::<(), Refusal>(())
//! ```
#![deny(missing_docs)]
#![deny(unsafe_code)]
#![deny(unsafe_op_in_unsafe_fn)]

mod circuit;
mod converter;
pub mod limits;
mod marking;
mod refusal;
mod run;
mod stimulus;
#[allow(unsafe_code)]
mod sys;
mod task;

pub use circuit::{read, Circuit, Gate, InputsAndGates, Kind};
pub use converter::{newer, older, other};
pub use marking::{Expectation, Marking, Verdict};
pub use refusal::Refusal;
pub use run::{Net, Plan, Run, Sight, Totals};
pub use stimulus::Stimulus;
pub use task::Task;

/// The calls on slices of any lengths and contents.
///
/// Each answers 0 and writes its numbers into the array that is its last parameter, or answers the number of the first question
/// with a "no" and leaves that array as it was. What a call leaves in its areas is said in `host/include/mazhorukku.h`.
///
/// ```
/// use mazhorukku::raw;
///
/// let mut nets = [7, 7];
/// assert_eq!(raw::read(&[2, 1, 0, 0], &mut nets), 0);
/// assert_eq!(nets, [2, 0]); // two inputs, no gates
/// assert_eq!(raw::read(&[33, 1, 0, 0], &mut nets), 2);
/// assert_eq!(nets, [2, 0]);
/// ```
pub mod raw {
    pub use crate::sys::{
        count, level, mark, newer, older, other, plan, read, run, run_fitted, size, Parts, PlanAreas, RunAreas, Task, Words,
    };
}
