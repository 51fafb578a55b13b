//! The calls on a circuit file.

use crate::circuit::read;
use crate::limits::MOST_LIMIT;
use crate::marking::{Expectation, Marking};
use crate::refusal::{accepted, Refusal};
use crate::run::{Plan, Run, Totals};
use crate::stimulus::Stimulus;
use crate::sys;

/// A circuit file, which may be any bytes, with what drives its inputs and how many frames all its nets together may have.
///
/// ```
/// use mazhorukku::{Circuit, Expectation, Kind, Refusal, Stimulus, Task, Verdict};
///
/// let mut circuit = Circuit::new(1);
/// let not_a = circuit.gate(Kind::Not, 2, 0, &[0]);
/// let pulse = circuit.gate(Kind::And, 1, 1, &[0, not_a]);
/// let file = circuit.to_bytes();
///
/// // in lane 0 the input rises at time 1, in the other lanes it stays at 0
/// let stimulus = Stimulus::once(&[(0, 1)]);
/// let task = Task::new(&file, &stimulus);
///
/// let run = task.run()?;
/// let net = run.net(pulse).unwrap();
/// assert_eq!(net.times(), [0, 2, 4]);
/// assert_eq!(net.values(), [0, 1, 0]);
/// assert_eq!(net.count(0)?, 2);
/// assert!(net.level(0, 3)?.level);
///
/// let high = Expectation { net: pulse, lane: 0, level: true, from: 2, to: 4 };
/// assert_eq!(task.mark(&[high])?.verdict, Verdict::Unmet { position: 0, frame: 2 });
///
/// // seven frames are too many for a caller who may use six
/// assert_eq!(task.size()?.frames, 7);
/// assert_eq!(task.with_limit(6).run(), Err(Refusal::OverLimit));
/// # Ok::<(), Refusal>(())
/// ```
#[derive(Clone, Copy, Debug)]
pub struct Task<'a> {
    file: &'a [u8],
    stimulus: &'a Stimulus,
    limit: u16,
}

impl<'a> Task<'a> {
    /// With the limit of the full course, 2,048 frames.
    #[must_use]
    pub fn new(file: &'a [u8], stimulus: &'a Stimulus) -> Task<'a> {
        Task { file, stimulus, limit: MOST_LIMIT }
    }

    /// The same with another limit, which the calls ask about (22).
    #[must_use]
    pub fn with_limit(self, limit: u16) -> Task<'a> {
        Task { limit, ..self }
    }

    /// How large the plan is, without making it.
    ///
    /// # Errors
    /// The first "no" of 1 to 9, 20, 13, 22.
    pub fn size(&self) -> Result<Totals, Refusal> {
        let mut totals = [0; 3];
        accepted(sys::size(self.lent(), &mut totals))?;
        Ok(totals.into())
    }

    /// The plan: when each net can change.
    ///
    /// # Errors
    /// The first "no" of 1 to 9, 20, 13, 22.
    pub fn plan(&self) -> Result<Plan, Refusal> {
        let mut plan = Plan::full();
        let mut totals = [0; 3];
        accepted(sys::plan(self.lent(), plan.areas(), &mut totals))?;
        Ok(plan.with(totals.into()))
    }

    /// The run, in areas of 62 kilobytes, which hold any circuit.
    ///
    /// # Errors
    /// The first "no" of 1 to 9, 11, 20, 13, 22.
    pub fn run(&self) -> Result<Run, Refusal> {
        let mut run = Run::full();
        let mut totals = [0; 3];
        accepted(sys::run(self.lent(), run.areas(), self.stimulus.words(), &mut totals))?;
        Ok(run.with(totals.into()))
    }

    /// The run, in areas that just fit: for a program that keeps many of them.
    ///
    /// # Errors
    /// The first "no" of 1 to 9, 11, 20, 13, 22.
    pub fn run_fitted(&self) -> Result<Run, Refusal> {
        let nets = read(self.file)?.nets();
        // Where Size refuses, so does the run, by its own order of questions, before it looks at the areas.
        let mut run = Run::fitted(nets, self.size().unwrap_or_default());
        let mut totals = [0; 3];
        accepted(sys::run_fitted(self.lent(), run.areas(), self.stimulus.words(), &mut totals))?;
        Ok(run.with(totals.into()))
    }

    /// The run held against a list of at most 1,024 expectations.
    ///
    /// # Errors
    /// The first "no" of 100, 1 to 9, 11, 20, 12, 13, 22.
    pub fn mark(&self, expectations: &[Expectation]) -> Result<Marking, Refusal> {
        let records: Vec<u8> = expectations.iter().flat_map(|expectation| expectation.to_bytes()).collect();
        let mut run = Run::full();
        let mut verdict = [0; 3];
        accepted(sys::mark(self.lent(), run.areas(), self.stimulus.words(), &records, &mut verdict))?;
        let totals = self.size()?; // Mark answers the verdict alone.
        Ok(Marking { verdict: verdict.into(), run: run.with(totals) })
    }

    fn lent(&self) -> sys::Task<'a> {
        sys::Task { file: self.file, counts: self.stimulus.counts(), changes: self.stimulus.changes(), limit: self.limit }
    }
}
