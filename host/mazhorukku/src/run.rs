//! What a plan and a run leave in their areas, and looks at a net.

use std::ops::Range;

use crate::limits::{DIRECTORY_LENGTH, FANINS_LENGTH, INERTIAL_LENGTH, TIMES_LENGTH, VALUES_LENGTH};
use crate::refusal::{accepted, Refusal};
use crate::sys;

/// How large a plan is.
#[derive(Clone, Copy, Debug, Default, PartialEq, Eq, Hash)]
pub struct Totals {
    /// Frames of all nets together.
    pub frames: usize,
    /// Entries of the fan-in area that are used.
    pub fanins: usize,
    /// The last potential time of all nets.
    pub last: u32,
}

impl From<[u32; 3]> for Totals {
    fn from([frames, fanins, last]: [u32; 3]) -> Totals {
        Totals { frames: frames as usize, fanins: fanins as usize, last }
    }
}

/// A plan: when each net can change. Its frames are time 0 and its potential times.
#[derive(Clone, Debug, PartialEq, Eq)]
pub struct Plan {
    directory: Vec<u16>,
    times: Vec<u32>,
    inertial: Vec<u16>,
    fanins: Vec<u16>,
    totals: Totals,
}

impl Plan {
    /// Areas that hold any circuit.
    pub(crate) fn full() -> Plan {
        Plan::sized(DIRECTORY_LENGTH, TIMES_LENGTH, INERTIAL_LENGTH, FANINS_LENGTH)
    }

    /// Areas that just fit a circuit of so many nets and these totals.
    pub(crate) fn fitted(nets: usize, totals: Totals) -> Plan {
        Plan::sized(2 * nets, totals.frames, totals.frames, totals.fanins)
    }

    fn sized(directory: usize, times: usize, inertial: usize, fanins: usize) -> Plan {
        Plan {
            directory: vec![0; directory],
            times: vec![0; times],
            inertial: vec![0; inertial],
            fanins: vec![0; fanins],
            totals: Totals::default(),
        }
    }

    pub(crate) fn areas(&mut self) -> sys::PlanAreas<'_> {
        sys::PlanAreas {
            directory: &mut self.directory,
            times: &mut self.times,
            inertial: &mut self.inertial,
            fanins: &mut self.fanins,
        }
    }

    pub(crate) fn with(self, totals: Totals) -> Plan {
        Plan { totals, ..self }
    }

    /// How large it is.
    #[must_use]
    pub fn totals(&self) -> Totals {
        self.totals
    }

    /// The directory: for each net the place of its first frame, and the number of its frames.
    #[must_use]
    pub fn directory(&self) -> &[u16] {
        &self.directory
    }

    /// The times of all frames, net by net.
    #[must_use]
    pub fn times(&self) -> &[u32] {
        &self.times
    }

    /// The inertial indices of all frames: how many later frames of the net begin no more than the inertial delay after it.
    #[must_use]
    pub fn inertial(&self) -> &[u16] {
        &self.inertial
    }

    /// The fan-in indices: by gate, by frame, by fan-in, the frame of the fan-in that decides.
    #[must_use]
    pub fn fanins(&self) -> &[u16] {
        &self.fanins
    }

    /// The times of a net's frames; nothing if the circuit has no such net.
    #[must_use]
    pub fn times_of(&self, net: u16) -> Option<&[u32]> {
        self.frames_of(net).map(|frames| &self.times[frames])
    }

    /// Where a net's frames lie in the areas. Every net has a frame, so a pair without one is behind the last net.
    fn frames_of(&self, net: u16) -> Option<Range<usize>> {
        let at = 2 * usize::from(net);
        let first = usize::from(*self.directory.get(at)?);
        let count = usize::from(*self.directory.get(at + 1)?);
        (count > 0).then_some(first..first + count)
    }
}

/// A run: a plan, and the levels of all nets in 64 lanes.
#[derive(Clone, Debug, PartialEq, Eq)]
pub struct Run {
    plan: Plan,
    values: Vec<u64>,
}

impl Run {
    /// Areas that hold any circuit.
    pub(crate) fn full() -> Run {
        Run { plan: Plan::full(), values: vec![0; VALUES_LENGTH] }
    }

    /// Areas that just fit a circuit of so many nets and these totals.
    pub(crate) fn fitted(nets: usize, totals: Totals) -> Run {
        Run { plan: Plan::fitted(nets, totals), values: vec![0; totals.frames] }
    }

    pub(crate) fn areas(&mut self) -> sys::RunAreas<'_> {
        sys::RunAreas { plan: self.plan.areas(), values: &mut self.values }
    }

    pub(crate) fn with(self, totals: Totals) -> Run {
        Run { plan: self.plan.with(totals), ..self }
    }

    /// When each net can change.
    #[must_use]
    pub fn plan(&self) -> &Plan {
        &self.plan
    }

    /// How large it is.
    #[must_use]
    pub fn totals(&self) -> Totals {
        self.plan.totals
    }

    /// The words of all frames, net by net.
    #[must_use]
    pub fn values(&self) -> &[u64] {
        &self.values
    }

    /// A net; nothing if the circuit has no such net.
    #[must_use]
    pub fn net(&self, net: u16) -> Option<Net<'_>> {
        let frames = self.plan.frames_of(net)?;
        Some(Net { times: &self.plan.times[frames.clone()], values: &self.values[frames] })
    }
}

/// A net as a run left it.
#[derive(Clone, Copy, Debug, PartialEq, Eq)]
pub struct Net<'a> {
    times: &'a [u32],
    values: &'a [u64],
}

/// What is seen of a net in a lane at a time.
#[derive(Clone, Copy, Debug, PartialEq, Eq, Hash)]
pub struct Sight {
    /// The level.
    pub level: bool,
    /// When its frame began.
    pub begin: u32,
    /// When the next frame begins, at which the level may stay; the last frame has no end.
    pub end: Option<u32>,
}

impl<'a> Net<'a> {
    /// The times of its frames: 0, and every time at which the delays allow it to change.
    #[must_use]
    pub fn times(self) -> &'a [u32] {
        self.times
    }

    /// The words of its frames: bit L is the level in lane L from the frame's time on.
    #[must_use]
    pub fn values(self) -> &'a [u64] {
        self.values
    }

    /// The level in a lane at any time, and the frame that it is in.
    ///
    /// # Errors
    /// [`Refusal::Lane`], if the lane is 64 or more.
    pub fn level(self, lane: u8, time: u32) -> Result<Sight, Refusal> {
        let mut sight = [0; 3];
        accepted(sys::level(self.parts(), lane, time, &mut sight))?;
        let [level, begin, end] = sight;
        Ok(Sight { level: level == 1, begin, end: (end != 0).then_some(end) })
    }

    /// How often it changes in a lane.
    ///
    /// # Errors
    /// [`Refusal::Lane`], if the lane is 64 or more.
    pub fn count(self, lane: u8) -> Result<u32, Refusal> {
        let mut changes = [0];
        accepted(sys::count(self.parts(), lane, &mut changes))?;
        Ok(changes[0])
    }

    fn parts(self) -> sys::Parts<'a> {
        sys::Parts { times: self.times, values: self.values }
    }
}
