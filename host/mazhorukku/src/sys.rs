//! The C functions of the archive, and over them the same calls on slices. All `unsafe` of the crate is in this file.
//!
//! What a C function asks of its caller (`host/include/mazhorukku.h`, rules 1 to 4) Rust's references give: none is null, each
//! is aligned, a slice has as many elements as its length says, and nothing else refers to what a `&mut` refers to. So every
//! call below is safe, whatever the lengths and the contents are.

/// What is handed to every call that plans: a circuit file, when its inputs change, and how many frames it may have.
#[derive(Clone, Copy, Debug)]
pub struct Task<'a> {
    /// The circuit file.
    pub file: &'a [u8],
    /// For each input how often it changes.
    pub counts: &'a [u8],
    /// The change times, those of input 0 first.
    pub changes: &'a [u32],
    /// How many frames all nets together may have.
    pub limit: u16,
}

/// The words of the inputs: bit L of a word is the level in lane L.
#[derive(Clone, Copy, Debug)]
pub struct Words<'a> {
    /// For each input the levels until its first change.
    pub before: &'a [u64],
    /// For each change, in the order of the change times, the levels from then on.
    pub after: &'a [u64],
}

/// The areas that a plan is written into.
#[derive(Debug)]
pub struct PlanAreas<'a> {
    /// For each net the place of its first frame, and the number of its frames.
    pub directory: &'a mut [u16],
    /// For each frame its time.
    pub times: &'a mut [u32],
    /// For each frame its inertial index.
    pub inertial: &'a mut [u16],
    /// By gate, by frame, by fan-in: the frame of the fan-in that decides.
    pub fanins: &'a mut [u16],
}

/// The areas that a run is written into.
#[derive(Debug)]
pub struct RunAreas<'a> {
    /// Those of the plan.
    pub plan: PlanAreas<'a>,
    /// For each frame the net's levels in the 64 lanes.
    pub values: &'a mut [u64],
}

/// One net's part of the times, and its part of the values.
#[derive(Clone, Copy, Debug)]
pub struct Parts<'a> {
    /// The times of the net's frames.
    pub times: &'a [u32],
    /// The words of the net's frames.
    pub values: &'a [u64],
}

/// The functions as `host/include/mazhorukku.h` declares them.
mod c {
    extern "C" {
        pub fn mazh_read(file: *const u8, file_length: u64, nets: *mut [u32; 2]) -> u32;
        pub fn mazh_plan(
            file: *const u8,
            file_length: u64,
            counts: *const u8,
            counts_length: u64,
            changes: *const u32,
            changes_length: u64,
            limit: u16,
            directory: *mut u16,
            directory_length: u64,
            times: *mut u32,
            times_length: u64,
            inertial: *mut u16,
            inertial_length: u64,
            fanins: *mut u16,
            fanins_length: u64,
            totals: *mut [u32; 3],
        ) -> u32;
        pub fn mazh_run(
            file: *const u8,
            file_length: u64,
            counts: *const u8,
            counts_length: u64,
            changes: *const u32,
            changes_length: u64,
            limit: u16,
            directory: *mut u16,
            directory_length: u64,
            times: *mut u32,
            times_length: u64,
            inertial: *mut u16,
            inertial_length: u64,
            fanins: *mut u16,
            fanins_length: u64,
            values: *mut u64,
            values_length: u64,
            before: *const u64,
            before_length: u64,
            after: *const u64,
            after_length: u64,
            totals: *mut [u32; 3],
        ) -> u32;
        pub fn mazh_run_fitted(
            file: *const u8,
            file_length: u64,
            counts: *const u8,
            counts_length: u64,
            changes: *const u32,
            changes_length: u64,
            limit: u16,
            directory: *mut u16,
            directory_length: u64,
            times: *mut u32,
            times_length: u64,
            inertial: *mut u16,
            inertial_length: u64,
            fanins: *mut u16,
            fanins_length: u64,
            values: *mut u64,
            values_length: u64,
            before: *const u64,
            before_length: u64,
            after: *const u64,
            after_length: u64,
            totals: *mut [u32; 3],
        ) -> u32;
        pub fn mazh_size(
            file: *const u8,
            file_length: u64,
            counts: *const u8,
            counts_length: u64,
            changes: *const u32,
            changes_length: u64,
            limit: u16,
            totals: *mut [u32; 3],
        ) -> u32;
        pub fn mazh_level(
            times: *const u32,
            times_length: u64,
            values: *const u64,
            values_length: u64,
            lane: u8,
            time: u32,
            sight: *mut [u32; 3],
        ) -> u32;
        pub fn mazh_count(
            times: *const u32,
            times_length: u64,
            values: *const u64,
            values_length: u64,
            lane: u8,
            changes: *mut [u32; 1],
        ) -> u32;
        pub fn mazh_mark(
            file: *const u8,
            file_length: u64,
            counts: *const u8,
            counts_length: u64,
            changes: *const u32,
            changes_length: u64,
            limit: u16,
            directory: *mut u16,
            directory_length: u64,
            times: *mut u32,
            times_length: u64,
            inertial: *mut u16,
            inertial_length: u64,
            fanins: *mut u16,
            fanins_length: u64,
            values: *mut u64,
            values_length: u64,
            before: *const u64,
            before_length: u64,
            after: *const u64,
            after_length: u64,
            expectations: *const u8,
            expectations_length: u64,
            verdict: *mut [u64; 3],
        ) -> u32;
        pub fn mazh_newer(file: *const u8, file_length: u64, area: *mut u8, area_length: u64, length: *mut [u32; 1]) -> u32;
        pub fn mazh_older(file: *const u8, file_length: u64, area: *mut u8, area_length: u64, length: *mut [u32; 1]) -> u32;
        pub fn mazh_other(file: *const u8, file_length: u64, area: *mut u8, area_length: u64, length: *mut [u32; 1]) -> u32;
    }
}

fn length<T>(slice: &[T]) -> u64 {
    slice.len() as u64
}

/// Calls one of the functions that run: `$rest` is what it alone takes, behind the words.
macro_rules! call_that_runs {
    ($call:ident, $task:ident, $areas:ident, $words:ident, $($rest:expr),+) => {
        // SAFETY: every pointer and its length are those of one slice, and what is written is lent by `&mut`.
        unsafe {
            c::$call(
                $task.file.as_ptr(),
                length($task.file),
                $task.counts.as_ptr(),
                length($task.counts),
                $task.changes.as_ptr(),
                length($task.changes),
                $task.limit,
                $areas.plan.directory.as_mut_ptr(),
                length($areas.plan.directory),
                $areas.plan.times.as_mut_ptr(),
                length($areas.plan.times),
                $areas.plan.inertial.as_mut_ptr(),
                length($areas.plan.inertial),
                $areas.plan.fanins.as_mut_ptr(),
                length($areas.plan.fanins),
                $areas.values.as_mut_ptr(),
                length($areas.values),
                $words.before.as_ptr(),
                length($words.before),
                $words.after.as_ptr(),
                length($words.after),
                $($rest),+
            )
        }
    };
}

/// `mazh_read`: asks 1 to 9; the numbers are I and G.
#[must_use]
pub fn read(file: &[u8], nets: &mut [u32; 2]) -> u32 {
    // SAFETY: the pointer and its length are those of one slice, and what is written is lent by `&mut`.
    unsafe { c::mazh_read(file.as_ptr(), length(file), nets) }
}

/// `mazh_plan`: asks 1 to 9, 10, 20, 13, 22; the numbers are the frame total, the fan-in total and the last time.
#[must_use]
pub fn plan(task: Task<'_>, areas: PlanAreas<'_>, totals: &mut [u32; 3]) -> u32 {
    // SAFETY: every pointer and its length are those of one slice, and what is written is lent by `&mut`.
    unsafe {
        c::mazh_plan(
            task.file.as_ptr(),
            length(task.file),
            task.counts.as_ptr(),
            length(task.counts),
            task.changes.as_ptr(),
            length(task.changes),
            task.limit,
            areas.directory.as_mut_ptr(),
            length(areas.directory),
            areas.times.as_mut_ptr(),
            length(areas.times),
            areas.inertial.as_mut_ptr(),
            length(areas.inertial),
            areas.fanins.as_mut_ptr(),
            length(areas.fanins),
            totals,
        )
    }
}

/// `mazh_run`: asks 1 to 9, 10, 11, 20, 13, 22; the numbers are those of [`plan`].
#[must_use]
pub fn run(task: Task<'_>, areas: RunAreas<'_>, words: Words<'_>, totals: &mut [u32; 3]) -> u32 {
    call_that_runs!(mazh_run, task, areas, words, totals)
}

/// `mazh_run_fitted`: asks 1 to 9, 11, 20, 13, 22, 10; the numbers are those of [`plan`].
#[must_use]
pub fn run_fitted(task: Task<'_>, areas: RunAreas<'_>, words: Words<'_>, totals: &mut [u32; 3]) -> u32 {
    call_that_runs!(mazh_run_fitted, task, areas, words, totals)
}

/// `mazh_mark`: asks 100, 1 to 9, 10, 11, 20, 12, 13, 22; the numbers are 1, 0, 0 where all are met, else 0, the position of
/// the first expectation that is not, and the first frame that breaks it. The expectations are records of 12 bytes
/// ([`Expectation::to_bytes`](crate::Expectation::to_bytes)).
#[must_use]
pub fn mark(task: Task<'_>, areas: RunAreas<'_>, words: Words<'_>, expectations: &[u8], verdict: &mut [u64; 3]) -> u32 {
    call_that_runs!(mazh_mark, task, areas, words, expectations.as_ptr(), length(expectations), verdict)
}

/// `mazh_size`: asks 1 to 9, 20, 13, 22; the numbers are those of [`plan`].
#[must_use]
pub fn size(task: Task<'_>, totals: &mut [u32; 3]) -> u32 {
    // SAFETY: every pointer and its length are those of one slice, and what is written is lent by `&mut`.
    unsafe {
        c::mazh_size(
            task.file.as_ptr(),
            length(task.file),
            task.counts.as_ptr(),
            length(task.counts),
            task.changes.as_ptr(),
            length(task.changes),
            task.limit,
            totals,
        )
    }
}

/// `mazh_level`: asks 14, 15, 16; the numbers are the level, the begin of its frame and its end, 0 where it has none.
#[must_use]
pub fn level(parts: Parts<'_>, lane: u8, time: u32, sight: &mut [u32; 3]) -> u32 {
    let Parts { times, values } = parts;
    // SAFETY: every pointer and its length are those of one slice, and what is written is lent by `&mut`.
    unsafe { c::mazh_level(times.as_ptr(), length(times), values.as_ptr(), length(values), lane, time, sight) }
}

/// `mazh_count`: asks 14, 15, 16; the number is how often the level changes.
#[must_use]
pub fn count(parts: Parts<'_>, lane: u8, changes: &mut [u32; 1]) -> u32 {
    let Parts { times, values } = parts;
    // SAFETY: every pointer and its length are those of one slice, and what is written is lent by `&mut`.
    unsafe { c::mazh_count(times.as_ptr(), length(times), values.as_ptr(), length(values), lane, changes) }
}

/// `mazh_newer`: asks 1 to 9 of the former edition, 10; the number is the length of the file written.
#[must_use]
pub fn newer(file: &[u8], area: &mut [u8], written: &mut [u32; 1]) -> u32 {
    // SAFETY: every pointer and its length are those of one slice, and what is written is lent by `&mut`.
    unsafe { c::mazh_newer(file.as_ptr(), length(file), area.as_mut_ptr(), length(area), written) }
}

/// `mazh_older`: asks 1 to 9, 10, 23; the number is the length of the file written.
#[must_use]
pub fn older(file: &[u8], area: &mut [u8], written: &mut [u32; 1]) -> u32 {
    // SAFETY: as in `newer`.
    unsafe { c::mazh_older(file.as_ptr(), length(file), area.as_mut_ptr(), length(area), written) }
}

/// `mazh_other`: [`older`] where bytes 0 and 1 hold 256 or more, else [`newer`].
#[must_use]
pub fn other(file: &[u8], area: &mut [u8], written: &mut [u32; 1]) -> u32 {
    // SAFETY: as in `newer`.
    unsafe { c::mazh_other(file.as_ptr(), length(file), area.as_mut_ptr(), length(area), written) }
}
