//! Hands a case to the proved calls and to the reference, and compares all that they answer and leave.

pub mod areas;
pub mod tally;

use crate::inputs::random::Random;
use crate::inputs::{lane, time_near, Case, Look};
use crate::reference::judge::{self, Judge, Lengths};
use crate::reference::literal;
use areas::{Area, Lent};
use mazhorukku::{raw, Circuit, Refusal};
use tally::Tally;

/// One case, with what both sides are handed.
pub struct Comparison<'a> {
    pub case: &'a Case,
    pub judge: Judge<'a>,
    pub random: Random,
    pub tally: &'a mut Tally,
}

/// Rubbish for the number arrays.
const NUMBERS: [u32; 3] = [0xdead_0001, 0xdead_0002, 0xdead_0003];

impl Comparison<'_> {
    pub fn all(&mut self) {
        self.hold_against_literal();
        self.read();
        self.size();
        self.plan();
        self.run();
        self.run_fitted();
        self.mark();
        self.convert();
        self.case.looks.iter().for_each(|look| self.look(look));
    }

    /// The reference's own waves, in a lane, by the rule at every time.
    fn hold_against_literal(&self) {
        let (Ok(circuit), Ok(nets)) = (self.judge.circuit(), self.judge.nets()) else { return };
        let lengths = (self.case.task.before.len(), self.case.task.after.len());
        let until = nets.iter().flatten().max().expect("0 is a time") + 2;
        if lengths != (circuit.inputs, self.case.task.changes.len()) || literal::cost(circuit, until) > 50_000 {
            return;
        }
        let lane = (until % 64) as u8;
        let levels = literal::levels(circuit, &self.judge.drives(), lane, until);
        for (wave, levels) in self.judge.waves()[usize::from(lane)].iter().zip(levels) {
            let at_every_time = (0..levels.len()).map(|time| wave.at(time as u32));
            assert!(at_every_time.eq(levels), "the reference's machine is not the papers'");
        }
    }

    fn task(&self) -> raw::Task<'_> {
        let task = &self.case.task;
        raw::Task { file: &task.file, counts: &task.counts, changes: &task.changes, limit: task.limit }
    }

    fn words(&self) -> raw::Words<'_> {
        raw::Words { before: &self.case.task.before, after: &self.case.task.after }
    }

    /// Two equal sets of areas, full of rubbish.
    fn areas(&mut self, lengths: Lengths) -> (Lent, Lent) {
        let got = Lent::new(lengths, &mut self.random);
        (got.clone(), got)
    }

    fn read(&mut self) {
        let (mut got, mut want) = ([7; 2], [7; 2]);
        let answer = raw::read(&self.case.task.file, &mut got);
        same("read", answer, self.judge.read(&mut want));
        same("read: nets", got, want);
        self.tally.count("read", answer);
        let rewritten = Circuit::from_bytes(&self.case.task.file).map(|circuit| circuit.to_bytes());
        let expected = if answer == 0 { Ok(self.case.task.file.clone()) } else { Err(answer) };
        same("from_bytes, to_bytes", rewritten.map_err(Refusal::number), expected);
    }

    fn size(&mut self) {
        let (mut got, mut want) = (NUMBERS, NUMBERS);
        let answer = raw::size(self.task(), &mut got);
        same("size", answer, self.judge.size(&mut want));
        same("size: totals", got, want);
        self.tally.count("size", answer);
    }

    fn plan(&mut self) {
        let (mut left, mut expected) = self.areas(self.case.full);
        let (mut got, mut want) = (NUMBERS, NUMBERS);
        let answer = raw::plan(self.task(), left.lend().plan, &mut got);
        let mut areas = expected.show();
        areas.values = &mut [];
        same("plan", answer, self.judge.plan(&mut areas, &mut want));
        same("plan: totals", got, want);
        left.compare("plan", &expected);
        self.tally.count("plan", answer);
    }

    fn run(&mut self) {
        let (mut left, mut expected) = self.areas(self.case.full);
        let (mut got, mut want) = (NUMBERS, NUMBERS);
        let answer = raw::run(self.task(), left.lend(), self.words(), &mut got);
        same("run", answer, self.judge.run(&mut expected.show(), &mut want));
        same("run: totals", got, want);
        left.compare("run", &expected);
        self.tally.count("run", answer);
        if answer == 0 {
            self.tally.note_totals(got);
            self.look_at_nets(&left);
        }
    }

    fn run_fitted(&mut self) {
        let (mut left, mut expected) = self.areas(self.case.fitted);
        let (mut got, mut want) = (NUMBERS, NUMBERS);
        let answer = raw::run_fitted(self.task(), left.lend(), self.words(), &mut got);
        same("run_fitted", answer, self.judge.run_fitted(&mut expected.show(), &mut want));
        same("run_fitted: totals", got, want);
        left.compare("run_fitted", &expected);
        self.tally.count("run_fitted", answer);
    }

    fn mark(&mut self) {
        let (mut left, mut expected) = self.areas(self.case.full);
        let (mut got, mut want) = ([u64::MAX; 3], [u64::MAX; 3]);
        let records = &self.case.expectations;
        let answer = raw::mark(self.task(), left.lend(), self.words(), records, &mut got);
        same("mark", answer, self.judge.mark(&mut expected.show(), records, &mut want));
        same("mark: verdict", got, want);
        left.compare("mark", &expected);
        match (answer, got[0]) {
            (0, 0) => self.tally.count_as("mark", "unmet"),
            (0, _) => self.tally.count_as("mark", "all met"),
            _ => self.tally.count("mark", answer),
        }
    }

    fn convert(&mut self) {
        let either = if self.random.percent(50) { &self.case.former } else { &self.case.task.file };
        self.convert_by("newer", raw::newer, judge::newer, &self.case.former);
        self.convert_by("older", raw::older, judge::older, &self.case.task.file);
        self.convert_by("other", raw::other, judge::other, either);
    }

    fn convert_by(&mut self, name: &'static str, call: Converter, reference: Converter, file: &[u8]) {
        let mut left = Area::new(self.case.converter_length, &mut self.random, |word| word as u8);
        let mut expected = left.clone();
        let (mut got, mut want) = ([7], [7]);
        let answer = call(file, left.lent(), &mut got);
        same(name, answer, reference(file, expected.lent(), &mut want));
        same(name, got, want);
        left.compare(name, &expected);
        self.tally.count(name, answer);
    }

    /// Level and Count on nets of an accepted run, held against the machine.
    fn look_at_nets(&mut self, left: &Lent) {
        let nets = self.judge.circuit().expect("accepted").nets();
        for _ in 0..4 {
            let net = self.random.below(nets);
            let parts = left.parts(net);
            let (lane, time) = (lane(&mut self.random), time_near(&mut self.random, parts.times));
            let (mut got, mut want) = (NUMBERS, NUMBERS);
            let answer = raw::level(parts, lane, time, &mut got);
            same("level after a run", answer, self.judge.level(net, lane, time, &mut want));
            same("level after a run: sight", got, want);
            self.tally.count("level", answer);
            let (mut got, mut want) = ([7], [7]);
            let answer = raw::count(parts, lane, &mut got);
            same("count after a run", answer, self.judge.count(net, lane, &mut want));
            same("count after a run: changes", got, want);
            self.tally.count("count", answer);
        }
    }

    /// Level and Count on parts that no run need have made.
    fn look(&mut self, look: &Look) {
        let Look { times, values, lane, time } = look;
        let parts = raw::Parts { times, values };
        let (mut got, mut want) = (NUMBERS, NUMBERS);
        let answer = raw::level(parts, *lane, *time, &mut got);
        same("level", answer, judge::level(times, values, *lane, *time, &mut want));
        same("level: sight", got, want);
        self.tally.count("level", answer);
        let (mut got, mut want) = ([7], [7]);
        let answer = raw::count(parts, *lane, &mut got);
        same("count", answer, judge::count(times, values, *lane, &mut want));
        same("count: changes", got, want);
        self.tally.count("count", answer);
    }
}

type Converter = fn(&[u8], &mut [u8], &mut [u32; 1]) -> u32;

fn same<T: PartialEq + std::fmt::Debug>(what: &str, got: T, want: T) {
    assert!(got == want, "{what}: {got:?}, expected {want:?}");
}
