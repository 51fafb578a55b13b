//! Each call: the number of the first question with a "no", or 0; its numbers; and what it leaves in its areas.

use std::cell::OnceCell;

use super::file::{self, Edition, FORMER, PRESENT};
use super::machine::{bit, waves, Drive, Wave};
use super::times::{changes_of, fanin_index, frame_at, inertial_index, potential_times, Times};
use super::{ask, Circuit, No};

/// What is handed to the calls that plan or run.
#[derive(Clone, Debug)]
pub struct Task {
    pub file: Vec<u8>,
    pub counts: Vec<u8>,
    pub changes: Vec<u32>,
    pub limit: u16,
    pub before: Vec<u64>,
    pub after: Vec<u64>,
}

/// The areas as they are lent; Plan is lent no values.
pub struct Areas<'a> {
    pub directory: &'a mut [u16],
    pub times: &'a mut [u32],
    pub inertial: &'a mut [u16],
    pub fanins: &'a mut [u16],
    pub values: &'a mut [u64],
}

/// The lengths of the areas: directory, times, inertial, fan-in, values.
pub type Lengths = [usize; 5];

pub const FULL: Lengths = [320, 2048, 2048, 16_384, 2048];

impl Areas<'_> {
    fn lengths(&self) -> Lengths {
        [self.directory.len(), self.times.len(), self.inertial.len(), self.fanins.len(), self.values.len()]
    }

    fn store(&mut self, contents: &Contents) {
        store(self.directory, &contents.directory);
        store(self.times, &contents.times);
        store(self.inertial, &contents.inertial);
        store(self.fanins, &contents.fanins);
    }

    fn store_values(&mut self, values: &[u64]) {
        store(self.values, values);
    }

    fn clear(&mut self) {
        self.store(&Contents::default());
        self.store_values(&[]);
    }
}

/// The contents, and zeros behind them.
fn store<T: Copy + Default>(area: &mut [T], contents: &[T]) {
    area[..contents.len()].copy_from_slice(contents);
    area[contents.len()..].fill(T::default());
}

/// What a plan leaves, without the zeros behind.
#[derive(Default)]
pub struct Contents {
    directory: Vec<u16>,
    times: Vec<u32>,
    inertial: Vec<u16>,
    fanins: Vec<u16>,
}

impl Contents {
    fn of(circuit: &Circuit, nets: &[Times]) -> Contents {
        let mut contents = Contents::default();
        for (net, times) in nets.iter().enumerate() {
            contents.directory.extend([contents.times.len() as u16, times.len() as u16]);
            contents.times.extend(times);
            match net.checked_sub(circuit.inputs) {
                None => contents.inertial.extend(times.iter().map(|_| 0)),
                Some(j) => contents.gate(&circuit.gates[j], times, nets),
            }
        }
        contents
    }

    fn gate(&mut self, gate: &super::Gate, times: &Times, nets: &[Times]) {
        for &time in times {
            self.inertial.push(inertial_index(times, time, gate.inertial));
            self.fanins.extend(gate.fanins.iter().map(|&fanin| fanin_index(&nets[fanin], time, gate.delay)));
        }
    }

    /// The frame total, the fan-in total and the last potential time.
    pub fn totals(&self) -> [u32; 3] {
        let last = self.times.iter().max().expect("a circuit has an input");
        [self.times.len() as u32, self.fanins.len() as u32, *last]
    }
}

/// What the calls must answer and leave for a task.
pub struct Judge<'a> {
    task: &'a Task,
    circuit: Result<Circuit, No>,
    changes: Result<Vec<Vec<u32>>, No>,
    /// The potential times of all nets, or 13.
    nets: Result<Vec<Times>, No>,
    contents: OnceCell<Contents>,
    /// By lane, by net.
    waves: OnceCell<Vec<Vec<Wave>>>,
    values: OnceCell<Vec<u64>>,
}

impl<'a> Judge<'a> {
    pub fn new(task: &'a Task) -> Judge<'a> {
        let circuit = file::read(PRESENT, &task.file);
        let inputs = circuit.as_ref().map_or(0, |circuit| circuit.inputs);
        let changes = changes_of(inputs, &task.counts, &task.changes);
        let nets = circuit.as_ref().map_err(|&no| no).and_then(|circuit| match &changes {
            Ok(changes) => potential_times(circuit, changes),
            Err(no) => Err(*no),
        });
        let (contents, waves, values) = (OnceCell::new(), OnceCell::new(), OnceCell::new());
        Judge { task, circuit, changes, nets, contents, waves, values }
    }

    // ---- the questions, in groups that several calls ask

    pub fn circuit(&self) -> Result<&Circuit, No> {
        self.circuit.as_ref().map_err(|&no| no)
    }

    /// 11
    fn words_suit(&self) -> Result<(), No> {
        let lengths = (self.task.before.len(), self.task.after.len());
        ask(lengths == (self.circuit()?.inputs, self.task.changes.len()), 11)
    }

    /// 20
    fn changes(&self) -> Result<&Vec<Vec<u32>>, No> {
        self.changes.as_ref().map_err(|&no| no)
    }

    /// 13
    pub fn nets(&self) -> Result<&[Times], No> {
        self.nets.as_deref().map_err(|&no| no)
    }

    /// 13 and 22
    fn frames_suit(&self) -> Result<(), No> {
        let total: usize = self.nets()?.iter().map(|times| times.len()).sum();
        let limit = usize::from(self.task.limit);
        ask((1..=2048).contains(&limit) && total <= limit, 22)
    }

    /// All that Run asks but 13 and 22.
    fn run_suits(&self, lengths: Lengths) -> Result<(), No> {
        self.circuit()?;
        ask(lengths == FULL, 10)?;
        self.words_suit()?;
        self.changes().map(|_| ())
    }

    // ---- what an accepted call leaves

    pub fn contents(&self) -> &Contents {
        let (circuit, nets) = (self.circuit().expect("accepted"), self.nets().expect("accepted"));
        self.contents.get_or_init(|| Contents::of(circuit, nets))
    }

    /// What drives the inputs, for a task that passed 11 and 20.
    pub fn drives(&self) -> Vec<Drive> {
        let mut after = self.task.after.iter().copied();
        let changes = self.changes().expect("accepted").iter();
        // The times come first in `zip`, so that it takes no word more than there are times.
        let drive = |(times, &before): (&Vec<u32>, &u64)| Drive {
            before,
            changes: times.iter().copied().zip(after.by_ref()).collect(),
        };
        changes.zip(&self.task.before).map(drive).collect()
    }

    pub fn waves(&self) -> &[Vec<Wave>] {
        self.waves.get_or_init(|| {
            let (circuit, drives) = (self.circuit().expect("accepted"), self.drives());
            (0..64).map(|lane| waves(circuit, &drives, lane)).collect()
        })
    }

    fn values(&self) -> &[u64] {
        self.values.get_or_init(|| {
            let nets = self.nets().expect("accepted");
            let frames = nets.iter().enumerate().flat_map(|(net, times)| times.iter().map(move |&time| (net, time)));
            frames.map(|(net, time)| self.word(net, time)).collect()
        })
    }

    fn word(&self, net: usize, time: u32) -> u64 {
        let levels = self.waves().iter().map(|waves| waves[net].at(time));
        levels.enumerate().map(|(lane, level)| u64::from(level) << lane).sum()
    }

    /// What Plan, Run and Mark leave; 13 and 22 clear the areas.
    fn leave(&self, asked: Result<(), No>, areas: &mut Areas, runs: bool) -> u32 {
        match asked {
            Ok(()) => {
                areas.store(self.contents());
                areas.store_values(if runs { self.values() } else { &[] });
                0
            }
            Err(no) => {
                if no == 13 || no == 22 {
                    areas.clear();
                }
                no
            }
        }
    }

    // ---- the calls

    pub fn read(&self, numbers: &mut [u32; 2]) -> u32 {
        match self.circuit() {
            Ok(circuit) => {
                *numbers = [circuit.inputs as u32, circuit.gates.len() as u32];
                0
            }
            Err(no) => no,
        }
    }

    fn size_asked(&self) -> Result<(), No> {
        self.circuit()?;
        self.changes()?;
        self.frames_suit()
    }

    pub fn size(&self, totals: &mut [u32; 3]) -> u32 {
        self.size_asked().map_or_else(|no| no, |()| self.give_totals(totals))
    }

    fn give_totals(&self, totals: &mut [u32; 3]) -> u32 {
        *totals = self.contents().totals();
        0
    }

    fn plan_asked(&self, areas: &Areas) -> Result<(), No> {
        self.circuit()?;
        ask(areas.lengths()[..4] == FULL[..4], 10)?;
        self.changes()?;
        self.frames_suit()
    }

    pub fn plan(&self, areas: &mut Areas, totals: &mut [u32; 3]) -> u32 {
        match self.leave(self.plan_asked(areas), areas, false) {
            0 => self.give_totals(totals),
            no => no,
        }
    }

    pub fn run(&self, areas: &mut Areas, totals: &mut [u32; 3]) -> u32 {
        let asked = self.run_suits(areas.lengths()).and_then(|()| self.frames_suit());
        match self.leave(asked, areas, true) {
            0 => self.give_totals(totals),
            no => no,
        }
    }

    fn fitted_asked(&self, areas: &Areas) -> Result<(), No> {
        self.circuit()?;
        self.words_suit()?;
        self.changes()?;
        self.frames_suit()?;
        ask(areas.lengths() == self.fitting(), 10)
    }

    /// The lengths that just fit.
    pub fn fitting(&self) -> Lengths {
        let Contents { directory, times, inertial, fanins } = self.contents();
        [directory.len(), times.len(), inertial.len(), fanins.len(), times.len()]
    }

    pub fn run_fitted(&self, areas: &mut Areas, totals: &mut [u32; 3]) -> u32 {
        match self.fitted_asked(areas) {
            Ok(()) => {
                self.leave(Ok(()), areas, true);
                self.give_totals(totals)
            }
            Err(no) => no,
        }
    }

    fn mark_asked(&self, areas: &Areas, bytes: &[u8]) -> Result<(), No> {
        let records = bytes.chunks_exact(12);
        ask(records.remainder().is_empty() && records.len() <= 1024, 100)?;
        self.run_suits(areas.lengths())?;
        let nets = self.circuit()?.nets();
        ask(expectations_in(bytes).all(|expectation| expectation.suits(nets)), 12)?;
        self.frames_suit()
    }

    pub fn mark(&self, areas: &mut Areas, bytes: &[u8], verdict: &mut [u64; 3]) -> u32 {
        let answer = self.leave(self.mark_asked(areas, bytes), areas, true);
        if answer == 0 {
            let unmet = expectations_in(bytes).enumerate().find_map(|(position, expectation)| {
                self.broken_by(&expectation).map(|frame| [0, position as u64, frame as u64])
            });
            *verdict = unmet.unwrap_or([1, 0, 0]);
        }
        answer
    }

    /// The frame that has the first time of the span with the other level.
    fn broken_by(&self, expectation: &Expectation) -> Option<usize> {
        let Expectation { net, lane, level, from, to } = *expectation;
        let time = self.waves()[usize::from(lane)][net].first_other(level == 1, from, to)?;
        Some(frame_at(&self.nets().expect("accepted")[net], time))
    }

    // ---- looks at a net of an accepted run

    /// What Level must see, by the machine's wave and the potential times.
    pub fn level(&self, net: usize, lane: u8, time: u32, sight: &mut [u32; 3]) -> u32 {
        let Some(waves) = self.waves().get(usize::from(lane)) else { return 16 };
        let times = &self.nets().expect("accepted")[net];
        let began = times.range(..=time).next_back().expect("0 is among them");
        let next = times.iter().find(|&&later| later > time).unwrap_or(&0);
        *sight = [u32::from(waves[net].at(time)), *began, *next];
        0
    }

    /// How often the machine's wave turns.
    pub fn count(&self, net: usize, lane: u8, changes: &mut [u32; 1]) -> u32 {
        let Some(waves) = self.waves().get(usize::from(lane)) else { return 16 };
        *changes = [waves[net].turns.len() as u32];
        0
    }
}

/// A record of the list.
struct Expectation {
    net: usize,
    lane: u8,
    level: u8,
    from: u32,
    to: u32,
}

impl Expectation {
    fn suits(&self, nets: usize) -> bool {
        self.net < nets && self.lane < 64 && self.level < 2 && self.from <= self.to
    }
}

fn expectations_in(bytes: &[u8]) -> impl Iterator<Item = Expectation> + '_ {
    let time = |bytes: &[u8]| bytes.iter().rev().fold(0, |high, &byte| 256 * high + u32::from(byte));
    bytes.chunks(12).map(move |record| Expectation {
        net: usize::from(record[0]) + 256 * usize::from(record[1]),
        lane: record[2],
        level: record[3],
        from: time(&record[4..8]),
        to: time(&record[8..]),
    })
}

// ---- parts that no run need have made

fn parts_asked(times: &[u32], values: &[u64], lane: u8) -> Result<(), No> {
    ask(times.len() == values.len() && (1..=64).contains(&times.len()), 14)?;
    ask(times[0] == 0 && times.windows(2).all(|two| two[0] < two[1]), 15)?;
    ask(lane < 64, 16)
}

pub fn level(times: &[u32], values: &[u64], lane: u8, time: u32, sight: &mut [u32; 3]) -> u32 {
    if let Err(no) = parts_asked(times, values, lane) {
        return no;
    }
    let frame = times.iter().rposition(|&began| began <= time).expect("0 is the first");
    let next = times.get(frame + 1).copied().unwrap_or(0);
    *sight = [u32::from(bit(values[frame], lane)), times[frame], next];
    0
}

pub fn count(times: &[u32], values: &[u64], lane: u8, changes: &mut [u32; 1]) -> u32 {
    if let Err(no) = parts_asked(times, values, lane) {
        return no;
    }
    let differ = values.windows(2).filter(|two| bit(two[0], lane) != bit(two[1], lane));
    *changes = [differ.count() as u32];
    0
}

// ---- the converters

pub fn newer(file: &[u8], area: &mut [u8], written: &mut [u32; 1]) -> u32 {
    converted(FORMER, PRESENT, file, area, written).map_or_else(|no| no, |()| 0)
}

pub fn older(file: &[u8], area: &mut [u8], written: &mut [u32; 1]) -> u32 {
    converted(PRESENT, FORMER, file, area, written).map_or_else(|no| no, |()| 0)
}

pub fn other(file: &[u8], area: &mut [u8], written: &mut [u32; 1]) -> u32 {
    match file.get(1) {
        Some(1..) => older(file, area, written),
        _ => newer(file, area, written),
    }
}

fn converted(from: Edition, to: Edition, file: &[u8], area: &mut [u8], written: &mut [u32; 1]) -> Result<(), No> {
    let circuit = file::read(from, file)?;
    ask(area.len() == 4096, 10)?;
    ask(circuit.gates.iter().all(|gate| gate.delay.max(gate.inertial) <= to.most_delay), 23)?;
    let file = file::write(to, &circuit);
    store(area, &file);
    *written = [file.len() as u32];
    Ok(())
}
