//! Areas full of rubbish. Half of them have more rubbish before and behind what is lent, so that a write beside it is seen; the
//! others have nothing, so that valgrind sees every access beside it.

use crate::inputs::random::Random;
use crate::reference::judge::{Areas, Lengths};
use mazhorukku::raw;

#[derive(Clone)]
pub struct Area<T> {
    cells: Vec<T>,
    /// Elements before and behind.
    margin: usize,
}

impl<T: Copy + PartialEq + std::fmt::Debug> Area<T> {
    pub fn new(length: usize, random: &mut Random, cut: fn(u64) -> T) -> Area<T> {
        let (margin, start) = (random.pick(&[0, 4]), random.word());
        let cell = |k: usize| cut((start ^ k as u64).wrapping_mul(0x9e37_79b9_7f4a_7c15) >> 7);
        Area { cells: (0..length + 2 * margin).map(cell).collect(), margin }
    }

    pub fn lent(&mut self) -> &mut [T] {
        let end = self.cells.len() - self.margin;
        &mut self.cells[self.margin..end]
    }

    fn contents(&self) -> &[T] {
        &self.cells[self.margin..self.cells.len() - self.margin]
    }

    /// The whole, with the margins.
    pub fn compare(&self, what: &str, expected: &Area<T>) {
        if self.cells == expected.cells {
            return;
        }
        let differs = self.cells.iter().zip(&expected.cells).position(|(got, want)| got != want);
        let place = differs.expect("equally long");
        let (got, want, margin) = (self.cells[place], expected.cells[place], self.margin);
        let length = self.contents().len();
        panic!("{what}: place {place} - {margin} of {length}: {got:?}, expected {want:?}");
    }
}

/// The five areas.
#[derive(Clone)]
pub struct Lent {
    directory: Area<u16>,
    times: Area<u32>,
    inertial: Area<u16>,
    fanins: Area<u16>,
    values: Area<u64>,
}

impl Lent {
    pub fn new([directory, times, inertial, fanins, values]: Lengths, random: &mut Random) -> Lent {
        Lent {
            directory: Area::new(directory, random, |word| word as u16),
            times: Area::new(times, random, |word| word as u32),
            inertial: Area::new(inertial, random, |word| word as u16),
            fanins: Area::new(fanins, random, |word| word as u16),
            values: Area::new(values, random, |word| word),
        }
    }

    /// For the proved calls.
    pub fn lend(&mut self) -> raw::RunAreas<'_> {
        let plan = raw::PlanAreas {
            directory: self.directory.lent(),
            times: self.times.lent(),
            inertial: self.inertial.lent(),
            fanins: self.fanins.lent(),
        };
        raw::RunAreas { plan, values: self.values.lent() }
    }

    /// For the reference.
    pub fn show(&mut self) -> Areas<'_> {
        Areas {
            directory: self.directory.lent(),
            times: self.times.lent(),
            inertial: self.inertial.lent(),
            fanins: self.fanins.lent(),
            values: self.values.lent(),
        }
    }

    pub fn compare(&self, call: &str, expected: &Lent) {
        self.directory.compare(&format!("{call}: directory"), &expected.directory);
        self.times.compare(&format!("{call}: times"), &expected.times);
        self.inertial.compare(&format!("{call}: inertial"), &expected.inertial);
        self.fanins.compare(&format!("{call}: fanins"), &expected.fanins);
        self.values.compare(&format!("{call}: values"), &expected.values);
    }

    /// A net's parts, by its pair in the directory.
    pub fn parts(&self, net: usize) -> raw::Parts<'_> {
        let pair = &self.directory.contents()[2 * net..][..2];
        let frames = usize::from(pair[0])..usize::from(pair[0]) + usize::from(pair[1]);
        raw::Parts { times: &self.times.contents()[frames.clone()], values: &self.values.contents()[frames] }
    }
}
