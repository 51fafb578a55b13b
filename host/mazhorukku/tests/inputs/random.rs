//! Random numbers from a seed (splitmix64).

pub struct Random(u64);

impl Random {
    /// The numbers of one case, whatever other cases there are.
    pub fn of_case(seed: u64, case: u64) -> Random {
        let mut random = Random(seed);
        let start = random.word() ^ case.wrapping_mul(0xd134_2543_de82_ef95);
        Random(start)
    }

    pub fn word(&mut self) -> u64 {
        self.0 = self.0.wrapping_add(0x9e37_79b9_7f4a_7c15);
        let mut mixed = self.0;
        mixed = (mixed ^ mixed >> 30).wrapping_mul(0xbf58_476d_1ce4_e5b9);
        mixed = (mixed ^ mixed >> 27).wrapping_mul(0x94d0_49bb_1331_11eb);
        mixed ^ mixed >> 31
    }

    /// From 0 to one below the bound.
    pub fn below(&mut self, bound: usize) -> usize {
        (self.word() % bound as u64) as usize
    }

    /// From the first to the last.
    pub fn from(&mut self, first: usize, last: usize) -> usize {
        first + self.below(last - first + 1)
    }

    /// From the first to the last.
    pub fn time(&mut self, first: u32, last: u32) -> u32 {
        first + (self.word() % (u64::from(last) - u64::from(first) + 1)) as u32
    }

    /// So many times out of a hundred.
    pub fn percent(&mut self, chance: usize) -> bool {
        self.below(100) < chance
    }

    pub fn pick<T: Copy>(&mut self, choices: &[T]) -> T {
        choices[self.below(choices.len())]
    }
}
