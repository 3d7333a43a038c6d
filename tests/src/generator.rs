//! Random numbers by splitmix64, the same in every run.

pub struct Generator {
    state: u64,
}

impl Generator {
    pub fn new(seed: u64) -> Generator {
        Generator { state: seed }
    }

    fn next(&mut self) -> u64 {
        self.state = self.state.wrapping_add(0x9e37_79b9_7f4a_7c15);
        let mut mixed = self.state;
        mixed = (mixed ^ (mixed >> 30)).wrapping_mul(0xbf58_476d_1ce4_e5b9);
        mixed = (mixed ^ (mixed >> 27)).wrapping_mul(0x94d0_49bb_1331_11eb);
        mixed ^ (mixed >> 31)
    }

    /// A number from 0 to `end` - 1.
    pub fn below(&mut self, end: u64) -> u64 {
        self.next() % end
    }

    /// A number from `low` to `high`, each equally likely.
    pub fn within(&mut self, low: u64, high: u64) -> u64 {
        low + self.below(high - low + 1)
    }

    /// A number from 1 to `high`, each size in binary digits equally likely.
    pub fn of_any_size(&mut self, high: u64) -> u64 {
        let digits = self.within(1, u64::from(high.ilog2()) + 1);
        let low = 1 << (digits - 1);
        self.within(low, high.min(2 * low - 1))
    }

    /// A number from 1 to `high`: of any size, anywhere, or among the highest.
    pub fn up_to(&mut self, high: u64) -> u64 {
        match self.below(3) {
            0 => self.of_any_size(high),
            1 => self.within(1, high),
            _ => high - self.below(high.min(3)),
        }
    }
}
